// Loaded before a program (LD_PRELOAD): prints on standard error, when it ends, the most memory in kilobytes that it held at once.
#include <stdio.h>
#include <string.h>

__attribute__((destructor)) static void tell(void) {
    FILE *status = fopen("/proc/self/status", "r");
    char line[256];
    if (status == NULL) return;
    while (fgets(line, sizeof line, status) != NULL) {
        long kilobytes;
        if (sscanf(line, "VmHWM: %ld", &kilobytes) == 1) fprintf(stderr, "\npeak %ld\n", kilobytes);
    }
    fclose(status);
}
