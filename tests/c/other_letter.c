// Runs the program PROGRAM with the same words and ends with its status, but letters of what it prints are others: in each line the
// last letter or digit is the next one, in a page or picture the last digit of each price. So it is in a file of --out, and in each
// file of such a folder. With a variable ONLY nothing is changed but what runs with that word print.
#define _GNU_SOURCE
#include <ctype.h>
#include <dirent.h>
#include <fcntl.h>
#include <stdlib.h>
#include <string.h>
#include <sys/mman.h>
#include <sys/stat.h>
#include <sys/wait.h>
#include <unistd.h>

static int is_letter(char c) { return c >= 0 && isalnum((unsigned char)c); }

static void change_letter(char *at) { *at = *at == '9' ? '0' : *at == 'z' ? 'a' : *at == 'Z' ? 'A' : (char)(*at + 1); }

static void change_lines(char *text, size_t length) {
    char *last = NULL;
    for (char *at = text; at < text + length; at++) {
        if (is_letter(*at)) last = at;
        if (last != NULL && (*at == '\n' || at + 1 == text + length)) {
            change_letter(last);
            last = NULL;
        }
    }
}

static void change_prices(char *text, size_t length) {
    for (char *at = text; at + 4 < text + length; at++)
        if (isdigit((unsigned char)*at) && (memcmp(at + 1, "p</", 3) == 0 || memcmp(at + 1, "p\n", 2) == 0)) change_letter(at);
}

// A file that isn't empty; what is no such file stays as it is.
static void change_file(int file) {
    struct stat is;
    if (file < 0 || fstat(file, &is) || !S_ISREG(is.st_mode) || is.st_size == 0) return;
    size_t length = (size_t)is.st_size;
    char *text = mmap(NULL, length, PROT_READ | PROT_WRITE, MAP_SHARED, file, 0);
    if (text == MAP_FAILED) _exit(125);
    (*text == '<' ? change_prices : change_lines)(text, length);
    munmap(text, length);
}

static void change_path(int folder, const char *path) {
    int file = openat(folder, path, O_RDWR | O_CLOEXEC);
    change_file(file);
    close(file);
}

// A file, or each file of a folder.
static void change_out(const char *path) {
    int folder = open(path, O_RDONLY | O_DIRECTORY | O_CLOEXEC);
    DIR *files = folder < 0 ? NULL : fdopendir(folder);
    if (files == NULL) return change_path(AT_FDCWD, path);
    for (struct dirent *file; (file = readdir(files)) != NULL;) change_path(folder, file->d_name);
    closedir(files);
}

static int is_asked(char **words) {
    const char *only = getenv("ONLY");
    while (only != NULL && *words != NULL && strcmp(*words, only)) words++;
    return only == NULL || *words != NULL;
}

static void change_all(int printed, char **words) {
    change_file(printed);
    for (; *words != NULL; words++) {
        if ((strcmp(*words, "--out") == 0 || strcmp(*words, "-o") == 0) && words[1] != NULL) change_out(words[1]);
        if (strncmp(*words, "--out=", 6) == 0) change_out(*words + 6);
    }
}

int main(int count, char **words) {
    (void)count;
    char piece[1 << 16];
    int status, printed = memfd_create("printed", MFD_CLOEXEC);
    pid_t child = fork();
    if (child == 0) {
        dup2(printed, 1);
        execv(PROGRAM, words);
        _exit(127);
    }
    if (printed < 0 || child < 0 || waitpid(child, &status, 0) != child || !WIFEXITED(status)) _exit(126);
    if (is_asked(words)) change_all(printed, words + 1);
    lseek(printed, 0, SEEK_SET);
    for (ssize_t length; (length = read(printed, piece, sizeof piece)) > 0;)
        if (write(1, piece, (size_t)length) < length) break;
    // No destructor of a preloaded library runs here: it has reported in the child.
    _exit(WEXITSTATUS(status));
}
