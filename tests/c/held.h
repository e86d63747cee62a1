/* Included before examples/c/check.c: prints at its end how many blocks of memory it still holds. */
#include <stdio.h>
#include <stdlib.h>
static long held;
static void *counted_realloc(void *old, size_t size)
{
    void *bytes = realloc(old, size);
    held += old == NULL && bytes != NULL;
    return bytes;
}
static void counted_free(void *bytes)
{
    held -= bytes != NULL;
    free(bytes);
}
__attribute__((destructor)) static void show_held(void) { fprintf(stderr, "%ld held\n", held); }
#define malloc(size) counted_realloc(NULL, size)
#define realloc counted_realloc
#define free counted_free
