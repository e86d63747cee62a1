/* check BASE CERT CEILING KEYINGS [GROUPS]: prints the line of `pageaudit check` and ends with its status. For C99 and C++.

   cc -o check check.c $(pkg-config --cflags --libs pageaudit) */
#include <pageaudit.h>
#include <stdio.h>
#include <stdlib.h>

/* Reads a file whole, into memory that the caller frees. If that fails, prints why and answers another status than
   PAGEAUDIT_CLEAR; the text is then as it was. */
static enum pageaudit_status read_file(const char *path, struct pageaudit_text *text)
{
    size_t room = 1 << 16, length = 0;
    char *bytes = (char *)malloc(room), *larger = bytes;
    FILE *file = fopen(path, "rb");
    int is_whole;
    while (file != NULL && larger != NULL && !feof(file) && !ferror(file)) {
        length += fread(bytes + length, 1, room - length, file);
        if (length == room && (larger = (char *)realloc(bytes, room *= 2)) != NULL)
            bytes = larger;
    }
    is_whole = file != NULL && larger != NULL && !ferror(file);
    if (!is_whole)
        perror(path);
    if (file != NULL)
        fclose(file);
    if (is_whole) {
        text->bytes = bytes;
        text->length = length;
        return PAGEAUDIT_CLEAR;
    }
    free(bytes);
    return larger == NULL ? PAGEAUDIT_OUT_OF_MEMORY : PAGEAUDIT_BAD_TEXT;
}

/* A whole number of a word. */
static uint32_t number(const char *word)
{
    char *end;
    unsigned long value = strtoul(word, &end, 10);
    return *word == '-' || end == word || *end != 0 || value > UINT32_MAX ? UINT32_MAX : (uint32_t)value;
}

/* Prints what the check says. */
static enum pageaudit_status check(struct pageaudit_text base, struct pageaudit_text cert, const struct pageaudit_policy *policy)
{
    char line[PAGEAUDIT_LINE_ROOM];
    size_t length;
    enum pageaudit_status status = pageaudit_check(base, cert, policy, line, sizeof line, &length);
    if (length == 0)
        fprintf(stderr, "%s\n", pageaudit_status_words(status));
    fwrite(line, 1, length, status <= PAGEAUDIT_FAULTY ? stdout : stderr);
    return status;
}

int main(int argc, char **argv)
{
    struct pageaudit_text base = {NULL, 0}, cert = {NULL, 0};
    enum pageaudit_status status;
    if (argc < 5 || argc > 6)
        return fputs("usage: check BASE CERT CEILING KEYINGS [GROUPS]\n", stderr), PAGEAUDIT_BAD_POLICY;
    struct pageaudit_policy policy = {number(argv[3]), number(argv[4]), argv[5]};
    status = read_file(argv[1], &base);
    if (status == PAGEAUDIT_CLEAR)
        status = read_file(argv[2], &cert);
    if (status == PAGEAUDIT_CLEAR)
        status = check(base, cert, &policy);
    free((void *)base.bytes);
    free((void *)cert.bytes);
    return status;
}
