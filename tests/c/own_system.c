/* Calls the functions of dist/system.c, with which it is linked in place of the compiler's own start, and prints each fact that doesn't
   hold. It has to be started with the words 'one', '' and 'two words', and the variables EMPTY= and LONG=12345. The last line is 'N
   passed, M failed'; a function that is called at the end prints it. */
#include <errno.h>
#include <fcntl.h>
#include <malloc.h>
#include <stddef.h>
#include <stdint.h>
#include <stdio.h>
#include <stdlib.h>
#include <string.h>
#include <sys/stat.h>
#include <unistd.h>

struct tried {
    _Bool is_given;
    unsigned char *at;
};

struct tried rattle_alloc(size_t, size_t);
struct tried rattle_realloc(void *, size_t, size_t, size_t);
void rattle_dealloc(void *);
int rattle_errno(void);
void rattle_set_errno(int);
size_t rattle_arg_count(void);
ptrdiff_t rattle_arg(size_t, unsigned char *, size_t);
ptrdiff_t rattle_env(const char *, unsigned char *, size_t);
ptrdiff_t rattle_env_at(size_t, unsigned char *, size_t);
int rattle_open_dir_at(int, const char *);

#define MOST ((size_t)1 << 62)
#define HOLDS(fact) ((fact) ? (void)passed++ : (void)(failed++, printf("line %d: %s\n", __LINE__, #fact)))

extern char **environ;
static int passed, failed, is_begun;
static unsigned char room[16];

__attribute__((constructor)) static void begin(void) { is_begun = 1; }
__attribute__((destructor)) static void end(void) { printf("%d passed, %d failed\n", passed, failed); }

/* Whether the room begins with a text, and all after that is as it was. */
static int has(const char *text) {
    unsigned char wanted[sizeof room];
    memset(wanted, '.', sizeof room);
    memcpy(wanted, text, strlen(text));
    int is_same = memcmp(room, wanted, sizeof room) == 0;
    memset(room, '.', sizeof room);
    return is_same;
}

static void try_texts(void) {
    char name[4096] = "LONG";
    has("");
    HOLDS(rattle_arg_count() == 4);
    HOLDS(rattle_arg(1, room, 8) == 3 && has("one"));
    HOLDS(rattle_arg(1, room, 3) == 3 && has("one"));
    HOLDS(rattle_arg(1, room, 2) == -2 && has("on"));
    HOLDS(rattle_arg(1, room, 0) == -2 && has(""));
    HOLDS(rattle_arg(2, room, 8) == 0 && rattle_arg(2, room, 0) == 0 && has(""));
    HOLDS(rattle_arg(3, room, 16) == 9 && has("two words"));
    HOLDS(rattle_arg(4, room, 8) == -1 && rattle_arg(SIZE_MAX, room, 8) == -1 && has(""));
    HOLDS(rattle_env(name, room, 5) == 5 && has("12345"));
    HOLDS(rattle_env(name, room, 4) == -2 && has("1234"));
    memcpy(name, "EMPTY", 6);
    HOLDS(rattle_env(name, room, 0) == 0 && has(""));
    memcpy(name, "NONE", 5);
    HOLDS(rattle_env(name, room, 8) == -1 && has(""));
    size_t count = 0;
    for (; environ[count] != NULL; count++) {
        ptrdiff_t length = rattle_env_at(count, room, sizeof room);
        HOLDS(length == -2 ? strlen(environ[count]) > sizeof room : length == (ptrdiff_t)strlen(environ[count]));
        HOLDS(memcmp(room, environ[count], length == -2 ? sizeof room : (size_t)length) == 0);
    }
    HOLDS(rattle_env_at(count, room, 8) == -1 && rattle_env_at(SIZE_MAX, room, 8) == -1);
    environ = NULL;
    HOLDS(rattle_env_at(0, room, 8) == -1);
}

/* In a folder of its own, with a folder, a file and a link to each. */
static void try_folders(void) {
    HOLDS(mkdir("in", 0755) == 0 && mkdir("in/side", 0755) == 0 && symlink("in", "link") == 0);
    int file = open("file", O_CREAT | O_WRONLY, 0644), in = rattle_open_dir_at(AT_FDCWD, "in");
    struct stat found, wanted;
    HOLDS(file >= 0 && in >= 0 && fstat(in, &found) == 0 && stat("in", &wanted) == 0 && found.st_ino == wanted.st_ino);
    HOLDS(fcntl(in, F_GETFD) == FD_CLOEXEC && (fcntl(in, F_GETFL) & O_ACCMODE) == O_RDONLY);
    int side = rattle_open_dir_at(in, "side");
    HOLDS(side >= 0 && fstat(side, &found) == 0 && stat("in/side", &wanted) == 0 && found.st_ino == wanted.st_ino);
    HOLDS(rattle_open_dir_at(AT_FDCWD, "file") == -1 && errno == ENOTDIR);
    HOLDS(rattle_open_dir_at(AT_FDCWD, "link") == -1 && rattle_open_dir_at(in, "none") == -1);
    HOLDS(close(rattle_open_dir_at(AT_FDCWD, "link/")) == 0);
    HOLDS(close(side) == 0 && close(in) == 0 && close(file) == 0);
    HOLDS(unlink("link") == 0 && unlink("file") == 0 && rmdir("in/side") == 0 && rmdir("in") == 0);
}

static void try_memory(void) {
    for (size_t length = 0; length < 100; length++) {
        struct tried some = rattle_alloc(length, 16);
        HOLDS(some.is_given && (uintptr_t)some.at % 16 == 0);
        memset(some.at, 7, length);
        struct tried more = rattle_realloc(some.at, length, 9000, 16);
        HOLDS(more.is_given && (uintptr_t)more.at % 16 == 0 && (length == 0 || (more.at[0] == 7 && more.at[length - 1] == 7)));
        struct tried none = rattle_realloc(more.at, length, MOST, 16);
        HOLDS(!none.is_given && none.at != NULL && (length == 0 || more.at[length - 1] == 7));
        struct tried empty = rattle_realloc(more.at, 0, 0, 1);
        HOLDS(empty.is_given && empty.at != NULL);
        rattle_dealloc(empty.at);
    }
    struct tried none = rattle_alloc(MOST, 1);
    HOLDS(!none.is_given && none.at != NULL);
}

int main(void) {
    HOLDS(is_begun && (uintptr_t)__builtin_frame_address(0) % 16 == 0);
    rattle_set_errno(ENOENT);
    HOLDS(errno == ENOENT && rattle_errno() == ENOENT);
    try_texts();
    try_folders();
    try_memory();
    size_t held = mallinfo2().uordblks;
    try_memory();
    HOLDS(mallinfo2().uordblks == held);
    return failed != 0;
}
