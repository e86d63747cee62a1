/* The C code of the proved program and library for ARM64, for which the kit has none: what they call beside the C library.

   Each function is declared, with its contract, in the kit's crates `libc` (heap.rt) and `os` (c.rt); the comments say what it
   demands. Nothing proves that it is met: tests/own-system calls each function, and links the program for x86-64 with this file too.
   A slice is passed as a pointer and a length, and what has no bytes isn't passed. PROGRAM is defined for a program, which has its
   start here too; a library has the heap alone. Nothing is included, as the kit has no headers. */

typedef __SIZE_TYPE__ size;
typedef __INTPTR_TYPE__ ssize;

void *malloc(size);
void *realloc(void *, size);
void free(void *);

/* The answer to a request for memory. Its pointer is never null. If the request was refused, nobody owns what it leads to. */
struct tried {
    _Bool is_given;
    unsigned char *at;
};

static unsigned char nothing;

static struct tried tried(void *at) {
    return (struct tried){at != 0, at ? at : &nothing};
}

/* Gives new memory of `length` bytes, below 2^63, whose address is a multiple of `alignment`, which divides 16, or refuses it. All
   that malloc gives has such an address. It may answer a request for no bytes by null, so some are requested. */
struct tried rattle_alloc(size length, size alignment) {
    return tried(malloc(length ? length : alignment));
}

/* Makes memory that one of the two gave `length` bytes long, with an address as before. The first `kept` bytes, at most `length` and
   at most the old length, are as they were; the memory may have moved. If this is refused, all of it is as it was. */
struct tried rattle_realloc(void *at, size kept, size length, size alignment) {
    (void)kept;
    return tried(realloc(at, length ? length : alignment));
}

/* Frees memory that one of the two gave. */
void rattle_dealloc(void *at) {
    free(at);
}

#ifdef PROGRAM

extern char **environ;
char *getenv(const char *);
int *__errno_location(void);
int openat(int, const char *, int, ...);
int main(int, char **, char **);
int __libc_start_main(int (*)(int, char **, char **), int, char **, void (*)(void), void (*)(void), void (*)(void), void *);

/* C's errno of the calling thread. */
int rattle_errno(void) {
    return *__errno_location();
}

/* Sets it. */
void rattle_set_errno(int error) {
    *__errno_location() = error;
}

/* Puts a text at the start of the buffer and answers its length; or -1 if there is no text, and nothing is written; or -2 if the text
   is longer than the room, which is then full of its first bytes. */
static ssize put(const char *text, unsigned char *buffer, size room) {
    size length = 0;
    if (text == 0) return -1;
    for (; text[length] != 0; length++) {
        if (length == room) return -2;
        buffer[length] = (unsigned char)text[length];
    }
    return (ssize)length;
}

/* Entry `index` of a list that ends in null, or null if it has no such entry. */
static const char *entry(char *const *list, size index) {
    if (list == 0) return 0;
    for (; *list != 0 && index > 0; list++) index--;
    return *list;
}

static char *const *arguments;
static size arguments_count;

/* How many arguments the program was started with, its name among them. */
size rattle_arg_count(void) {
    return arguments_count;
}

/* Puts argument `index` at the start of the buffer, and answers as `put` does. */
ssize rattle_arg(size index, unsigned char *buffer, size room) {
    return put(index < arguments_count ? arguments[index] : 0, buffer, room);
}

/* The same for the value of the environment variable with this name, which 0 ends. */
ssize rattle_env(const char *name, unsigned char *buffer, size room) {
    return put(getenv(name), buffer, room);
}

/* The same for entry `index` of the environment, by custom 'NAME=value'. */
ssize rattle_env_at(size index, unsigned char *buffer, size room) {
    return put(entry(environ, index), buffer, room);
}

/* Opens the directory that a name reaches from the open directory `folder` or, if that is AT_FDCWD, from the working directory: a
   descriptor for reading, which no other program is given; or -1, also if the name ends in a link or reaches no directory. The flags
   are O_CLOEXEC, O_DIRECTORY and O_NOFOLLOW; the last two have other numbers on ARM64. */
int rattle_open_dir_at(int folder, const char *name) {
#if defined __aarch64__
    return openat(folder, name, 02000000 | 040000 | 0100000);
#else
    return openat(folder, name, 02000000 | 0200000 | 0400000);
#endif
}

/* The program's start. The system leaves on the stack the number of arguments, the arguments, null, the environment and null, and the
   loader in a register what has to be called at the end. glibc calls the initializers, then `main`, then `exit` with its answer. */
__attribute__((used)) static void start(long *stack, void (*at_end)(void)) {
    arguments_count = (size)stack[0];
    arguments = (char **)(stack + 1);
    __libc_start_main(main, (int)stack[0], (char **)(stack + 1), 0, 0, at_end, stack);
    __builtin_trap();
}

/* Calls it with both, no caller's frame, and the stack at a multiple of 16. */
#if defined __aarch64__
__asm__(".text\n.globl _start\n.type _start, %function\n"
        "_start: mov x29, xzr\n mov x30, xzr\n mov x1, x0\n mov x0, sp\n bl start\n");
#elif defined __x86_64__
__asm__(".text\n.globl _start\n.type _start, @function\n"
        "_start: xor %ebp, %ebp\n mov %rsp, %rdi\n mov %rdx, %rsi\n call start\n");
#endif

#endif
