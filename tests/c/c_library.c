/* Calls of the library for C, for tests/c-library.

   c_library call NAME FILE.. CEILING KEYINGS GROUPS    makes the call twice and prints both answers; writes a line to
                                                        standard error before and after the first one
   c_library rooms NAME FILE.. CEILING KEYINGS GROUPS   makes the call with a buffer of each size up to four more than the
                                                        text, and prints how many were right
   c_library cuts NAME FILE.. CEILING KEYINGS GROUPS    makes the call with each beginning of each text; prints which text and
                                                        how much of it, the status, and how long the answer is, then the answer
   c_library odd                                        passes policies and texts that are wrong or unusual, and prints the
                                                        answers; then the number of each answer with its words
   c_library show BASE FRAME GROUPS                     prints the status, the codes, and the seven numbers of each look; or
                                                        the line of a fault
   c_library time BASE CERT                             the least processor time of a check, in microseconds

   NAME is check, change, audit, lint or json, which is lint's other form. Each text ends where a page ends that can't be written, and the page after it can't
   be touched; so does each buffer, whose own page can be written. */
#define _DEFAULT_SOURCE
#include <pageaudit.h>
#include <stdio.h>
#include <stdlib.h>
#include <sys/mman.h>
#include <time.h>
#include <unistd.h>

#define TEXTS 4

struct call {
    const char *name;
    struct pageaudit_text texts[TEXTS];
    int count;
    struct pageaudit_policy policy;
};

struct answer {
    enum pageaudit_status status;
    size_t length;
};

/* Room for each text that is printed here. */
static char large[1 << 22];

static void fail(const char *what)
{
    perror(what);
    exit(99);
}

/* Bytes that end where a page ends, before one that can't be touched; zero for a start of null. */
static char *guarded(const void *bytes, size_t length, int protection)
{
    size_t page = (size_t)sysconf(_SC_PAGESIZE), room = (length + page - 1) / page * page;
    char *start = mmap(NULL, room + page, PROT_READ | PROT_WRITE, MAP_PRIVATE | MAP_ANONYMOUS, -1, 0);
    if (start == MAP_FAILED)
        fail("mmap");
    if (bytes != NULL && length > 0)
        memcpy(start + room - length, bytes, length);
    if ((room > 0 && mprotect(start, room, protection)) || mprotect(start + room, page, PROT_NONE))
        fail("mprotect");
    return start + room - length;
}

static void release(char *bytes, size_t length)
{
    size_t page = (size_t)sysconf(_SC_PAGESIZE), room = (length + page - 1) / page * page;
    if (munmap(bytes + length - room, room + page))
        fail("munmap");
}

/* A file's text that ends where a page ends. */
static struct pageaudit_text read_file(const char *path)
{
    FILE *file = fopen(path, "rb");
    char *bytes, *text;
    long length = -1;
    if (file == NULL || fseek(file, 0, SEEK_END) || (length = ftell(file)) < 0)
        fail(path);
    rewind(file);
    bytes = malloc((size_t)length + 1);
    if (bytes == NULL || fread(bytes, 1, (size_t)length, file) != (size_t)length || fclose(file))
        fail(path);
    text = guarded(bytes, (size_t)length, PROT_READ);
    free(bytes);
    return pageaudit_text_of(text, (size_t)length);
}

static struct answer make(const struct call *call, char *buffer, size_t room)
{
    const struct pageaudit_text *t = call->texts;
    struct answer answer;
    answer.length = 12345;
    if (strcmp(call->name, "check") == 0)
        answer.status = pageaudit_check(t[0], t[1], &call->policy, buffer, room, &answer.length);
    else if (strcmp(call->name, "change") == 0)
        answer.status = pageaudit_change(t[0], t[1], t[2], t[3], &call->policy, buffer, room, &answer.length);
    else if (strcmp(call->name, "audit") == 0)
        answer.status = pageaudit_audit(t[0], &call->policy, buffer, room, &answer.length);
    else if (strcmp(call->name, "lint") == 0)
        answer.status = pageaudit_lint(pageaudit_text_of("x.toml", 6), t[0], &call->policy, buffer, room, &answer.length);
    else
        answer.status = pageaudit_lint_json(pageaudit_text_of("x.toml", 6), t[0], &call->policy, buffer, room, &answer.length);
    return answer;
}

/* Makes a call with so much room, and looks at the buffer: true if it has the front of the text, and nothing after it. */
static int is_right(const struct call *call, struct answer whole, const char *text, size_t room)
{
    char *buffer = guarded(NULL, room, PROT_READ | PROT_WRITE);
    size_t i, filled = room < whole.length ? room : whole.length;
    struct answer answer;
    int right;
    memset(buffer, '.', room);
    answer = make(call, room == 0 ? NULL : buffer, room);
    right = answer.status == whole.status && answer.length == whole.length && memcmp(buffer, text, filled) == 0;
    for (i = filled; i < room; i++)
        right = right && buffer[i] == '.';
    release(buffer, room);
    return right;
}

static void rooms(const struct call *call)
{
    struct answer whole = make(call, NULL, 0);
    char *text = malloc(whole.length + 1);
    size_t room, right = 0;
    if (text == NULL)
        fail("malloc");
    make(call, text, whole.length);
    for (room = 0; room <= whole.length + 4; room++)
        right += (size_t)is_right(call, whole, text, room);
    printf("%d %lu %lu right of %lu\n", whole.status, (unsigned long)whole.length, (unsigned long)right, (unsigned long)room);
    free(text);
}

static void cuts(struct call *call)
{
    int i;
    size_t length;
    for (i = 0; i < call->count; i++) {
        struct pageaudit_text whole = call->texts[i];
        for (length = 0; length <= whole.length; length++) {
            char *cut = guarded(whole.bytes, length, PROT_READ);
            struct answer answer;
            call->texts[i] = pageaudit_text_of(cut, length);
            answer = make(call, large, sizeof large);
            printf("%d %lu %d %lu\n", i, (unsigned long)length, answer.status, (unsigned long)answer.length);
            fwrite(large, 1, answer.length, stdout);
            release(cut, length);
        }
        call->texts[i] = whole;
    }
}

static void print_twice(const struct call *call)
{
    struct answer answer;
    int i;
    for (i = 0; i < 2; i++) {
        if (i == 0 && write(2, "the call begins\n", 16) != 16)
            fail("standard error");
        answer = make(call, large, sizeof large);
        if (i == 0 && write(2, "the call has ended\n", 19) != 19)
            fail("standard error");
        printf("%d\n", answer.status);
        fwrite(large, 1, answer.length, stdout);
    }
}

static void odd(void)
{
    const char *groups[] = {"7,9", "9,7", "7,7", "0", "65536", "7,", ",", " 7", "07", "1,2,3,4,5,6,7,8,9,10,11,12,13,14,15,16",
        "1,2,3,4,5,6,7,8,9,10,11,12,13,14,15,16,17", "", NULL};
    uint32_t ceilings[] = {0, 9999, 10000, 65535, 65536, 65546, 4294967295u};
    uint32_t statuses[] = {PAGEAUDIT_CLEAR, PAGEAUDIT_FAULTY, PAGEAUDIT_BAD_POLICY, PAGEAUDIT_BAD_TEXT, PAGEAUDIT_OUT_OF_MEMORY, 5,
        4294967295u};
    struct pageaudit_policy policy = {9999, 65535, NULL};
    struct pageaudit_text none = {NULL, 0};
    size_t length = 12345, i, size = 16777216;
    char *most, words[16];
    for (i = 0; i < sizeof groups / sizeof *groups; i++) {
        policy.groups = groups[i];
        printf("groups %d", pageaudit_check(none, none, &policy, NULL, 0, &length));
        printf(" %lu\n", (unsigned long)length);
    }
    policy.groups = NULL;
    for (i = 0; i < sizeof ceilings / sizeof *ceilings; i++) {
        policy.ceiling = ceilings[i];
        printf("ceiling %d", pageaudit_audit(none, &policy, NULL, 0, NULL));
        policy.ceiling = 0;
        policy.keyings = ceilings[i];
        printf(" %d\n", pageaudit_lint(none, none, &policy, NULL, 0, NULL));
        policy.keyings = 65535;
    }
    most = guarded(NULL, size + 1, PROT_READ | PROT_WRITE);
    memset(most, '\n', size + 1);
    printf("%d", pageaudit_check(pageaudit_text_of(most + 1, size), none, &policy, words, sizeof words, &length));
    printf(" %.16s\n", words);
    printf("%d", pageaudit_check(pageaudit_text_of(most, size + 1), none, &policy, words, sizeof words, &length));
    printf(" %.16s\n", words);
    printf("%d\n", pageaudit_change(none, none, none, none, &policy, NULL, 0, NULL));
    for (i = 0; i < sizeof statuses / sizeof *statuses; i++) {
        length = pageaudit_status_text(statuses[i], words, sizeof words);
        printf("%lu %.*s, %s\n", (unsigned long)statuses[i], (int)length, words, pageaudit_status_words(statuses[i]));
    }
}

static void show(struct pageaudit_text base, const char *frame, const char *groups)
{
    size_t size = PAGEAUDIT_CELLS * sizeof(struct pageaudit_look), length, i;
    uint8_t *codes = (uint8_t *)guarded(NULL, PAGEAUDIT_CELLS, PROT_READ | PROT_WRITE);
    struct pageaudit_look *looks = (struct pageaudit_look *)(void *)guarded(NULL, size, PROT_READ | PROT_WRITE);
    char line[PAGEAUDIT_LINE_ROOM];
    enum pageaudit_status status = pageaudit_show(base, frame, groups, codes, looks, line, sizeof line, &length);
    printf("%d\n%.*s", status, (int)length, line);
    if (status != PAGEAUDIT_CLEAR)
        return;
    fwrite(codes, 1, PAGEAUDIT_CELLS, stdout);
    for (i = 0; i < PAGEAUDIT_CELLS; i++)
        printf("%lu %d %d %d %d %d %d\n", (unsigned long)looks[i].character, looks[i].foreground, looks[i].background, looks[i].flash,
            looks[i].concealed, looks[i].separated, looks[i].height);
}

static void print_time(struct pageaudit_text base, struct pageaudit_text cert)
{
    struct pageaudit_policy policy = {9999, 65535, NULL};
    clock_t least = 0;
    int i;
    for (i = 0; i < 9; i++) {
        clock_t begun = clock(), took;
        if (pageaudit_check(base, cert, &policy, NULL, 0, NULL) != PAGEAUDIT_CLEAR)
            exit(1);
        took = clock() - begun;
        least = i == 0 || took < least ? took : least;
    }
    printf("%ld\n", (long)(least * (1000000 / CLOCKS_PER_SEC)));
}

int main(int argc, char **argv)
{
    struct call call = {NULL, {{NULL, 0}, {NULL, 0}, {NULL, 0}, {NULL, 0}}, 0, {0, 0, NULL}};
    if (argc == 2 && strcmp(argv[1], "odd") == 0)
        return odd(), 0;
    if (argc == 5 && strcmp(argv[1], "show") == 0)
        return show(read_file(argv[2]), argv[3], argv[4]), 0;
    if (argc == 4 && strcmp(argv[1], "time") == 0)
        return print_time(read_file(argv[2]), read_file(argv[3])), 0;
    if (argc < 7 || argc > 6 + TEXTS)
        return 98;
    call.name = argv[2];
    for (call.count = 0; call.count < argc - 6; call.count++)
        call.texts[call.count] = read_file(argv[3 + call.count]);
    call.policy.ceiling = (uint32_t)strtoul(argv[argc - 3], NULL, 10);
    call.policy.keyings = (uint32_t)strtoul(argv[argc - 2], NULL, 10);
    call.policy.groups = argv[argc - 1];
    if (strcmp(argv[1], "rooms") == 0)
        rooms(&call);
    else if (strcmp(argv[1], "cuts") == 0)
        cuts(&call);
    else
        print_twice(&call);
    return 0;
}
