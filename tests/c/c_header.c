/* What the functions of include/pageaudit.h pass to the library and give back, for tests/c-library: the library's calls are
   stand-ins here, which print what they are passed. A null pointer is printed as NULL. */
#include <pageaudit.h>
#include <stdio.h>

/* Here the names of the calls are those of the stand-ins. */
#undef pageaudit_check
#undef pageaudit_change
#undef pageaudit_audit
#undef pageaudit_lint
#undef pageaudit_lint_json
#undef pageaudit_show
#undef pageaudit_status_text

static void show_text(const void *bytes, size_t length)
{
    if (bytes == NULL)
        printf(" NULL");
    else
        printf(" [%.*s]", (int)length, (const char *)bytes);
}

/* Shows the policy and the buffer, and answers with a text of seven bytes. */
static uint32_t answer(uint32_t ceiling, uint32_t keyings, const void *groups, size_t groups_length, void *buffer, size_t room,
    size_t *length)
{
    printf(" %lu %lu", (unsigned long)ceiling, (unsigned long)keyings);
    show_text(groups, groups_length);
    if (buffer == NULL || length == NULL)
        printf(" NULL");
    else {
        memcpy(buffer, "printed", room < 7 ? room : 7);
        *length = 7;
    }
    printf(" room %lu", (unsigned long)room);
    return 3;
}

uint32_t pageaudit_check(const void *base, size_t base_length, const void *cert, size_t cert_length, uint32_t ceiling,
    uint32_t keyings, const void *groups, size_t groups_length, void *line, size_t room, size_t *length)
{
    printf("check");
    show_text(base, base_length);
    show_text(cert, cert_length);
    return answer(ceiling, keyings, groups, groups_length, line, room, length);
}

uint32_t pageaudit_change(const void *old_base, size_t old_base_length, const void *old_cert, size_t old_cert_length,
    const void *new_base, size_t new_base_length, const void *new_cert, size_t new_cert_length, uint32_t ceiling,
    uint32_t keyings, const void *groups, size_t groups_length, void *line, size_t room, size_t *length)
{
    printf("change");
    show_text(old_base, old_base_length);
    show_text(old_cert, old_cert_length);
    show_text(new_base, new_base_length);
    show_text(new_cert, new_cert_length);
    return answer(ceiling, keyings, groups, groups_length, line, room, length);
}

uint32_t pageaudit_audit(const void *base, size_t base_length, uint32_t ceiling, uint32_t keyings, const void *groups,
    size_t groups_length, void *report, size_t room, size_t *length)
{
    printf("audit");
    show_text(base, base_length);
    return answer(ceiling, keyings, groups, groups_length, report, room, length);
}

uint32_t pageaudit_lint(const void *name, size_t name_length, const void *base, size_t base_length, uint32_t ceiling,
    uint32_t keyings, const void *groups, size_t groups_length, void *lines, size_t room, size_t *length)
{
    printf("lint");
    show_text(name, name_length);
    show_text(base, base_length);
    return answer(ceiling, keyings, groups, groups_length, lines, room, length);
}

uint32_t pageaudit_lint_json(const void *name, size_t name_length, const void *base, size_t base_length, uint32_t ceiling,
    uint32_t keyings, const void *groups, size_t groups_length, void *lines, size_t room, size_t *length)
{
    printf("json of ");
    return pageaudit_lint(name, name_length, base, base_length, ceiling, keyings, groups, groups_length, lines, room, length);
}

uint32_t pageaudit_show(const void *base, size_t base_length, const void *frame, size_t frame_length, const void *groups,
    size_t groups_length, void *codes, size_t codes_room, struct pageaudit_look *looks, size_t looks_room, void *line, size_t room,
    size_t *length)
{
    printf("show");
    show_text(base, base_length);
    show_text(frame, frame_length);
    printf("%s rooms %lu %lu", codes == NULL || looks == NULL ? " NULL" : "", (unsigned long)codes_room, (unsigned long)looks_room);
    return answer(0, 0, groups, groups_length, line, room, length);
}

size_t pageaudit_status_text(uint32_t status, void *text, size_t room)
{
    printf("describe %lu", (unsigned long)status);
    return answer(0, 0, "", 0, text, room, &room) + 4;
}

static uint8_t codes[PAGEAUDIT_CELLS];
static struct pageaudit_look looks[PAGEAUDIT_CELLS];

static void show_answer(unsigned long status, const char *buffer, const size_t *length)
{
    printf(" -> %lu %s %lu\n", status, buffer, length == NULL ? 0 : (unsigned long)*length);
}

/* The screen of a frame with both arrays, or with neither if there is no room, and then with one alone. */
static void call_show(struct pageaudit_text base, const char *frame, const char *groups, char *buffer, size_t room, size_t *asked)
{
    const char *shown = room == 0 ? "-" : buffer;
    uint8_t *both_codes = room == 0 ? NULL : codes;
    struct pageaudit_look *both_looks = room == 0 ? NULL : looks;
    show_answer(pageaudit_show_frame(base, frame, groups, both_codes, both_looks, buffer, room, asked), shown, asked);
    show_answer(pageaudit_show_frame(base, frame, groups, codes, NULL, buffer, room, asked), shown, asked);
    show_answer(pageaudit_show_frame(base, frame, groups, NULL, looks, buffer, room, asked), shown, asked);
}

/* Each function with these texts, policy and room; the length is asked for if there is room. */
static void call_each(struct pageaudit_text one, struct pageaudit_text two, const struct pageaudit_policy *policy, char *buffer,
    size_t room)
{
    size_t length = 0, *asked = room == 0 ? NULL : &length;
    const char *shown = room == 0 ? "-" : buffer;
    show_answer(pageaudit_check_base(one, two, policy, buffer, room, asked), shown, asked);
    show_answer(pageaudit_check_change(one, two, two, one, policy, buffer, room, asked), shown, asked);
    show_answer(pageaudit_audit_base(one, policy, buffer, room, asked), shown, asked);
    show_answer(pageaudit_lint_base(two, one, policy, buffer, room, asked), shown, asked);
    show_answer(pageaudit_lint_base_json(two, one, policy, buffer, room, asked), shown, asked);
    call_show(one, room == 0 ? NULL : "478a", policy->groups, buffer, room, asked);
    length = pageaudit_describe(2, buffer, room);
    show_answer(0, shown, &length);
}

int main(void)
{
    struct pageaudit_text none = {NULL, 0};
    struct pageaudit_policy policy = {1, 2, NULL};
    char buffer[4] = "";
    call_each(none, none, &policy, NULL, 0);
    policy.groups = "7,9";
    call_each(pageaudit_text_of("ABC", 2), pageaudit_text_of("DE", 1), &policy, buffer, 3);
    return 0;
}
