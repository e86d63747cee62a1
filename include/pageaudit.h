/* The proved check of viewdata page bases, for C99 and C++. Link with -lpageaudit.

   The calls: pageaudit_check, pageaudit_change, pageaudit_audit, pageaudit_lint, pageaudit_lint_json, pageaudit_show and
   pageaudit_status_text. Each does what the program `pageaudit` does, of texts in memory, and answers a status below.

   - No call keeps anything, reads a file, or ends the program, and nothing has to be freed. Several threads may call at
     once, each with its own buffer.
   - Memory comes from malloc, realloc and free. Don't call from a signal handler.
   - A buffer may not overlap another argument. Two texts may be the same bytes.
   - A buffer gets what the program prints, as far as it fits, with its line feeds and without a 0 at its end; the bytes of
     the buffer after it stay as they were. *length is the whole length. If that is more than the room, nothing else is
     wrong: call again with that much room. */
#ifndef PAGEAUDIT_H
#define PAGEAUDIT_H

#include <stddef.h>
#include <stdint.h>
#include <string.h>

#define PAGEAUDIT_VERSION "1.2.0"

/* Room for each line that pageaudit_check and pageaudit_change print. */
#define PAGEAUDIT_LINE_ROOM 128

#ifdef __cplusplus
extern "C" {
#endif

/* What a call answers. */
enum pageaudit_status {
    /* The certificate or the change is cleared, the audit found no fault, or lint found no error. */
    PAGEAUDIT_CLEAR = 0,
    /* It is refused, or there are faults or errors: the text names them. */
    PAGEAUDIT_FAULTY = 1,
    /* The policy is invalid; there is no text. */
    PAGEAUDIT_BAD_POLICY = 2,
    /* A text is at fault: the line names its first fault. */
    PAGEAUDIT_BAD_TEXT = 3,
    /* A request for memory was refused; there is no text. It says nothing of the texts that were passed. */
    PAGEAUDIT_OUT_OF_MEMORY = 4
};

/* A text that is passed to a call: any bytes. The pointer may be null if the length is 0. */
struct pageaudit_text {
    const void *bytes;
    size_t length;
};

/* What a centre asks of its bases. */
struct pageaudit_policy {
    /* The most that a frame may cost, in pence: 0 to 9,999. */
    uint32_t ceiling;
    /* The most route and next keys that may be needed to regain the entry page: 0 to 65,535. */
    uint32_t keyings;
    /* The callers' closed user groups, ascending, at most 16 of 1 to 65,535, as "7,9"; null or "" for none. */
    const char *groups;
};

/* How many cells a screen has: 24 rows of 40, from the top left. */
#define PAGEAUDIT_CELLS 960

/* How a cell looks. */
struct pageaudit_look {
    /* The code point of its character; of a mosaic, one from U+1FB00 to U+1FB3B, or a half or full block. */
    uint32_t character;
    /* The colour of the character and the one around it: 0 black, 1 red, 2 green, 3 yellow, 4 blue, 5 magenta, 6 cyan, 7 white. */
    uint8_t foreground, background;
    /* 1 if the character flashes; if it is concealed; if it is a mosaic whose blocks are apart. */
    uint8_t flash, concealed, separated;
    /* 0 a whole cell, 1 the upper half of one of double height, 2 its lower half. */
    uint8_t height;
};

/* The calls as the library has them, with each text as two arguments. Below, each gets a function that takes texts, a policy
   and null pointers, and the call's name: a program calls that one. */
uint32_t pageaudit_check(const void *base, size_t base_length, const void *cert, size_t cert_length, uint32_t ceiling,
    uint32_t keyings, const void *groups, size_t groups_length, void *line, size_t room, size_t *length);
uint32_t pageaudit_change(const void *old_base, size_t old_base_length, const void *old_cert, size_t old_cert_length,
    const void *new_base, size_t new_base_length, const void *new_cert, size_t new_cert_length, uint32_t ceiling,
    uint32_t keyings, const void *groups, size_t groups_length, void *line, size_t room, size_t *length);
uint32_t pageaudit_audit(const void *base, size_t base_length, uint32_t ceiling, uint32_t keyings, const void *groups,
    size_t groups_length, void *report, size_t room, size_t *length);
uint32_t pageaudit_lint(const void *name, size_t name_length, const void *base, size_t base_length, uint32_t ceiling,
    uint32_t keyings, const void *groups, size_t groups_length, void *lines, size_t room, size_t *length);
uint32_t pageaudit_lint_json(const void *name, size_t name_length, const void *base, size_t base_length, uint32_t ceiling,
    uint32_t keyings, const void *groups, size_t groups_length, void *lines, size_t room, size_t *length);
uint32_t pageaudit_show(const void *base, size_t base_length, const void *frame, size_t frame_length, const void *groups,
    size_t groups_length, void *codes, size_t codes_room, struct pageaudit_look *looks, size_t looks_room, void *line, size_t room,
    size_t *length);
size_t pageaudit_status_text(uint32_t status, void *text, size_t room);

/* A text of bytes and a length. */
static inline struct pageaudit_text pageaudit_text_of(const void *bytes, size_t length)
{
    struct pageaudit_text text;
    text.bytes = length == 0 ? "" : bytes;
    text.length = length;
    return text;
}

/* The groups of a policy, as a text. */
static inline struct pageaudit_text pageaudit_groups_of(const struct pageaudit_policy *policy)
{
    return pageaudit_text_of(policy->groups, policy->groups == NULL ? 0 : strlen(policy->groups));
}

/* Checks the text of a certificate against the text of a base.

   PAGEAUDIT_CLEAR is a promise, proved of the bytes that are passed: whatever keys a caller in exactly the policy's groups
   presses from the entry page on, no key leads to a frame that is missing or closed, no frame shown costs more than the
   ceiling or writes into the service rows, and until the caller leaves the base, at most `keyings` keys lead back to the
   entry page.

   line    the verdict, or the first fault of the base's text, else of the certificate's; may be null if room is 0
   length  the line's whole length; may be null */
static inline enum pageaudit_status pageaudit_check_base(struct pageaudit_text base, struct pageaudit_text cert,
    const struct pageaudit_policy *policy, char *line, size_t room, size_t *length)
{
    struct pageaudit_text groups = pageaudit_groups_of(policy);
    char none;
    size_t whole;
    base = pageaudit_text_of(base.bytes, base.length);
    cert = pageaudit_text_of(cert.bytes, cert.length);
    return (enum pageaudit_status)pageaudit_check(base.bytes, base.length, cert.bytes, cert.length, policy->ceiling,
        policy->keyings, groups.bytes, groups.length, room == 0 ? &none : line, room, length == NULL ? &whole : length);
}

/* Checks whether a new edition may take an old one's place while callers are inside.

   PAGEAUDIT_CLEAR is the promise above of both editions, and of callers who stay inside over the change, whatever keys they
   press before and after it.

   line    the verdict, or the first fault of the four texts in their order: of the new ones it begins with "new "; may be
           null if room is 0
   length  the line's whole length; may be null */
static inline enum pageaudit_status pageaudit_check_change(struct pageaudit_text old_base, struct pageaudit_text old_cert,
    struct pageaudit_text new_base, struct pageaudit_text new_cert, const struct pageaudit_policy *policy, char *line,
    size_t room, size_t *length)
{
    struct pageaudit_text groups = pageaudit_groups_of(policy);
    char none;
    size_t whole;
    old_base = pageaudit_text_of(old_base.bytes, old_base.length);
    old_cert = pageaudit_text_of(old_cert.bytes, old_cert.length);
    new_base = pageaudit_text_of(new_base.bytes, new_base.length);
    new_cert = pageaudit_text_of(new_cert.bytes, new_cert.length);
    return (enum pageaudit_status)pageaudit_change(old_base.bytes, old_base.length, old_cert.bytes, old_cert.length,
        new_base.bytes, new_base.length, new_cert.bytes, new_cert.length, policy->ceiling, policy->keyings, groups.bytes,
        groups.length, room == 0 ? &none : line, room, length == NULL ? &whole : length);
}

/* Audits the text of a base.

   report  the certificate if the answer is PAGEAUDIT_CLEAR; every fault with the keys that show it if it is
           PAGEAUDIT_FAULTY; else the first fault of the text; may be null if room is 0
   length  the report's whole length; may be null */
static inline enum pageaudit_status pageaudit_audit_base(struct pageaudit_text base, const struct pageaudit_policy *policy,
    char *report, size_t room, size_t *length)
{
    struct pageaudit_text groups = pageaudit_groups_of(policy);
    char none;
    size_t whole;
    base = pageaudit_text_of(base.bytes, base.length);
    return (enum pageaudit_status)pageaudit_audit(base.bytes, base.length, policy->ceiling, policy->keyings, groups.bytes,
        groups.length, room == 0 ? &none : report, room, length == NULL ? &whole : length);
}

/* Finds every fault and warning of a base's text, as `pageaudit lint` does. A text that isn't a base is PAGEAUDIT_FAULTY
   here, and never PAGEAUDIT_BAD_TEXT.

   name    is printed at the start of each line, as a file's path
   lines   one for each finding, "NAME:LINE:COLUMN: error: WORDS" or ".. warning: ..", in the order of their places, without
           the program's count of them; may be null if room is 0
   length  their whole length; may be null */
static inline enum pageaudit_status pageaudit_lint_base(struct pageaudit_text name, struct pageaudit_text base,
    const struct pageaudit_policy *policy, char *lines, size_t room, size_t *length)
{
    struct pageaudit_text groups = pageaudit_groups_of(policy);
    char none;
    size_t whole;
    name = pageaudit_text_of(name.bytes, name.length);
    base = pageaudit_text_of(base.bytes, base.length);
    return (enum pageaudit_status)pageaudit_lint(name.bytes, name.length, base.bytes, base.length, policy->ceiling,
        policy->keyings, groups.bytes, groups.length, room == 0 ? &none : lines, room, length == NULL ? &whole : length);
}

/* Finds the same, for programs: each finding is an object of JSON on a line of its own, as `pageaudit lint --format json`
   prints it. `name` is its "file". A later version may add keys to the object. */
static inline enum pageaudit_status pageaudit_lint_base_json(struct pageaudit_text name, struct pageaudit_text base,
    const struct pageaudit_policy *policy, char *lines, size_t room, size_t *length)
{
    struct pageaudit_text groups = pageaudit_groups_of(policy);
    char none;
    size_t whole;
    name = pageaudit_text_of(name.bytes, name.length);
    base = pageaudit_text_of(base.bytes, base.length);
    return (enum pageaudit_status)pageaudit_lint_json(name.bytes, name.length, base.bytes, base.length, policy->ceiling,
        policy->keyings, groups.bytes, groups.length, room == 0 ? &none : lines, room, length == NULL ? &whole : length);
}

/* Shows the screen of a frame, as `pageaudit show` does, for a caller in these groups, as "7,9".

   PAGEAUDIT_CLEAR if it is shown; PAGEAUDIT_FAULTY if the base has no such frame; PAGEAUDIT_BAD_POLICY if the groups are
   invalid. Without a screen codes and looks stay as they are.

   frame   its id, as "478a", or a page for its frame a, as "478"; null or "" for the entry frame
   codes   what the cells hold: 20 to 7F, and attributes from 80 to 9F; may be null
   looks   how they look; may be null
   line    the first fault of the base's text; may be null if room is 0
   length  the line's whole length; may be null */
static inline enum pageaudit_status pageaudit_show_frame(struct pageaudit_text base, const char *frame, const char *groups,
    uint8_t codes[PAGEAUDIT_CELLS], struct pageaudit_look looks[PAGEAUDIT_CELLS], char *line, size_t room, size_t *length)
{
    struct pageaudit_text id = pageaudit_text_of(frame, frame == NULL ? 0 : strlen(frame));
    struct pageaudit_text list = pageaudit_text_of(groups, groups == NULL ? 0 : strlen(groups));
    struct pageaudit_look no_look;
    char none;
    size_t whole;
    base = pageaudit_text_of(base.bytes, base.length);
    return (enum pageaudit_status)pageaudit_show(base.bytes, base.length, id.bytes, id.length, list.bytes, list.length,
        codes == NULL ? (void *)&none : (void *)codes, codes == NULL ? 0 : PAGEAUDIT_CELLS, looks == NULL ? &no_look : looks,
        looks == NULL ? 0 : PAGEAUDIT_CELLS, room == 0 ? &none : line, room, length == NULL ? &whole : length);
}

/* The words for an answer, as "bad text"; "" if the number is no answer. Nothing has to be freed. */
static inline const char *pageaudit_status_words(uint32_t status)
{
    switch (status) {
    case PAGEAUDIT_CLEAR:
        return "clear";
    case PAGEAUDIT_FAULTY:
        return "faulty";
    case PAGEAUDIT_BAD_POLICY:
        return "bad policy";
    case PAGEAUDIT_BAD_TEXT:
        return "bad text";
    case PAGEAUDIT_OUT_OF_MEMORY:
        return "out of memory";
    default:
        return "";
    }
}

/* The same words in a buffer, without a 0 at their end.

   text    gets the words, as far as they fit; may be null if room is 0
   Returns their whole length; 0 if the number is no answer. */
static inline size_t pageaudit_describe(uint32_t status, char *text, size_t room)
{
    char none;
    return pageaudit_status_text(status, room == 0 ? &none : text, room);
}

/* The functions above under the names of their calls. Their own names are those of version 1.0.0. */
#define pageaudit_check pageaudit_check_base
#define pageaudit_change pageaudit_check_change
#define pageaudit_audit pageaudit_audit_base
#define pageaudit_lint pageaudit_lint_base
#define pageaudit_lint_json pageaudit_lint_base_json
#define pageaudit_show pageaudit_show_frame
#define pageaudit_status_text pageaudit_describe

#ifdef __cplusplus
}
#endif
#endif
