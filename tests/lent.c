/* Lent memory with guard bytes, and the report of a difference. Assumes that memory can be had. */
#include "lent.h"
#include "draw.h"
#include <stdio.h>
#include <stdlib.h>
#include <string.h>

static struct { const char *kind; const uint8_t *bytes; size_t length; } subject = {"nothing yet", NULL, 0};

static uint8_t *guarded(size_t bytes) {
    uint8_t *whole = malloc(bytes + 2 * GUARD_BYTES);
    if (!whole) {
        puts("no memory");
        exit(2);
    }
    return whole + GUARD_BYTES;
}

static uint8_t *copy_of(const struct lent *lent) {
    uint8_t *copy = guarded(lent->bytes);
    memcpy(copy - GUARD_BYTES, lent->kept - GUARD_BYTES, lent->bytes + 2 * GUARD_BYTES);
    return copy;
}

static struct lent lend_content(const void *content, size_t bytes) {
    struct lent lent = {.bytes = bytes, .kept = guarded(bytes)};
    draw_bytes(lent.kept - GUARD_BYTES, bytes + 2 * GUARD_BYTES);
    if (content) memcpy(lent.kept, content, bytes);
    lent.library = copy_of(&lent);
    lent.second = copy_of(&lent);
    return lent;
}

struct lent lend_drawn(size_t bytes) { return lend_content(NULL, bytes); }

struct lent lend(const void *content, size_t bytes) { return lend_content(content, bytes); }

void take_back(struct lent *lent) {
    free(lent->library - GUARD_BYTES);
    free(lent->second - GUARD_BYTES);
    free(lent->kept - GUARD_BYTES);
}

void set_subject(const char *kind, const void *bytes, size_t length) {
    subject.kind = kind;
    subject.bytes = bytes;
    subject.length = length;
}

void differs(const char *call, const char *what) {
    printf("%s: %s\nkind: %s\n%zu bytes:", call, what, subject.kind, subject.length);
    for (size_t i = 0; i < subject.length; i++) printf(" %02x", subject.bytes[i]);
    puts("");
    exit(1);
}

static void show_numbers(const char *who, const uint64_t *numbers, size_t count) {
    printf("%s answers", who);
    for (size_t i = 0; i < count; i++) printf(" %llu", (unsigned long long)numbers[i]);
    puts("");
}

void hold_answers(const char *call, const void *library, const void *second, size_t bytes) {
    if (!memcmp(library, second, bytes)) return;
    show_numbers("the library", library, bytes / sizeof(uint64_t));
    show_numbers("the second planner", second, bytes / sizeof(uint64_t));
    differs(call, "the answers differ");
}

void hold_written(const char *call, const struct lent *lent, uint64_t refusal) {
    if (memcmp(lent->library - GUARD_BYTES, lent->kept - GUARD_BYTES, GUARD_BYTES)) differs(call, "a guard byte before the lent part changed");
    if (memcmp(lent->library + lent->bytes, lent->kept + lent->bytes, GUARD_BYTES)) differs(call, "a guard byte behind the lent part changed");
    if (refusal && memcmp(lent->library, lent->kept, lent->bytes)) differs(call, "a refusal changed a lent byte");
    if (!memcmp(lent->library, lent->second, lent->bytes)) return;
    size_t at = 0;
    while (lent->library[at] == lent->second[at]) at++;
    printf("lent byte %zu of %zu: was %02x, library %02x, second planner %02x\n", at, lent->bytes, lent->kept[at], lent->library[at], lent->second[at]);
    differs(call, "the bytes written differ");
}

void hold_unchanged(const char *call, const struct lent *lent) {
    if (memcmp(lent->library - GUARD_BYTES, lent->kept - GUARD_BYTES, lent->bytes + 2 * GUARD_BYTES)) differs(call, "what was lent to be read changed");
}
