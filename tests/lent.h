/* Memory that is lent to the library and, the same bytes again, to the second planner; and the comparison of what comes back. Guard bytes stand close before and
 * close behind each lent part. Where something differs, the report says in what, and the run ends with status 1. Assumes that memory can be had.
 */
#ifndef LENT_H
#define LENT_H
#include <stddef.h>
#include <stdint.h>

enum { GUARD_BYTES = 64 };

/* Three parts of one content: lent to the library, lent to the second planner, and kept. */
struct lent {
    size_t bytes;
    uint8_t *library, *second, *kept;
};

/* Lends so many bytes, drawn at random, or these bytes. */
struct lent lend_drawn(size_t bytes);
struct lent lend(const void *content, size_t bytes);
void take_back(struct lent *lent);

/* What is being compared: a name and some bytes, shown by a report. The bytes have to stay until the next subject. */
void set_subject(const char *kind, const void *bytes, size_t length);
__attribute__((noreturn)) void differs(const char *call, const char *what);

/* Two answers of the same call, structs of 64-bit numbers whose first is the refusal. */
void hold_answers(const char *call, const void *library, const void *second, size_t bytes);

/* What was lent to be written: guards as they were, the part as the second planner has it, and after a refusal as it was. */
void hold_written(const char *call, const struct lent *lent, uint64_t refusal);

/* What was lent to be read: as it was. */
void hold_unchanged(const char *call, const struct lent *lent);
#endif
