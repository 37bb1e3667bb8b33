/* The library's plan writer and plan reader beside the second planner's, on plans that no planner would make: `plans [COUNT [SEED]]`. Each trial writes one plan from
 * memory and reads one frame. Answers, every lent byte and the guard bytes are compared; what was written is read back, and what was read is written again.
 * At the end the classes are counted, and each must have its quota. Ends with status 1 at the first difference. Assumes no more than the library's header.
 */
#include "classes.h"
#include "draw.h"
#include "lent.h"
#include "second.h"
#include <stdio.h>
#include <stdlib.h>
#include <string.h>

enum { NUMBERS = 6, PACKET = 0, START, R, D, FROM, TO, MOST_NUMBERS = NUMBERS * MOST_ENTRIES + 8, MOST_BYTES = MOST_FRAME_BYTES + 64 };

enum { WRITTEN, WRITTEN_191, WRITE_1, WRITE_8, WRITE_9, WRITE_10, WRITE_10_LATER, WRITE_11, TOP_COST, READ, READ_191, READ_1, READ_7, READ_8, READ_9, READ_10,
    READ_10_LATER, BELOW_COUNT, CLASSES };

static struct class classes[CLASSES] = {
    [WRITTEN] = {"plans written", 2500, 0},
    [WRITTEN_191] = {"plans of 191 entries written", 300, 0},
    [WRITE_1] = {"writing, refusal 1", 300, 0},
    [WRITE_8] = {"writing, refusal 8", 300, 0},
    [WRITE_9] = {"writing, refusal 9", 300, 0},
    [WRITE_10] = {"writing, refusal 10 at place 0", 300, 0},
    [WRITE_10_LATER] = {"writing, refusal 10 at a place above 0", 300, 0},
    [WRITE_11] = {"writing, refusal 11", 300, 0},
    [TOP_COST] = {"plans written with cost 2^44 - 1", 100, 0},
    [READ] = {"plans read", 2000, 0},
    [READ_191] = {"plans of 191 entries read", 300, 0},
    [READ_1] = {"reading, refusal 1", 300, 0},
    [READ_7] = {"reading, refusal 7", 100, 0},
    [READ_8] = {"reading, refusal 8", 300, 0},
    [READ_9] = {"reading, refusal 9", 300, 0},
    [READ_10] = {"reading, refusal 10 at place 0", 300, 0},
    [READ_10_LATER] = {"reading, refusal 10 at a place above 0", 300, 0},
    [BELOW_COUNT] = {"reading, frames of 0 to 8 bytes", 100, 0},
};

/* A plan in memory: so many entries are told, so many numbers lent. */
struct plan {
    size_t entries, told, numbers;
    uint64_t cost, number[MOST_NUMBERS];
};

static uint64_t top(unsigned bits) { return (UINT64_C(1) << bits) - 1; }

/* The least, the most, or any number between. */
static uint64_t any_from(uint64_t least, uint64_t most) {
    switch (below(4)) {
    case 0: return least;
    case 1: return most;
    default: return between(least, most);
    }
}

/* An entry that breaks no rule. */
static void draw_entry(uint64_t *entry) {
    entry[PACKET] = any_from(0, 63);
    entry[START] = any_from(0, LAST_SECOND - 1);
    entry[R] = any_from(1, top(22));
    entry[D] = any_from(1, LAST_SECOND);
    entry[FROM] = any_from(0, top(39) - 1);
    entry[TO] = any_from(entry[FROM] + 1, top(39));
}

/* An entry that breaks a rule, in a way that the wire can carry. */
static void spoil_entry(uint64_t *entry) {
    switch (below(6)) {
    case 0: entry[R] = 0; break;
    case 1: entry[D] = 0; break;
    case 2: entry[D] = any_from(LAST_SECOND + 1, top(17)); break;
    case 3: entry[START] = any_from(LAST_SECOND, top(17)); break;
    case 4: entry[FROM] = entry[TO]; break;
    default: entry[FROM] = any_from(entry[TO], top(39)); break;
    }
}

/* A field wider than its bits; its low bits may be all right. */
static void widen_entry(uint64_t *entry) {
    static const unsigned width[NUMBERS] = {6, 17, 22, 17, 39, 39};
    size_t k = below(NUMBERS);
    const uint64_t more[] = {UINT64_C(1) << width[k], UINT64_C(1) << between(width[k], 63), UINT64_C(1) << 63};
    entry[k] = one_in(4) ? UINT64_MAX : entry[k] + more[below(3)];
    if (k == FROM && one_in(2)) entry[TO] = UINT64_MAX;
}

static uint64_t *some_entry(struct plan *plan) { return plan->number + NUMBERS * draw_place(plan->entries); }

static void draw_plan(struct plan *plan) {
    static const size_t most[] = {5, 40, MOST_ENTRIES};
    plan->entries = plan->told = one_in(4) ? MOST_ENTRIES : between(1, most[below(3)]);
    for (size_t i = 0; i < MOST_NUMBERS; i++) plan->number[i] = draw();
    for (size_t i = 0; i < plan->entries; i++) draw_entry(plan->number + NUMBERS * i);
    plan->numbers = NUMBERS * plan->entries + (one_in(2) ? 0 : below(9));
    plan->cost = any_from(0, top(44));
}

/* Faults of a plan in memory, often several. */
static void spoil_plan(struct plan *plan) {
    size_t entries = plan->entries;
    const size_t told[] = {0, 192, 255, 256 + entries, ((size_t)1 << 32) + entries, (size_t)1 << 63, ((size_t)1 << 63) + entries, SIZE_MAX, between(192, 400)};
    const uint64_t costs[] = {top(44) + 1, top(44) + 2, (top(44) + 1) * 2, (UINT64_C(1) << 63) + plan->cost, UINT64_MAX};
    if (one_in(5)) plan->told = told[below(9)];
    if (one_in(8) && entries < MOST_ENTRIES) plan->told = between(entries + 1, MOST_ENTRIES);
    if (one_in(6)) plan->numbers = one_in(2) ? NUMBERS * entries - between(1, 6) : below(NUMBERS * entries);
    if (one_in(5)) plan->cost = costs[below(5)];
    for (size_t spoilt = one_in(2) ? 0 : between(1, 3); spoilt; spoilt--) {
        if (one_in(2)) spoil_entry(some_entry(plan));
        else widen_entry(some_entry(plan));
    }
}

static struct downcrook_written check_write(const struct plan *plan, const struct lent *numbers, size_t room) {
    struct lent frame = lend_drawn(room);
    uint64_t back[MOST_NUMBERS];
    struct downcrook_written got = downcrook_write_plan(plan->told, (uint64_t *)numbers->library, plan->numbers, plan->cost, frame.library, room);
    struct downcrook_written want = second_write_plan(plan->told, (uint64_t *)numbers->second, plan->numbers, plan->cost, frame.second, room);
    hold_answers("write_plan", &got, &want, sizeof got);
    hold_written("write_plan", &frame, got.refusal);
    hold_unchanged("write_plan", numbers);
    if (!got.refusal) {
        struct downcrook_entries read = downcrook_read_plan(frame.library, room, back, NUMBERS * plan->told);
        if (read.refusal || read.entries != plan->told || read.cost != plan->cost) differs("read_plan", "the answer for what was written is not its entries and its cost");
        if (memcmp(back, plan->number, NUMBERS * plan->told * sizeof *back)) differs("read_plan", "the entries that were written do not come back");
    }
    take_back(&frame);
    return got;
}

static void classify_write(const struct plan *plan, struct downcrook_written answer) {
    static const int class[12] = {[1] = WRITE_1, [8] = WRITE_8, [9] = WRITE_9, [10] = WRITE_10, [11] = WRITE_11};
    if (answer.refusal) {
        classes[class[answer.refusal] + (answer.refusal == 10 && answer.place > 0)].count++;
        return;
    }
    classes[WRITTEN].count++;
    classes[WRITTEN_191].count += plan->told == MOST_ENTRIES;
    classes[TOP_COST].count += plan->cost == top(44);
}

/* A plan from memory; where the frame drawn is too short, again with the exact one. */
static void try_writing(void) {
    static struct plan plan;
    char kind[120];
    draw_plan(&plan);
    if (one_in(2)) spoil_plan(&plan);
    sprintf(kind, "a plan in memory, count %zu, cost %llu, %zu numbers of 8 bytes lent", plan.told, (unsigned long long)plan.cost, plan.numbers);
    set_subject(kind, plan.number, plan.numbers * sizeof *plan.number);
    struct lent numbers = lend(plan.number, plan.numbers * sizeof *plan.number);
    size_t exact = second_frame_bytes(plan.entries);
    struct downcrook_written answer = check_write(&plan, &numbers, draw_room(exact));
    classify_write(&plan, answer);
    if (answer.refusal == 8) check_write(&plan, &numbers, exact);
    take_back(&numbers);
}

/* Faults of a frame. Returns its length. */
static size_t spoil_frame(const struct plan *plan, uint8_t *frame) {
    size_t exact = second_frame_bytes(plan->entries);
    if (one_in(4)) frame[exact - 1] |= (uint8_t)(1u << below(4)); /* the last bit of an odd plan's last entry, an unused bit of an even plan */
    if (one_in(8)) draw_bytes(frame + HEAD_BYTES, MOST_BYTES - HEAD_BYTES);
    if (one_in(8)) frame[HEAD_BYTES] = (uint8_t)between(1, 3);
    if (one_in(5)) frame[HEAD_BYTES] = (uint8_t)(one_in(2) ? 0 : between(192, 255));
    if (one_in(4)) return one_in(3) ? exact - 1 : below(one_in(2) ? 9 : exact);
    return exact + (one_in(2) ? 0 : below(64));
}

/* What was read, written again into a frame of the same length, leaves the same bytes. */
static void check_again(const struct lent *frame, struct downcrook_entries answer, const uint64_t *entries) {
    struct lent again = lend_drawn(frame->bytes);
    size_t exact = second_frame_bytes(answer.entries);
    struct downcrook_written written = downcrook_write_plan(answer.entries, entries, NUMBERS * answer.entries, answer.cost, again.library, again.bytes);
    if (written.refusal) differs("write_plan", "a plan that was read is refused");
    if (memcmp(again.library + HEAD_BYTES, frame->kept + HEAD_BYTES, exact - HEAD_BYTES)) differs("write_plan", "the bytes that were read do not come back");
    if (memcmp(again.library, again.kept, HEAD_BYTES)) differs("write_plan", "the head changed");
    if (memcmp(again.library + exact, again.kept + exact, again.bytes - exact)) differs("write_plan", "a byte behind the plan changed");
    take_back(&again);
}

static struct downcrook_entries check_read(const struct lent *frame, size_t room) {
    struct lent entries = lend_drawn(room * sizeof(uint64_t));
    struct downcrook_entries got = downcrook_read_plan(frame->library, frame->bytes, (uint64_t *)entries.library, room);
    struct downcrook_entries want = second_read_plan(frame->second, frame->bytes, (uint64_t *)entries.second, room);
    hold_answers("read_plan", &got, &want, sizeof got);
    hold_written("read_plan", &entries, got.refusal);
    hold_unchanged("read_plan", frame);
    if (!got.refusal) check_again(frame, got, (uint64_t *)entries.library);
    take_back(&entries);
    return got;
}

static void classify_read(struct downcrook_entries answer, size_t frame_bytes) {
    static const int class[12] = {[1] = READ_1, [7] = READ_7, [8] = READ_8, [9] = READ_9, [10] = READ_10};
    classes[BELOW_COUNT].count += frame_bytes <= HEAD_BYTES;
    if (answer.refusal) {
        classes[class[answer.refusal] + (answer.refusal == 10 && answer.place > 0)].count++;
        return;
    }
    classes[READ].count++;
    classes[READ_191].count += answer.entries == MOST_ENTRIES;
}

/* A frame; where the room drawn is too short, again with the exact one. */
static void try_reading(void) {
    static struct plan plan;
    static uint8_t bytes[MOST_BYTES];
    draw_plan(&plan);
    for (size_t spoilt = one_in(3) ? between(1, 3) : 0; spoilt; spoilt--) spoil_entry(some_entry(&plan));
    draw_bytes(bytes, sizeof bytes);
    size_t exact = second_raw_plan(plan.entries, plan.number, plan.entries, plan.cost, bytes);
    size_t length = one_in(2) ? spoil_frame(&plan, bytes) : exact + (one_in(2) ? 0 : below(64));
    set_subject("a frame", bytes, length);
    struct lent frame = lend(bytes, length);
    struct downcrook_entries answer = check_read(&frame, draw_room(NUMBERS * plan.entries));
    classify_read(answer, length);
    if (answer.refusal == 8) check_read(&frame, NUMBERS * (size_t)bytes[HEAD_BYTES]);
    take_back(&frame);
}

int main(int argc, char **argv) {
    long count = argc > 1 ? atol(argv[1]) : 20000;
    uint64_t seed = argc > 2 ? strtoull(argv[2], NULL, 10) : 1;
    draw_seed(seed);
    for (long number = 0; number < count; number++) {
        try_writing();
        try_reading();
    }
    printf("plans: %ld plans written and %ld frames read, seed %llu: library and second planner agree\n", count, count, (unsigned long long)seed);
    return classes_hold(classes, CLASSES, count) ? 0 : 1;
}
