/* Plans three packets and prints the radio's timetable in seconds: the packets are written as a list, the list is planned into a frame, and the plan is read back
 * from the frame, as a radio driver would. Then two refusals. rust/plan.rs does the same in Rust; examples/plan.expected is what both print.
 *
 *     bin/library
 *     gcc -std=c11 -Iinclude -o plan examples/plan.c target/staticlib/libdowncrook_c.a
 */
#include "downcrook.h"
#include <inttypes.h>
#include <stdio.h>

enum {
    RECORD_NUMBERS = 3,   /* size (bytes), arrival (seconds), deadline (seconds) */
    ENTRY_NUMBERS = 6,    /* packet, epoch start (seconds), R (bytes per second), D, from, to (units of 1/D byte) */
    LIST_BYTES = 401,     /* holds any list (bytes) */
    FRAME_BYTES = 3357,   /* holds any plan, its head of 8 bytes included (bytes) */
    PLAN_NUMBERS = 1146   /* holds the entries of any plan (numbers) */
};

static void print_refusal(uint64_t number, uint64_t place) { printf("refused %" PRIu64 " %" PRIu64 "\n", number, place); }

/* Prints when the radio reaches an offset (units of 1/D byte) in an entry, in seconds rounded down to thousandths. */
static void print_time(const uint64_t *entry, uint64_t offset) {
    uint64_t start = entry[1], r = entry[2], d = entry[3];
    uint64_t thousandths = offset * 1000 / (d * r);
    printf("%" PRIu64 ".%03" PRIu64 " s", start + thousandths / 1000, thousandths % 1000);
}

static void print_entry(const uint64_t *entry) {
    printf("packet %" PRIu64 ": ", entry[0]);
    print_time(entry, entry[4]);
    printf(" to ");
    print_time(entry, entry[5]);
    printf(" at %" PRIu64 " bytes per second\n", entry[2]);
}

/* Plans a list and prints its timetable, or the refusal. */
static void plan(const uint8_t *list, size_t list_bytes) {
    uint8_t frame[FRAME_BYTES] = {0};
    uint64_t entries[PLAN_NUMBERS];
    struct downcrook_plan planned = downcrook_plan_list(list, list_bytes, frame, sizeof frame);
    if (planned.refusal != 0) {
        print_refusal(planned.refusal, planned.place);
        return;
    }
    struct downcrook_entries read = downcrook_read_plan(frame, sizeof frame, entries, PLAN_NUMBERS);
    if (read.refusal != 0) {
        print_refusal(read.refusal, read.place);
        return;
    }
    printf("%" PRIu64 " rounds, %" PRIu64 " entries, cost %" PRIu64 " (bytes per second, squared, times seconds)\n", planned.rounds, read.entries, read.cost);
    for (uint64_t i = 0; i < read.entries; i++)
        print_entry(entries + ENTRY_NUMBERS * i);
}

/* Writes packets as a list and plans it. */
static void plan_packets(size_t count, const uint64_t *records) {
    uint8_t list[LIST_BYTES];
    struct downcrook_written written = downcrook_write_list(count, records, RECORD_NUMBERS * count, list, sizeof list);
    if (written.refusal != 0) {
        print_refusal(written.refusal, written.place);
        return;
    }
    printf("%zu packets, a list of %" PRIu64 " bytes\n", count, written.bytes);
    plan(list, written.bytes);
}

int main(void) {
    /* size (bytes), arrival (seconds), deadline (seconds) */
    static const uint64_t records[] = {30, 0, 10, 40, 2, 6, 9, 8, 14};
    plan_packets(3, records);

    /* Refused: packet 1 arrives at its deadline. */
    static const uint64_t late[] = {30, 0, 10, 40, 6, 6};
    plan_packets(2, late);

    /* Refused: a list of 0 packets. */
    static const uint8_t none[] = {0};
    plan(none, sizeof none);
    return 0;
}
