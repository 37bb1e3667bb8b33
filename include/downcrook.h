/* Downcrook for C. Link target/staticlib/libdowncrook_c.a (x86-64), which `bin/library` makes.
 *
 * Every call is proved, and every length and every content is answered: nothing has to be tested first. An answer is a plain struct of numbers. Its refusal is 0
 * where the call did its work, else 1 to 11 with the place, and its other numbers are then 0. A refusal changes nothing that was lent.
 *
 * Packets in memory are three numbers each: size (bytes), arrival (seconds), deadline (seconds). Lent slices are a pointer and a length; the pointer of an empty
 * slice is not NULL. Sizes are in bytes, times in seconds, rates in bytes per second, costs in bytes per second, squared, times seconds.
 *
 * A length beside uint8_t is in bytes; a length beside uint64_t counts numbers of 8 bytes each. Slices lent to one call do not overlap, unless the call only
 * reads them. Numbers past the count of records or entries are not looked at.
 *
 * The refusals. The place is the index of the record or entry at fault for 4, 5, 6 and 10, counted from 0, else 0.
 *
 *      1  fewer bytes, or fewer lent records or entries, than the count calls for; also no byte to read the count from
 *      2  a packet count of 0 packets
 *      3  a packet count above 64 packets
 *      4  a size of 0 bytes, or above 65,535 bytes
 *      5  a deadline above 86,400 seconds
 *      6  an arrival (seconds) that is not below the deadline (seconds)
 *      7  a nonzero unused bit in the last byte
 *      8  the lent room is shorter than what must be written, a frame's head of 8 bytes included
 *      9  an entry count of 0 entries, or above 191 entries
 *     10  an entry with R of 0 bytes per second, D of 0 or above 86,400, a start above 86,399 seconds, or from not below to (units of 1/D byte); when a plan is
 *         written, also a number wider than its bits: packet 6 bits, R 22 bits, from and to 39 bits
 *     11  a cost of 2^44 or more (bytes per second, squared, times seconds), when a plan is written
 */
#ifndef DOWNCROOK_H
#define DOWNCROOK_H
#include <stddef.h>
#include <stdint.h>

/* What judging packets in memory comes to. */
struct downcrook_verdict {
    uint64_t refusal; /* 0: the packets are accepted; else 1 to 6 */
    uint64_t place;   /* the index of the record at fault for 4, 5 and 6, else 0 */
};

/* What reading a list comes to. */
struct downcrook_list {
    uint64_t refusal; /* 0: the list is accepted; else 1 to 8 */
    uint64_t place;   /* the index of the record at fault for 4, 5 and 6, else 0 */
    uint64_t packets; /* the packets of the list: 1 to 64 packets */
    uint64_t bytes;   /* what the list takes: 8 to 401 bytes; the next list starts behind them */
};

/* What writing a list or a plan comes to. */
struct downcrook_written {
    uint64_t refusal; /* 0: it is written; else 1 to 6 or 8 for a list, 1 or 8 to 11 for a plan */
    uint64_t place;   /* the index of the record or entry at fault for 4, 5, 6 and 10, else 0 */
    uint64_t bytes;   /* what is taken from the front of the lent room: 8 to 401 bytes by a list; 32 to 3,357 bytes by a plan, the head of 8 bytes included */
};

/* What working out the rates comes to. */
struct downcrook_rates {
    uint64_t refusal; /* 0: the rates are there; else 1 to 6 or 8 */
    uint64_t place;   /* the index of the record at fault for 4, 5 and 6, else 0 */
    uint64_t epochs;  /* the epochs of the packets: 1 to 127 epochs */
    uint64_t rounds;  /* the rounds of Densest Interval First: 1 to 64 rounds */
};

/* What making the timetables or a plan comes to. */
struct downcrook_plan {
    uint64_t refusal; /* 0: they are made; else 1 to 6 or 8, and 7 where a list is read */
    uint64_t place;   /* the index of the record at fault for 4, 5 and 6, else 0 */
    uint64_t rounds;  /* the rounds of Densest Interval First: 1 to 64 rounds */
    uint64_t entries; /* the entries, in time order: 1 to 191 entries */
    uint64_t cost;    /* the radio cost, below 2^44 bytes per second, squared, times seconds */
};

/* What reading a plan comes to. */
struct downcrook_entries {
    uint64_t refusal; /* 0: the plan is read; else 1 or 7 to 10 */
    uint64_t place;   /* the index of the entry at fault for 10, else 0 */
    uint64_t entries; /* the entries, as they stand in the plan: 1 to 191 entries */
    uint64_t cost;    /* the cost as it stands in the plan, below 2^44 bytes per second, squared, times seconds */
};

/* Plans the list at the front of the bytes: the plan goes into the frame from byte 8 on; its 8 head bytes and the bytes behind the plan stay as they were, and
 * a frame of 3,357 bytes always suffices. Refuses in this order: no bytes (1), 2, 3, 1, 7, then 4, 5, 6 of each record in turn, then 8 for the frame; bytes
 * behind the list are not looked at. */
struct downcrook_plan downcrook_plan_list(const uint8_t *list, size_t list_bytes, uint8_t *frame, size_t frame_bytes);

/* Judges packets in memory, three numbers a record: size (bytes), arrival (seconds), deadline (seconds). Refuses in this order: 2, 3, 1, then 4, 5, 6 of each
 * record in turn. */
struct downcrook_verdict downcrook_judge_packets(size_t count, const uint64_t *records, size_t numbers);

/* Tells what downcrook_read_list would answer for these bytes and room for so many numbers, and changes nothing. Refuses in this order: no bytes (1), 2, 3, 1,
 * 7, then 4, 5, 6 of each record in turn, then 8. */
struct downcrook_list downcrook_judge_list(const uint8_t *bytes, size_t length, size_t room);

/* Reads the list at the front of the bytes into the records, three numbers a packet: size (bytes), arrival (seconds), deadline (seconds); the numbers past the
 * last packet stay as they were, and room for 192 numbers always suffices. Refuses in this order: no bytes (1), 2, 3, 1, 7, then 4, 5, 6 of each record in
 * turn, then 8; bytes behind the list are not looked at and belong to the next list. */
struct downcrook_list downcrook_read_list(const uint8_t *bytes, size_t length, uint64_t *records, size_t numbers);

/* Writes packets in memory, three numbers each, as a list to the front of the bytes; the bytes behind the list stay as they were, and 401 bytes always
 * suffice. Refuses in this order: 2, 3, 1, then 4, 5, 6 of each record in turn, then 8. */
struct downcrook_written downcrook_write_list(size_t count, const uint64_t *records, size_t numbers, uint8_t *bytes, size_t length);

/* Works out the rate of every epoch of packets in memory and puts three numbers an epoch into the rates, in time order: start (seconds), N and D, for N/D
 * bytes per second in lowest terms, 0/1 for a silent epoch; the numbers past the last epoch stay as they were, and room for 381 numbers (127 epochs) always
 * suffices. Refuses in this order: 2, 3, 1, then 4, 5, 6 of each record in turn, then 8. */
struct downcrook_rates downcrook_epoch_rates(size_t count, const uint64_t *records, size_t numbers, uint64_t *rates, size_t rate_numbers);

/* Makes the exact and the radio timetable of packets in memory and puts seven numbers an entry into the entries, in time order: packet, epoch start (seconds),
 * R (bytes per second), D, from, to (units of 1/D byte from the epoch's start), N; offset x is reached x/N seconds after the epoch's start in the exact
 * timetable and x/(D times R) seconds after it in the radio timetable, the numbers past the last entry stay as they were, and room for 1,337 numbers (191
 * entries) always suffices. Refuses in this order: 2, 3, 1, then 4, 5, 6 of each record in turn, then 8. */
struct downcrook_plan downcrook_timetables(size_t count, const uint64_t *records, size_t numbers, uint64_t *entries, size_t entry_numbers);

/* Reads the plan in a frame, from byte 8 on, and puts six numbers an entry into the entries: packet, epoch start (seconds), R (bytes per second), D, from, to
 * (units of 1/D byte from the epoch's start); the numbers past the last entry stay as they were, and room for 1,146 numbers (191 entries) always suffices.
 * Refuses in this order: no count byte (1), 9, 1, 7, then 10 of each entry in turn, then 8; the head and the bytes behind the plan are not looked at, and the
 * plan is compared with no list. */
struct downcrook_entries downcrook_read_plan(const uint8_t *frame, size_t frame_bytes, uint64_t *entries, size_t numbers);

/* Writes entries in memory, six numbers each as downcrook_read_plan gives them, and their cost (bytes per second, squared, times seconds) as a plan into the
 * frame from byte 8 on; its 8 head bytes and the bytes behind the plan stay as they were, and a frame of 3,357 bytes always suffices. Refuses in this order:
 * 9, 1, 11, then 10 of each entry in turn, then 8 for the frame. */
struct downcrook_written downcrook_write_plan(size_t count, const uint64_t *entries, size_t numbers, uint64_t cost, uint8_t *frame, size_t frame_bytes);
#endif
