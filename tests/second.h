/* A second planner, written from document 01 alone and from no line of the library. Each call answers as the library's call of the same name has to, in the
 * same structs; see include/downcrook.h. What it assumes: the pointers lead to as much memory as the lengths say. See second.c for how it works.
 */
#ifndef SECOND_H
#define SECOND_H
#include "downcrook.h"

enum {
    MOST_PACKETS = 64,
    MOST_EPOCHS = 127,
    MOST_ENTRIES = 191,
    HEAD_BYTES = 8,
    LAST_SECOND = 86400,
    LARGEST_SIZE = 65535,  /* bytes */
    MOST_LIST_BYTES = 401,
    MOST_FRAME_BYTES = 3357,
    MOST_TEXT = 16384      /* characters: 192 lines of at most 70 */
};

struct fraction { uint64_t over, under; };

/* Below zero, zero or above: x against y, exactly. */
int fraction_against(struct fraction x, struct fraction y);
struct fraction fraction_lowest(struct fraction x);
uint64_t fraction_rounded_up(struct fraction x);

/* A packet: size in bytes, arrival and deadline in seconds. */
struct packet { uint64_t size, arrival, deadline; };

/* What the rounds find for a list. Points are in seconds, fractions in bytes per second and lowest terms; a silent epoch has 0/1. */
struct rates {
    size_t epochs, rounds;
    size_t tied;     /* levels, all epochs of one fraction, that take two rounds or more */
    size_t touching; /* points inside one round's interval that no packet of the round reaches across */
    uint64_t point[MOST_EPOCHS + 1];
    struct fraction epoch[MOST_EPOCHS], packet[MOST_PACKETS];
};

void second_rates(size_t count, const struct packet *packets, struct rates *rates);

/* How many bytes a list of so many packets takes, and a frame with a plan of so many entries, its head included. */
size_t second_list_bytes(size_t packets);
size_t second_frame_bytes(size_t entries);

struct downcrook_plan second_plan_list(const uint8_t *list, size_t list_bytes, uint8_t *frame, size_t frame_bytes);
struct downcrook_verdict second_judge_packets(size_t count, const uint64_t *records, size_t numbers);
struct downcrook_list second_judge_list(const uint8_t *bytes, size_t length, size_t room);
struct downcrook_list second_read_list(const uint8_t *bytes, size_t length, uint64_t *records, size_t numbers);
struct downcrook_written second_write_list(size_t count, const uint64_t *records, size_t numbers, uint8_t *bytes, size_t length);
struct downcrook_rates second_epoch_rates(size_t count, const uint64_t *records, size_t numbers, uint64_t *rates, size_t rate_numbers);
struct downcrook_plan second_timetables(size_t count, const uint64_t *records, size_t numbers, uint64_t *entries, size_t entry_numbers);
struct downcrook_entries second_read_plan(const uint8_t *frame, size_t frame_bytes, uint64_t *entries, size_t numbers);
struct downcrook_written second_write_plan(size_t count, const uint64_t *entries, size_t numbers, uint64_t cost, uint8_t *frame, size_t frame_bytes);

/* What the program prints for these bytes on its standard input, with a zero behind it, in at most MOST_TEXT characters. Returns how many it prints. */
size_t second_text(const uint8_t *list, size_t list_bytes, char *text);

/* The bytes of a list whose fields are taken as they are, each cut to its width: also of a list that breaks the rules. Count is the packets given, `told` the
 * count that is put in front. Returns the bytes. */
size_t second_raw_list(size_t count, const struct packet *packets, uint64_t told, uint8_t *bytes);

/* The same for a plan behind the head of a frame: six numbers an entry. Returns the frame's bytes. */
size_t second_raw_plan(size_t count, const uint64_t *entries, uint64_t told, uint64_t cost, uint8_t *frame);
#endif
