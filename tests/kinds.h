/* Lists of named kinds, drawn by the seed: lists to be planned, lists that break rules, and packets in memory. Assumes that draw_seed came first. */
#ifndef KINDS_H
#define KINDS_H
#include "second.h"

enum { MOST_DRAWN_BYTES = 512, MOST_DRAWN_NUMBERS = 3 * MOST_PACKETS + 8 };

/* A list: the packets that were drawn, and the bytes that came of them, damaged or not, with bytes behind the list or not. */
struct drawn {
    char kind[200];
    size_t count;
    struct packet packet[MOST_PACKETS];
    size_t length;
    uint8_t bytes[MOST_DRAWN_BYTES];
};

void draw_list(struct drawn *drawn);

/* Packets in memory: a count, and so many numbers lent. They may break every rule. */
struct memory {
    char kind[200];
    size_t count, numbers;
    uint64_t record[MOST_DRAWN_NUMBERS];
};

/* The packets as they are, with any numbers behind them. */
void keep_memory(size_t count, const struct packet *packets, struct memory *memory);

/* The same with faults. */
void spoil_memory(size_t count, const struct packet *packets, struct memory *memory);
#endif
