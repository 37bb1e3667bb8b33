/* Draws by a seed: the same seed gives the same draws on every machine. Assumes that draw_seed comes first. */
#ifndef DRAW_H
#define DRAW_H
#include <stddef.h>
#include <stdint.h>

void draw_seed(uint64_t seed);

/* 64 bits, each as likely 0 as 1. */
uint64_t draw(void);

/* A number below n, which is above 0. */
uint64_t below(uint64_t n);

/* A number from low to high, both included. */
uint64_t between(uint64_t low, uint64_t high);

/* True once in n draws, n above 0. */
int one_in(uint64_t n);

/* A place among so many, which are above 0: the first, the last, or any. */
size_t draw_place(size_t count);

/* A room for something that takes `exact`: exact, one short, far short, below 8, or more. */
size_t draw_room(size_t exact);

/* Bytes at random. */
void draw_bytes(uint8_t *bytes, size_t length);
#endif
