/* Draws by a seed: a counter that grows by an odd step, mixed by two multiplications. Assumes nothing. */
#include "draw.h"

static uint64_t counter;

void draw_seed(uint64_t seed) { counter = seed; }

uint64_t draw(void) {
    uint64_t mixed = counter += UINT64_C(0x9e3779b97f4a7c15);
    mixed = (mixed ^ mixed >> 30) * UINT64_C(0xbf58476d1ce4e5b9);
    mixed = (mixed ^ mixed >> 27) * UINT64_C(0x94d049bb133111eb);
    return mixed ^ mixed >> 31;
}

uint64_t below(uint64_t n) { return draw() % n; }

uint64_t between(uint64_t low, uint64_t high) { return low + below(high - low + 1); }

int one_in(uint64_t n) { return below(n) == 0; }

size_t draw_place(size_t count) {
    const size_t places[] = {0, count - 1, below(count)};
    return places[below(3)];
}

size_t draw_room(size_t exact) {
    switch (below(12)) {
    case 0: return below(8);
    case 1: return below(exact + 1);
    case 2:
    case 3: return exact ? exact - 1 : 0;
    case 4:
    case 5:
    case 6: return exact + between(1, 60);
    default: return exact;
    }
}

void draw_bytes(uint8_t *bytes, size_t length) {
    for (size_t i = 0; i < length;) {
        uint64_t eight = draw();
        for (int k = 0; k < 8 && i < length; k++, eight >>= 8) bytes[i++] = (uint8_t)eight;
    }
}
