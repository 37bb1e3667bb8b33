/* Lists of named kinds. First the packets of lists that have a plan, kind by kind; then faults in the bytes; then packets in memory. Sizes are in bytes, times in
 * seconds. Assumes that draw_seed came first.
 */
#include "kinds.h"
#include "draw.h"
#include <stdio.h>
#include <string.h>

static struct packet packet(uint64_t size, uint64_t arrival, uint64_t deadline) { return (struct packet){size, arrival, deadline}; }

static size_t draw_count(void) {
    switch (below(4)) {
    case 0: return between(1, 64);
    case 1: return one_in(2) ? MOST_PACKETS : between(32, 64);
    default: return between(1, 8);
    }
}

/* A part of the day: from its first second on so many seconds. */
struct day { uint64_t from, seconds; };

static struct day draw_day(uint64_t least) {
    static const uint64_t lengths[] = {2, 4, 12, 60, 600, 7200, 86400};
    uint64_t seconds = lengths[below(7)];
    if (seconds < least) seconds = least;
    return (struct day){one_in(2) ? 0 : below(LAST_SECOND - seconds + 1), seconds};
}

static uint64_t draw_size(void) {
    static const uint64_t largest[] = {1, 3, 20, 1000, LARGEST_SIZE};
    return between(1, largest[below(5)]);
}

static struct packet in_day(struct day day, uint64_t size) {
    uint64_t arrival = below(day.seconds), deadline = between(arrival + 1, day.seconds);
    return packet(size, day.from + arrival, day.from + deadline);
}

/* Any windows. */
static size_t any_of(size_t count, struct packet *packets) {
    struct day day = draw_day(1);
    uint64_t most = draw_size();
    for (size_t i = 0; i < count; i++) packets[i] = in_day(day, between(1, most));
    return count;
}

static size_t small(struct packet *packets) { return any_of(between(1, 8), packets); }

static size_t any(struct packet *packets) { return any_of(draw_count(), packets); }

static size_t full(struct packet *packets) { return any_of(MOST_PACKETS, packets); }

/* A block: so many seconds at so many bytes for each `unit` seconds, by one packet over the whole block and at times one inside it. Returns the packets. */
static size_t block(uint64_t from, uint64_t units, uint64_t unit, uint64_t bytes, struct packet *packets) {
    uint64_t seconds = units * unit, all = units * bytes;
    packets[0] = packet(all, from, from + seconds);
    if (seconds < 2 || all < 2 * seconds || one_in(2)) return 1;
    uint64_t start = below(seconds - 1), end = between(start + 1, seconds), part = between(1, all * (end - start) / seconds);
    if (part == all) return 1;
    packets[0].size -= part;
    packets[1] = packet(part, from + start, from + end);
    return 2;
}

/* Blocks of one density that touch or do not, here and there a denser block between them, and thin packets over several of them. */
static size_t equal_density(struct packet *packets) {
    size_t most = draw_count() + 2, count = 0;
    uint64_t unit = between(1, 4), bytes = between(1, 40), at = below(1000), first = at;
    if (most > MOST_PACKETS) most = MOST_PACKETS;
    while (count + 2 < most) {
        uint64_t units = between(1, 4);
        count += block(at, units, unit, one_in(4) ? 2 * bytes : bytes, packets + count);
        at += units * unit + (one_in(2) ? 0 : between(1, 3));
    }
    if (count && one_in(3)) packets[count++] = packet(between(1, 3), first, at);
    if (!count || one_in(3)) {
        uint64_t from = below(at + 1), until = at + between(1, 5);
        packets[count++] = packet(between(1, 3), from, until);
    }
    return count;
}

/* The same group again and again: a dense block in the middle of a wider window, so that the second level ties too. Groups touch, overlap or stand apart. */
static size_t equal_groups(struct packet *packets) {
    uint64_t margin = between(1, 3), dense = between(1, 3), wide = between(1, 30), size = between(1, 30), step = 2 * margin + dense + below(3);
    size_t groups = between(1, 32), count = 0;
    if (step > 2 && one_in(4)) step -= 1;
    for (size_t g = 0; g < groups; g++) {
        uint64_t from = g * step;
        packets[count++] = packet(wide, from, from + 2 * margin + dense);
        if (!one_in(8)) packets[count++] = packet(40 * dense + size * dense, from + margin, from + margin + dense);
    }
    return count;
}

/* Few different arrivals, few different deadlines, few different windows. */
static size_t equal_arrivals(struct packet *packets) {
    struct day day = draw_day(4);
    size_t count = draw_count();
    uint64_t most = draw_size(), arrival[3];
    for (size_t k = 0; k < 3; k++) arrival[k] = below(day.seconds);
    for (size_t i = 0; i < count; i++) {
        uint64_t a = arrival[below(3)], d = between(a + 1, day.seconds);
        packets[i] = packet(between(1, most), day.from + a, day.from + d);
    }
    return count;
}

static size_t equal_deadlines(struct packet *packets) {
    struct day day = draw_day(4);
    size_t count = draw_count();
    uint64_t most = draw_size(), deadline[3];
    for (size_t k = 0; k < 3; k++) deadline[k] = between(1, day.seconds);
    for (size_t i = 0; i < count; i++) {
        uint64_t d = deadline[below(3)], a = below(d);
        packets[i] = packet(between(1, most), day.from + a, day.from + d);
    }
    return count;
}

static size_t equal_windows(struct packet *packets) {
    struct day day = draw_day(1);
    struct packet window[3];
    size_t count = draw_count();
    uint64_t most = draw_size();
    for (size_t k = 0; k < 3; k++) window[k] = in_day(day, 1);
    for (size_t i = 0; i < count; i++) {
        packets[i] = window[below(3)];
        packets[i].size = between(1, most);
    }
    return count;
}

/* Each window inside the one before. */
static size_t nested(struct packet *packets) {
    size_t count = draw_count();
    uint64_t step = between(1, 600), from = below(100), until = from + 2 * count * step, most = draw_size();
    int inward = one_in(2);
    for (size_t i = 0; i < count; i++) {
        size_t at = inward ? i : count - 1 - i;
        packets[at] = packet(between(1, most), from, until);
        from += one_in(5) ? 0 : between(1, step);
        until -= one_in(5) ? 0 : between(1, step);
    }
    return count;
}

/* One window after the other, touching or with silence between. */
static size_t disjoint(struct packet *packets) {
    size_t count = draw_count();
    uint64_t at = below(100), longest = between(1, 600), most = draw_size();
    for (size_t i = 0; i < count; i++) {
        uint64_t until = at + between(1, longest);
        packets[i] = packet(between(1, most), at, until);
        at = until + (one_in(2) ? 0 : between(1, 600));
    }
    return count;
}

/* Crowds of windows, with silence between the crowds. */
static size_t silent_gaps(struct packet *packets) {
    size_t count = draw_count();
    uint64_t crowd = between(2, 200), gap = between(1, 1000), crowds = between(2, 8), most = draw_size();
    for (size_t i = 0; i < count; i++) {
        struct day day = {i % crowds * (crowd + gap), crowd};
        packets[i] = in_day(day, between(1, most));
    }
    return count;
}

/* Windows that begin one after the other and end in the same order. */
static size_t staircase(struct packet *packets) {
    size_t count = draw_count();
    uint64_t from = 0, until = between(1, 500), most = draw_size();
    for (size_t i = 0; i < count; i++) {
        packets[i] = packet(between(1, most), from, until);
        from += between(1, 300);
        until += between(1, 300);
        if (until <= from) until = from + 1;
    }
    return count;
}

/* The least and the largest of everything: one-second windows, the whole day, its first and its last seconds. */
static size_t extremes(struct packet *packets) {
    static const uint64_t corner[] = {0, 1, LAST_SECOND / 2, LAST_SECOND - 2, LAST_SECOND - 1};
    size_t count = draw_count();
    for (size_t i = 0; i < count; i++) {
        uint64_t arrival = corner[below(5)], deadline = LAST_SECOND;
        if (one_in(2)) deadline = arrival + 1;
        else if (one_in(2)) deadline = between(arrival + 1, LAST_SECOND);
        packets[i] = packet(one_in(2) ? 1 : LARGEST_SIZE, arrival, deadline);
        if (one_in(8)) packets[i] = packet(between(1, LARGEST_SIZE), 0, LAST_SECOND);
    }
    return count;
}

/* Many packets in very few seconds. */
static size_t short_day(struct packet *packets) {
    uint64_t from = below(LAST_SECOND - 5), seconds = between(1, 6);
    struct day day = {from, seconds};
    size_t count = draw_count();
    uint64_t most = one_in(2) ? 3 : draw_size();
    for (size_t i = 0; i < count; i++) packets[i] = in_day(day, between(1, most));
    return count;
}

/* So many different seconds below `seconds`, rising. Assumes that there are as many. */
static void different_seconds(uint64_t seconds, size_t count, uint64_t *second) {
    for (size_t have = 0; have < count;) {
        uint64_t t = below(seconds);
        size_t at = 0;
        while (at < have && second[at] < t) at++;
        if (at < have && second[at] == t) continue;
        memmove(second + at + 1, second + at, (have - at) * sizeof *second);
        second[at] = t;
        have++;
    }
}

/* One rate for a whole stretch: a large packet over all of it, and small ones inside that begin and end at seconds of their own, nested or anyhow. Each packet and
 * nearly each epoch then ends an entry. */
static void crowd(struct day day, size_t count, struct packet *packets) {
    uint64_t second[2 * MOST_PACKETS], size = between(40000, LARGEST_SIZE);
    size_t inner = count - 1, points = 2 * inner;
    different_seconds(day.seconds - 1, points, second);
    int inside = one_in(2);
    for (size_t i = 0; i < inner; i++) {
        uint64_t a = second[i], d = second[inside ? points - 1 - i : i + inner];
        packets[i] = packet(between(1, 1 + size / day.seconds * (d - a) / 100), day.from + a + 1, day.from + d + 1);
    }
    packets[inner] = packet(size, day.from, day.from + day.seconds + 1);
}

static size_t many_entries(struct packet *packets) {
    size_t count = between(54, 64);
    uint64_t from = below(1000), seconds = between(200, 2000);
    crowd((struct day){from, seconds}, count, packets);
    return count;
}

/* Two such stretches, touching or not, each with a rate of its own. */
static size_t many_entries_twice(struct packet *packets) {
    size_t count = between(27, 32);
    uint64_t gap = one_in(2) ? 0 : between(1, 50);
    crowd((struct day){0, 1999}, count, packets);
    crowd((struct day){2000 + gap, between(200, 1500)}, count, packets + count);
    return 2 * count;
}

static const struct { const char *name; size_t (*packets)(struct packet *); } kinds[] = {
    {"small", small}, {"any windows", any}, {"full", full}, {"equal density", equal_density}, {"equal groups", equal_groups},
    {"equal arrivals", equal_arrivals}, {"equal deadlines", equal_deadlines}, {"equal windows", equal_windows}, {"nested", nested},
    {"disjoint", disjoint}, {"silent gaps", silent_gaps}, {"staircase", staircase}, {"extremes", extremes}, {"short day", short_day},
    {"many entries", many_entries}, {"many entries twice", many_entries_twice},
};

static void shuffle(size_t count, struct packet *packets) {
    for (size_t i = count; i > 1; i--) {
        size_t j = below(i);
        struct packet kept = packets[i - 1];
        packets[i - 1] = packets[j];
        packets[j] = kept;
    }
}

/* Faults in the bytes of a list. */

static void spoil_record(struct packet *record) {
    switch (below(4)) {
    case 0: record->size = 0; break;
    case 1: record->deadline = one_in(2) ? LAST_SECOND + 1 : between(LAST_SECOND + 1, 131071); break;
    case 2: record->arrival = record->deadline; break;
    default: record->arrival = between(record->deadline, 131071); break;
    }
}

static void name_fault(char *kind, const char *fault) {
    strcat(kind, ", ");
    strcat(kind, fault);
}

enum fault { RECORDS, COUNT, UNUSED_BIT, CUT, FLIPPED, RANDOM, FAULTS };

/* The faults of one list: one for certain, each other once in eight times. */
static unsigned draw_faults(void) {
    unsigned faults = 1u << (one_in(2) ? RECORDS : below(FAULTS));
    for (unsigned fault = RECORDS; fault < RANDOM; fault++)
        if (one_in(8)) faults |= 1u << fault;
    return faults;
}

static void spoil_bytes(struct drawn *drawn, unsigned faults) {
    if (faults >> UNUSED_BIT & 1) {
        name_fault(drawn->kind, "unused bit");
        size_t unused = 8 * second_list_bytes(drawn->count) - 7 - 50 * drawn->count;
        drawn->bytes[second_list_bytes(drawn->count) - 1] |= (uint8_t)(1u << below(unused));
    }
    if (faults >> FLIPPED & 1) {
        name_fault(drawn->kind, "flipped bits");
        for (size_t flips = between(1, 3); flips; flips--) {
            size_t at = below(8 * drawn->length);
            drawn->bytes[at / 8] ^= (uint8_t)(1u << at % 8);
        }
    }
    if (faults >> CUT & 1) {
        name_fault(drawn->kind, "cut");
        drawn->length = one_in(3) ? second_list_bytes(drawn->count) - 1 : one_in(3) ? below(2) : below(drawn->length + 1);
    }
    if (faults >> RANDOM & 1) {
        name_fault(drawn->kind, "random bytes");
        drawn->length = below(MOST_DRAWN_BYTES + 1);
        draw_bytes(drawn->bytes, drawn->length);
    }
}

void draw_list(struct drawn *drawn) {
    size_t kind = below(sizeof kinds / sizeof *kinds);
    unsigned faults = one_in(3) ? draw_faults() : 0;
    strcpy(drawn->kind, kinds[kind].name);
    drawn->count = kinds[kind].packets(drawn->packet);
    if (!one_in(4)) shuffle(drawn->count, drawn->packet);
    uint64_t told = drawn->count;
    if (faults >> RECORDS & 1) {
        name_fault(drawn->kind, "records");
        for (size_t spoilt = between(1, 3); spoilt; spoilt--) spoil_record(&drawn->packet[draw_place(drawn->count)]);
    }
    if (faults >> COUNT & 1) {
        name_fault(drawn->kind, "count");
        told = one_in(2) ? 0 : one_in(2) ? 65 : between(65, 127);
    }
    draw_bytes(drawn->bytes, MOST_DRAWN_BYTES);
    drawn->length = second_raw_list(drawn->count, drawn->packet, told, drawn->bytes);
    if (one_in(2)) drawn->length += below(40);
    spoil_bytes(drawn, faults);
}

/* Packets in memory. */

static void name_memory(struct memory *memory) {
    sprintf(memory->kind, "packets in memory, count %zu, %zu numbers of 8 bytes lent", memory->count, memory->numbers);
}

void keep_memory(size_t count, const struct packet *packets, struct memory *memory) {
    for (size_t i = 0; i < MOST_DRAWN_NUMBERS; i++) memory->record[i] = one_in(2) ? draw() : below(3);
    memcpy(memory->record, packets, count * sizeof *packets);
    memory->count = count;
    memory->numbers = 3 * count + (one_in(2) ? 0 : below(9));
    name_memory(memory);
}

static uint64_t wrong_size(uint64_t size) {
    const uint64_t sizes[] = {0, LARGEST_SIZE + 1, 1 << 17, UINT64_C(1) << 32, (UINT64_C(1) << 32) + size, (UINT64_C(1) << 63) + size, UINT64_MAX};
    return sizes[below(7)];
}

static uint64_t wrong_time(uint64_t seconds) {
    const uint64_t times[] = {LAST_SECOND, LAST_SECOND + 1, (1 << 17) + seconds, (UINT64_C(1) << 32) + seconds, (UINT64_C(1) << 63) + seconds, UINT64_MAX};
    return times[below(6)];
}

void spoil_memory(size_t count, const struct packet *packets, struct memory *memory) {
    keep_memory(count, packets, memory);
    for (size_t spoilt = below(3); spoilt; spoilt--) {
        uint64_t *record = memory->record + 3 * draw_place(count);
        switch (below(4)) {
        case 0: record[0] = wrong_size(record[0]); break;
        case 1: record[1] = wrong_time(record[1]); break;
        case 2: record[1] = record[2]; break;
        default: record[2] = wrong_time(record[2]); break;
        }
    }
    if (one_in(4)) {
        const size_t counts[] = {0, 0, 65, 65, 127, ((size_t)1 << 32) + count, (size_t)1 << 63, ((size_t)1 << 63) + count, SIZE_MAX, count < 64 ? count + 1 : 64};
        memory->count = counts[below(10)];
    }
    if (one_in(4)) memory->numbers = one_in(2) ? 3 * count - between(1, 3) : below(3 * count);
    name_memory(memory);
}
