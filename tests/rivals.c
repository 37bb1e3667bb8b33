/* Rivals of the library's exact timetable: `rivals [COUNT [SEED]]`. For COUNT lists, small ones and full ones over short days, rivals are drawn: anyhow, evenly, all
 * in one slot, and close to the exact timetable. Each is held to its windows and its sizes, and its cost (bytes per second, squared, times seconds) is worked out
 * exactly. No rival may cost less than the library's exact timetable, the exact timetable as a rival costs the same, and the library's radio cost has to be less than
 * a rival's cost and one for each byte in the list. Two rivals of document 01's list A are fixed. Ends with status 1 at the first that is not so.
 *
 * How it is exact: a byte is M units, where M is a common multiple of every D and every window's seconds, times the slots in a second. Then every share of a packet in
 * a slot is a whole number of units, and every cost a whole number over M squared. Costs have 256 bits, and a carry out of them ends the run. Assumes no more
 * than the library's header.
 */
#include "classes.h"
#include "draw.h"
#include "lent.h"
#include "second.h"
#include <stdio.h>
#include <stdlib.h>
#include <string.h>

typedef unsigned __int128 units;

enum { MOST_SECONDS = 600, MOST_SLOTS = 1800, NO_SLOT = MOST_SLOTS };

/* A list, its slots, and what the library says of it. Slots are counted from the second `from`. */
struct list {
    size_t count;
    struct packet packet[MOST_PACKETS];
    uint64_t from, seconds, slots; /* slots: in one second */
    uint64_t m;                    /* units in a byte */
    size_t epochs, entries;
    uint64_t rate[3 * MOST_EPOCHS], entry[7 * MOST_ENTRIES], radio_cost;
};

static units share[MOST_PACKETS][MOST_SLOTS]; /* the rival: units of each packet in each slot */

/* A cost: a whole number over M squared, the lowest 64 bits first. */
struct cost { uint64_t part[4]; };

static void add_at(struct cost *cost, size_t part, uint64_t more) {
    while (more) {
        if (part == 4) differs("rivals", "a cost does not fit 256 bits");
        cost->part[part] += more;
        more = cost->part[part++] < more;
    }
}

static void add_wide(struct cost *cost, size_t part, units more) {
    add_at(cost, part, (uint64_t)more);
    if (more >> 64) add_at(cost, part + 1, (uint64_t)(more >> 64));
}

static void add_product(struct cost *cost, units a, units b) {
    units a0 = (uint64_t)a, a1 = a >> 64, b0 = (uint64_t)b, b1 = b >> 64;
    add_wide(cost, 0, a0 * b0);
    add_wide(cost, 1, a0 * b1);
    add_wide(cost, 1, a1 * b0);
    add_wide(cost, 2, a1 * b1);
}

/* Below zero, zero or above: x against y. */
static int cost_against(const struct cost *x, const struct cost *y) {
    for (size_t part = 4; part-- > 0;)
        if (x->part[part] != y->part[part]) return x->part[part] > y->part[part] ? 1 : -1;
    return 0;
}

/* The window of a packet in slots: from the first to the one before `behind`. */
static size_t first_slot(const struct list *list, size_t i) { return (size_t)((list->packet[i].arrival - list->from) * list->slots); }

static size_t behind_slot(const struct list *list, size_t i) { return (size_t)((list->packet[i].deadline - list->from) * list->slots); }

/* Whether M, multiplied so that n divides it, stays below 2^60. */
static int multiply(uint64_t *m, uint64_t n) {
    struct fraction lowest = fraction_lowest((struct fraction){*m, n});
    if (*m > (UINT64_C(1) << 60) / lowest.under) return 0;
    *m *= lowest.under;
    return 1;
}

/* Asks the library, and finds M. Returns 0 where M would be too large. */
static int ask_library(struct list *list) {
    const uint64_t *records = (const uint64_t *)list->packet;
    struct downcrook_rates rates = downcrook_epoch_rates(list->count, records, 3 * list->count, list->rate, 3 * MOST_EPOCHS);
    struct downcrook_plan plan = downcrook_timetables(list->count, records, 3 * list->count, list->entry, 7 * MOST_ENTRIES);
    set_subject("packets in memory, numbers of 8 bytes", records, 24 * list->count);
    if (rates.refusal || plan.refusal) differs("epoch_rates and timetables", "a list that breaks no rule is refused");
    if (rates.epochs > MOST_EPOCHS || plan.entries > MOST_ENTRIES) differs("epoch_rates and timetables", "too many epochs or entries");
    list->epochs = rates.epochs;
    list->entries = plan.entries;
    list->radio_cost = plan.cost;
    list->m = 1;
    for (size_t k = 0; k < list->epochs; k++) {
        if (!list->rate[3 * k + 2]) differs("epoch_rates", "a D of 0");
        if (!multiply(&list->m, list->rate[3 * k + 2])) return 0;
    }
    for (size_t i = 0; i < list->count; i++)
        if (!multiply(&list->m, list->packet[i].deadline - list->packet[i].arrival)) return 0;
    list->m *= list->slots;
    return 1;
}

/* The exact timetable's cost: over all epochs, the rate squared times the length. */
static struct cost exact_cost(const struct list *list) {
    struct cost cost = {{0}};
    for (size_t k = 0; k < list->epochs; k++) {
        const uint64_t *rate = list->rate + 3 * k;
        uint64_t end = k + 1 < list->epochs ? rate[3] : list->from + list->seconds;
        units all = (units)(list->m / rate[2]) * rate[1];
        add_product(&cost, all, all * (end - rate[0]));
    }
    return cost;
}

/* A slot's rate is its bytes over its length: squared and times the length, that is its bytes squared times the slots in a second. */
static struct cost rival_cost(const struct list *list) {
    struct cost cost = {{0}};
    for (size_t t = 0; t < list->seconds * list->slots; t++) {
        units all = 0;
        for (size_t i = 0; i < list->count; i++) all += share[i][t];
        add_product(&cost, all, all * list->slots);
    }
    return cost;
}

/* Nothing outside a window, and every packet whole. */
static void hold_rival(const struct list *list) {
    for (size_t i = 0; i < list->count; i++) {
        units sent = 0;
        for (size_t t = 0; t < list->seconds * list->slots; t++) {
            sent += share[i][t];
            if (share[i][t] && (t < first_slot(list, i) || t >= behind_slot(list, i))) differs("rivals", "a rival sends outside a window");
        }
        if (sent != (units)list->packet[i].size * list->m) differs("rivals", "a rival does not send a packet whole");
    }
}

/* The rivals. Each starts from no share at all; the close ones start from the exact timetable. Returns whether there is one. */

static units draw_share(units most) {
    units high = draw();
    return ((high << 64) + draw()) % (most + 1);
}

static size_t slot_of(const struct list *list, size_t i) { return between(first_slot(list, i), behind_slot(list, i) - 1); }

/* The exact timetable: offset x of an entry is reached x/N seconds after the epoch's start. In units of 1/(D times slots) byte a slot takes N. */
static int exact(const struct list *list) {
    for (size_t e = 0; e < list->entries; e++) {
        const uint64_t *entry = list->entry + 7 * e;
        uint64_t from = entry[4] * list->slots, to = entry[5] * list->slots, n = entry[6];
        units unit = list->m / (entry[3] * list->slots);
        size_t start = (size_t)((entry[1] - list->from) * list->slots), day = list->seconds * list->slots;
        if (entry[0] >= list->count || start >= day || !n || (to - 1) / n >= day - start) differs("timetables", "an entry is outside the list or the day");
        for (uint64_t slot = from / n; slot * n < to; slot++) {
            uint64_t low = slot * n > from ? slot * n : from, high = (slot + 1) * n < to ? (slot + 1) * n : to;
            share[entry[0]][start + slot] += (high - low) * unit;
        }
    }
    return 1;
}

/* Each packet evenly over its window. */
static int even(const struct list *list) {
    for (size_t i = 0; i < list->count; i++) {
        size_t first = first_slot(list, i), behind = behind_slot(list, i);
        for (size_t t = first; t < behind; t++) share[i][t] = (units)list->packet[i].size * (list->m / (behind - first));
    }
    return 1;
}

/* Each packet anyhow: some units here, some there, the rest in one last slot. */
static int anyhow(const struct list *list) {
    for (size_t i = 0; i < list->count; i++) {
        units left = (units)list->packet[i].size * list->m;
        for (size_t parts = below(20); parts; parts--) {
            units part = draw_share(left);
            share[i][slot_of(list, i)] += part;
            left -= part;
        }
        share[i][slot_of(list, i)] += left;
    }
    return 1;
}

/* Each packet in one slot. */
static int one_slot(const struct list *list) {
    for (size_t i = 0; i < list->count; i++) share[i][slot_of(list, i)] = (units)list->packet[i].size * list->m;
    return 1;
}

/* A slot in which the packet has a share. */
static size_t slot_with(const struct list *list, size_t i) {
    size_t t = slot_of(list, i), behind = behind_slot(list, i);
    for (size_t tried = first_slot(list, i); tried < behind; tried++) {
        if (share[i][t]) return t;
        if (++t == behind) t = first_slot(list, i);
    }
    return NO_SLOT;
}

/* The exact timetable, with a little of a packet, or much, moved to other slots of its window. */
static int moved(const struct list *list) {
    exact(list);
    for (size_t moves = between(1, 3); moves; moves--) {
        size_t i = below(list->count), t = slot_with(list, i), other = slot_of(list, i);
        const units most[] = {1, 1 + share[i][t] / 1000, share[i][t]};
        units part = 1 + draw_share(most[below(3)] - 1);
        if (part > share[i][t]) part = share[i][t];
        share[i][t] -= part;
        share[i][other] += part;
    }
    return 1;
}

/* The exact timetable, two packets exchanging places: as many units of the one go from slot t to `other` as of the other come back. */
static int exchanged(const struct list *list) {
    exact(list);
    for (int tries = 0; tries < 100; tries++) {
        size_t i = below(list->count), j = below(list->count), t = slot_with(list, i), other = slot_with(list, j);
        if (i == j || t == other || t < first_slot(list, j) || t >= behind_slot(list, j) || other < first_slot(list, i) || other >= behind_slot(list, i)) continue;
        units most = share[i][t] < share[j][other] ? share[i][t] : share[j][other], part = 1 + draw_share(most - 1);
        share[i][t] -= part, share[i][other] += part;
        share[j][other] -= part, share[j][t] += part;
        return 1;
    }
    return 0;
}

enum { EXACT, EVEN, ANYHOW, ONE_SLOT, MOVED, EXCHANGED, RIVALS, SAME = RIVALS, FULL = 2 * RIVALS, SLOTS_2, RATES_3, CLASSES };

static const struct { int (*make)(const struct list *); int times; int same; } rivals[RIVALS] = {
    [EXACT] = {exact, 1, 1}, [EVEN] = {even, 1, 0}, [ANYHOW] = {anyhow, 2, 0}, [ONE_SLOT] = {one_slot, 1, 0}, [MOVED] = {moved, 4, 0}, [EXCHANGED] = {exchanged, 2, 1},
};

static struct class classes[CLASSES] = {
    [EXACT] = {"rivals: the exact timetable", 10000, 0},
    [EVEN] = {"rivals: evenly over each window", 10000, 0},
    [ANYHOW] = {"rivals: anyhow", 20000, 0},
    [ONE_SLOT] = {"rivals: each packet in one slot", 10000, 0},
    [MOVED] = {"rivals: the exact timetable with shares moved", 40000, 0},
    [EXCHANGED] = {"rivals: the exact timetable with shares exchanged", 5000, 0},
    [SAME + EXACT] = {"cost the same: the exact timetable", 10000, 0},
    [SAME + EVEN] = {"cost the same: evenly", 300, 0},
    [SAME + ANYHOW] = {"cost the same: anyhow", 0, 0},
    [SAME + ONE_SLOT] = {"cost the same: one slot", 0, 0},
    [SAME + MOVED] = {"cost the same: moved", 100, 0},
    [SAME + EXCHANGED] = {"cost the same: exchanged", 5000, 0},
    [FULL] = {"lists of 64 packets", 1000, 0},
    [SLOTS_2] = {"lists with 2 slots in a second or more", 4000, 0},
    [RATES_3] = {"lists of 3 different rates or more", 1500, 0},
};

/* The cost of the rival against the exact timetable's; the radio cost against the rival's. */
static int hold_cost(const struct list *list, const struct cost *least) {
    struct cost cost = rival_cost(list), radio = {{0}}, with_bytes = cost;
    uint64_t bytes = 0;
    for (size_t i = 0; i < list->count; i++) bytes += list->packet[i].size;
    add_product(&radio, list->m, (units)list->m * list->radio_cost);
    add_product(&with_bytes, list->m, (units)list->m * bytes);
    if (cost_against(&radio, &with_bytes) >= 0) differs("rivals", "the radio cost is not less than a rival's cost and one for each byte");
    int more = cost_against(&cost, least);
    if (more < 0) differs("rivals", "a rival costs less than the exact timetable");
    return more;
}

static void try_rivals(const struct list *list) {
    struct cost least = exact_cost(list);
    for (int kind = 0; kind < RIVALS; kind++)
        for (int times = 0; times < rivals[kind].times; times++) {
            for (size_t i = 0; i < list->count; i++) memset(share[i], 0, list->seconds * list->slots * sizeof **share);
            if (!rivals[kind].make(list)) continue;
            hold_rival(list);
            int more = hold_cost(list, &least);
            if (more && rivals[kind].same) differs("rivals", "the exact timetable, or one with shares exchanged, does not cost the same as a rival");
            classes[kind].count++;
            classes[SAME + kind].count += !more;
        }
}

/* Lists: a few packets in up to 600 seconds, more in up to 40. The day is cut to the windows. */
static void draw_packets(struct list *list) {
    static const uint64_t sizes[] = {3, 20, 1000, LARGEST_SIZE};
    int lengthy = one_in(4);
    uint64_t seconds = lengthy ? between(41, MOST_SECONDS) : between(1, 40), from = below(LAST_SECOND - seconds + 1), most = sizes[below(4)], until = 0;
    static const size_t most_packets[] = {6, 6, 20};
    list->count = lengthy ? between(1, 4) : one_in(4) ? MOST_PACKETS : between(1, most_packets[below(3)]);
    list->slots = lengthy ? between(1, 3) : between(1, 8);
    list->from = LAST_SECOND;
    for (size_t i = 0; i < list->count; i++) {
        uint64_t arrival = from + below(seconds), deadline = between(arrival + 1, from + seconds);
        list->packet[i] = (struct packet){between(1, most), arrival, deadline};
        if (arrival < list->from) list->from = arrival;
        if (deadline > until) until = deadline;
    }
    list->seconds = until - list->from;
}

static void classify(const struct list *list) {
    size_t different = 0;
    for (size_t k = 0; k < list->epochs; k++) {
        size_t j = 0;
        while (memcmp(list->rate + 3 * j + 1, list->rate + 3 * k + 1, 2 * sizeof *list->rate)) j++;
        different += j == k && list->rate[3 * k + 1];
    }
    classes[FULL].count += list->count == MOST_PACKETS;
    classes[SLOTS_2].count += list->slots > 1;
    classes[RATES_3].count += different >= 3;
}

/* List A: packet 0 at 5 bytes per second outside seconds 2 to 6 and up to 10, packet 1 at 10, packet 2 at 9/4 from second 10 on costs 2281/4. */
static void hold_list_a(uint64_t slots) {
    static struct list list = {.count = 3, .packet = {{30, 0, 10}, {40, 2, 6}, {9, 8, 14}}, .seconds = 14};
    static const struct { size_t packet; uint64_t from, until, over, under; } sent[] = {{0, 0, 2, 5, 1}, {0, 6, 10, 5, 1}, {1, 2, 6, 10, 1}, {2, 10, 14, 9, 4}};
    struct cost four_times = {{0}}, least = {{0}};
    list.slots = slots;
    if (!ask_library(&list)) differs("list A", "its common multiple is too large");
    memset(share, 0, sizeof share);
    for (size_t s = 0; s < 4; s++)
        for (size_t t = sent[s].from * slots; t < sent[s].until * slots; t++) share[sent[s].packet][t] = list.m / (sent[s].under * slots) * sent[s].over;
    hold_rival(&list);
    struct cost cost = rival_cost(&list), exactly = exact_cost(&list);
    for (int times = 0; times < 4; times++)
        for (size_t part = 0; part < 4; part++) add_at(&four_times, part, cost.part[part]);
    add_product(&least, list.m, (units)list.m * 2281);
    if (cost_against(&four_times, &least)) differs("list A", "the rival at the exact rates does not cost 2281/4");
    if (cost_against(&cost, &exactly)) differs("list A", "the library's exact timetable does not cost 2281/4");
    memset(share, 0, sizeof share);
    even(&list);
    hold_rival(&list);
    if (hold_cost(&list, &exactly) <= 0) differs("list A", "the rival that spreads each packet evenly does not cost more");
}

int main(int argc, char **argv) {
    static struct list list;
    long count = argc > 1 ? atol(argv[1]) : 20000;
    uint64_t seed = argc > 2 ? strtoull(argv[2], NULL, 10) : 1;
    draw_seed(seed);
    for (uint64_t slots = 1; slots <= 2; slots++) hold_list_a(slots);
    for (long number = 0; number < count; number++) {
        do draw_packets(&list);
        while (!ask_library(&list));
        try_rivals(&list);
        classify(&list);
    }
    printf("rivals: list A costs 2281/4; %ld lists, seed %llu: no rival costs less than the exact timetable\n", count, (unsigned long long)seed);
    return classes_hold(classes, CLASSES, count) ? 0 : 1;
}
