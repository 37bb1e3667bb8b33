/* The library's whole call, from a list's bytes to the plan in a frame, timed beside the plain planner: `benchmark`. Both plan the same lists in one process, and
 * first they must give the same answers and the same bytes of every frame: on lists of the kinds in kinds.c, refused ones among them, and on the lists that are
 * timed. Then the stack (bytes) that the library's call takes, and the seconds of one plan. The exit status is 1 where the planners differ, else 0: a target that is
 * missed is printed and no more. Assumes a quiet moment now and then, for of many repetitions the best counts, and a call that takes less than STACK_BYTES.
 */
#include "draw.h"
#include "kinds.h"
#include "lent.h"
#include "plain.h"
#include <stdio.h>
#include <string.h>
#include <time.h>
#include <ucontext.h>

enum {
    SEED = 1,
    KIND_LISTS = 2000,     /* lists of the kinds in kinds.c */
    TIMED_LISTS = 200,     /* lists for each number of packets */
    SWEEPS = 10,           /* each sweep times every number of packets, so that a busy moment spoils none of them */
    SWEEP_PACKETS = 64000, /* packets planned by each planner in one sweep for one number of packets: 5 repetitions of 200 lists of 64 packets */
    STACK_BYTES = 1 << 18,
    PAINT = 0xa5
};

typedef struct downcrook_plan planner(const uint8_t *list, size_t list_bytes, uint8_t *frame, size_t frame_bytes);

/* Both planners with a frame of so many bytes, at most MOST_FRAME_BYTES. Returns the answer that both give. */
static struct downcrook_plan hold_same(const char *kind, const uint8_t *list, size_t list_bytes, size_t frame_bytes) {
    static uint8_t library[MOST_FRAME_BYTES], plain[MOST_FRAME_BYTES];
    draw_bytes(library, sizeof library);
    memcpy(plain, library, sizeof library);
    set_subject(kind, list, list_bytes);
    struct downcrook_plan got = downcrook_plan_list(list, list_bytes, library, frame_bytes), want = plain_plan_list(list, list_bytes, plain, frame_bytes);
    if (memcmp(&got, &want, sizeof got)) differs("plan_list", "the library and the plain planner answer differently");
    if (memcmp(library, plain, sizeof library)) differs("plan_list", "the library and the plain planner leave different bytes in the frame");
    return got;
}

/* The stack of one call. It runs on a stack of its own that was painted, and the bytes from the lowest that lost its paint are counted, the caller's included. */

static uint8_t stack[STACK_BYTES];
static ucontext_t here, there;
static const struct drawn *planned;

static void plan_there(void) {
    static uint8_t frame[MOST_FRAME_BYTES];
    downcrook_plan_list(planned->bytes, planned->length, frame, sizeof frame);
}

static size_t unpainted_bytes(void) {
    size_t painted = 0;
    while (painted < sizeof stack && stack[painted] == PAINT) painted++;
    if (painted == 0) differs("plan_list", "the painted stack is too small for the call");
    return sizeof stack - painted;
}

static size_t stack_of(const struct drawn *drawn) {
    planned = drawn;
    memset(stack, PAINT, sizeof stack);
    getcontext(&there);
    there.uc_stack.ss_sp = stack;
    there.uc_stack.ss_size = sizeof stack;
    there.uc_link = &here;
    makecontext(&there, plan_there, 0);
    swapcontext(&here, &there);
    return unpainted_bytes();
}

static void raise_to(size_t *most, size_t value) {
    if (*most < value) *most = value;
}

static void look_at_kinds(void) {
    static struct drawn drawn;
    size_t bytes = 0, packets = 0, rounds = 0, entries = 0, refusals = 0;
    for (int i = 0; i < KIND_LISTS; i++) {
        draw_list(&drawn);
        struct downcrook_plan plan = hold_same(drawn.kind, drawn.bytes, drawn.length, MOST_FRAME_BYTES);
        if (!plan.refusal) hold_same(drawn.kind, drawn.bytes, drawn.length, second_frame_bytes(plan.entries) - below(2)); /* exact, or one byte short */
        if (!plan.refusal) raise_to(&packets, drawn.bytes[0] >> 1);
        raise_to(&bytes, stack_of(&drawn));
        raise_to(&rounds, plan.rounds);
        raise_to(&entries, plan.entries);
        refusals += plan.refusal != 0;
    }
    printf("library and plain planner agree on %d lists of all kinds: %zu refused; up to %zu packets, %zu rounds, %zu entries\n", KIND_LISTS, refusals, packets, rounds, entries);
    printf("stack of the library's whole call, the most over these lists: %zu bytes\n", bytes);
}

/* The seconds. */

/* Lists of so many packets each, and the best seconds of each planner for all of them together. The target is the most that the library's seconds may be over the
 * plain planner's; 0 where there is none. */
struct row {
    size_t packets;
    double target, library, plain;
    struct { size_t bytes; uint8_t byte[MOST_LIST_BYTES]; } list[TIMED_LISTS];
};

static struct row rows[] = {{.packets = 1}, {.packets = 8, .target = 1.5}, {.packets = 16}, {.packets = 32}, {.packets = 64, .target = 1}};

enum { ROWS = sizeof rows / sizeof *rows };

/* Arrivals anywhere in the day, deadlines anywhere behind them, sizes of 1 to 65,535 bytes. */
static void draw_row(struct row *row) {
    struct packet packet[MOST_PACKETS];
    for (size_t l = 0; l < TIMED_LISTS; l++) {
        for (size_t i = 0; i < row->packets; i++) {
            uint64_t size = between(1, LARGEST_SIZE), arrival = below(LAST_SECOND), deadline = between(arrival + 1, LAST_SECOND);
            packet[i] = (struct packet){size, arrival, deadline};
        }
        row->list[l].bytes = second_raw_list(row->packets, packet, row->packets, row->list[l].byte);
        hold_same("timed", row->list[l].byte, row->list[l].bytes, MOST_FRAME_BYTES);
    }
    row->library = row->plain = 1e9;
}

/* Seconds of the processor that this program has had: those that other programs take do not count. */
static double seconds(void) {
    struct timespec now;
    clock_gettime(CLOCK_THREAD_CPUTIME_ID, &now);
    return (double)now.tv_sec + (double)now.tv_nsec / 1e9;
}

/* Plans every list of the row once, and lowers the best seconds where this took less. */
static void time_lists(planner *plan, const struct row *row, double *best) {
    static uint8_t frame[MOST_FRAME_BYTES];
    double start = seconds();
    for (size_t l = 0; l < TIMED_LISTS; l++) plan(row->list[l].byte, row->list[l].bytes, frame, sizeof frame);
    double taken = seconds() - start;
    if (taken < *best) *best = taken;
}

/* One planner after the other, as often as the packets of a sweep allow. */
static void time_row(struct row *row) {
    for (size_t r = SWEEP_PACKETS / TIMED_LISTS / row->packets; r; r--) {
        time_lists(downcrook_plan_list, row, &row->library);
        time_lists(plain_plan_list, row, &row->plain);
    }
}

static void print_row(const struct row *row) {
    double ratio = row->library / row->plain;
    printf("%7zu  %.9f s  %.9f s  %5.2f", row->packets, row->library / TIMED_LISTS, row->plain / TIMED_LISTS, ratio);
    if (row > rows) printf("  %7.2f times  %7.2f times", row->library / row[-1].library, row->plain / row[-1].plain);
    else printf("  %13s  %13s", "-", "-");
    if (row->target > 0) printf("  at most %.2f: %s", row->target, ratio <= row->target ? "met" : "missed");
    puts("");
}

int main(void) {
    draw_seed(SEED);
    look_at_kinds();
    for (size_t k = 0; k < ROWS; k++) draw_row(&rows[k]);
    for (int sweep = 0; sweep < SWEEPS; sweep++)
        for (size_t k = 0; k < ROWS; k++) time_row(&rows[k]);
    printf("seconds for one plan, the mean of %d lists, the best of many repetitions; growth is over the row before\n", TIMED_LISTS);
    printf("%7s  %13s  %13s  %5s  %13s  %13s  %s\n", "packets", "library", "plain planner", "ratio", "library grows", "plain grows", "target of the ratio");
    for (size_t k = 0; k < ROWS; k++) print_row(&rows[k]);
    return 0;
}
