/* The lists that document 01 works out, as literals: the list's bytes, what the program prints for it, the rate of each epoch. The library's calls and the second
 * planner are held to the literals, not to each other. Sizes are in bytes, times in seconds, rates in bytes per second. Assumes nothing.
 */
#include "cases.h"
#include "lent.h"
#include "second.h"
#include <stdio.h>
#include <string.h>

struct worked {
    const char *name;
    const char *list;  /* hexadecimal digits */
    const char *text;  /* what the program prints */
    const char *rates; /* of each epoch: start, N, D */
    size_t count;
    uint64_t record[12];
};

static const struct worked cases[] = {
    {"case A", "06003c00000005001400008000c0012000800070",
        "3 3 5 577\n0 0 5 1 0 10\n1 2 10 1 0 40\n0 6 5 1 0 10\n0 8 5 1 0 10\n2 10 3 4 0 36\n",
        "0 5 1; 2 10 1; 6 5 1; 8 5 1; 10 9 4; ", 3, {30, 0, 10, 40, 2, 6, 9, 8, 14}},
    {"case B", "0200020000000080", "1 1 1 1\n0 0 1 1 0 1\n", "0 1 1; ", 1, {1, 0, 1}},
    {"case C", "0400060000000200028000000080", "2 1 2 16\n0 0 2 1 0 3\n1 0 2 1 3 8\n", "0 2 1; ", 2, {3, 0, 4, 5, 0, 4}},
    {"case D", "0400020000000500050001400140", "2 2 2 21\n0 0 1 5 0 5\n1 5 2 1 0 10\n", "0 1 5; 5 2 1; ", 2, {1, 0, 10, 10, 5, 10}},
    {"case E", "04001400000001000500014000e0", "2 2 2 100\n0 0 5 1 0 10\n1 5 5 1 0 10\n", "0 5 1; 2 0 1; 5 5 1; ", 2, {10, 0, 2, 10, 5, 7}},
    {"case F", "03fffe0000a8c000", "1 1 1 65535\n0 0 1 5760 0 377481600\n", "0 4369 5760; ", 1, {65535, 0, 86400}},
    {"case G", "0200000000000080", "refused 4 0\n", "", 1, {0, 0, 1}},
    {"case H", "0200020005000280", "refused 6 0\n", "", 1, {1, 5, 5}},
    {"case I", "0200020000a8c080", "refused 5 0\n", "", 1, {1, 0, 86401}},
    {"case J", "00", "refused 2 0\n", "", 0, {0}},
    {"figure 1", "084e20000200030fa00000c00189c40000500048dac0001c0016",
        "4 2 9 204175000\n0 2 4167 3 0 12500\n0 3 4167 3 0 17500\n1 3 4167 3 17500 25000\n2 5 5000 1 0 5000\n2 6 5000 1 0 5000\n2 7 5000 1 0 10000\n"
        "3 9 4167 3 0 21000\n1 9 4167 3 21000 25000\n1 11 4167 3 0 12500\n",
        "2 12500 3; 3 12500 3; 5 5000 1; 6 5000 1; 7 5000 1; 9 12500 3; 11 12500 3; ", 4, {10000, 2, 6, 8000, 3, 12, 20000, 5, 9, 7000, 7, 11}},
};

static size_t bytes_of(const char *digits, uint8_t *bytes) {
    size_t length = strlen(digits) / 2;
    for (size_t i = 0; i < length; i++) sscanf(digits + 2 * i, "%2hhx", &bytes[i]);
    return length;
}

/* The program's lines, from the library's plan and its reading back. */
static size_t library_text(size_t count, struct downcrook_plan plan, const uint8_t *frame, size_t frame_bytes, char *text) {
    uint64_t entries[6 * MOST_ENTRIES];
    if (plan.refusal) return (size_t)sprintf(text, "refused %d %d\n", (int)plan.refusal, (int)plan.place);
    if (plan.entries > MOST_ENTRIES) differs("plan_list", "more than 191 entries");
    struct downcrook_entries read = downcrook_read_plan(frame, frame_bytes, entries, 6 * plan.entries);
    if (read.refusal || read.entries != plan.entries || read.cost != plan.cost) differs("read_plan", "the plan does not come back");
    size_t length = (size_t)sprintf(text, "%zu %d %d %llu\n", count, (int)plan.rounds, (int)plan.entries, (unsigned long long)plan.cost);
    for (size_t i = 0; i < 6 * plan.entries; i++) length += (size_t)sprintf(text + length, "%llu%c", (unsigned long long)entries[i], i % 6 == 5 ? '\n' : ' ');
    return length;
}

/* The whole call with the exact frame, and with one byte less. */
static void hold_plan(const struct worked *worked, const uint8_t *list, size_t length) {
    uint8_t frame[MOST_FRAME_BYTES], untouched[MOST_FRAME_BYTES];
    char text[MOST_TEXT];
    memset(frame, 0xa5, sizeof frame);
    memset(untouched, 0xa5, sizeof untouched);
    struct downcrook_plan plan = downcrook_plan_list(list, length, frame, sizeof frame);
    size_t exact = plan.refusal ? 0 : second_frame_bytes(plan.entries);
    if (memcmp(frame, untouched, plan.refusal ? sizeof frame : HEAD_BYTES)) differs(worked->name, "the library touched what it must not");
    if (memcmp(frame + exact, untouched + exact, sizeof frame - exact)) differs(worked->name, "the library wrote behind the plan");
    library_text(worked->count, plan, frame, exact, text);
    if (strcmp(text, worked->text)) differs(worked->name, "the library's plan is not document 01's");
    second_text(list, length, text);
    if (strcmp(text, worked->text)) differs(worked->name, "the second planner's plan is not document 01's");
    if (plan.refusal) return;
    memset(frame, 0xa5, sizeof frame);
    struct downcrook_plan again = downcrook_plan_list(list, length, frame, exact - 1);
    if (again.refusal != 8 || again.place || memcmp(frame, untouched, sizeof frame)) differs(worked->name, "a frame one byte short is not refused with 8");
    again = downcrook_plan_list(list, length, frame, exact);
    if (memcmp(&again, &plan, sizeof plan)) differs(worked->name, "an exact frame does not suffice");
}

/* The list's bytes written, its records read, its rates. */
static void hold_packets(const struct worked *worked, const uint8_t *list, size_t length) {
    uint64_t rates[3 * MOST_EPOCHS], record[12];
    uint8_t written[MOST_LIST_BYTES];
    char text[MOST_TEXT] = "";
    struct downcrook_rates answer = downcrook_epoch_rates(worked->count, worked->record, 3 * worked->count, rates, 3 * MOST_EPOCHS);
    if (answer.epochs > MOST_EPOCHS) differs(worked->name, "more than 127 epochs");
    for (size_t i = 0, at = 0; i < 3 * answer.epochs; i++) at += (size_t)sprintf(text + at, "%llu%s", (unsigned long long)rates[i], i % 3 == 2 ? "; " : " ");
    if (strcmp(text, worked->rates)) differs(worked->name, "the rates are not document 01's");
    if (answer.refusal) return;
    struct downcrook_list read = downcrook_read_list(list, length, record, 12);
    if (read.refusal || read.packets != worked->count || read.bytes != length) differs(worked->name, "the list is not read whole");
    if (memcmp(record, worked->record, 24 * worked->count)) differs(worked->name, "the packets are not document 01's");
    struct downcrook_written bytes = downcrook_write_list(worked->count, worked->record, 3 * worked->count, written, length);
    if (bytes.refusal || bytes.bytes != length || memcmp(written, list, length)) differs(worked->name, "the bytes are not document 01's");
}

/* 64 packets (65,535 bytes, 0 s, 1 s): one round, and the cost that document 01 gives. */
static void hold_full_second(void) {
    struct packet packets[MOST_PACKETS];
    uint8_t list[MOST_LIST_BYTES], frame[MOST_FRAME_BYTES];
    char text[MOST_TEXT], want[MOST_TEXT];
    for (size_t i = 0; i < MOST_PACKETS; i++) packets[i] = (struct packet){65535, 0, 1};
    size_t length = second_raw_list(MOST_PACKETS, packets, MOST_PACKETS, list), at = (size_t)sprintf(want, "64 1 64 17591649177600\n");
    set_subject("64 packets (65,535 bytes, 0 s, 1 s)", list, length);
    for (int i = 0; i < MOST_PACKETS; i++) at += (size_t)sprintf(want + at, "%d 0 4194240 1 %d %d\n", i, 65535 * i, 65535 * (i + 1));
    struct downcrook_plan plan = downcrook_plan_list(list, length, frame, second_frame_bytes(64));
    library_text(MOST_PACKETS, plan, frame, second_frame_bytes(64), text);
    if (strcmp(text, want)) differs("the full second", "the library's plan is not document 01's");
    if (downcrook_plan_list(list, length, frame, second_frame_bytes(64) - 1).refusal != 8) differs("the full second", "a frame one byte short is not refused with 8");
    if (length != 401) differs("the full second", "64 packets do not take 401 bytes");
}

/* Count 65, on the wire and in memory. */
static void hold_count_65(void) {
    uint8_t list[408] = {0x82}, frame[MOST_FRAME_BYTES];
    uint64_t record[3 * 65];
    for (size_t i = 0; i < 3 * 65; i++) record[i] = i % 3 != 1;
    set_subject("count 65", list, sizeof list);
    if (downcrook_plan_list(list, sizeof list, frame, sizeof frame).refusal != 3) differs("plan_list", "65 packets are not refused with 3");
    if (downcrook_read_list(list, sizeof list, record, 3 * 65).refusal != 3) differs("read_list", "65 packets are not refused with 3");
    if (downcrook_judge_packets(65, record, 3 * 65).refusal != 3) differs("judge_packets", "65 packets are not refused with 3");
}

int hold_cases(void) {
    uint8_t list[64];
    int count = sizeof cases / sizeof *cases;
    for (int i = 0; i < count; i++) {
        size_t length = bytes_of(cases[i].list, list);
        set_subject(cases[i].name, list, length);
        hold_plan(&cases[i], list, length);
        hold_packets(&cases[i], list, length);
    }
    hold_full_second();
    hold_count_65();
    return count + 2;
}
