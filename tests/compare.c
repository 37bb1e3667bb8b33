/* The library beside the second planner on many lists: `compare [COUNT [SEED [PROGRAM WORDS...]]]`. First the lists that document 01 works out, then COUNT lists of
 * the kinds in kinds.c. For every list each call is made on both sides with lent memory of the same content, and everything that comes back is compared: answers,
 * every lent byte, the guard bytes around them. With a PROGRAM, a command that runs the program, each list is also its standard input, and every line that it
 * prints is compared. At the end the classes of lists are counted, and each must have its quota. Ends with status 1 at the first difference. Assumes no more
 * than the library's header.
 */
#include "cases.h"
#include "classes.h"
#include "draw.h"
#include "kinds.h"
#include "lent.h"
#include "printed.h"
#include <stdio.h>
#include <stdlib.h>
#include <string.h>

enum { ACCEPTED, REFUSED, PACKETS_32, PACKETS_64, ROUNDS_3, TIED, TOUCHING, ENTRIES_150, ENTRIES_185, SILENT, BEHIND, REFUSAL_1, REFUSAL_2, REFUSAL_3, REFUSAL_4,
    REFUSAL_5, REFUSAL_6, REFUSAL_7, REFUSAL_8, FIRST_4, FIRST_5, FIRST_6, LATER_4, LATER_5, LATER_6, FRAME_BELOW_HEAD, FRAME_ONE_SHORT, FRAME_EXACT, FRAME_ROOMY,
    MEMORY_1, MEMORY_2, MEMORY_3, MEMORY_4, MEMORY_5, MEMORY_6, CLASSES };

static struct class classes[CLASSES] = {
    [ACCEPTED] = {"accepted", 4000, 0},
    [REFUSED] = {"refused, with the frame that was lent first", 3000, 0},
    [PACKETS_32] = {"accepted, 32 packets or more", 2000, 0},
    [PACKETS_64] = {"accepted, 64 packets", 400, 0},
    [ROUNDS_3] = {"accepted, 3 rounds or more", 2000, 0},
    [TIED] = {"a tie in density: one fraction in two rounds or more", 500, 0},
    [TOUCHING] = {"a tie in density: neighbours of equal density in one round, and no window across the second between them", 300, 0},
    [ENTRIES_150] = {"150 entries or more", 400, 0},
    [ENTRIES_185] = {"185 entries or more", 20, 0},
    [SILENT] = {"accepted, with a silent epoch", 800, 0},
    [BEHIND] = {"accepted, with bytes behind the list", 1500, 0},
    [REFUSAL_1] = {"refusal 1", 100, 0},
    [REFUSAL_2] = {"refusal 2", 100, 0},
    [REFUSAL_3] = {"refusal 3", 100, 0},
    [REFUSAL_4] = {"refusal 4", 150, 0},
    [REFUSAL_5] = {"refusal 5", 150, 0},
    [REFUSAL_6] = {"refusal 6", 250, 0},
    [REFUSAL_7] = {"refusal 7", 100, 0},
    [REFUSAL_8] = {"refusal 8", 800, 0},
    [FIRST_4] = {"refusal 4 at place 0", 50, 0},
    [FIRST_5] = {"refusal 5 at place 0", 50, 0},
    [FIRST_6] = {"refusal 6 at place 0", 50, 0},
    [LATER_4] = {"refusal 4 at a place above 0", 50, 0},
    [LATER_5] = {"refusal 5 at a place above 0", 50, 0},
    [LATER_6] = {"refusal 6 at a place above 0", 50, 0},
    [FRAME_BELOW_HEAD] = {"accepted list, frame of 0 to 7 bytes", 150, 0},
    [FRAME_ONE_SHORT] = {"accepted list, frame one byte short", 300, 0},
    [FRAME_EXACT] = {"accepted list, exact frame", 1000, 0},
    [FRAME_ROOMY] = {"accepted list, roomy frame", 500, 0},
    [MEMORY_1] = {"packets in memory, refusal 1", 400, 0},
    [MEMORY_2] = {"packets in memory, refusal 2", 200, 0},
    [MEMORY_3] = {"packets in memory, refusal 3", 300, 0},
    [MEMORY_4] = {"packets in memory, refusal 4", 400, 0},
    [MEMORY_5] = {"packets in memory, refusal 5", 400, 0},
    [MEMORY_6] = {"packets in memory, refusal 6", 400, 0},
};

static void count_if(int so, int class) { classes[class].count += so; }

/* One call each, with a room that the caller chooses (bytes for a frame and for a list, else numbers). Returns the library's answer. */

static struct downcrook_entries check_read_plan(const struct lent *frame, size_t room) {
    struct lent entries = lend_drawn(room * sizeof(uint64_t));
    struct downcrook_entries got = downcrook_read_plan(frame->library, frame->bytes, (uint64_t *)entries.library, room);
    struct downcrook_entries want = second_read_plan(frame->second, frame->bytes, (uint64_t *)entries.second, room);
    hold_answers("read_plan", &got, &want, sizeof got);
    hold_written("read_plan", &entries, got.refusal);
    hold_unchanged("read_plan", frame);
    take_back(&entries);
    return got;
}

/* The frame that was made, read with some room and with the exact one. */
static void read_back(const uint8_t *made, size_t frame_bytes, size_t entries) {
    struct lent frame = lend(made, frame_bytes);
    if (check_read_plan(&frame, draw_room(6 * entries)).refusal) check_read_plan(&frame, 6 * entries);
    take_back(&frame);
}

static struct downcrook_plan check_plan_list(const struct lent *list, size_t room) {
    struct lent frame = lend_drawn(room);
    struct downcrook_plan got = downcrook_plan_list(list->library, list->bytes, frame.library, room);
    struct downcrook_plan want = second_plan_list(list->second, list->bytes, frame.second, room);
    hold_answers("plan_list", &got, &want, sizeof got);
    hold_written("plan_list", &frame, got.refusal);
    hold_unchanged("plan_list", list);
    if (!got.refusal) read_back(frame.library, room, got.entries);
    take_back(&frame);
    return got;
}

static struct downcrook_list check_read_list(const struct lent *list, size_t room) {
    struct lent records = lend_drawn(room * sizeof(uint64_t));
    struct downcrook_list got = downcrook_read_list(list->library, list->bytes, (uint64_t *)records.library, room);
    struct downcrook_list want = second_read_list(list->second, list->bytes, (uint64_t *)records.second, room);
    hold_answers("read_list", &got, &want, sizeof got);
    hold_written("read_list", &records, got.refusal);
    struct downcrook_list judged = downcrook_judge_list(list->library, list->bytes, room);
    hold_answers("judge_list", &judged, &want, sizeof judged);
    hold_unchanged("read_list and judge_list", list);
    take_back(&records);
    return got;
}

static struct downcrook_written check_write_list(const struct memory *memory, const struct lent *records, size_t room) {
    struct lent list = lend_drawn(room);
    struct downcrook_written got = downcrook_write_list(memory->count, (uint64_t *)records->library, memory->numbers, list.library, room);
    struct downcrook_written want = second_write_list(memory->count, (uint64_t *)records->second, memory->numbers, list.second, room);
    hold_answers("write_list", &got, &want, sizeof got);
    hold_written("write_list", &list, got.refusal);
    hold_unchanged("write_list", records);
    take_back(&list);
    return got;
}

static struct downcrook_rates check_epoch_rates(const struct memory *memory, const struct lent *records, size_t room) {
    struct lent rates = lend_drawn(room * sizeof(uint64_t));
    struct downcrook_rates got = downcrook_epoch_rates(memory->count, (uint64_t *)records->library, memory->numbers, (uint64_t *)rates.library, room);
    struct downcrook_rates want = second_epoch_rates(memory->count, (uint64_t *)records->second, memory->numbers, (uint64_t *)rates.second, room);
    hold_answers("epoch_rates", &got, &want, sizeof got);
    hold_written("epoch_rates", &rates, got.refusal);
    hold_unchanged("epoch_rates", records);
    take_back(&rates);
    return got;
}

static struct downcrook_plan check_timetables(const struct memory *memory, const struct lent *records, size_t room) {
    struct lent entries = lend_drawn(room * sizeof(uint64_t));
    struct downcrook_plan got = downcrook_timetables(memory->count, (uint64_t *)records->library, memory->numbers, (uint64_t *)entries.library, room);
    struct downcrook_plan want = second_timetables(memory->count, (uint64_t *)records->second, memory->numbers, (uint64_t *)entries.second, room);
    hold_answers("timetables", &got, &want, sizeof got);
    hold_written("timetables", &entries, got.refusal);
    hold_unchanged("timetables", records);
    take_back(&entries);
    return got;
}

/* Every call that takes packets in memory. Where the room drawn is too short the exact room follows, so that no answer stays unseen. */
static void check_memory(const struct memory *memory) {
    struct lent records = lend(memory->record, memory->numbers * sizeof *memory->record);
    uint64_t scratch[7 * MOST_ENTRIES];
    struct downcrook_verdict got = downcrook_judge_packets(memory->count, (uint64_t *)records.library, memory->numbers);
    struct downcrook_verdict want = second_judge_packets(memory->count, memory->record, memory->numbers);
    hold_answers("judge_packets", &got, &want, sizeof got);
    hold_unchanged("judge_packets", &records);
    size_t bytes = second_list_bytes(1 + below(MOST_PACKETS)), epochs = 1 + below(MOST_EPOCHS), entries = 1 + below(MOST_ENTRIES);
    if (!got.refusal) {
        bytes = second_list_bytes(memory->count);
        epochs = second_epoch_rates(memory->count, memory->record, memory->numbers, scratch, 3 * MOST_EPOCHS).epochs;
        entries = second_timetables(memory->count, memory->record, memory->numbers, scratch, 7 * MOST_ENTRIES).entries;
    }
    if (check_write_list(memory, &records, draw_room(bytes)).refusal == 8) check_write_list(memory, &records, bytes);
    if (check_epoch_rates(memory, &records, draw_room(3 * epochs)).refusal == 8) check_epoch_rates(memory, &records, 3 * epochs);
    if (check_timetables(memory, &records, draw_room(7 * entries)).refusal == 8) check_timetables(memory, &records, 7 * entries);
    take_back(&records);
    if (got.refusal >= 1 && got.refusal <= 6) classes[MEMORY_1 + got.refusal - 1].count++;
}

/* The list's bytes come back from its packets. */
static void check_round_trip(const struct drawn *drawn, size_t count) {
    uint64_t records[3 * MOST_PACKETS];
    uint8_t bytes[MOST_LIST_BYTES];
    downcrook_read_list(drawn->bytes, drawn->length, records, 3 * count);
    struct downcrook_written written = downcrook_write_list(count, records, 3 * count, bytes, second_list_bytes(count));
    int same = !written.refusal && written.bytes == second_list_bytes(count) && !memcmp(bytes, drawn->bytes, written.bytes);
    if (!same) differs("write_list", "the bytes that were read do not come back");
}

static void check_printed(char **program, const struct drawn *drawn) {
    static char got[MOST_TEXT], want[MOST_TEXT];
    size_t wanted = second_text(drawn->bytes, drawn->length, want), length = printed(program, drawn->bytes, drawn->length, got, sizeof got);
    if (length == wanted && !memcmp(got, want, length)) return;
    if (length == SIZE_MAX) differs("the program", "it does not run, or does not end by itself");
    size_t at = 0, line = 1;
    for (; at < length && at < wanted && got[at] == want[at]; at++) line += got[at] == '\n';
    printf("the program prints %zu characters, the second planner %zu; the first difference is in line %zu\n", length, wanted, line);
    differs("the program", "a printed line differs");
}

static void classify_plan(const struct drawn *drawn, size_t count, struct downcrook_plan plan) {
    struct rates rates;
    struct packet packets[MOST_PACKETS];
    int silent = 0;
    second_read_list(drawn->bytes, drawn->length, (uint64_t *)packets, 3 * MOST_PACKETS);
    second_rates(count, packets, &rates);
    for (size_t k = 0; k < rates.epochs; k++) silent |= rates.epoch[k].over == 0;
    count_if(1, ACCEPTED);
    count_if(count >= 32, PACKETS_32);
    count_if(count == 64, PACKETS_64);
    count_if(plan.rounds >= 3, ROUNDS_3);
    count_if(rates.tied > 0, TIED);
    count_if(rates.touching > 0, TOUCHING);
    count_if(plan.entries >= 150, ENTRIES_150);
    count_if(plan.entries >= 185, ENTRIES_185);
    count_if(silent, SILENT);
    count_if(drawn->length > second_list_bytes(count), BEHIND);
}

static void classify_refusal(struct downcrook_plan answer) {
    if (!answer.refusal) return;
    classes[REFUSED].count++;
    classes[REFUSAL_1 + answer.refusal - 1].count++;
    if (answer.refusal >= 4 && answer.refusal <= 6) classes[(answer.place ? LATER_4 : FIRST_4) + answer.refusal - 4].count++;
}

/* The whole call: the frame drawn, then the exact one where that was too short. */
static void check_whole_call(const struct drawn *drawn, const struct lent *list) {
    static uint8_t roomy[MOST_FRAME_BYTES];
    struct downcrook_plan plan = second_plan_list(drawn->bytes, drawn->length, roomy, sizeof roomy);
    size_t exact = second_frame_bytes(plan.refusal ? 1 + below(MOST_ENTRIES) : plan.entries), room = draw_room(exact);
    struct downcrook_plan answer = check_plan_list(list, room);
    classify_refusal(answer);
    if (answer.refusal == 8) check_plan_list(list, exact);
    if (plan.refusal) return;
    size_t count = second_judge_list(drawn->bytes, drawn->length, SIZE_MAX).packets;
    classify_plan(drawn, count, plan);
    count_if(room < HEAD_BYTES, FRAME_BELOW_HEAD);
    count_if(room + 1 == exact, FRAME_ONE_SHORT);
    count_if(room == exact, FRAME_EXACT);
    count_if(room > exact, FRAME_ROOMY);
}

static void check_list(const struct drawn *drawn, char **program) {
    static struct memory memory;
    uint64_t records[3 * MOST_PACKETS];
    struct lent list = lend(drawn->bytes, drawn->length);
    set_subject(drawn->kind, drawn->bytes, drawn->length);
    check_whole_call(drawn, &list);
    struct downcrook_list read = second_read_list(drawn->bytes, drawn->length, records, 3 * MOST_PACKETS);
    size_t exact = 3 * (read.refusal ? 1 + below(MOST_PACKETS) : read.packets);
    if (check_read_list(&list, draw_room(exact)).refusal == 8) check_read_list(&list, exact);
    if (program[0]) check_printed(program, drawn);
    if (!read.refusal) {
        check_round_trip(drawn, read.packets);
        keep_memory(read.packets, (struct packet *)records, &memory);
        set_subject(memory.kind, memory.record, memory.numbers * sizeof *memory.record);
        check_memory(&memory);
    }
    spoil_memory(drawn->count, drawn->packet, &memory);
    set_subject(memory.kind, memory.record, memory.numbers * sizeof *memory.record);
    check_memory(&memory);
    take_back(&list);
}

int main(int argc, char **argv) {
    static struct drawn drawn;
    long count = argc > 1 ? atol(argv[1]) : 20000;
    uint64_t seed = argc > 2 ? strtoull(argv[2], NULL, 10) : 1;
    char *none[] = {NULL}, **program = argc > 3 ? argv + 3 : none;
    printf("compare: %d lists of document 01 are as it says\n", hold_cases());
    draw_seed(seed);
    for (long number = 0; number < count; number++) {
        draw_list(&drawn);
        check_list(&drawn, program);
    }
    printf("compare: %ld lists, seed %llu: library and second planner agree; %s\n", count, (unsigned long long)seed,
        program[0] ? "so does every line that the program prints" : "no program was given, so no printed line was compared");
    return classes_hold(classes, CLASSES, count) ? 0 : 1;
}
