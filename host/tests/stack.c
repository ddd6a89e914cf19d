/*
 * How much stack the calls take: each is run in a thread whose stack was painted, on the largest machine, and what is no longer paint was
 * used. README and nahokipe.h promise that 256 KiB are enough for every call but nahokipe_joint_signature, and 640 KiB for that one; this
 * test says so or fails, and prints what that one takes and the largest of the others.
 */
#define _XOPEN_SOURCE 700
#include <pthread.h>
#include <stdio.h>
#include <stdlib.h>
#include <string.h>

#include "nahokipe.h"

enum { ROOM = 4 << 20, PROMISED = 256 << 10, PROMISED_JOINT = 640 << 10, PAINT = 0xA5 };
enum { SETS = NAHOKIPE_MOST_SETS, BYTES = NAHOKIPE_LONGEST_RECORD, DRAWN = NAHOKIPE_LONGEST_DRAWING };

static uint16_t sets[SETS], found[SETS];
static uint8_t table[NAHOKIPE_LONGEST_TABLE], other[NAHOKIPE_LONGEST_TABLE], record[BYTES], written[BYTES], drawing[DRAWN];
static uint8_t record_2[BYTES], filed_2[BYTES];
static uint8_t text[NAHOKIPE_ENOUGH_FOR_REPORT], sheet[NAHOKIPE_LONGEST_SHEET];
static int64_t counts[17], first[17], second[17], cells[81], vectors[32];
static uint64_t parts[16], numbers[16], gone[NAHOKIPE_MOST_RETIRED], square[NAHOKIPE_MOST_JOINT];
static const uint64_t first_part[1] = {1};
static size_t length_2, filed_length, gone_count, sizes[16], block_cells;
static size_t length, sheet_length, drawing_length, read_length, entered_length, set_count, cut_count;
static unsigned refusals;
static unsigned char *ground;

/* The value of an answer; refusals are counted, since a call that is refused ends before it has taken its stack. */
static size_t given(nahokipe_answer answer) {
    refusals += answer.number != 0;
    return answer.value;
}

static void nothing(void) {}
static void table_of_list(void) { given(nahokipe_table_of_list(16, sets, SETS, table, sizeof table)); }
static void table_verdict(void) { given(nahokipe_table_verdict(16, table, sizeof table)); }
static void minimal_sets(void) { set_count = given(nahokipe_minimal_sets(16, table, sizeof table, found, SETS)); }
static void table_of_cuts(void) { given(nahokipe_table_of_cuts(16, sets, SETS, other, sizeof other)); }
static void minimal_cuts(void) { cut_count = given(nahokipe_minimal_cuts(16, other, sizeof other, found, SETS)); }
static void dual(void) { given(nahokipe_dual(16, table, sizeof table, other, sizeof other)); }
static void idle_parts(void) { given(nahokipe_idle_parts(16, table, sizeof table)); }
static void table_at_least(void) { given(nahokipe_table_at_least(16, 8, other, sizeof other)); }
static void table_of_row(void) { given(nahokipe_table_of_row(16, 2, other, sizeof other)); }
static void table_of_ring(void) { given(nahokipe_table_of_ring(16, 2, other, sizeof other)); }
static void figures(void) { given(nahokipe_figures(16, table, sizeof table, counts, 17, first, 17, second, 17, parts, 16)); }
static void both_routes(void) { given(nahokipe_shares_by_both_routes(16, table, sizeof table, 0xFF, first, 17, second, 17)); }
static void reliability(void) { given(nahokipe_reliability(16, table, sizeof table, 0xFF, cells, 81)); }
static void joint_signature(void) { given(nahokipe_joint_signature(16, table, sizeof table, other, sizeof other, square, 256)); }
static void path_counts_of_blocks(void) {
    block_cells = given(nahokipe_path_counts_of_blocks(16, table, sizeof table, sizes, 16, vectors, 32, second, 17));
}
static void convert(void) { given(nahokipe_convert(1, 16, counts, 17, 4, second, 17)); }
static void tail(void) { given(nahokipe_tail(16, table, sizeof table, first, 17)); }
static void save_sheet(void) { given(nahokipe_save_sheet(2, 16, first, 17, sheet, sizeof sheet)); }
static void save_sheet_as(void) { sheet_length = given(nahokipe_save_sheet_as(2, 16, first, 17, 4, sheet, sizeof sheet)); }
static void read_sheet(void) { refusals += nahokipe_read_sheet(sheet, sheet_length, first, 17).number != 0; }
static void first_record(void) { length = given(nahokipe_first_record(16, sets, SETS, record, BYTES)); }
static void entered_record(void) { entered_length = given(nahokipe_entered_record(numbers[15], numbers, 16, sets, SETS, written, BYTES)); }
static void whole_record(void) { refusals += nahokipe_whole_record(record, length).number != 0; }
static void table_of_record(void) { given(nahokipe_table_of_record(record, length, other, sizeof other)); }
static void drawing_of_record(void) { drawing_length = given(nahokipe_drawing_of_record(record, length, drawing, DRAWN)); }
static void record_of_drawing(void) { read_length = given(nahokipe_record_of_drawing(drawing, drawing_length, written, BYTES)); }
static void position_of(void) { given(nahokipe_position_of(written, entered_length, numbers[15])); }
static void mask_of(void) { given(nahokipe_mask_of(numbers, 16, numbers, 16)); }
static void numbers_of(void) { given(nahokipe_numbers_of(numbers, 16, 0xFFFF, parts, 16)); }
static void take_out_part(void) { given(nahokipe_take_out_part(written, entered_length, numbers[2], record, BYTES)); }
static void take_out_parts(void) { given(nahokipe_take_out_parts(written, entered_length, numbers + 2, 2, record, BYTES)); }
static void add_set_of_parts(void) { given(nahokipe_add_set_of_parts(written, entered_length, numbers, 7, record, BYTES)); }
static void take_out(void) { given(nahokipe_take_out(record, length, 3, written, BYTES)); }
static void take_out_group(void) { given(nahokipe_take_out_group(record, length, 0x0C, written, BYTES)); }
static void add_set(void) { given(nahokipe_add_set(record, length, 0x7F, written, BYTES)); }
static void add_part(void) {
    size_t left = given(nahokipe_take_out(record, length, 3, written, BYTES));
    given(nahokipe_add_part(written, left, record, BYTES));
}
static void report(void) { given(nahokipe_report(record, length, other, sizeof other, text, sizeof text)); }
static void to_edition_2(void) { length_2 = given(nahokipe_to_edition_2(record, length, record_2, BYTES)); }
static void to_edition_1(void) { given(nahokipe_to_edition_1(record_2, length_2, written, BYTES)); }
static void edition(void) { given(nahokipe_edition(record_2, length_2)); }
static void record_end(void) { given(nahokipe_record_end(record_2, length_2, 0)); }
static void whole_record_2(void) { refusals += nahokipe_whole_record(record_2, length_2).number != 0; }
static void take_out_group_2(void) { filed_length = given(nahokipe_take_out_group(record_2, length_2, 0x0C, filed_2, BYTES)); }
static void retired(void) { gone_count = given(nahokipe_retired(filed_2, filed_length, gone, NAHOKIPE_MOST_RETIRED)); }
static void add_set_2(void) { given(nahokipe_add_set(record_2, length_2, 0x7F, written, BYTES)); }
static void add_part_2(void) { given(nahokipe_add_part(filed_2, filed_length, written, BYTES)); }
static void take_out_parts_2(void) { given(nahokipe_take_out_parts(filed_2, filed_length, first_part, 1, written, BYTES)); }
static void report_2(void) { given(nahokipe_report(record_2, length_2, other, sizeof other, text, sizeof text)); }
static void drawing_of_record_2(void) { given(nahokipe_drawing_of_record(record_2, length_2, drawing, DRAWN)); }

typedef void (*call)(void);

static void *run(void *made) {
    (*(call *)made)();
    return NULL;
}

/* The bytes of stack that a thread took which made this call and nothing else. */
static size_t used(call made) {
    pthread_attr_t attributes;
    pthread_t thread;
    size_t clean = 0;
    memset(ground, PAINT, ROOM);
    pthread_attr_init(&attributes);
    if (pthread_attr_setstack(&attributes, ground, ROOM) != 0 || pthread_create(&thread, &attributes, run, &made) != 0) {
        fprintf(stderr, "stack: no thread\n");
        exit(1);
    }
    pthread_join(thread, NULL);
    while (clean < ROOM && ground[clean] == PAINT) clean++;
    return ROOM - clean;
}

int main(void) {
    static const struct { const char *name; call made; } calls[] = {
        {"table_of_list", table_of_list}, {"table_verdict", table_verdict}, {"minimal_sets", minimal_sets},
        {"table_of_cuts", table_of_cuts}, {"minimal_cuts", minimal_cuts}, {"dual", dual}, {"idle_parts", idle_parts},
        {"table_at_least", table_at_least}, {"table_of_row", table_of_row}, {"table_of_ring", table_of_ring}, {"figures", figures},
        {"shares_by_both_routes", both_routes}, {"reliability", reliability},
        {"path_counts_of_blocks", path_counts_of_blocks}, {"convert", convert}, {"tail", tail},
        {"save_sheet", save_sheet}, {"save_sheet_as", save_sheet_as}, {"read_sheet", read_sheet},
        {"entered_record", entered_record}, {"position_of", position_of}, {"mask_of", mask_of}, {"numbers_of", numbers_of},
        {"take_out_part", take_out_part}, {"take_out_parts", take_out_parts},
        {"add_set_of_parts", add_set_of_parts}, {"first_record", first_record}, {"whole_record", whole_record},
        {"table_of_record", table_of_record}, {"drawing_of_record", drawing_of_record}, {"record_of_drawing", record_of_drawing},
        {"take_out", take_out}, {"take_out_group", take_out_group}, {"add_set", add_set}, {"report", report},
        {"to_edition_2", to_edition_2}, {"to_edition_1", to_edition_1}, {"edition", edition}, {"record_end", record_end},
        {"whole_record of edition 2", whole_record_2}, {"take_out_group of edition 2", take_out_group_2}, {"retired", retired},
        {"add_set of edition 2", add_set_2}, {"add_part of edition 2", add_part_2},
        {"take_out_parts of edition 2", take_out_parts_2}, {"report of edition 2", report_2},
        {"drawing_of_record of edition 2", drawing_of_record_2}, {"add_part", add_part},
    };
    const char *largest = "";
    size_t most = 0, count = 0, bare, joint;
    unsigned mask;
    if (posix_memalign((void **)&ground, 1 << 16, ROOM) != 0) return 1;
    for (mask = 0; mask < 65536; mask++) {
        unsigned bits = 0, rest = mask;
        for (; rest != 0; rest &= rest - 1) bits++;
        if (bits == 8) sets[count++] = (uint16_t)mask;
    }
    for (count = 0; count < 16; count++) {
        numbers[count] = ((uint64_t)1 << 48) - 16 + count;
        sizes[count] = 1;
        vectors[2 * count + 1] = 1;
    }
    bare = used(nothing);
    for (count = 0; count < sizeof calls / sizeof calls[0]; count++) {
        size_t taken = used(calls[count].made) - bare;
        if (taken > most) most = taken, largest = calls[count].name;
    }
    joint = used(joint_signature) - bare;
    printf("stack: joint_signature takes %zu bytes, and the largest of the other calls is %s with %zu bytes\n", joint, largest, most);
    if (refusals != 0) fprintf(stderr, "stack: refused calls: %u\n", refusals);
    if (refusals != 0 || set_count != SETS || cut_count != SETS || read_length != length || gone_count != 2 || block_cells != 17) return 1;
    return most > PROMISED || joint > PROMISED_JOINT;
}
