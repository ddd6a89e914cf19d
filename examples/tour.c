/*
 * A tour of the library from C: a machine of a controller, number 3, and two pumps, 7 and 12, is entered, read, counted and changed. Once
 * `rt lib` in crates/nahokipe has written the archive, this line builds it and runs it, in the repository's root:
 *
 *     cc -std=c99 -I include -o tour examples/tour.c crates/nahokipe/out/libnahokipe.a && ./tour
 *
 * It prints what stands in examples/tour.txt.
 */
#include "nahokipe.h"

#include <inttypes.h>
#include <stdio.h>
#include <stdlib.h>

/* What a call gives; a refusal is said, and ends the tour. */
static size_t given(const char *call, nahokipe_answer answer)
{
    if (answer.number == 0)
        return answer.value;
    printf("%s: refused %u %zu\n", call, (unsigned)answer.number, answer.value);
    exit(1);
}

/* The record that the bytes are. */
static nahokipe_record read_record(const uint8_t *bytes, size_t length)
{
    nahokipe_record record = nahokipe_whole_record(bytes, length);
    nahokipe_answer answer;

    answer.number = record.number;
    answer.value = record.value;
    given("whole_record", answer);
    return record;
}

static void print_numbers(const char *what, const uint64_t *numbers, size_t count)
{
    size_t i;

    printf("%s", what);
    for (i = 0; i < count; i++)
        printf(" %" PRIu64, numbers[i]);
    printf("\n");
}

/* The bytes, the part numbers, the mark, and every set by part numbers. */
static void print_record(const char *what, const uint8_t *bytes, size_t length)
{
    nahokipe_record record = read_record(bytes, length);
    nahokipe_step step = nahokipe_next_set(bytes, length, record.offset, record.sets);
    uint64_t names[NAHOKIPE_MOST_PARTS];
    size_t i, count;

    printf("%s:", what);
    for (i = 0; i < length; i++)
        printf(" %02X", (unsigned)bytes[i]);
    printf("\n");
    print_numbers("  parts", record.numbers, record.parts);
    printf("  mark %" PRIu64 "\n", record.mark);
    for (; step.given == 1; step = nahokipe_next_set(bytes, length, step.next, step.left)) {
        count = given("numbers_of", nahokipe_numbers_of(record.numbers, record.parts, (size_t)step.set, names, NAHOKIPE_MOST_PARTS));
        print_numbers("  set", names, count);
    }
}

/* In how many of the orders in which the parts can fail each failure, and each part's failure, stops the machine. */
static void print_figures(const uint8_t *bytes, size_t length)
{
    static uint8_t table[NAHOKIPE_LONGEST_TABLE];
    int64_t counts[NAHOKIPE_MOST_ENTRIES], signature[NAHOKIPE_MOST_PARTS], domination[NAHOKIPE_MOST_ENTRIES];
    uint64_t importance[NAHOKIPE_MOST_PARTS];
    nahokipe_record record = read_record(bytes, length);
    size_t i, table_length = given("table_of_record", nahokipe_table_of_record(bytes, length, table, sizeof table));
    int64_t orders = 0;

    given("figures", nahokipe_figures(record.parts, table, table_length, counts, NAHOKIPE_MOST_ENTRIES, signature, NAHOKIPE_MOST_PARTS,
                                      domination, NAHOKIPE_MOST_ENTRIES, importance, NAHOKIPE_MOST_PARTS));
    for (i = 0; i < record.parts; i++)
        orders += signature[i];
    for (i = 0; i < record.parts; i++)
        printf("failure %zu stops it in %" PRId64 " of %" PRId64 " orders\n", i + 1, signature[i], orders);
    for (i = 0; i < record.parts; i++)
        printf("part %" PRIu64 " stops it in %" PRIu64 " of %" PRId64 " orders\n", record.numbers[i], importance[i], orders);
}

int main(void)
{
    static const uint64_t numbers[3] = {3, 7, 12}, first[2] = {3, 7}, second[2] = {3, 12};
    static uint8_t machine[NAHOKIPE_LONGEST_RECORD], changed[NAHOKIPE_LONGEST_RECORD];
    nahokipe_answer answer;
    uint16_t sets[2];
    size_t length, changed_length;

    sets[0] = (uint16_t)given("mask_of", nahokipe_mask_of(numbers, 3, first, 2));
    sets[1] = (uint16_t)given("mask_of", nahokipe_mask_of(numbers, 3, second, 2));
    length = given("entered_record", nahokipe_entered_record(15, numbers, 3, sets, 2, machine, sizeof machine));
    print_record("entered", machine, length);
    print_figures(machine, length);

    changed_length = given("take_out_part", nahokipe_take_out_part(machine, length, 7, changed, sizeof changed));
    print_record("part 7 taken out", changed, changed_length);
    length = given("add_part", nahokipe_add_part(changed, changed_length, machine, sizeof machine));
    print_record("a part added", machine, length);

    answer = nahokipe_take_out_part(machine, length, 7, changed, sizeof changed);
    printf("part 7 taken out again: refused %u %zu\n", (unsigned)answer.number, answer.value);
    return answer.number == NAHOKIPE_UNKNOWN_POSITION ? 0 : 1;
}
