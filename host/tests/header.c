/* The header and the archive fit each other: each function is called as given and as refused, on the bridge of five parts. */
#include "nahokipe.h"

#include <stdio.h>
#include <string.h>

static const uint8_t bridge[4] = {0x00, 0xEA, 0xEC, 0xEE};
static const uint8_t record[12] = {0x05, 0x05, 0x01, 0x02, 0x03, 0x04, 0x05, 0x04, 0x09, 0x0E, 0x12, 0x15};
static const uint8_t broken[1] = {0xC4};
static int failures = 0;

static void expect(const char *call, nahokipe_answer answer, unsigned number, size_t value)
{
    if (answer.number == number && answer.value == value)
        return;
    printf("%s: %u at %zu, and not %u at %zu\n", call, (unsigned)answer.number, answer.value, number, value);
    failures++;
}

static void expect_bytes(const char *call, const void *found, const void *expected, size_t length)
{
    if (memcmp(found, expected, length) == 0)
        return;
    printf("%s: the buffer is not as it should be\n", call);
    failures++;
}

static void test_structures(void)
{
    const uint16_t list[5] = {0x15, 0x12, 0x1F, 0x0E, 0x09};
    const uint16_t wrong_list[2] = {0x15, 0x20};
    const uint8_t written[6] = {0x00, 0xEA, 0xEC, 0xEE, 0xA5, 0xA5};
    const uint16_t minimal[6] = {0x09, 0x0E, 0x12, 0x15, 0xA5A5, 0xA5A5};
    const uint16_t untouched[6] = {0xA5A5, 0xA5A5, 0xA5A5, 0xA5A5, 0xA5A5, 0xA5A5};
    uint8_t table[6] = {0xA5, 0xA5, 0xA5, 0xA5, 0xA5, 0xA5};
    uint16_t sets[6] = {0xA5A5, 0xA5A5, 0xA5A5, 0xA5A5, 0xA5A5, 0xA5A5};

    expect("table_of_list", nahokipe_table_of_list(5, list, 5, table, 6), 0, 4);
    expect_bytes("table_of_list", table, written, sizeof table);
    expect("table_of_list, short buffer", nahokipe_table_of_list(6, list, 5, table, 6), 11, 8);
    expect_bytes("table_of_list, short buffer", table, written, sizeof table);
    expect("list_verdict", nahokipe_list_verdict(5, list, 5), 0, 0);
    expect("list_verdict, wrong list", nahokipe_list_verdict(5, wrong_list, 2), 4, 1);
    expect("table_verdict", nahokipe_table_verdict(5, bridge, 4), 0, 0);
    expect("table_verdict, broken table", nahokipe_table_verdict(3, broken, 1), 10, 2);
    expect("minimal_sets, short buffer", nahokipe_minimal_sets(5, bridge, 4, sets, 3), 11, 4);
    expect_bytes("minimal_sets, short buffer", sets, untouched, sizeof sets);
    expect("minimal_sets", nahokipe_minimal_sets(5, bridge, 4, sets, 6), 0, 4);
    expect_bytes("minimal_sets", sets, minimal, sizeof sets);
}

/* The bridge from its cut sets, its minimal cut sets and its dual, each refused first, which leaves the buffer as it was. */
static void test_cuts(void)
{
    static const uint16_t list[6] = {0x18, 0x1F, 0x03, 0x15, 0x0E, 0x03}, wrong_list[2] = {0x03, 0x20};
    static const uint8_t written[6] = {0x00, 0xEA, 0xEC, 0xEE, 0xA5, 0xA5}, turned[6] = {0x88, 0xC8, 0xA8, 0xFF, 0xA5, 0xA5};
    static const uint16_t minimal[6] = {0x03, 0x0E, 0x15, 0x18, 0xA5A5, 0xA5A5};
    uint8_t untouched[12], table[6], dual[6];
    uint16_t cuts[6];

    memset(untouched, 0xA5, sizeof untouched);
    memset(table, 0xA5, sizeof table);
    memset(dual, 0xA5, sizeof dual);
    memset(cuts, 0xA5, sizeof cuts);
    expect("table_of_cuts, no cut sets", nahokipe_table_of_cuts(5, list, 0, table, 6), NAHOKIPE_EMPTY_LIST, 0);
    expect("table_of_cuts, wrong list", nahokipe_table_of_cuts(5, wrong_list, 2, table, 6), NAHOKIPE_UNKNOWN_PART, 1);
    expect("table_of_cuts, short buffer", nahokipe_table_of_cuts(5, list, 6, table, 3), NAHOKIPE_SHORT_BUFFER, 4);
    expect_bytes("table_of_cuts, refused", table, untouched, sizeof table);
    expect("table_of_cuts", nahokipe_table_of_cuts(5, list, 6, table, 6), 0, 4);
    expect_bytes("table_of_cuts", table, written, sizeof table);
    expect("minimal_cuts, broken table", nahokipe_minimal_cuts(3, broken, 1, cuts, 6), NAHOKIPE_BROKEN_SET, 2);
    expect("minimal_cuts, short buffer", nahokipe_minimal_cuts(5, bridge, 4, cuts, 3), NAHOKIPE_SHORT_BUFFER, 4);
    expect_bytes("minimal_cuts, refused", cuts, untouched, sizeof cuts);
    expect("minimal_cuts", nahokipe_minimal_cuts(5, bridge, 4, cuts, 6), 0, 4);
    expect_bytes("minimal_cuts", cuts, minimal, sizeof cuts);
    expect("dual, broken table", nahokipe_dual(3, broken, 1, dual, 6), NAHOKIPE_BROKEN_SET, 2);
    expect("dual, short buffer", nahokipe_dual(5, bridge, 4, dual, 3), NAHOKIPE_SHORT_BUFFER, 4);
    expect_bytes("dual, refused", dual, untouched, sizeof dual);
    expect("dual", nahokipe_dual(5, bridge, 4, dual, 6), 0, 4);
    expect_bytes("dual", dual, turned, sizeof dual);
}

/* No part of the bridge is idle; a part in no set is; so are all parts but the last of a machine that runs exactly while that one does. */
static void test_idle(void)
{
    static uint8_t last_alone[NAHOKIPE_LONGEST_TABLE];
    static const uint8_t sixth_in_no_set[8] = {0x00, 0xEA, 0xEC, 0xEE, 0x00, 0xEA, 0xEC, 0xEE};
    static const uint8_t both_ends[1] = {0xA0}, unused[1] = {0x1F}, of_empty[1] = {0x01}, not_of_full[1] = {0x02};
    static const uint64_t numbers[3] = {3, 7, 12}, named[2] = {7, 99};
    uint8_t lent[8];
    uint64_t cells[2] = {99, 99};

    memcpy(lent, sixth_in_no_set, sizeof lent);
    memset(last_alone + sizeof last_alone / 2, 0xFF, sizeof last_alone / 2);
    expect("idle_parts, the bridge", nahokipe_idle_parts(5, bridge, 4), 0, 0);
    expect("idle_parts, a part in no set", nahokipe_idle_parts(6, lent, 8), 0, 0x20);
    expect_bytes("idle_parts, a part in no set", lent, sixth_in_no_set, sizeof lent);
    expect("idle_parts, 16 parts", nahokipe_idle_parts(16, last_alone, sizeof last_alone), 0, 0x7FFF);
    expect("idle_parts, two of three", nahokipe_idle_parts(3, both_ends, 1), 0, 0x02);
    expect("idle_parts, by number", nahokipe_numbers_of(numbers, 3, nahokipe_idle_parts(3, both_ends, 1).value, cells, 2), 0, 1);
    expect_bytes("idle_parts, by number", cells, named, sizeof cells);
    expect("idle_parts, no parts", nahokipe_idle_parts(0, bridge, 4), NAHOKIPE_WRONG_PART_COUNT, 0);
    expect("idle_parts, 17 parts", nahokipe_idle_parts(17, bridge, 4), NAHOKIPE_WRONG_PART_COUNT, 0);
    expect("idle_parts, long table", nahokipe_idle_parts(5, lent, 8), NAHOKIPE_WRONG_TABLE_LENGTH, 0);
    expect("idle_parts, unused bit", nahokipe_idle_parts(2, unused, 1), NAHOKIPE_UNUSED_BIT, 0);
    expect("idle_parts, empty set works", nahokipe_idle_parts(2, of_empty, 1), NAHOKIPE_EMPTY_SET_WORKS, 0);
    expect("idle_parts, full set fails", nahokipe_idle_parts(2, not_of_full, 1), NAHOKIPE_FULL_SET_FAILS, 0);
    expect("idle_parts, broken table", nahokipe_idle_parts(3, broken, 1), NAHOKIPE_BROKEN_SET, 2);
}

typedef nahokipe_answer pattern_call(size_t n, size_t k, uint8_t *table, size_t table_len);

/* Four parts and k = 2, refused first, which leaves the buffer as it was, and then its table and its minimal cut sets. */
static void test_pattern(const char *name, pattern_call *call, const uint8_t *expected, const uint16_t *minimal, size_t count)
{
    uint8_t untouched[3], table[3];
    uint16_t cuts[4];

    memset(untouched, 0xA5, sizeof untouched);
    memset(table, 0xA5, sizeof table);
    expect(name, call(0, 0, table, 3), NAHOKIPE_WRONG_PART_COUNT, 0);
    expect(name, call(17, 2, table, 3), NAHOKIPE_WRONG_PART_COUNT, 0);
    expect(name, call(4, 0, table, 3), NAHOKIPE_WRONG_THRESHOLD, 0);
    expect(name, call(4, 5, table, 1), NAHOKIPE_WRONG_THRESHOLD, 0);
    expect(name, call(4, ((size_t)1 << 32) + 2, table, 3), NAHOKIPE_WRONG_THRESHOLD, 0);
    expect(name, call(4, 2, table, 1), NAHOKIPE_SHORT_BUFFER, 2);
    expect_bytes(name, table, untouched, sizeof table);
    expect(name, call(4, 2, table, 3), 0, 2);
    expect_bytes(name, table, expected, sizeof table);
    expect(name, nahokipe_minimal_cuts(4, table, 2, cuts, 4), 0, count);
    expect_bytes(name, cuts, minimal, count * sizeof cuts[0]);
}

static void test_patterns(void)
{
    static const uint8_t at_least[3] = {0xE8, 0xFE, 0xA5}, row[3] = {0xE0, 0xEC, 0xA5}, ring[3] = {0xA0, 0xEC, 0xA5};
    static const uint16_t any_three[4] = {7, 11, 13, 14}, in_a_row[3] = {3, 6, 12}, in_a_ring[4] = {3, 6, 9, 12};

    test_pattern("table_at_least", nahokipe_table_at_least, at_least, any_three, 4);
    test_pattern("table_of_row", nahokipe_table_of_row, row, in_a_row, 3);
    test_pattern("table_of_ring", nahokipe_table_of_ring, ring, in_a_ring, 4);
}

/* What the figures write: seven cells each, of which those behind the result stay 99. */
static const int64_t counts[7] = {0, 0, 2, 8, 5, 1, 99};
static const int64_t tail[7] = {120, 120, 96, 24, 0, 0, 99};
static const int64_t signature[7] = {0, 24, 72, 24, 0, 99, 99};
static const int64_t domination[7] = {0, 0, 2, 2, -5, 2, 99};
static const uint64_t importance[7] = {28, 28, 8, 28, 28, 99, 99};

typedef nahokipe_answer vector_call(size_t n, const uint8_t *table, size_t table_len, int64_t *cells, size_t cells_len);

static void test_vector(const char *name, vector_call *call, const int64_t *expected, size_t length)
{
    int64_t cells[7] = {99, 99, 99, 99, 99, 99, 99};

    expect(name, call(5, bridge, 4, cells, 7), 0, length);
    expect_bytes(name, cells, expected, sizeof cells);
    expect(name, call(5, bridge, 4, cells, length - 1), 11, length);
    expect(name, call(3, broken, 1, cells, 7), 10, 2);
    expect_bytes(name, cells, expected, sizeof cells);
}

static void test_importance(void)
{
    uint64_t cells[7] = {99, 99, 99, 99, 99, 99, 99};

    expect("importance", nahokipe_importance(5, bridge, 4, cells, 7), 0, 5);
    expect_bytes("importance", cells, importance, sizeof cells);
    expect("importance, short buffer", nahokipe_importance(5, bridge, 4, cells, 4), 11, 5);
    expect("importance, broken table", nahokipe_importance(3, broken, 1, cells, 7), 10, 2);
    expect_bytes("importance, refused", cells, importance, sizeof cells);
}

static void test_figures(void)
{
    int64_t c[7] = {99, 99, 99, 99, 99, 99, 99};
    int64_t s[7] = {99, 99, 99, 99, 99, 99, 99};
    int64_t d[7] = {99, 99, 99, 99, 99, 99, 99};
    uint64_t i[7] = {99, 99, 99, 99, 99, 99, 99};

    expect("figures", nahokipe_figures(5, bridge, 4, c, 7, s, 7, d, 7, i, 7), 0, 0);
    expect("figures, short counts", nahokipe_figures(5, bridge, 4, c, 5, s, 4, d, 5, i, 4), 11, 6);
    expect("figures, short signature", nahokipe_figures(5, bridge, 4, c, 6, s, 4, d, 5, i, 4), 11, 5);
    expect("figures, short domination", nahokipe_figures(5, bridge, 4, c, 6, s, 5, d, 5, i, 4), 11, 6);
    expect("figures, short importance", nahokipe_figures(5, bridge, 4, c, 6, s, 5, d, 6, i, 4), 11, 5);
    expect("figures, broken table", nahokipe_figures(3, broken, 1, c, 7, s, 7, d, 7, i, 7), 10, 2);
    expect_bytes("figures, counts", c, counts, sizeof c);
    expect_bytes("figures, signature", s, signature, sizeof s);
    expect_bytes("figures, domination", d, domination, sizeof d);
    expect_bytes("figures, importance", i, importance, sizeof i);
}

static void test_shares(void)
{
    static const int64_t shares[4] = {0, 44, 20, 99};
    static const int64_t h[13] = {0, 0, 0, 0, 2, 0, 0, 2, -3, 0, -2, 2, 99};
    int64_t a[4] = {99, 99, 99, 99};
    int64_t b[4] = {99, 99, 99, 99};
    int64_t cells[13] = {99, 99, 99, 99, 99, 99, 99, 99, 99, 99, 99, 99, 99};

    expect("shares, set by set", nahokipe_shares_by_sets(5, bridge, 4, 7, a, 4), 0, 3);
    expect("shares, through h", nahokipe_shares_by_reliability(5, bridge, 4, 7, b, 4), 0, 3);
    expect_bytes("shares, set by set", a, shares, sizeof a);
    expect_bytes("shares, through h", b, shares, sizeof b);
    b[0] = 1;
    expect("shares, both routes, short", nahokipe_shares_by_both_routes(5, bridge, 4, 7, b, 4, a, 2), 11, 3);
    expect("shares, both routes", nahokipe_shares_by_both_routes(5, bridge, 4, 7, a, 4, b, 3), 0, 3);
    expect_bytes("shares, both routes", b, shares, sizeof b);
    expect("h", nahokipe_reliability(5, bridge, 4, 7, cells, 13), 0, 12);
    expect_bytes("h", cells, h, sizeof cells);
    expect("shares, no group", nahokipe_shares_by_sets(5, bridge, 4, 0, a, 4), 15, 0);
    expect("shares, part 6", nahokipe_shares_by_reliability(5, bridge, 4, 32, a, 4), 16, 0);
    expect("h, broken table", nahokipe_reliability(3, broken, 1, 1, cells, 13), 10, 2);
    expect_bytes("shares, refused", a, shares, sizeof a);
}

/* Document 004's example of two machines of four parts, both ways round; refusals leave the buffer as it was, before and behind that. */
static void test_joint(void)
{
    static const uint8_t first[2] = {0x88, 0x88}, second[2] = {0x00, 0xFC}, not_of_full[2] = {0x00, 0x7C}, all_three[1] = {0x80};
    static const uint64_t square[17] = {0, 6, 6, 0, 4, 2, 2, 0, 2, 2, 0, 0, 0, 0, 0, 0, 99};
    static const uint64_t turned[17] = {0, 4, 2, 0, 6, 2, 2, 0, 6, 2, 0, 0, 0, 0, 0, 0, 99};
    static const uint64_t untouched[17] = {99, 99, 99, 99, 99, 99, 99, 99, 99, 99, 99, 99, 99, 99, 99, 99, 99};
    uint64_t cells[17];

    memcpy(cells, untouched, sizeof cells);
    expect("joint_signature, no parts", nahokipe_joint_signature(0, first, 2, second, 2, cells, 17), NAHOKIPE_WRONG_PART_COUNT, 0);
    expect("joint_signature, 17 parts", nahokipe_joint_signature(17, first, 2, second, 2, cells, 17), NAHOKIPE_WRONG_PART_COUNT, 0);
    expect("joint_signature, first long", nahokipe_joint_signature(3, first, 2, broken, 1, cells, 17), NAHOKIPE_WRONG_TABLE_LENGTH, 0);
    expect("joint_signature, first broken", nahokipe_joint_signature(3, broken, 1, second, 2, cells, 17), NAHOKIPE_BROKEN_SET, 2);
    expect("joint_signature, second broken", nahokipe_joint_signature(3, all_three, 1, broken, 1, cells, 8), NAHOKIPE_BROKEN_SET, 2);
    expect("joint_signature, second short", nahokipe_joint_signature(4, first, 2, second, 1, cells, 0), NAHOKIPE_WRONG_TABLE_LENGTH, 0);
    expect("joint_signature, second fails", nahokipe_joint_signature(4, first, 2, not_of_full, 2, cells, 15), NAHOKIPE_FULL_SET_FAILS, 0);
    expect("joint_signature, short buffer", nahokipe_joint_signature(4, first, 2, second, 2, cells, 15), NAHOKIPE_SHORT_BUFFER, 16);
    expect_bytes("joint_signature, refused", cells, untouched, sizeof cells);
    expect("joint_signature", nahokipe_joint_signature(4, first, 2, second, 2, cells, 17), 0, 16);
    expect_bytes("joint_signature", cells, square, sizeof cells);
    expect("joint_signature, exchanged", nahokipe_joint_signature(4, second, 2, first, 2, cells, 16), 0, 16);
    expect_bytes("joint_signature, exchanged", cells, turned, sizeof cells);
    expect("joint_signature, first fails", nahokipe_joint_signature(4, not_of_full, 2, second, 1, cells, 17), NAHOKIPE_FULL_SET_FAILS, 0);
    expect_bytes("joint_signature, refused behind that", cells, turned, sizeof cells);
}

static void test_vectors(void)
{
    static const int64_t falling[4] = {0, 3, 2, 1};
    int64_t cells[7] = {99, 99, 99, 99, 99, 99, 99};

    expect("vector_verdict", nahokipe_vector_verdict(2, 5, tail, 6), 0, 0);
    expect("vector_verdict, falling", nahokipe_vector_verdict(1, 3, falling, 4), 14, 1);
    expect("vector_verdict, no kind", nahokipe_vector_verdict(5, 3, falling, 4), 26, 0);
    expect("convert", nahokipe_convert(2, 5, tail, 6, 4, cells, 7), 0, 6);
    expect_bytes("convert", cells, domination, sizeof cells);
    expect("convert, short buffer", nahokipe_convert(2, 5, tail, 6, 3, cells, 4), 11, 5);
    expect("convert, no kind", nahokipe_convert(2, 5, tail, 6, 0, cells, 7), 26, 0);
    expect_bytes("convert, refused", cells, domination, sizeof cells);
}

/* Two blocks and their path counts, of three parts and of four, as the request has them. */
static const uint8_t series[1] = {0x08}, parallel[1] = {0x0E}, first_alone[1] = {0x0A};
static const size_t sizes[2] = {3, 4};
static const int64_t vectors[9] = {0, 0, 2, 1, 0, 0, 2, 4, 1};

/* Each refusal of blocks but that of a short buffer, which would be refused too, and stays as it was. */
static void test_refused_blocks(void)
{
    static const size_t wrong_sizes[2] = {3, 17}, turned_sizes[2] = {4, 3}, many[2] = {16, 1};
    static const int64_t falling[9] = {0, 3, 2, 1, 9, 0, 2, 4, 1}, second[9] = {0, 0, 2, 1, 0, 5, 2, 4, 1};
    static const int64_t of_many[19] = {0, 0, 0, 0, 0, 0, 0, 0, 0, 0, 0, 0, 0, 0, 0, 0, 1, 0, 1};
    static const int64_t untouched[7] = {99, 99, 99, 99, 99, 99, 99};
    int64_t cells[7] = {99, 99, 99, 99, 99, 99, 99};

    expect("no blocks", nahokipe_path_counts_of_blocks(0, series, 1, sizes, 0, vectors, 0, cells, 7), NAHOKIPE_WRONG_PART_COUNT, 0);
    expect("blocks, broken", nahokipe_path_counts_of_blocks(3, broken, 1, sizes, 2, vectors, 9, cells, 7), NAHOKIPE_BROKEN_SET, 2);
    expect("one size", nahokipe_path_counts_of_blocks(2, series, 1, sizes, 1, vectors, 9, cells, 7), NAHOKIPE_WRONG_VECTOR_LENGTH, 0);
    expect("size 17", nahokipe_path_counts_of_blocks(2, series, 1, wrong_sizes, 2, vectors, 9, cells, 7), NAHOKIPE_WRONG_PART_COUNT, 0);
    expect("an entry less", nahokipe_path_counts_of_blocks(2, series, 1, sizes, 2, vectors, 8, cells, 7), NAHOKIPE_WRONG_VECTOR_LENGTH, 0);
    expect("turned", nahokipe_path_counts_of_blocks(2, series, 1, turned_sizes, 2, vectors, 9, cells, 7), NAHOKIPE_WRONG_PATH_COUNT, 4);
    expect("second block", nahokipe_path_counts_of_blocks(2, series, 1, sizes, 2, second, 9, cells, 7), NAHOKIPE_WRONG_PATH_COUNT, 1);
    expect("first block", nahokipe_path_counts_of_blocks(2, series, 1, sizes, 2, falling, 9, cells, 7), NAHOKIPE_FALLING_PROPORTION, 1);
    expect("17 parts", nahokipe_path_counts_of_blocks(2, series, 1, many, 2, of_many, 19, cells, 7), NAHOKIPE_MANY_PARTS, 0);
    expect_bytes("blocks, refused", cells, untouched, sizeof cells);
}

/* Both in series, with the orders that the request gives, both in parallel, and the first alone; a short buffer stays as it was. */
static void test_blocks(void)
{
    static const int64_t in_series[9] = {0, 0, 0, 0, 4, 10, 6, 1, 99}, in_parallel[9] = {0, 0, 4, 19, 31, 21, 7, 1, 99};
    static const int64_t orders[9] = {720, 1920, 1824, 576, 0, 0, 0, 99, 99}, of_first[9] = {0, 0, 2, 9, 16, 14, 6, 1, 99};
    static const int64_t untouched[9] = {99, 99, 99, 99, 99, 99, 99, 99, 99};
    int64_t cells[9], converted[9];

    memcpy(cells, untouched, sizeof cells);
    memcpy(converted, untouched, sizeof converted);
    expect("blocks, short", nahokipe_path_counts_of_blocks(2, series, 1, sizes, 2, vectors, 9, cells, 7), NAHOKIPE_SHORT_BUFFER, 8);
    expect_bytes("blocks, short", cells, untouched, sizeof cells);
    expect("blocks in series", nahokipe_path_counts_of_blocks(2, series, 1, sizes, 2, vectors, 9, cells, 9), 0, 8);
    expect_bytes("blocks in series", cells, in_series, sizeof cells);
    expect("blocks in series, orders", nahokipe_convert(NAHOKIPE_PATH_COUNTS, 7, cells, 8, NAHOKIPE_SIGNATURE, converted, 9), 0, 7);
    expect_bytes("blocks in series, orders", converted, orders, sizeof converted);
    expect("blocks in parallel", nahokipe_path_counts_of_blocks(2, parallel, 1, sizes, 2, vectors, 9, cells, 8), 0, 8);
    expect_bytes("blocks in parallel", cells, in_parallel, sizeof cells);
    expect("first block alone", nahokipe_path_counts_of_blocks(2, first_alone, 1, sizes, 2, vectors, 9, cells, 9), 0, 8);
    expect_bytes("first block alone", cells, of_first, sizeof cells);
    expect("blocks, no buffer", nahokipe_path_counts_of_blocks(2, series, 1, sizes, 2, vectors, 9, cells, 0), NAHOKIPE_SHORT_BUFFER, 8);
    expect_bytes("blocks, no buffer", cells, of_first, sizeof cells);
}

static void expect_sheet(const char *call, nahokipe_sheet sheet, unsigned number, size_t value, unsigned kind, size_t n)
{
    nahokipe_answer answer;

    answer.number = sheet.number;
    answer.value = sheet.value;
    expect(call, answer, number, value);
    if (sheet.kind == kind && sheet.n == n)
        return;
    printf("%s: kind %u of %zu parts, and not %u of %zu\n", call, (unsigned)sheet.kind, sheet.n, kind, n);
    failures++;
}

/* The bridge's sheets: nine bytes each, of which those behind the sheet stay A5. The tail's was stored while such sheets were written. */
static const uint8_t sheet_of_counts[9] = {0x01, 0x05, 0x00, 0x00, 0x02, 0x08, 0x05, 0x01, 0xA5};
static const uint8_t sheet_of_tail[9] = {0x02, 0x05, 0x78, 0x78, 0x60, 0x18, 0x00, 0x00, 0xA5};
static const uint8_t sheet_of_signature[9] = {0x03, 0x05, 0x00, 0x18, 0x48, 0x18, 0x00, 0xA5, 0xA5};
static const uint8_t sheet_of_domination[9] = {0x04, 0x05, 0x00, 0x00, 0x04, 0x04, 0x09, 0x04, 0xA5};

/* A vector that is saved, and a buffer that is one byte too short for that and stays as it was. */
static void test_saved(const char *name, uint8_t kind, const int64_t *entries, size_t count, const uint8_t *expected, size_t length)
{
    uint8_t sheet[9], untouched[9];

    memset(sheet, 0xA5, sizeof sheet);
    memset(untouched, 0xA5, sizeof untouched);
    expect(name, nahokipe_save_sheet(kind, 5, entries, count, sheet, length - 1), NAHOKIPE_SHORT_BUFFER, length);
    expect_bytes(name, sheet, untouched, sizeof sheet);
    expect(name, nahokipe_save_sheet(kind, 5, entries, count, sheet, 9), 0, length);
    expect_bytes(name, sheet, expected, sizeof sheet);
}

/* The tail saved as one of the target kind, in the same way. */
static void test_saved_as(const char *name, uint8_t target, const uint8_t *expected, size_t length)
{
    uint8_t sheet[9], untouched[9];

    memset(sheet, 0xA5, sizeof sheet);
    memset(untouched, 0xA5, sizeof untouched);
    expect(name, nahokipe_save_sheet_as(NAHOKIPE_TAIL, 5, tail, 6, target, sheet, length - 1), NAHOKIPE_SHORT_BUFFER, length);
    expect_bytes(name, sheet, untouched, sizeof sheet);
    expect(name, nahokipe_save_sheet_as(NAHOKIPE_TAIL, 5, tail, 6, target, sheet, 9), 0, length);
    expect_bytes(name, sheet, expected, sizeof sheet);
}

/* A tail sheet by name, where each of the other checks would fail too, and what those give for another target. */
static void test_tail_sheets(void)
{
    static const int64_t falling[4] = {0, 3, 2, 1}, not_whole[6] = {120, 120, 100, 24, 0, 0};
    uint8_t sheet[9], untouched[9];

    memset(sheet, 0xA5, sizeof sheet);
    memset(untouched, 0xA5, sizeof untouched);
    expect("save_sheet_as, tail", nahokipe_save_sheet_as(3, 5, signature, 5, NAHOKIPE_TAIL, sheet, 9), NAHOKIPE_TAIL_SHEET, 0);
    expect("save_sheet_as, tail of no kind", nahokipe_save_sheet_as(5, 5, tail, 6, 2, sheet, 9), NAHOKIPE_TAIL_SHEET, 0);
    expect("save_sheet_as, of no kind", nahokipe_save_sheet_as(5, 5, tail, 6, 3, sheet, 9), NAHOKIPE_WRONG_KIND, 0);
    expect("save_sheet_as, as no kind", nahokipe_save_sheet_as(2, 17, tail, 6, 0, sheet, 9), NAHOKIPE_WRONG_KIND, 0);
    expect("save_sheet_as, tail of 17 parts", nahokipe_save_sheet_as(2, 17, tail, 6, 2, sheet, 9), NAHOKIPE_TAIL_SHEET, 0);
    expect("save_sheet_as, 17 parts", nahokipe_save_sheet_as(2, 17, tail, 6, 3, sheet, 9), NAHOKIPE_WRONG_PART_COUNT, 0);
    expect("save_sheet_as, short tail", nahokipe_save_sheet_as(2, 5, tail, 5, 2, sheet, 9), NAHOKIPE_TAIL_SHEET, 0);
    expect("save_sheet_as, short vector", nahokipe_save_sheet_as(2, 5, tail, 5, 3, sheet, 9), NAHOKIPE_WRONG_VECTOR_LENGTH, 0);
    expect("save_sheet_as, tail, not whole", nahokipe_save_sheet_as(2, 5, not_whole, 6, 2, sheet, 9), NAHOKIPE_TAIL_SHEET, 0);
    expect("save_sheet_as, not whole", nahokipe_save_sheet_as(2, 5, not_whole, 6, 3, sheet, 9), NAHOKIPE_WRONG_PATH_COUNT, 3);
    expect("save_sheet_as, tail, falling", nahokipe_save_sheet_as(1, 3, falling, 4, 2, sheet, 9), NAHOKIPE_TAIL_SHEET, 0);
    expect("save_sheet_as, falling", nahokipe_save_sheet_as(1, 3, falling, 4, 3, sheet, 9), NAHOKIPE_FALLING_PROPORTION, 1);
    expect("save_sheet_as, tail, no buffer", nahokipe_save_sheet_as(2, 5, tail, 6, 2, sheet, 0), NAHOKIPE_TAIL_SHEET, 0);
    expect_bytes("save_sheet_as, refused", sheet, untouched, sizeof sheet);
}

static void test_sheets(void)
{
    static const int64_t falling[4] = {0, 3, 2, 1};
    int64_t cells[7] = {99, 99, 99, 99, 99, 99, 99};
    uint8_t sheet[9];

    test_saved("save_sheet, path counts", NAHOKIPE_PATH_COUNTS, counts, 6, sheet_of_counts, 8);
    test_saved("save_sheet, tail", NAHOKIPE_TAIL, tail, 6, sheet_of_signature, 7);
    test_saved("save_sheet, signature", NAHOKIPE_SIGNATURE, signature, 5, sheet_of_signature, 7);
    test_saved("save_sheet, domination", NAHOKIPE_DOMINATION, domination, 6, sheet_of_domination, 8);
    test_saved_as("save_sheet_as, path counts", NAHOKIPE_PATH_COUNTS, sheet_of_counts, 8);
    test_saved_as("save_sheet_as, signature", NAHOKIPE_SIGNATURE, sheet_of_signature, 7);
    test_saved_as("save_sheet_as, domination", NAHOKIPE_DOMINATION, sheet_of_domination, 8);
    memcpy(sheet, sheet_of_tail, sizeof sheet);
    expect("save_sheet, no kind", nahokipe_save_sheet(0, 3, falling, 4, sheet, 9), NAHOKIPE_WRONG_KIND, 0);
    expect("save_sheet, falling", nahokipe_save_sheet(1, 3, falling, 4, sheet, 9), NAHOKIPE_FALLING_PROPORTION, 1);
    expect_bytes("save_sheet, refused", sheet, sheet_of_tail, sizeof sheet);
    expect_sheet("read_sheet", nahokipe_read_sheet(sheet, 8, cells, 7), 0, 6, 2, 5);
    expect_bytes("read_sheet", cells, tail, sizeof cells);
    expect_sheet("read_sheet, bytes left", nahokipe_read_sheet(sheet, 9, cells, 7), 25, 8, 1, 0);
    expect_bytes("read_sheet, bytes left", cells, tail, sizeof cells);
    expect("save_sheet, as it was read", nahokipe_save_sheet(2, 5, cells, 6, sheet, 7), 0, 7);
    expect_bytes("save_sheet, as it was read", sheet, sheet_of_signature, 7);
}

/* All of the bridge's record, which stands at an offset, or nothing beside a refusal. */
static void expect_record(const char *call, nahokipe_record found, size_t offset)
{
    size_t i;
    int same = found.number == 0 && found.value == 0 && found.parts == 5 && found.mark == 5 && found.sets == 4;

    same = same && found.offset == offset && found.length == 4;
    for (i = 0; i < 16; i++)
        same = same && found.numbers[i] == (i < 5 ? i + 1 : 0);
    if (same)
        return;
    printf("%s: the record is not as it should be\n", call);
    failures++;
}

static void expect_refused_record(const char *call, nahokipe_record found, unsigned number, size_t value)
{
    size_t i;
    int nothing = found.parts == 0 && found.mark == 0 && found.sets == 0 && found.offset == 0 && found.length == 0;
    nahokipe_answer answer;

    answer.number = found.number;
    answer.value = found.value;
    expect(call, answer, number, value);
    for (i = 0; i < 16; i++)
        nothing = nothing && found.numbers[i] == 0;
    if (nothing)
        return;
    printf("%s: something beside the refusal\n", call);
    failures++;
}

/* The walk along the record's sets, and a step behind its end. */
static void test_walk(void)
{
    static const uint64_t sets[4] = {0x09, 0x0E, 0x12, 0x15};
    nahokipe_record whole = nahokipe_whole_record(record, 12);
    size_t next = whole.offset, left = whole.sets, i;
    nahokipe_step step;

    for (i = 0; i < 4; i++) {
        step = nahokipe_next_set(record, 12, next, left);
        if (step.given != 1 || step.set != sets[i] || step.next != 9 + i || step.left != 3 - i) {
            printf("next_set: step %zu is not as it should be\n", i);
            failures++;
        }
        next = step.next;
        left = step.left;
    }
    step = nahokipe_next_set(record, 12, next, left);
    if (step.given != 0 || step.set != 0 || step.next != 0 || step.left != 0) {
        printf("next_set: the walk does not end\n");
        failures++;
    }
}

static void test_records(void)
{
    static const uint16_t list[5] = {0x15, 0x12, 0x1F, 0x0E, 0x09};
    uint8_t among[14] = {0xFF, 0x05, 0x05, 0x01, 0x02, 0x03, 0x04, 0x05, 0x04, 0x09, 0x0E, 0x12, 0x15, 0xFF};
    uint8_t table[4] = {0xA5, 0xA5, 0xA5, 0xA5};
    uint8_t first[12] = {0};

    expect_record("whole_record", nahokipe_whole_record(record, 12), 8);
    expect_refused_record("whole_record, cut off", nahokipe_whole_record(record, 11), 21, 11);
    expect_record("record_at", nahokipe_record_at(among, 14, 1), 9);
    expect_refused_record("record_at, another start", nahokipe_record_at(among, 14, 3), 23, 5);
    test_walk();
    expect("table_of_record", nahokipe_table_of_record(record, 12, table, 4), 0, 4);
    expect("table_of_record, short buffer", nahokipe_table_of_record(record, 12, table, 3), 11, 4);
    expect_bytes("table_of_record", table, bridge, sizeof table);
    expect("first_record", nahokipe_first_record(5, list, 5, first, 12), 0, 12);
    expect("first_record, no sets", nahokipe_first_record(5, list, 0, first, 12), 2, 0);
    expect_bytes("first_record", first, record, sizeof first);
}

static void test_changes(void)
{
    static const uint8_t added[14] = {6, 6, 1, 2, 3, 4, 5, 6, 4, 0x09, 0x0E, 0x12, 0x15, 0xA5};
    static const uint8_t taken[10] = {4, 5, 1, 2, 4, 5, 2, 0x05, 0x0A, 0xA5};
    static const uint8_t wider[12] = {5, 5, 1, 2, 3, 4, 5, 3, 0x01, 0x0E, 0x12, 0xA5};
    uint8_t buffer[14];

    memset(buffer, 0xA5, sizeof buffer);
    expect("add_part", nahokipe_add_part(record, 12, buffer, 14), 0, 13);
    expect_bytes("add_part", buffer, added, sizeof added);
    expect("add_part, short buffer", nahokipe_add_part(record, 12, buffer, 12), 11, 13);
    expect_bytes("add_part, short buffer", buffer, added, sizeof added);
    memset(buffer, 0xA5, sizeof buffer);
    expect("take_out", nahokipe_take_out(record, 12, 3, buffer, 14), 0, 9);
    expect_bytes("take_out", buffer, taken, sizeof taken);
    expect("take_out, position 6", nahokipe_take_out(record, 12, 6, buffer, 14), 17, 0);
    expect_bytes("take_out, position 6", buffer, taken, sizeof taken);
    memset(buffer, 0xA5, sizeof buffer);
    expect("add_set", nahokipe_add_set(record, 12, 0x01, buffer, 14), 0, 11);
    expect_bytes("add_set", buffer, wider, sizeof wider);
    expect("add_set, part 6", nahokipe_add_set(record, 12, 0x20, buffer, 14), 4, 0);
    expect_bytes("add_set, part 6", buffer, wider, sizeof wider);
}

/* Positions 3 and 5 taken out together, and groups that are refused and leave the buffer as it was, before and behind that. */
static void test_groups(void)
{
    static const uint8_t untouched[8] = {0xA5, 0xA5, 0xA5, 0xA5, 0xA5, 0xA5, 0xA5, 0xA5};
    static const uint8_t taken[8] = {3, 5, 1, 2, 4, 1, 0x05, 0xA5};
    uint8_t buffer[8];

    memset(buffer, 0xA5, sizeof buffer);
    expect("take_out_group, no group", nahokipe_take_out_group(record, 12, 0, buffer, 8), 15, 0);
    expect("take_out_group, part 6", nahokipe_take_out_group(record, 12, 0x23, buffer, 8), 16, 0);
    expect("take_out_group, bit 63", nahokipe_take_out_group(record, 12, ((size_t)1 << 63) + 0x14, buffer, 8), 16, 0);
    expect("take_out_group, every set names a part", nahokipe_take_out_group(record, 12, 0x03, buffer, 0), 18, 0);
    expect("take_out_group, short buffer", nahokipe_take_out_group(record, 12, 0x14, buffer, 6), 11, 7);
    expect_bytes("take_out_group, refused", buffer, untouched, sizeof buffer);
    expect("take_out_group", nahokipe_take_out_group(record, 12, 0x14, buffer, 8), 0, 7);
    expect_bytes("take_out_group", buffer, taken, sizeof buffer);
    expect("take_out_group, all parts", nahokipe_take_out_group(record, 12, 0x1F, buffer, 8), 18, 0);
    expect("take_out_group, cut off", nahokipe_take_out_group(record, 11, 0, buffer, 8), 21, 11);
    expect_bytes("take_out_group, refused behind that", buffer, taken, sizeof buffer);
}

/* Part numbers as C takes them: at a mark of 2^32 - 1 they go on, and at 2^48 - 1 they end. */
static void test_part_numbers(void)
{
    static const uint8_t short_mark[9] = {1, 0xFF, 0xFF, 0xFF, 0xFF, 0x0F, 1, 1, 1};
    static const uint8_t added[15] = {2, 0x80, 0x80, 0x80, 0x80, 0x10, 1, 0x80, 0x80, 0x80, 0x80, 0x10, 1, 1, 0xA5};
    static const uint8_t top_mark[11] = {1, 0xFF, 0xFF, 0xFF, 0xFF, 0xFF, 0xFF, 0x3F, 1, 1, 1};
    uint8_t buffer[15];

    memset(buffer, 0xA5, sizeof buffer);
    expect("add_part, 2^32", nahokipe_add_part(short_mark, 9, buffer, 15), 0, 14);
    expect_bytes("add_part, 2^32", buffer, added, sizeof added);
    expect("add_part, no number left", nahokipe_add_part(top_mark, 11, buffer, 15), 20, 0);
    expect_bytes("add_part, no number left", buffer, added, sizeof added);
    if (nahokipe_whole_record(top_mark, 11).mark != ((uint64_t)1 << 48) - 1) {
        printf("whole_record: the mark is not 2^48 - 1\n");
        failures++;
    }
    expect_refused_record("whole_record, inside the mark", nahokipe_whole_record(top_mark, 7), 21, 7);
}

/* A record of parts 3, 7 and 12 with the mark 15, and one as a first record; refusals leave the buffer as it was. */
static void test_entered(void)
{
    static const uint64_t numbers[5] = {1, 2, 3, 4, 5}, gaps[3] = {3, 7, 12}, falling[3] = {3, 7, 7};
    static const uint64_t top = ((uint64_t)1 << 48) - 1;
    static const uint16_t list[5] = {0x15, 0x12, 0x1F, 0x0E, 0x09}, pumps[3] = {0x05, 0x07, 0x03};
    static const uint8_t written[9] = {3, 15, 3, 7, 12, 2, 0x03, 0x05, 0xA5};
    uint8_t buffer[9], first[12] = {0};

    memset(buffer, 0xA5, sizeof buffer);
    expect("entered_record", nahokipe_entered_record(15, gaps, 3, pumps, 3, buffer, 9), 0, 8);
    expect_bytes("entered_record", buffer, written, sizeof buffer);
    expect("entered_record, no parts", nahokipe_entered_record(15, gaps, 0, pumps, 0, buffer, 9), NAHOKIPE_WRONG_PART_COUNT, 0);
    expect("entered_record, no sets", nahokipe_entered_record(15, gaps, 3, pumps, 0, buffer, 9), NAHOKIPE_EMPTY_LIST, 0);
    expect("entered_record, part 3", nahokipe_entered_record(15, gaps, 2, pumps, 3, buffer, 9), NAHOKIPE_UNKNOWN_PART, 0);
    expect("entered_record, twice", nahokipe_entered_record(15, falling, 3, pumps, 3, buffer, 9), NAHOKIPE_WRONG_PART_NUMBER, 2);
    expect("entered_record, above the mark", nahokipe_entered_record(6, gaps, 3, pumps, 3, buffer, 9), NAHOKIPE_WRONG_PART_NUMBER, 1);
    expect("entered_record, high mark", nahokipe_entered_record(top + 1, gaps, 3, pumps, 3, buffer, 9), NAHOKIPE_WRONG_PART_NUMBER, 3);
    expect("entered_record, short buffer", nahokipe_entered_record(15, gaps, 3, pumps, 3, buffer, 7), NAHOKIPE_SHORT_BUFFER, 8);
    expect_bytes("entered_record, refused", buffer, written, sizeof buffer);
    expect("entered_record, a first record", nahokipe_entered_record(5, numbers, 5, list, 5, first, 12), 0, 12);
    expect_bytes("entered_record, a first record", first, record, sizeof first);
}

/* Positions and masks of part numbers, and part numbers of masks. */
static void test_naming(void)
{
    static const uint8_t pumps[8] = {3, 15, 3, 7, 12, 2, 0x03, 0x05};
    static const uint64_t numbers[3] = {3, 7, 12}, wanted[4] = {12, 3, 12, 8}, named[4] = {3, 12, 99, 99};
    uint64_t cells[4] = {99, 99, 99, 99};

    expect("position_of", nahokipe_position_of(pumps, 8, 12), 0, 3);
    expect("position_of, no part's", nahokipe_position_of(pumps, 8, ((uint64_t)1 << 32) + 12), NAHOKIPE_UNKNOWN_POSITION, 0);
    expect("position_of, cut off", nahokipe_position_of(pumps, 7, 12), NAHOKIPE_END_OF_BYTES, 7);
    expect("mask_of", nahokipe_mask_of(numbers, 3, wanted, 2), 0, 0x05);
    expect("mask_of, none", nahokipe_mask_of(numbers, 3, wanted, 0), 0, 0);
    expect("mask_of, twice", nahokipe_mask_of(numbers, 3, wanted, 3), NAHOKIPE_REPEATED_POSITION, 0);
    expect("mask_of, no part's", nahokipe_mask_of(numbers, 3, wanted, 4), NAHOKIPE_UNKNOWN_POSITION, 0);
    expect("mask_of, no parts", nahokipe_mask_of(numbers, 0, wanted, 4), NAHOKIPE_WRONG_PART_COUNT, 0);
    expect("numbers_of", nahokipe_numbers_of(numbers, 3, 0x05, cells, 4), 0, 2);
    expect("numbers_of, part 4", nahokipe_numbers_of(numbers, 3, 0x08, cells, 4), NAHOKIPE_UNKNOWN_GROUP_PART, 0);
    expect("numbers_of, short buffer", nahokipe_numbers_of(numbers, 3, 0x07, cells, 2), NAHOKIPE_SHORT_BUFFER, 3);
    expect_bytes("numbers_of", cells, named, sizeof cells);
}

/* Changes by part numbers, where part 7 is at position 2. */
static void test_changes_by_number(void)
{
    static const uint8_t pumps[8] = {3, 15, 3, 7, 12, 2, 0x03, 0x05};
    static const uint64_t gone[3] = {12, 7, 12}, alone[1] = {12}, unknown[2] = {7, 2};
    static const uint8_t one_out[9] = {2, 15, 3, 12, 1, 0x03, 0xA5, 0xA5, 0xA5};
    static const uint8_t other_out[9] = {2, 15, 3, 7, 1, 0x03, 0xA5, 0xA5, 0xA5};
    static const uint8_t wider[9] = {3, 15, 3, 7, 12, 2, 0x03, 0x04, 0xA5};
    uint8_t buffer[9];

    memset(buffer, 0xA5, sizeof buffer);
    expect("take_out_part", nahokipe_take_out_part(pumps, 8, 7, buffer, 9), 0, 6);
    expect("take_out_part, no part's", nahokipe_take_out_part(pumps, 8, 2, buffer, 9), NAHOKIPE_UNKNOWN_POSITION, 0);
    expect("take_out_part, in every set", nahokipe_take_out_part(pumps, 8, 3, buffer, 9), NAHOKIPE_IN_EVERY_SET, 0);
    expect("take_out_part, short buffer", nahokipe_take_out_part(pumps, 8, 7, buffer, 5), NAHOKIPE_SHORT_BUFFER, 6);
    expect_bytes("take_out_part", buffer, one_out, sizeof buffer);
    expect("take_out_parts", nahokipe_take_out_parts(pumps, 8, alone, 1, buffer, 9), 0, 6);
    expect("take_out_parts, in every set", nahokipe_take_out_parts(pumps, 8, gone, 2, buffer, 9), NAHOKIPE_IN_EVERY_SET, 0);
    expect("take_out_parts, twice", nahokipe_take_out_parts(pumps, 8, gone, 3, buffer, 9), NAHOKIPE_REPEATED_POSITION, 0);
    expect("take_out_parts, no part's", nahokipe_take_out_parts(pumps, 8, unknown, 2, buffer, 9), NAHOKIPE_UNKNOWN_POSITION, 0);
    expect("take_out_parts, none", nahokipe_take_out_parts(pumps, 8, gone, 0, buffer, 9), NAHOKIPE_EMPTY_GROUP, 0);
    expect("take_out_parts, short buffer", nahokipe_take_out_parts(pumps, 8, alone, 1, buffer, 5), NAHOKIPE_SHORT_BUFFER, 6);
    expect_bytes("take_out_parts", buffer, other_out, sizeof buffer);
    expect("add_set_of_parts", nahokipe_add_set_of_parts(pumps, 8, alone, 1, buffer, 9), 0, 8);
    expect("add_set_of_parts, none", nahokipe_add_set_of_parts(pumps, 8, alone, 0, buffer, 9), NAHOKIPE_EMPTY_SET, 0);
    expect("add_set_of_parts, twice", nahokipe_add_set_of_parts(pumps, 8, gone, 3, buffer, 9), NAHOKIPE_REPEATED_POSITION, 0);
    expect("add_set_of_parts, no part's", nahokipe_add_set_of_parts(pumps, 8, unknown, 2, buffer, 9), NAHOKIPE_UNKNOWN_POSITION, 0);
    expect("add_set_of_parts, short buffer", nahokipe_add_set_of_parts(pumps, 8, alone, 1, buffer, 7), NAHOKIPE_SHORT_BUFFER, 8);
    expect("add_set_of_parts, cut off", nahokipe_add_set_of_parts(pumps, 7, alone, 1, buffer, 9), NAHOKIPE_END_OF_BYTES, 7);
    expect_bytes("add_set_of_parts", buffer, wider, sizeof buffer);
}

/* The bridge of edition 2, and without part 3, whose number is filed. */
static const uint8_t second[21] = {0, 2, 5, 5, 1, 2, 3, 4, 5, 4, 0x09, 0x0E, 0x12, 0x15, 0, 0, 0, 2, 8, 5, 1};
static const uint8_t filed[18] = {0, 2, 4, 5, 1, 2, 4, 5, 2, 0x05, 0x0A, 1, 3, 0, 0, 2, 4, 1};

/* What is read of a record of edition 2, whole and among other bytes, and what is refused in it. */
static void test_second_edition(void)
{
    static const uint8_t front[2] = {0, 1}, no_parts[3] = {0, 2, 0}, in_use[9] = {0, 2, 1, 2, 1, 1, 1, 1, 1};
    static const uint8_t too_many[8] = {0, 2, 1, 1, 1, 1, 1, 65}, wrong_count[10] = {0, 2, 1, 1, 1, 1, 1, 0, 0, 2};
    uint8_t two[34], table[4] = {0xA5, 0xA5, 0xA5, 0xA5};

    memcpy(two, second, sizeof second);
    memcpy(two + sizeof second, record, sizeof record);
    two[33] = 0xFF;
    expect_record("whole_record, edition 2", nahokipe_whole_record(second, 21), 10);
    expect_record("record_at, edition 2", nahokipe_record_at(two, 34, 0), 10);
    expect_record("record_at, behind edition 2", nahokipe_record_at(two, 34, 21), 29);
    expect("record_end, edition 2", nahokipe_record_end(two, 34, 0), 0, 21);
    expect("record_end, edition 1", nahokipe_record_end(two, 34, 21), 0, 33);
    expect("record_end, behind both", nahokipe_record_end(two, 34, 33), NAHOKIPE_END_OF_BYTES, 34);
    expect_refused_record("whole_record, bytes left", nahokipe_whole_record(two, 22), NAHOKIPE_BYTES_LEFT, 21);
    expect_refused_record("whole_record, 00 01", nahokipe_whole_record(front, 2), NAHOKIPE_WRONG_PART_COUNT, 0);
    expect_refused_record("whole_record, 00 alone", nahokipe_whole_record(front, 1), NAHOKIPE_WRONG_PART_COUNT, 0);
    expect_refused_record("whole_record, no parts", nahokipe_whole_record(no_parts, 3), NAHOKIPE_WRONG_PART_COUNT, 2);
    expect_refused_record("whole_record, in use", nahokipe_whole_record(in_use, 9), NAHOKIPE_WRONG_RETIRED, 8);
    expect_refused_record("whole_record, 65 retired", nahokipe_whole_record(too_many, 8), NAHOKIPE_WRONG_RETIRED, 7);
    expect_refused_record("whole_record, wrong count", nahokipe_whole_record(wrong_count, 10), NAHOKIPE_DIFFERENT_COUNT, 9);
    expect("table_of_record, edition 2", nahokipe_table_of_record(second, 21, table, 4), 0, 4);
    expect_bytes("table_of_record, edition 2", table, bridge, sizeof table);
    expect("position_of, edition 2", nahokipe_position_of(filed, 18, 5), 0, 4);
    expect("position_of, a retired number", nahokipe_position_of(filed, 18, 3), NAHOKIPE_UNKNOWN_POSITION, 0);
}

/* The edition and the retired numbers. */
static void test_retired(void)
{
    static const uint64_t retired[2] = {3, 99};
    uint64_t numbers[2] = {99, 99};

    expect("edition, 1", nahokipe_edition(record, 12), 0, 1);
    expect("edition, 2", nahokipe_edition(second, 21), 0, 2);
    expect("edition, cut off", nahokipe_edition(second, 20), NAHOKIPE_END_OF_BYTES, 20);
    expect("retired, edition 1", nahokipe_retired(record, 12, numbers, 2), 0, 0);
    expect("retired, none", nahokipe_retired(second, 21, numbers, 0), 0, 0);
    expect("retired", nahokipe_retired(filed, 18, numbers, 2), 0, 1);
    expect("retired, short buffer", nahokipe_retired(filed, 18, numbers, 0), NAHOKIPE_SHORT_BUFFER, 1);
    expect("retired, cut off", nahokipe_retired(filed, 17, numbers, 2), NAHOKIPE_END_OF_BYTES, 17);
    expect_bytes("retired", numbers, retired, sizeof numbers);
}

/* Both conversions and a change of edition 2; refusals leave the buffer as it was. */
static void test_editions(void)
{
    uint8_t untouched[22], buffer[22];

    memset(untouched, 0xA5, sizeof untouched);
    memset(buffer, 0xA5, sizeof buffer);
    expect("to_edition_1, retired numbers", nahokipe_to_edition_1(filed, 18, buffer, 0), NAHOKIPE_RETIRED_PRESENT, 0);
    expect("to_edition_1, short buffer", nahokipe_to_edition_1(second, 21, buffer, 11), NAHOKIPE_SHORT_BUFFER, 12);
    expect("to_edition_2, short buffer", nahokipe_to_edition_2(record, 12, buffer, 20), NAHOKIPE_SHORT_BUFFER, 21);
    expect("to_edition_2, cut off", nahokipe_to_edition_2(record, 11, buffer, 22), NAHOKIPE_END_OF_BYTES, 11);
    expect("take_out, short buffer, edition 2", nahokipe_take_out(second, 21, 3, buffer, 17), NAHOKIPE_SHORT_BUFFER, 18);
    expect_bytes("editions, refused", buffer, untouched, sizeof buffer);
    expect("to_edition_1", nahokipe_to_edition_1(second, 21, buffer, 22), 0, 12);
    expect_bytes("to_edition_1", buffer, record, 12);
    expect_bytes("to_edition_1, behind the record", buffer + 12, untouched, 10);
    expect("to_edition_2", nahokipe_to_edition_2(record, 12, buffer, 22), 0, 21);
    expect_bytes("to_edition_2", buffer, second, sizeof second);
    expect("to_edition_2, of edition 2", nahokipe_to_edition_2(filed, 18, buffer, 22), 0, 18);
    expect_bytes("to_edition_2, of edition 2", buffer, filed, sizeof filed);
    memset(buffer, 0xA5, sizeof buffer);
    expect("take_out, edition 2", nahokipe_take_out(second, 21, 3, buffer, 22), 0, 18);
    expect_bytes("take_out, edition 2", buffer, filed, sizeof filed);
    expect_bytes("take_out, edition 2, behind the record", buffer + 18, untouched, 4);
}

/* A text that is read into a buffer of some length; its own words tell where it is not answered as it should be. */
static void expect_read(const char *text, uint8_t *buffer, size_t length, unsigned number, size_t value)
{
    expect(text, nahokipe_record_of_drawing((const uint8_t *)text, strlen(text), buffer, length), number, value);
}

/* The bridge's text into its record and back, with the cell behind each result as it was, and refusals that leave all of it so. */
static void test_drawings(void)
{
    static const char drawing[] = "parts 5\nset 1 4\nset 2 3 4\nset 2 5\nset 1 3 5\n";
    static const uint8_t read[13] = {0x05, 0x05, 0x01, 0x02, 0x03, 0x04, 0x05, 0x04, 0x09, 0x0E, 0x12, 0x15, 0xA5};
    const size_t length = sizeof drawing - 1;
    uint8_t buffer[13], text[sizeof drawing];

    memset(buffer, 0xA5, sizeof buffer);
    memset(text, 0xA5, sizeof text);
    expect_read(drawing, buffer, 13, 0, 12);
    expect_bytes("record_of_drawing", buffer, read, sizeof read);
    memset(buffer, 0xA5, sizeof buffer);
    expect_read("parts 5\nset 5 3 1\nset 4 3 2\nset 5 2\nset 2 5\nset 4 1\nset 1 2 3 4 5\n", buffer, 12, 0, 12);
    expect_read(drawing, buffer, 11, 11, 12);
    expect_read("", buffer, 13, 27, 1);
    expect_read("parts 18446744073709551617\n", buffer, 13, 1, 1);
    expect_read("parts 5\n", buffer, 13, 2, 1);
    expect_read("parts 5\nset 1 4\nset 2  5\n", buffer, 13, 27, 3);
    expect_read("parts 5\nset 1 4\nset 2 5", buffer, 13, 27, 3);
    expect_read("parts 5\nset 6\n", buffer, 13, 17, 2);
    expect_read("parts 5\nset 3 1 3\n", buffer, 13, 28, 2);
    expect_bytes("record_of_drawing, shuffled and refused", buffer, read, sizeof read);
    expect("drawing_of_record", nahokipe_drawing_of_record(record, 12, text, sizeof text), 0, length);
    expect("drawing_of_record, short buffer", nahokipe_drawing_of_record(record, 12, text, length - 1), 11, length);
    expect("drawing_of_record, cut off", nahokipe_drawing_of_record(record, 11, text, sizeof text), 21, 11);
    expect_bytes("drawing_of_record", text, drawing, length);
    expect_bytes("drawing_of_record, behind the text", text + length, read + 12, 1);
}

static void test_report(void)
{
    static const char said[] = "parts 5 sets 4 mark 5\n"
                               "order 1 0\norder 2 24\norder 3 72\norder 4 24\norder 5 0\n"
                               "dom 1 0\ndom 2 2\ndom 3 2\ndom 4 -5\ndom 5 2\n"
                               "part 1 28\npart 2 28\npart 3 8\npart 4 28\npart 5 28\n";
    static const char line[] = "refused 25 12\n";
    uint8_t table[4] = {0xA5, 0xA5, 0xA5, 0xA5};
    uint8_t text[sizeof said] = {0};
    uint8_t refused[sizeof line] = {0};

    expect("report", nahokipe_report(record, 12, table, 4, text, sizeof text), 0, sizeof said - 1);
    expect("report, short table", nahokipe_report(record, 12, table, 3, text, 0), 11, 4);
    expect("report, short text", nahokipe_report(record, 12, table, 4, text, 1), 11, sizeof said - 1);
    expect("report, cut off", nahokipe_report(record, 11, table, 4, text, sizeof text), 21, 11);
    expect_bytes("report, text", text, said, sizeof said);
    expect_bytes("report, table", table, bridge, sizeof table);
    expect("refused_line", nahokipe_refused_line(25, 12, refused, sizeof refused), 0, sizeof line - 1);
    expect("refused_line, short", nahokipe_refused_line(21, 0, refused, 12), 11, 13);
    expect_bytes("refused_line", refused, line, sizeof line);
}

int main(void)
{
    test_structures();
    test_cuts();
    test_idle();
    test_patterns();
    test_vector("path_counts", nahokipe_path_counts, counts, 6);
    test_vector("tail", nahokipe_tail, tail, 6);
    test_vector("signature", nahokipe_signature, signature, 5);
    test_vector("domination", nahokipe_domination, domination, 6);
    test_importance();
    test_figures();
    test_shares();
    test_joint();
    test_vectors();
    test_refused_blocks();
    test_blocks();
    test_sheets();
    test_tail_sheets();
    test_records();
    test_changes();
    test_groups();
    test_part_numbers();
    test_entered();
    test_naming();
    test_changes_by_number();
    test_second_edition();
    test_retired();
    test_editions();
    test_drawings();
    test_report();
    return failures != 0;
}
