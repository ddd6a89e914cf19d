/*
 * Nahokipe: structures of machines of up to 16 parts, their figures, the records and sheets that keep them, and the texts of the drawing
 * tool.
 *
 * A set of parts is a 16-bit mask: the part at position i, 1 to n, is bit i - 1. A structure says on which sets the machine runs, its
 * path sets. A list has 1 to 12,870 sets; of a list of path sets, a set is a path set exactly if it holds a listed one. A table has a bit
 * for each of the 2^n masks, mask A at byte A / 8, bit A % 8, bit 0 the lowest: 2^n / 8 bytes, and one byte for n = 1 and 2, its unused
 * bits zero.
 *
 * A cut set is a set whose joint failure stops the machine: the parts that are left are no path set. The cut sets of a structure are the
 * path sets of its dual. A list of cut sets is read by nahokipe_table_of_cuts alone.
 *
 * Every function takes every input. A call that is refused leaves what was lent to it as it was; one that is given writes its result's
 * length and not one cell more.
 *
 * What a caller has to keep: a pointer is not null, also where its length is 0, and leads to as many cells as its length says; a buffer
 * that a call writes to overlaps no other that is lent to it, while two that it only reads may be one, as for a machine beside itself; and
 * nothing else changes them before the call returns.
 *
 * Positions of parts are not part numbers: when a part is taken out, the parts behind it move to lower positions and keep their numbers.
 * After part 3 has left a machine of the parts 1 to 5, part 4 stands at position 3. Sets and groups are masks of positions everywhere.
 * Each call on a record, or on a record's table, that takes a position, a set or a group warns of it and names the call that takes part
 * numbers.
 *
 * Two copies of one record issue the same next number: that a number never comes back holds along one line of changes, each made to what
 * the last one gave.
 *
 * Link libnahokipe.a, for x86-64: it needs memcpy and memset and nothing else. Calls keep nothing between them and share nothing, so they
 * may run in any number of threads at once, on buffers of their own. 256 KiB of stack are enough for every call but one:
 * nahokipe_joint_signature needs 640 KiB, since it takes an array of 2^16 words. The 128 KiB that some C libraries give a thread are not
 * enough.
 */
#ifndef NAHOKIPE_H
#define NAHOKIPE_H

#include <stddef.h>
#include <stdint.h>

#ifdef __cplusplus
extern "C" {
#endif

/*
 * What a call answers. number 0: given, and value is how many cells were written, 0 for a verdict and for nahokipe_figures, and what was
 * asked for where the call says so. Else number is why it was refused, and value is the place, 0 where the list below names none:
 *
 *    1  n is not 1 to 16, or the size of a block is not
 *    2  the list is empty
 *    3  the list has over 12,870 sets
 *    4  a listed set has bit n or above; its index in the list, from 0
 *    5  a listed set is empty; its index in the list, from 0
 *    6  the table's length is not the greater of 1 and 2^n / 8
 *    7  an unused bit of the table is set
 *    8  the empty set is a path set
 *    9  the full set is no path set
 *   10  a path set with one part more is none; the mask of the smallest such path set
 *   11  the buffer is shorter than needed; the length needed, in cells
 *   12  the vector's length is not n, for the kinds 1, 2 and 4 not n + 1, or the blocks' sizes or entries are too
 *       many or too few
 *   13  a path count that the vector stands for is not whole, is not 0 to C(n,j), or is not 0 for size 0 or 1 for size n; the smallest
 *       such size j
 *   14  the path sets' proportion of all sets falls from size j to j + 1; the smallest such j
 *   15  the group is empty
 *   16  the group has bit n or above
 *   17  no part has this position or this part number
 *   18  every set names the part, or some part of the group
 *   19  the record has 16 parts
 *   20  the record's mark is 2^48 - 1
 *   21  the bytes end before a number does; the length of the input
 *   22  a number is not written in its shortest form, is over its top value, or takes more bytes than that can; its first byte's position,
 *       from 0. Seven bytes are the most for the mark and a part number, retired or not, five for a record's other numbers, nine in a sheet.
 *       Bit 7 set in the last of these is 22 also where the input ends there
 *   23  a part number is 0, not above the one before it, or above the mark, or the mark is above 2^48 - 1; its first byte's position. In
 *       nahokipe_entered_record the number's index, from 0, also of one above 2^48 - 1, and n for the mark
 *   24  a set is not above the one before it, or holds an earlier one; its first byte's position
 *   25  bytes are left behind the last number; the first one's position
 *   26  the kind is not 1 to 4
 *   27  a line of a drawing's text is of another form; the line's number, from 1. An empty text is 27 at 1
 *   28  a position stands twice on a line of a drawing's text, or a part number twice among those wanted; the line's number, from 1, and 0
 *       for a part number
 *   29  k is not 1 to n
 *   30  a retired number is 0, not above the one before it, above the mark or in use, or there are over 64; its first byte's position, and
 *       that of their count where there are over 64
 *   31  a path count is not that of the record's sets; its first byte's position
 *   32  the record has retired numbers, and is to be written as one of edition 1
 *   33  the blocks have more than 16 parts in all
 *   34  a tail sheet is to be written by name
 *
 * A record's own n, count and sets are refused with 1 to 5 as well, and then the place is the position of the number's first byte. A
 * drawing's text is refused with 1, 2, 3 and 17 as well, and then the place is the line's number, from 1. For blocks
 * the place of 13 and 14 is a size within the refused block's own vector; which block that is is not told.
 *
 * The first that holds in the order of checks is reported. That order is the one in which the functions below name their refusals, but
 * that 4 and 5 go entry by entry, that a record's numbers are judged one after the other, each as it is read: 21, 22, and then 1 for
 * n, 23 for a part number, 2 and 3 for the count, 4, 5 and 24 for a set, 30 for the count of retired numbers and for each of them, 31 for a
 * path count; and that a text's lines are judged one after the other too: 27, 1 and 2 for the first, 3, 27, 17 and 28 for each of the
 * others.
 */
typedef struct nahokipe_answer {
    uint8_t number;
    size_t value;
} nahokipe_answer;

/* The refusals by name. */
#define NAHOKIPE_WRONG_PART_COUNT 1
#define NAHOKIPE_EMPTY_LIST 2
#define NAHOKIPE_LONG_LIST 3
#define NAHOKIPE_UNKNOWN_PART 4
#define NAHOKIPE_EMPTY_SET 5
#define NAHOKIPE_WRONG_TABLE_LENGTH 6
#define NAHOKIPE_UNUSED_BIT 7
#define NAHOKIPE_EMPTY_SET_WORKS 8
#define NAHOKIPE_FULL_SET_FAILS 9
#define NAHOKIPE_BROKEN_SET 10
#define NAHOKIPE_SHORT_BUFFER 11
#define NAHOKIPE_WRONG_VECTOR_LENGTH 12
#define NAHOKIPE_WRONG_PATH_COUNT 13
#define NAHOKIPE_FALLING_PROPORTION 14
#define NAHOKIPE_EMPTY_GROUP 15
#define NAHOKIPE_UNKNOWN_GROUP_PART 16
#define NAHOKIPE_UNKNOWN_POSITION 17
#define NAHOKIPE_IN_EVERY_SET 18
#define NAHOKIPE_FULL_MACHINE 19
#define NAHOKIPE_NUMBERS_SPENT 20
#define NAHOKIPE_END_OF_BYTES 21
#define NAHOKIPE_WRONG_NUMBER 22
#define NAHOKIPE_WRONG_PART_NUMBER 23
#define NAHOKIPE_WRONG_SET 24
#define NAHOKIPE_BYTES_LEFT 25
#define NAHOKIPE_WRONG_KIND 26
#define NAHOKIPE_WRONG_LINE 27
#define NAHOKIPE_REPEATED_POSITION 28
#define NAHOKIPE_WRONG_THRESHOLD 29
#define NAHOKIPE_WRONG_RETIRED 30
#define NAHOKIPE_DIFFERENT_COUNT 31
#define NAHOKIPE_RETIRED_PRESENT 32
#define NAHOKIPE_MANY_PARTS 33
#define NAHOKIPE_TAIL_SHEET 34

/* The kinds of vectors by name; "Vectors", below, says what they are. */
#define NAHOKIPE_PATH_COUNTS 1
#define NAHOKIPE_TAIL 2
#define NAHOKIPE_SIGNATURE 3
#define NAHOKIPE_DOMINATION 4

/*
 * Lengths that are always enough. In cells: the most parts, which bound a signature, importances, shares and part numbers; the most retired
 * numbers of a record; the most sets of a list, and minimal sets and minimal cut sets of a machine; the most entries of a vector; the most
 * coefficients of h(x,z); the most cells of a joint signature. In bytes: no table, record of either edition or sheet and no drawing's text
 * that is written or accepted is longer than these, and the last two are enough for every report and for the line of every refusal.
 */
#define NAHOKIPE_MOST_PARTS 16
#define NAHOKIPE_MOST_RETIRED 64
#define NAHOKIPE_MOST_SETS 12870
#define NAHOKIPE_MOST_ENTRIES 17
#define NAHOKIPE_MOST_COEFFICIENTS 81
#define NAHOKIPE_MOST_JOINT 256
#define NAHOKIPE_LONGEST_TABLE 8192
#define NAHOKIPE_LONGEST_RECORD 39217
#define NAHOKIPE_LONGEST_SHEET 155
#define NAHOKIPE_LONGEST_DRAWING 553419
#define NAHOKIPE_ENOUGH_FOR_REPORT 4096
#define NAHOKIPE_ENOUGH_FOR_REFUSED_LINE 64

/* Writes the table of a list, the greater of 1 and 2^n / 8 bytes: NAHOKIPE_LONGEST_TABLE is enough for every n. Refused: 1 to 5, 11. */
nahokipe_answer nahokipe_table_of_list(size_t n, const uint16_t *list, size_t list_len, uint8_t *table, size_t table_len);

/* Whether a list, of path sets or of cut sets, is one of n parts. Writes nothing. Refused: 1 to 5. */
nahokipe_answer nahokipe_list_verdict(size_t n, const uint16_t *list, size_t list_len);

/*
 * Whether a table is a structure of n parts that is semicoherent: every set that holds a path set is one, the empty set is none and
 * the full set is one. Writes nothing. Refused: 1, 6 to 10.
 */
nahokipe_answer nahokipe_table_verdict(size_t n, const uint8_t *table, size_t table_len);

/*
 * Writes the minimal sets of a table, the path sets that hold no other, ascending by mask: NAHOKIPE_MOST_SETS cells are enough for every
 * table. Refused: 1, 6 to 11.
 */
nahokipe_answer nahokipe_minimal_sets(size_t n, const uint8_t *table, size_t table_len, uint16_t *sets, size_t sets_len);

/*
 * Writes the table of the machine that a list of cut sets describes: it is stopped exactly if the failed parts hold a listed set. That is
 * the greater of 1 and 2^n / 8 bytes: NAHOKIPE_LONGEST_TABLE is enough for every n. The list has to be whole: failures that hold no listed
 * set do not stop the machine. nahokipe_minimal_sets of the table is a list for nahokipe_entered_record. Masks are of positions;
 * nahokipe_mask_of makes them of part numbers. Refused: 1 to 5, 11.
 */
nahokipe_answer nahokipe_table_of_cuts(size_t n, const uint16_t *cuts, size_t cuts_len, uint8_t *table, size_t table_len);

/*
 * Writes the minimal cut sets of a table, the cut sets that hold no other, ascending by mask: NAHOKIPE_MOST_SETS cells are enough for every
 * table. nahokipe_table_of_cuts makes the same table of them again. Of a record's table they are sets of positions; nahokipe_numbers_of
 * gives the part numbers. Refused: 1, 6 to 11.
 */
nahokipe_answer nahokipe_minimal_cuts(size_t n, const uint8_t *table, size_t table_len, uint16_t *cuts, size_t cuts_len);

/*
 * Writes the table of the dual, whose path sets are the cut sets of the given table. It has as many bytes: NAHOKIPE_LONGEST_TABLE is enough
 * for every n. The dual's dual is that table again, and the dual's signature is that of the given table reversed. Refused: 1, 6 to 11.
 */
nahokipe_answer nahokipe_dual(size_t n, const uint8_t *table, size_t table_len, uint8_t *dual, size_t dual_len);

/*
 * With number 0, value is the mask of a table's idle parts, 0 where no part is idle. A part is idle if adding it to a set never changes
 * whether the machine runs. That is so exactly if no minimal set names it, and exactly if its importance is 0. Of a record's table the mask
 * is one of positions; nahokipe_numbers_of gives the part numbers. Writes nothing. Refused: 1, 6 to 10.
 */
nahokipe_answer nahokipe_idle_parts(size_t n, const uint8_t *table, size_t table_len);

/*
 * Stock patterns. Each call writes the table of a machine of n parts with a threshold k, 1 to n. That is the greater of 1 and 2^n / 8 bytes:
 * NAHOKIPE_LONGEST_TABLE is enough for every n. nahokipe_minimal_sets of the table is a list for nahokipe_first_record, or for
 * nahokipe_entered_record where the parts have numbers. Neighbours are parts at positions that follow each other, whatever their part numbers
 * are. Refused, in this order: 1, 29, 11.
 */

/* The machine runs exactly if at least k of its n parts work: in each of the n! orders it is failure number n - k + 1 that stops it. */
nahokipe_answer nahokipe_table_at_least(size_t n, size_t k, uint8_t *table, size_t table_len);

/* The parts stand in a row, and the machine is stopped exactly if some k neighbours have all failed, whatever else has failed with them. */
nahokipe_answer nahokipe_table_of_row(size_t n, size_t k, uint8_t *table, size_t table_len);

/* The same in a ring, where positions n and 1 are neighbours too. With k = n the machine is stopped exactly if all parts have failed. */
nahokipe_answer nahokipe_table_of_ring(size_t n, size_t k, uint8_t *table, size_t table_len);

/*
 * The figures of a table. Orders in which the n parts fail are counted, n! in all, so 16! at most.
 * Refused: 1, 6 to 11, and then no cell of any buffer is written.
 */

/* Writes n + 1 cells, 17 at the most: how many path sets have 0, 1, ..., n parts. */
nahokipe_answer nahokipe_path_counts(size_t n, const uint8_t *table, size_t table_len, int64_t *cells, size_t cells_len);

/* Writes n + 1 cells, 17 at the most: in how many orders the machine still runs after 0, 1, ..., n failures. */
nahokipe_answer nahokipe_tail(size_t n, const uint8_t *table, size_t table_len, int64_t *cells, size_t cells_len);

/* Writes n cells, 16 at the most: in how many orders the 1st, 2nd, ..., n-th failure stops the machine. They total n!. */
nahokipe_answer nahokipe_signature(size_t n, const uint8_t *table, size_t table_len, int64_t *cells, size_t cells_len);

/* Writes n + 1 cells, 17 at the most: the coefficients of x^0, x^1, ..., x^n in the machine's reliability polynomial, its domination. */
nahokipe_answer nahokipe_domination(size_t n, const uint8_t *table, size_t table_len, int64_t *cells, size_t cells_len);

/* Writes n cells, 16 at the most: in how many orders the failure of the part at position 1, 2, ..., n stops the machine. They total n!. */
nahokipe_answer nahokipe_importance(size_t n, const uint8_t *table, size_t table_len, uint64_t *cells, size_t cells_len);

/*
 * Writes path counts, signature, domination and importances at once, each into its own buffer; value is 0. A buffer that is too short
 * is found in this order.
 */
nahokipe_answer nahokipe_figures(size_t n, const uint8_t *table, size_t table_len, int64_t *counts, size_t counts_len,
                                 int64_t *signature, size_t signature_len, int64_t *domination, size_t domination_len,
                                 uint64_t *importance, size_t importance_len);

/*
 * The shares of a group of m parts: in how many of the n! orders of failure the 1st, 2nd, ..., m-th failure inside the group stops the
 * machine. Refused: 1, 6 to 10, 15, 16, 11, and then no cell of any buffer is written.
 *
 * WARNING, for each of these calls: the group is a mask of positions, and positions are not part numbers. nahokipe_mask_of makes the mask
 * of part numbers.
 */

/* Writes the m shares, 16 at the most, worked out path set by path set. WARNING: the group has positions; nahokipe_mask_of makes it. */
nahokipe_answer nahokipe_shares_by_sets(size_t n, const uint8_t *table, size_t table_len, size_t group, int64_t *cells, size_t cells_len);

/* Writes the same m shares, worked out from the coefficients of h(x,z). WARNING: the group has positions; nahokipe_mask_of makes it. */
nahokipe_answer nahokipe_shares_by_reliability(size_t n, const uint8_t *table, size_t table_len, size_t group, int64_t *cells,
                                               size_t cells_len);

/*
 * Writes the m shares by the first route into one buffer and by the second into the other. Where either is too short, neither is written.
 * WARNING: the group has positions; nahokipe_mask_of makes it.
 */
nahokipe_answer nahokipe_shares_by_both_routes(size_t n, const uint8_t *table, size_t table_len, size_t group, int64_t *first,
                                               size_t first_len, int64_t *second, size_t second_len);

/*
 * Writes the (m + 1)(n - m + 1) coefficients of h(x,z), NAHOKIPE_MOST_COEFFICIENTS at the most, the machine's reliability where the parts
 * of the group have the reliability x and the others z: that of x^i z^j in cell i (n - m + 1) + j. WARNING: the group has positions;
 * nahokipe_mask_of makes it.
 */
nahokipe_answer nahokipe_reliability(size_t n, const uint8_t *table, size_t table_len, size_t group, int64_t *cells, size_t cells_len);

/*
 * Writes the joint signature of two machines of the same n parts, each given by its table, a square of n^2 cells, NAHOKIPE_MOST_JOINT at
 * the most: cell (k - 1) n + l - 1 says in how many of the n! orders the k-th failure stops the first machine and the l-th the second. The
 * cells total n!; those of row k sum to the k-th cell of the first machine's nahokipe_signature, those of column l to the l-th of the
 * second's. It takes more stack than the other calls, as said at the top. Refused, in this order: 1, 6 to 10 of the first table, 6 to 10 of
 * the second, 11. A refusal does not tell which of the tables it is about; nahokipe_table_verdict of each does.
 *
 * WARNING: the machines share parts by position, and positions are not part numbers. The tables of two records belong together only where
 * both records have the same part numbers.
 */
nahokipe_answer nahokipe_joint_signature(size_t n, const uint8_t *first, size_t first_len, const uint8_t *second, size_t second_len,
                                         uint64_t *cells, size_t cells_len);

/*
 * Vectors. A vector of n parts is of one of four kinds: 1 path counts, 2 tail, 3 signature, 4 domination. A signature has n entries, the
 * others n + 1. It is accepted if the path counts that it stands for are whole, lie in 0 to C(n,j), are 0 for no parts and 1 for all, and
 * their proportion of all sets never falls from one size to the next.
 */

/* Whether a vector is accepted. Writes nothing. Refused: 26, 1, 12, 13, 14. */
nahokipe_answer nahokipe_vector_verdict(uint8_t kind, size_t n, const int64_t *entries, size_t entries_len);

/*
 * Writes the vector of the target kind that stands for the same path counts: n cells for a signature, else n + 1.
 * NAHOKIPE_MOST_ENTRIES are enough. Refused: 26 for either kind, 1, 12, 13, 14, 11.
 */
nahokipe_answer nahokipe_convert(uint8_t kind, size_t n, const int64_t *entries, size_t entries_len, uint8_t target, int64_t *cells,
                                 size_t cells_len);

/*
 * Machines made of blocks. Writes the path counts of a machine whose parts stand in blocks, n + 1 cells for n parts in all:
 * NAHOKIPE_MOST_ENTRIES are enough. The table is one of as many parts as there are blocks, the b-th block being the part at position b: the
 * machine runs on a set of its parts exactly if the blocks that run on their share of it are a path set of the table. A block of size m has
 * m parts and m + 1 path counts; the sizes stand in one list, the path counts in another, one block's after the other's. Every machine
 * assembled of blocks with these counts has what is written, wherever their parts stand, as long as no part is in two blocks. For accepted
 * counts that no block has, it is what equations 12 and 13 of document 003 give. nahokipe_convert makes the signature of it.
 *
 * Refused, in this order: 1 where blocks is not 1 to 16; 6 to 10 for the table; 12 where sizes_len is not the number of blocks; 1 where a size is not 1 to 16; 12 where
 * vectors_len is not the total of all sizes and one more for each block; 13 and then 14 of the first block's vector, of the second's, and
 * so on, at a size within that block; 33; 11.
 */
nahokipe_answer nahokipe_path_counts_of_blocks(size_t blocks, const uint8_t *table, size_t table_len, const size_t *sizes, size_t sizes_len,
                                               const int64_t *vectors, size_t vectors_len, int64_t *cells, size_t cells_len);

/*
 * A sheet is a vector in bytes: its kind, n and its entries, each as a number in groups of seven bits, the lowest first, one group a byte,
 * bit 7 set on all but the last. An entry v of a domination is written as 2v, or -2v - 1 where it is negative. Numbers reach 2^63 - 1.
 * Sheets of kind 2 are still read, and none is written any more: what the two calls that save a vector write begins with 1, 3 or 4.
 */

/*
 * Saves a vector: writes the sheet of its own kind, but for a tail that of the signature which stands for the same path counts.
 * NAHOKIPE_LONGEST_SHEET bytes are enough for every vector. Refused: 26, 1, 12, 13, 14, 11.
 */
nahokipe_answer nahokipe_save_sheet(uint8_t kind, size_t n, const int64_t *entries, size_t entries_len, uint8_t *sheet, size_t sheet_len);

/*
 * Saves a vector as the target kind: writes the sheet of the vector that nahokipe_convert gives. NAHOKIPE_LONGEST_SHEET bytes are enough
 * for every vector. Refused: 34 where the target is 2, whatever the rest is; 26 for either kind, 1, 12, 13, 14, 11.
 */
nahokipe_answer nahokipe_save_sheet_as(uint8_t kind, size_t n, const int64_t *entries, size_t entries_len, uint8_t target, uint8_t *sheet,
                                       size_t sheet_len);

/* What reading a sheet answers: number and value as in nahokipe_answer, and the vector's kind and n, which are 1 and 0 if it is refused. */
typedef struct nahokipe_sheet {
    uint8_t number;
    size_t value;
    uint8_t kind;
    size_t n;
} nahokipe_sheet;

/*
 * Writes the entries of the vector in a sheet: NAHOKIPE_MOST_ENTRIES cells are enough. Refused, in this order: 21 and 22 of the kind; 26;
 * 21 and 22 of n; 1, at place 0; 21 and 22 of the entries, one after the other; 25; 13 and then 14, whose places are sizes; 11.
 */
nahokipe_sheet nahokipe_read_sheet(const uint8_t *sheet, size_t sheet_len, int64_t *cells, size_t cells_len);

/*
 * Design records, of edition 1: n; the mark, which is the highest part number ever issued; the n part numbers, rising; the count of minimal
 * sets; the minimal sets, rising. Of edition 2: the bytes 00 02; the same numbers; the count of retired part numbers, at most 64; these,
 * rising, each 1 to the mark and none in use; the path counts of the sets, for 0, 1, ..., n parts. All are numbers in groups of seven bits,
 * as in a sheet; the mark and the part numbers, retired or not, reach 2^48 - 1, the others 2^32 - 1. A first byte 00 with no byte 02 behind
 * it is n = 0. NAHOKIPE_LONGEST_RECORD bytes are enough for every record.
 *
 * A retired number is that of a part that has left. Every call that takes a record's bytes takes both editions. nahokipe_first_record,
 * nahokipe_entered_record and nahokipe_record_of_drawing write edition 1, a change the edition that it read.
 */

/*
 * What reading a record answers: number and value as in nahokipe_answer, with value 0 if it is accepted; how many parts it has, the mark,
 * the part numbers by position, cells behind them 0; how many minimal sets it has, and the stretch of the record's bytes that carries
 * them, from the first set's first byte to the last set's last. A record of edition 2 goes on behind them. Of a refused record all is 0
 * beside number and value.
 */
typedef struct nahokipe_record {
    uint8_t number;
    size_t value;
    size_t parts;
    uint64_t mark;
    uint64_t numbers[NAHOKIPE_MOST_PARTS];
    size_t sets;
    size_t offset;
    size_t length;
} nahokipe_record;

/* Reads the record that the bytes are. Refused: 21, 22, 1 to 5, 23, 24, 30, 31 number by number, 25. */
nahokipe_record nahokipe_whole_record(const uint8_t *bytes, size_t bytes_len);

/*
 * Reads the record that stands at a position of the bytes, and does not look at what comes after it. Positions are counted from the
 * first byte that is lent. Refused: 21, 22, 1 to 5, 23, 24, 30, 31 number by number.
 */
nahokipe_record nahokipe_record_at(const uint8_t *bytes, size_t bytes_len, size_t start);

/*
 * value is the position behind the record that stands at a position of the bytes: where its last set ends, of edition 2 where its last path
 * count does. A record that follows it stands there. Writes nothing. Refused: as nahokipe_record_at.
 */
nahokipe_answer nahokipe_record_end(const uint8_t *bytes, size_t bytes_len, size_t start);

/* A step of a walk along the sets: given 1, a set, and where the walk goes on, with how many sets left; at the end all is 0. */
typedef struct nahokipe_step {
    uint8_t given;
    uint64_t set;
    size_t next;
    size_t left;
} nahokipe_step;

/*
 * The next set of a record, read where it stands. A walk begins with the offset and the sets of nahokipe_whole_record, or of
 * nahokipe_record_at, as next and left, and goes on with those of the last step. It ends where no set is left, or where no number can be
 * read.
 */
nahokipe_step nahokipe_next_set(const uint8_t *bytes, size_t bytes_len, size_t next, size_t left);

/* Writes the table of a record, as nahokipe_table_of_list does. Refused: as nahokipe_whole_record, 11. */
nahokipe_answer nahokipe_table_of_record(const uint8_t *bytes, size_t bytes_len, uint8_t *table, size_t table_len);

/* Writes a first record of a list: part numbers 1 to n, mark n, the minimal sets. Refused: 1 to 5, 11. */
nahokipe_answer nahokipe_first_record(size_t n, const uint16_t *list, size_t list_len, uint8_t *buffer, size_t buffer_len);

/*
 * Writes a record of parts that have numbers already. n is numbers_len, the part at position i has the number numbers[i - 1], and the
 * list's masks are of these positions. The record has these part numbers, this mark and the minimal sets of the list; with the numbers 1
 * to n and the mark n it is that of nahokipe_first_record. The mark is the highest number ever issued, also to a part that has left: a
 * lower one would let a number come back. NAHOKIPE_LONGEST_RECORD bytes are enough. Refused: 1 to 5; 23, number by number, at the index of
 * the first that is 0, is not above the one before it, or is above the mark or 2^48 - 1, and then at n if the mark is above 2^48 - 1; 11.
 *
 * WARNING: the list's masks are of positions, not of part numbers. nahokipe_mask_of makes them of part numbers.
 */
nahokipe_answer nahokipe_entered_record(uint64_t mark, const uint64_t *numbers, size_t numbers_len, const uint16_t *list, size_t list_len,
                                        uint8_t *buffer, size_t buffer_len);

/* Part numbers and positions. A list of part numbers is as nahokipe_whole_record hands it out: numbers, with parts as its length. */

/*
 * value is the position, from 1, of the one part of a record that has this number. Writes nothing. Refused: as nahokipe_whole_record, 17
 * where no part has it.
 */
nahokipe_answer nahokipe_position_of(const uint8_t *bytes, size_t bytes_len, uint64_t number);

/*
 * value is the mask of the positions whose number is wanted, 0 where none is. They may be wanted in any order. A number that stands several
 * times among the numbers, which no record has, has all its positions in the mask. Writes nothing. Refused: 1 where numbers_len is not 1 to
 * 16; 17 where any wanted number is no part's; 28 where one is wanted twice.
 */
nahokipe_answer nahokipe_mask_of(const uint64_t *numbers, size_t numbers_len, const uint64_t *wanted, size_t wanted_len);

/*
 * Writes the numbers at the positions of a mask, in the order of the numbers: NAHOKIPE_MOST_PARTS cells are enough. Of a record's numbers
 * nahokipe_mask_of makes the same mask of them again. Refused: 1 where numbers_len is not 1 to 16, 16, 11.
 */
nahokipe_answer nahokipe_numbers_of(const uint64_t *numbers, size_t numbers_len, size_t mask, uint64_t *cells, size_t cells_len);

/*
 * Changes of a record: each reads the whole record, is refused as nahokipe_whole_record is, then as it says itself, then with 11, and
 * writes the new record, of the edition that it read. In edition 2 the path counts are those of the new sets, and the numbers of parts that
 * are taken out are filed among the retired ones; where over 64 would stand there, the lowest are dropped, even one just filed.
 */

/* One part more at position n + 1, in no set. Its number is the mark and one, and so is the new mark. Refused: 19, 20. */
nahokipe_answer nahokipe_add_part(const uint8_t *bytes, size_t bytes_len, uint8_t *buffer, size_t buffer_len);

/*
 * The part that has this number is held failed: sets that name it go, the parts behind it move to positions lower by one, part numbers and
 * mark stay. A buffer as long as the record is enough. Refused: 17 where no part has the number, 18.
 */
nahokipe_answer nahokipe_take_out_part(const uint8_t *bytes, size_t bytes_len, uint64_t number, uint8_t *buffer, size_t buffer_len);

/*
 * The parts that have these numbers, wanted in any order, are all held failed: sets that name one of them go, the other parts move down
 * past all that left, part numbers and mark stay. The outcome, 18 or the new record, is that of taking them out one by one in any order, up
 * to the first refusal. A buffer as long as the record is enough. Refused: 17 where any number is no part's, 28, 15 where none is wanted,
 * 18.
 */
nahokipe_answer nahokipe_take_out_parts(const uint8_t *bytes, size_t bytes_len, const uint64_t *wanted, size_t wanted_len, uint8_t *buffer,
                                        size_t buffer_len);

/*
 * One path set more, that of the parts that have these numbers, wanted in any order: the minimal sets of the old ones and the new one.
 * NAHOKIPE_LONGEST_RECORD bytes are enough. Refused: 17 where any number is no part's, 28, 5 where none is wanted, with the place 0.
 */
nahokipe_answer nahokipe_add_set_of_parts(const uint8_t *bytes, size_t bytes_len, const uint64_t *wanted, size_t wanted_len,
                                          uint8_t *buffer, size_t buffer_len);

/*
 * The part at a position is taken out, as nahokipe_take_out_part does. A buffer as long as the record is enough. Refused: 17, 18.
 *
 * WARNING: a position is not a part number. nahokipe_take_out_part takes the part number.
 */
nahokipe_answer nahokipe_take_out(const uint8_t *bytes, size_t bytes_len, size_t position, uint8_t *buffer, size_t buffer_len);

/*
 * The parts of a group, given as a mask of the positions in the record that is read, are taken out, as nahokipe_take_out_parts does. A
 * buffer as long as the record is enough. Refused: 15, 16, 18.
 *
 * WARNING: positions are not part numbers. nahokipe_take_out_parts takes part numbers.
 */
nahokipe_answer nahokipe_take_out_group(const uint8_t *bytes, size_t bytes_len, size_t group, uint8_t *buffer, size_t buffer_len);

/*
 * One path set more, given as a mask of positions, as nahokipe_add_set_of_parts does. Refused: 4, 5, with the place 0.
 *
 * WARNING: positions are not part numbers. nahokipe_add_set_of_parts takes part numbers.
 */
nahokipe_answer nahokipe_add_set(const uint8_t *bytes, size_t bytes_len, uint16_t set, uint8_t *buffer, size_t buffer_len);

/* Editions of a record: which it is, the retired numbers, and the same record as one of the other edition. */

/* value is the edition of the record that the bytes are, 1 or 2. Writes nothing. Refused: as nahokipe_whole_record. */
nahokipe_answer nahokipe_edition(const uint8_t *bytes, size_t bytes_len);

/*
 * Writes the retired part numbers of a record, rising; of edition 1 there are none. NAHOKIPE_MOST_RETIRED cells are enough. Refused: as
 * nahokipe_whole_record, 11.
 */
nahokipe_answer nahokipe_retired(const uint8_t *bytes, size_t bytes_len, uint64_t *numbers, size_t numbers_len);

/*
 * Writes the record as one of edition 1, which has no place for retired numbers: a record that has some is refused. One of edition 1 is
 * written as it is. A buffer as long as the record is enough. Refused: as nahokipe_whole_record, 32, 11.
 */
nahokipe_answer nahokipe_to_edition_1(const uint8_t *bytes, size_t bytes_len, uint8_t *buffer, size_t buffer_len);

/*
 * Writes the record as one of edition 2, with no retired numbers and the path counts of its sets. One of edition 2 is written as it is,
 * with its retired numbers. NAHOKIPE_LONGEST_RECORD bytes are enough. Refused: as nahokipe_whole_record, 11.
 */
nahokipe_answer nahokipe_to_edition_2(const uint8_t *bytes, size_t bytes_len, uint8_t *buffer, size_t buffer_len);

/*
 * Drawings: the text that the drawing tool writes. Line 1 is `parts` and n, as `parts 5`; each line behind it is `set` and the positions of
 * a set, as `set 1 4`, in any order. One space stands in front of each number, a line feed at the end of each line, the last one too, and
 * nothing else: no other space, tab, carriage return, byte order mark or empty line. Numbers are decimal without a leading zero, of any
 * length, and a set line has at least one.
 *
 * A text has positions and no part numbers: a record that is read from one is numbered 1 to n anew and starts another line of changes, so
 * that numbers may be issued again which another record of the same machine has used.
 */

/*
 * Writes the record of a text: part numbers 1 to n, mark n, the minimal sets; sets may stand in any order, repeatedly, and hold others.
 * NAHOKIPE_LONGEST_RECORD bytes are enough. Refused, line by line: line 1 with 27, 1, and 2 if the text ends there; each of the others with
 * 3 if it is line 12,872, whatever stands there, 27, 17 for any of its positions, 28. Then with 11.
 */
nahokipe_answer nahokipe_record_of_drawing(const uint8_t *text, size_t text_len, uint8_t *buffer, size_t buffer_len);

/*
 * Writes the text of a record: its number of parts, and a line for each minimal set, sets ascending by mask and positions ascending.
 * NAHOKIPE_LONGEST_DRAWING bytes are enough for every record. Refused: as nahokipe_whole_record, 11.
 */
nahokipe_answer nahokipe_drawing_of_record(const uint8_t *bytes, size_t bytes_len, uint8_t *buffer, size_t buffer_len);

/*
 * Writes the report on a record, and the record's table into the first buffer; value is the text's length in bytes, of which
 * NAHOKIPE_ENOUGH_FOR_REPORT are enough. The text gives parts, sets and mark, then the signature by `order`, the domination by `dom` and
 * the importances by `part` and part number, each line ended by a line feed. Refused: as nahokipe_whole_record, 11 for the table and then
 * for the text.
 */
nahokipe_answer nahokipe_report(const uint8_t *bytes, size_t bytes_len, uint8_t *table, size_t table_len, uint8_t *text, size_t text_len);

/* Writes the line `refused NUMBER PLACE` with its line feed: NAHOKIPE_ENOUGH_FOR_REFUSED_LINE bytes are enough. Refused: 11. */
nahokipe_answer nahokipe_refused_line(uint8_t number, size_t place, uint8_t *text, size_t text_len);

#ifdef __cplusplus
}
#endif

#endif
