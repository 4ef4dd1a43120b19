/* The doors to the verified core: the tree checker and the tree builder, paths, quotes, breaking
 * prices, which of two plans stands, districts, mending, outlets, detours, the best exchange,
 * groups and rings, totals, dig lists, working tables, the reader of STP texts, and table files
 * read and written.
 *
 * A table has n junctions, numbered 1 to n, and m rows, counted from 1. A row joins two junctions
 * at a price:
 *   left, right   one byte a row, the two junctions
 *   weight        four bytes a row, the price in two's complement, least significant byte first: a
 *                 whole number from -2,147,483,648 to 2,147,483,647, below 0 where a grant exceeds
 *                 the cost. Any four bytes are a price; star_put_price packs one, and
 *                 star_get_price reads it
 *   mark          one byte a row, 1 for a marked row and 0 for any other: the claim
 * m is the length of the left column. Two rows never join the same two junctions: such a table is
 * refused.
 *
 * star_cst    judges the claim; a pass says whether it is the only cheapest network.
 * star_other  answers as star_cst; it names two rows whose exchange gives another of that cost.
 * star_mst1   builds a least network and marks its rows; it does not read the marks it was lent.
 * star_paths  finds the rows between one junction and each other, along a claim that is a tree.
 * star_quote  gives the least total before and after one row has a new price; it takes no marks.
 * star_breaking gives the price above which a row is in no least network; it takes no marks.
 * star_which  says which of two claims over one table costs less.
 * star_digs   writes the dig list of a least network; it takes no marks.
 * star_digs_text  writes the dig list of an STP text.
 * star_plan_digs  writes the dig list of a claim that is a tree.
 * star_total  adds up the prices of the marked rows, whether they are a tree or not.
 * star_import reads a SteinLib STP text into columns of 1,024 rows; it has no marks.
 * star_read_table  reads a planner's table file into a working table, with marks and names.
 * star_write_table writes a table, with names taken from a text, as a table file.
 * star_districts  finds the least rows of each run of the rows, and a least network from them.
 * star_mend       turns any claim into a least network, and lists each step.
 * star_outlets    builds a network, least of those with an exact number of rows at a junction.
 * star_detours    names beside each row of a claim the row it is best exchanged with.
 * star_best       names the exchange of two rows that saves most, and the least total.
 * star_groups     finds the groups that any marks join, and the marked rows that close a ring.
 *
 * A working table is one in which rows are struck out and entered. All its columns have 1,024 rows,
 * marks too, and sixteen words say which of them are in use (star_in_use): the rows in use are the
 * table, and what stands in the others is not looked at.
 *
 * star_work_X   answers as star_X, over the rows in use (cst, other, mst1, paths, quote, breaking,
 *               which, digs, plan_digs, total, districts, mend, outlets, detours, best, groups).
 *               What is said below of star_X holds of it too.
 * star_strike   takes a row out of use.
 * star_restore  puts a struck row back into use.
 * star_add      enters a row after the last one in use.
 * star_merge    packs the rows in use to the top, and says where each one went.
 * star_carry    moves marks to where their rows went.
 *
 * Each returns 1 with the verdict in the sixteen bytes of the answer (star_quote, star_best:
 * twenty-four), or 0 if the lent answer has another length (star_digs, star_digs_text,
 * star_plan_digs: or the lent text fewer than 6,370 bytes); then nothing is written anywhere.
 * star_which returns 1 for the first claim, 2 for the second, and 0 on a refusal too. Every other
 * input is taken, whatever its bytes and lengths: a fault is told as a refusal with its number and
 * place, and a refused call leaves the marks, the matrix, the columns lent to star_import and
 * star_read_table, the dig list's text, the text that star_write_table writes, the forests, the
 * records, the rows lent to star_detours, the groups and the rings, and the working table and the
 * numbers lent to star_strike, star_restore, star_add and star_merge, as they were.
 *
 * The caller owes that each pointer has as many readable bytes behind it as its length says
 * (writable ones behind answer, and behind every other pointer that is not to const), and that a
 * column that is written overlaps no other. The length of a matrix and of the rows in use counts
 * words of eight bytes, that of a list of numbers or ends the numbers, that of a list of records
 * the records. An empty column may be lent as a null pointer with length 0. The calling thread has
 * stack left, 1,280 KiB for star_import and star_digs_text, 384 KiB for star_mend and
 * star_work_mend, 32 KiB for star_read_table and star_write_table, and 160 KiB for each of the
 * others, whatever is lent. Nothing else is asked.
 *
 * Planners and definitions have a word each for the same thing:
 *   junction      vertex
 *   trench        row
 *   price         weight
 *   plan          claim, the marked rows
 *   network       spanning tree
 *
 * This header is C99, and C++98 with the stdint.h of C99.
 */
#ifndef STAR_H
#define STAR_H

#include <stddef.h>
#include <stdint.h>

#ifdef __cplusplus
extern "C" {
#endif

/* The version of this header. star_version gives that of the library that is linked. */
#define STAR_VERSION_MAJOR 0
#define STAR_VERSION_MINOR 12
#define STAR_VERSION_PATCH 0
#define STAR_VERSION "0.12.0"

const char *star_version(void);

/* How the functions are defined whose code stands in this header. The library has each of them too,
 * under the same name, for callers that see no header. */
#ifndef STAR_INLINE
#define STAR_INLINE static inline
#endif

/* The largest table that is taken. */
enum { STAR_MAX_JUNCTIONS = 255, STAR_MAX_ROWS = 1024, STAR_ANSWER_BYTES = 16 };

/* The length of the answer of star_quote and star_work_quote, and of star_best and star_work_best.
 */
enum { STAR_QUOTE_BYTES = 24, STAR_BEST_BYTES = 24 };

/* The least and the largest price: -2,147,483,648 and 2,147,483,647. */
#define STAR_MIN_PRICE INT32_MIN
#define STAR_MAX_PRICE INT32_MAX

/* The words of a path matrix for each junction, and of the rows in use of a working table. */
enum { STAR_COLUMN_WORDS = 16 };

/* The longest text that is read, and the longest dig list. */
enum { STAR_MAX_TEXT = 65536, STAR_MAX_LIST = 6370 };

/* The longest table file that is read, and the most names of junctions. */
enum { STAR_MAX_FILE = 16777216, STAR_MAX_NAMES = 255 };

/* Byte 0 of an answer. */
enum star_kind {
    STAR_REFUSED = 0,
    STAR_PASSED = 1, /* star_cst, star_other: no cheaper set exists; star_best: no exchange saves;
                        star_mst1: the network is built; star_paths: the matrix is filled;
                        star_quote: both totals are found;
                        star_breaking: there is such a price; star_which: both claims are trees;
                        star_digs, star_plan_digs: the list is written; star_import,
                        star_read_table: the text is read; star_write_table: it is written;
                        star_total: the prices are added up;
                        star_strike, star_restore, star_add, star_merge, star_carry, star_districts,
                        star_mend, star_outlets, star_detours, star_groups: done */
    STAR_LIGHTER = 2 /* star_cst, star_other, star_best: a cheaper set exists: the exchange of two
                        rows is one */
};

/* Byte 0 of an answer of star_breaking where it is neither STAR_REFUSED nor STAR_PASSED. It is the
 * number of STAR_LIGHTER, which star_breaking never answers, so it has an enum of its own. */
enum star_breaking_kind {
    STAR_NEVER = 2 /* no other route joins the row's ends, so that it is in every network */
};

/* Byte 1 of a refused answer, and what its place is; 0 where none is named. 5 is not used. Each
 * door lists its refusals below in their order: the first of them that applies is told. */
enum star_refusal {
    STAR_BAD_JUNCTION_COUNT = 1, /* n is 0 or above 255 */
    STAR_TOO_MANY_ROWS = 2,      /* m is above 1,024; star_read_table: place: the 1,025th trench */
    STAR_BAD_LENGTHS = 3,        /* right, mark (star_which: first or second), forests or rings is
                                    not m bytes, weight not 4 m, rows (star_detours) not m numbers,
                                    or groups (star_groups) not n bytes; star_import,
                                    star_read_table and working tables: not 1,024 rows; working
                                    tables: the rows in use are not sixteen words, or the numbers
                                    not 1,024; star_read_table: or the names' places not 255;
                                    star_write_table: or the names' ends not as many as their
                                    beginnings; place: a row in use past the last, or 0 */
    STAR_BAD_END = 4,            /* place: the uppermost row with an end that is 0 or above n, or
                                    with equal ends; star_write_table: 0, or without a name */
    STAR_BAD_MARK = 6,           /* place: the uppermost row marked with another byte than 0 and 1
                                    (star_cst, star_other, star_paths, star_which, star_mend,
                                    star_plan_digs, star_total, star_detours, star_best,
                                    star_groups, star_write_table) */
    STAR_BAD_SOURCE = 7,         /* s (star_paths) or r (star_outlets) is 0 or above n; the row
                                    asked about is 0, above m or not in use (star_quote,
                                    star_breaking) */
    STAR_SHORT_MATRIX = 8,       /* the matrix has fewer than 16 n words (star_paths) */
    STAR_BAD_MARK_COUNT = 9,     /* the marks are not n - 1 (star_cst, star_other, star_paths,
                                    star_which, star_plan_digs, star_detours, star_best) */
    STAR_NOT_JOINED = 10,        /* place: the smallest junction that marked rows do not join to 1
                                    (star_cst, star_other, star_which, star_plan_digs, star_detours,
                                    star_best), or to s (star_paths) */
    STAR_NO_NETWORK = 11,        /* no set of rows joins every junction (star_mst1, star_quote,
                                    star_breaking, star_digs, star_digs_text, star_districts,
                                    star_mend, star_outlets) */
    STAR_BAD_TEXT = 12,          /* place: the first byte, counted from 0, of the first word that
                                    cannot stand; the text's length if it ends too early; 65,536 if
                                    it is longer (star_import, star_digs_text); star_read_table: the
                                    text is longer than 16,777,216 bytes, which is the place;
                                    star_write_table: it could be */
    STAR_BAD_EDGE_COUNT = 13,    /* the E lines are not as many as the line Edges says (star_import,
                                    star_digs_text) */
    STAR_BAD_RUNS = 14,          /* the ends are more than eight, one is not above the one before it
                                    (the first not above 0), the last is not m, or there is none
                                    though m is above 0 (star_districts); told before 11 */
    STAR_REPEATED_ROW = 15,      /* place: the uppermost row that joins the same two junctions as an
                                    earlier one, in either direction; told after 4 and before 6 */
    STAR_SHORT_RECORDS = 16,     /* the list has fewer than 2 m records (star_mend); told after 6
                                    and before 11 */
    STAR_TABLE_FULL = 17,        /* all 1,024 rows are in use (star_add); told before 3 */
    STAR_NOT_IN_USE = 18,        /* the row is not in use, or none from 1 to 1,024 (star_strike);
                                    told before 3 */
    STAR_NO_OUTLETS = 19,        /* the table is connected, and no network has exactly t rows at r
                                    (star_outlets); told after 11 */
    STAR_NOT_TRENCH = 20,        /* 20 to 26: star_read_table, with the byte of the field, counted
                                    from 0. Place: the first field of a line that has not two
                                    junctions, a price, and a mark or none; star_write_table: a row
                                    in use whose left end is called struck or junctions */
    STAR_NOT_JUNCTION = 21,      /* neither a number from 1 to 255 nor a name; star_write_table:
                                    place: the first junction whose bytes are no name that the file
                                    can have */
    STAR_NOT_PRICE = 22,         /* not a whole number in the range */
    STAR_NOT_MARK = 23,          /* neither 1, x, yes, true nor 0, no, false */
    STAR_NOT_COUNT = 24,         /* not a line junctions N, or a second one */
    STAR_MIXED_NAMES = 25,       /* a name among numbers or a number among names */
    STAR_TOO_MANY_NAMES = 26,    /* a 256th name */
    STAR_NOT_STRUCK = 27,        /* the row is in use, or none from 1 to 1,024 (star_restore); told
                                    before 3 */
    STAR_BAD_SEPARATOR = 28,     /* the byte parts no fields (28 to 30: star_write_table) */
    STAR_BAD_NAME_PLACES = 29,   /* place: the first junction whose name is not in the text */
    STAR_SHORT_TEXT = 30         /* out may be too short; place: the bytes that are enough */
};

/* A refusal in words, such as "no set of rows joins every junction"; never a null pointer, whatever
 * the number. */
const char *star_refusal_text(unsigned number);

/* Judges the claim. STAR_PASSED: it is a least network, amount is its total, and only is 1 where no
 * other has this total. STAR_LIGHTER: it is a network, and taking out row out and putting in row in
 * saves amount. A refusal is 1, 2, 3, 4, 15, 6, 9 or 10, in this order. */
uint32_t star_cst(uint32_t n, const uint8_t *left, size_t left_len, const uint8_t *right,
                  size_t right_len, const uint8_t *weight, size_t weight_len, const uint8_t *mark,
                  size_t mark_len, uint8_t *answer, size_t answer_len);

/* As star_cst; and where the claim passes and is not the only cheapest network, out and in are two
 * rows whose exchange gives another of the same total. A refusal is 1, 2, 3, 4, 15, 6, 9 or 10, in
 * this order. */
uint32_t star_other(uint32_t n, const uint8_t *left, size_t left_len, const uint8_t *right,
                    size_t right_len, const uint8_t *weight, size_t weight_len, const uint8_t *mark,
                    size_t mark_len, uint8_t *answer, size_t answer_len);

/* Builds a least network and marks its rows, with 0 at every other; amount is its total. The marks
 * lent are not read. A refusal is 1, 2, 3, 4, 15 or 11, in this order. */
uint32_t star_mst1(uint32_t n, const uint8_t *left, size_t left_len, const uint8_t *right,
                   size_t right_len, const uint8_t *weight, size_t weight_len, uint8_t *mark,
                   size_t mark_len, uint8_t *answer, size_t answer_len);

/* Fills the path matrix of a claim that is a tree: sixteen words for each junction, in which the
 * rows on the path from s to it are 1. The words from 16 n on keep their content. Where nothing is
 * refused the answer's kind is STAR_PASSED and all else is 0. A refusal is 1, 2, 3, 4, 15, 6, 7, 8,
 * 9 or 10, in this order: 7 where s is 0 or above n, 8 where the matrix has fewer than 16 n words,
 * 10 with the smallest junction that marked rows do not join to s. */
uint32_t star_paths(uint32_t n, const uint8_t *left, size_t left_len, const uint8_t *right,
                    size_t right_len, const uint8_t *weight, size_t weight_len, const uint8_t *mark,
                    size_t mark_len, uint32_t s, uint64_t *matrix, size_t words, uint8_t *answer,
                    size_t answer_len);

/* The least total as the table stands, and the least total after a row, counted from 1, has another
 * price; any price is taken. The answer has twenty-four bytes: star_read_quoted reads them. The two
 * totals differ by at most the change in price, and never in the opposite direction. A refusal is
 * 1, 2, 3, 4, 15, 7 or 11, in this order. */
uint32_t star_quote(uint32_t n, const uint8_t *left, size_t left_len, const uint8_t *right,
                    size_t right_len, const uint8_t *weight, size_t weight_len, uint32_t row,
                    int32_t price, uint8_t *answer, size_t answer_len);

/* The breaking price of a row, counted from 1: over all routes between its ends that do not use it,
 * the least possible price of the dearest row. A new price moves the least total by exactly
 * min(new, breaking) - min(old, breaking). At a price below it the row is in every least network,
 * at it in some and out of some, above it in none. The row's own price plays no part. STAR_PASSED:
 * amount is the breaking price; STAR_NEVER: no such route, all else is 0, the row is in every
 * network at every price, and the least total moves by new - old. A refusal is 1, 2, 3, 4, 15, 7 or
 * 11, in this order. */
uint32_t star_breaking(uint32_t n, const uint8_t *left, size_t left_len, const uint8_t *right,
                       size_t right_len, const uint8_t *weight, size_t weight_len, uint32_t row,
                       uint8_t *answer, size_t answer_len);

/* Which of two claims over one table costs less: returns 1 for the first, also where they cost the
 * same, and 2 for the second; amount is its total. Both have to be trees, and neither has to be a
 * least one. A refusal is 1, 2, 3, 4, 15, 6, 9 or 10, in this order, as star_cst gives it of the
 * first claim, else 3, 6, 9 or 10 of the second; then 0 is returned. */
uint32_t star_which(uint32_t n, const uint8_t *left, size_t left_len, const uint8_t *right,
                    size_t right_len, const uint8_t *weight, size_t weight_len,
                    const uint8_t *first, size_t first_len, const uint8_t *second,
                    size_t second_len, uint8_t *answer, size_t answer_len);

/* Writes the dig list of the least network that star_mst1 builds at the start of a text that is
 * lent, of 6,370 bytes or more; the bytes behind it stay. A line has a row of the network, from the
 * top: position, left, right, price, a single space between, in decimal; the last line has Total, a
 * space and the sum; each ends with LF. amount is the list's length. A refusal is 1, 2, 3, 4, 15 or
 * 11, in this order, and leaves the text. A shorter text is as an answer of another length: 0 is
 * returned, and nothing is written. */
uint32_t star_digs(uint32_t n, const uint8_t *left, size_t left_len, const uint8_t *right,
                   size_t right_len, const uint8_t *weight, size_t weight_len, uint8_t *text,
                   size_t text_len, uint8_t *answer, size_t answer_len);

/* The same from an STP text. A refusal is 12, 13, 1, 2, 4, 15 or 11, in this order; the answer is
 * read by star_read_imported where it is refused, since the place is in bytes 8 to 15. The calling
 * thread has 1,280 KiB of stack left. */
uint32_t star_digs_text(const uint8_t *stp, size_t stp_len, uint8_t *text, size_t text_len,
                        uint8_t *answer, size_t answer_len);

/* Writes the dig list of a claim that is a tree, least or not, as star_digs writes that of a least
 * network: what is dug where the claim is built as it is. amount is the list's length. A refusal is
 * 1, 2, 3, 4, 15, 6, 9 or 10, in this order, as star_cst's, and leaves the text. */
uint32_t star_plan_digs(uint32_t n, const uint8_t *left, size_t left_len, const uint8_t *right,
                        size_t right_len, const uint8_t *weight, size_t weight_len,
                        const uint8_t *mark, size_t mark_len, uint8_t *text, size_t text_len,
                        uint8_t *answer, size_t answer_len);

/* Adds up the prices of the marked rows; amount is their total. They need not be a tree. A refusal
 * is 1, 2, 3, 4, 15 or 6, in this order. */
uint32_t star_total(uint32_t n, const uint8_t *left, size_t left_len, const uint8_t *right,
                    size_t right_len, const uint8_t *weight, size_t weight_len, const uint8_t *mark,
                    size_t mark_len, uint8_t *answer, size_t answer_len);

/* Whether a row, counted from 1, is on the path to a junction, by a matrix that star_paths has
 * filled. */
STAR_INLINE int star_on_path(const uint64_t *matrix, uint32_t junction, size_t row) {
    return (int)(matrix[STAR_COLUMN_WORDS * ((size_t)junction - 1) + (row - 1) / 64] >>
                     ((row - 1) % 64) &
                 1);
}

/* The rows in use of a working table, sixteen words: row i, counted from 1, is bit (i - 1) % 64 of
 * word (i - 1) / 64, counted from the least significant bit. A row is from 1 to 1,024. */
STAR_INLINE int star_in_use(const uint64_t *in_use, size_t row) {
    return (int)(in_use[(row - 1) / 64] >> ((row - 1) % 64) & 1);
}

STAR_INLINE void star_set_in_use(uint64_t *in_use, size_t row, int used) {
    uint64_t bit = (uint64_t)1 << ((row - 1) % 64);
    if (used) in_use[(row - 1) / 64] |= bit;
    else in_use[(row - 1) / 64] &= ~bit;
}

/* The doors over the rows in use of a working table. left, right and mark are 1,024 bytes, weight
 * 4,096, in_use sixteen words, else the call is refused 3; 2 does not occur, and the other refusals
 * stand in the order of star_X. They look at rows in use alone. Marks at other rows are not read;
 * star_work_mst1, star_work_districts and star_work_outlets write 0 there, and star_work_mend
 * leaves them. */
uint32_t star_work_cst(uint32_t n, const uint64_t *in_use, size_t in_use_words, const uint8_t *left,
                       size_t left_len, const uint8_t *right, size_t right_len,
                       const uint8_t *weight, size_t weight_len, const uint8_t *mark,
                       size_t mark_len, uint8_t *answer, size_t answer_len);

uint32_t star_work_other(uint32_t n, const uint64_t *in_use, size_t in_use_words,
                         const uint8_t *left, size_t left_len, const uint8_t *right,
                         size_t right_len, const uint8_t *weight, size_t weight_len,
                         const uint8_t *mark, size_t mark_len, uint8_t *answer, size_t answer_len);

uint32_t star_work_mst1(uint32_t n, const uint64_t *in_use, size_t in_use_words,
                        const uint8_t *left, size_t left_len, const uint8_t *right,
                        size_t right_len, const uint8_t *weight, size_t weight_len, uint8_t *mark,
                        size_t mark_len, uint8_t *answer, size_t answer_len);

uint32_t star_work_paths(uint32_t n, const uint64_t *in_use, size_t in_use_words,
                         const uint8_t *left, size_t left_len, const uint8_t *right,
                         size_t right_len, const uint8_t *weight, size_t weight_len,
                         const uint8_t *mark, size_t mark_len, uint32_t s, uint64_t *matrix,
                         size_t words, uint8_t *answer, size_t answer_len);

uint32_t star_work_quote(uint32_t n, const uint64_t *in_use, size_t in_use_words,
                         const uint8_t *left, size_t left_len, const uint8_t *right,
                         size_t right_len, const uint8_t *weight, size_t weight_len, uint32_t row,
                         int32_t price, uint8_t *answer, size_t answer_len);

uint32_t star_work_breaking(uint32_t n, const uint64_t *in_use, size_t in_use_words,
                            const uint8_t *left, size_t left_len, const uint8_t *right,
                            size_t right_len, const uint8_t *weight, size_t weight_len,
                            uint32_t row, uint8_t *answer, size_t answer_len);

uint32_t star_work_digs(uint32_t n, const uint64_t *in_use, size_t in_use_words,
                        const uint8_t *left, size_t left_len, const uint8_t *right,
                        size_t right_len, const uint8_t *weight, size_t weight_len, uint8_t *text,
                        size_t text_len, uint8_t *answer, size_t answer_len);

uint32_t star_work_total(uint32_t n, const uint64_t *in_use, size_t in_use_words,
                         const uint8_t *left, size_t left_len, const uint8_t *right,
                         size_t right_len, const uint8_t *weight, size_t weight_len,
                         const uint8_t *mark, size_t mark_len, uint8_t *answer, size_t answer_len);

uint32_t star_work_plan_digs(uint32_t n, const uint64_t *in_use, size_t in_use_words,
                             const uint8_t *left, size_t left_len, const uint8_t *right,
                             size_t right_len, const uint8_t *weight, size_t weight_len,
                             const uint8_t *mark, size_t mark_len, uint8_t *text, size_t text_len,
                             uint8_t *answer, size_t answer_len);

uint32_t star_work_which(uint32_t n, const uint64_t *in_use, size_t in_use_words,
                         const uint8_t *left, size_t left_len, const uint8_t *right,
                         size_t right_len, const uint8_t *weight, size_t weight_len,
                         const uint8_t *first, size_t first_len, const uint8_t *second,
                         size_t second_len, uint8_t *answer, size_t answer_len);

/* Takes a row out of use: its bit is cleared, and its bytes stay. A refusal is 18 or 3, in this
 * order. Where nothing is refused the answer's kind is STAR_PASSED and all else is 0. */
uint32_t star_strike(uint64_t *in_use, size_t in_use_words, uint32_t row, uint8_t *answer,
                     size_t answer_len);

/* Puts a struck row back into use: its bit is set, and it has the ends, the price and the mark that
 * stand in its place, as before it was struck where nothing was written there. After star_merge,
 * and after a star_add that packed, other rows stand there. The bytes are not looked at: what is
 * wrong with them, such as a pair that another row has got since, is told when the table is next
 * judged or built. A refusal is 27 or 3, in this order. Where nothing is refused the answer's kind
 * is STAR_PASSED and all else is 0. */
uint32_t star_restore(uint64_t *in_use, size_t in_use_words, uint32_t row, uint8_t *answer,
                      size_t answer_len);

/* Enters a row that joins a and b at a price: directly after the last row in use, or at 1 if there
 * is none. Where row 1,024 is in use the table is packed first, as star_merge does. The answer's
 * amount is the new row's position. The 1,024 numbers get each earlier row's position, which is its
 * own where nothing is packed, at the index of its old one; 0 for a row that was not in use. a, b
 * and the price are not looked at: what is wrong with them is told when the table is next judged or
 * built. A refusal is 17 or 3, in this order.
 *
 * It takes no marks: star_carry_marks moves them, after each star_add and after each star_merge, by
 * the numbers of that call, since the next call writes the numbers anew. Where marks are not
 * carried after a star_add that packed, they stand at other rows than before; and where it did not
 * pack, the new row has the byte that stands at its place, such as the mark of a row that was
 * struck. Carried marks have 0 there:
 *
 *     star_add(in_use, 16, left, 1024, right, 1024, weight, 4096, numbers, 1024, a, b, price,
 *              answer, 16);
 *     if (answer[0] == STAR_PASSED) star_carry_marks(mark, numbers);
 *     star_merge(in_use, 16, left, 1024, right, 1024, weight, 4096, numbers, 1024, answer, 16);
 *     if (answer[0] == STAR_PASSED) star_carry_marks(mark, numbers);
 *
 * A refused call leaves the numbers as they were: nothing is to be carried then. */
uint32_t star_add(uint64_t *in_use, size_t in_use_words, uint8_t *left, size_t left_len,
                  uint8_t *right, size_t right_len, uint8_t *weight, size_t weight_len,
                  uint32_t *numbers, size_t count, uint8_t a, uint8_t b, int32_t price,
                  uint8_t *answer, size_t answer_len);

/* Packs the rows in use to the top in their order, and clears the other rows. The 1,024 numbers
 * get, for row i at index i - 1, its new position, or 0 where it was not in use. It takes no marks:
 * star_carry_marks moves them, as after star_add. No least total changes, and a claim that passed
 * passes again. A refusal is 3. Where nothing is refused the answer's kind is STAR_PASSED and all
 * else is 0. */
uint32_t star_merge(uint64_t *in_use, size_t in_use_words, uint8_t *left, size_t left_len,
                    uint8_t *right, size_t right_len, uint8_t *weight, size_t weight_len,
                    uint32_t *numbers, size_t count, uint8_t *answer, size_t answer_len);

/* Carries marks through the numbers of star_merge or star_add: each byte to its row's new position,
 * 0 elsewhere. Any numbers are taken: 0 and one above 1,024 name no row, and where two rows have
 * the same number the upper one's byte stays. A refusal is 3: 1,024 numbers and 1,024 marks are
 * lent. Where nothing is refused the answer's kind is STAR_PASSED and all else is 0. */
uint32_t star_carry(const uint32_t *numbers, size_t count, uint8_t *mark, size_t mark_len,
                    uint8_t *answer, size_t answer_len);

/* The same where 1,024 marks and 1,024 numbers are lent, so that nothing can be refused. */
STAR_INLINE void star_carry_marks(uint8_t *mark, const uint32_t *numbers) {
    uint8_t answer[STAR_ANSWER_BYTES];
    star_carry(numbers, STAR_MAX_ROWS, mark, STAR_MAX_ROWS, answer, sizeof answer);
}

/* The rows in at most eight runs: ends has the last position of each, in order, and the last end is
 * m; where m is 0 there is none. forests, m bytes, gets 1 at the rows of a least forest of each
 * run, which has no ring and joins exactly the junctions that the run joins, and 0 elsewhere. mark
 * gets a tree of these rows alone; its total, the answer's amount, is the least of the whole table,
 * and star_cst passes it. Neither is read. A refusal is 1, 2, 3, 4, 15, 14 or 11, in this order,
 * and leaves both as they were. */
uint32_t star_districts(uint32_t n, const uint8_t *left, size_t left_len, const uint8_t *right,
                        size_t right_len, const uint8_t *weight, size_t weight_len,
                        const uint32_t *ends, size_t count, uint8_t *forests, size_t forests_len,
                        uint8_t *mark, size_t mark_len, uint8_t *answer, size_t answer_len);

/* The last end is 1,024, and both columns get 0 at rows not in use. */
uint32_t star_work_districts(uint32_t n, const uint64_t *in_use, size_t in_use_words,
                             const uint8_t *left, size_t left_len, const uint8_t *right,
                             size_t right_len, const uint8_t *weight, size_t weight_len,
                             const uint32_t *ends, size_t count, uint8_t *forests,
                             size_t forests_len, uint8_t *mark, size_t mark_len, uint8_t *answer,
                             size_t answer_len);

/* The most runs. */
enum { STAR_MAX_RUNS = 8 };

/* A step of star_mend. */
enum star_step {
    STAR_DROPPED = 1,  /* the mark of row out is taken away: marks above it join its ends */
    STAR_ADDED = 2,    /* row in is marked: it joins two groups of junctions */
    STAR_EXCHANGED = 3 /* row out goes and row in, which costs less, comes: out was the dearest on
                          the path between the ends of in, the uppermost of them */
};

/* A record of star_mend: a step, and its rows. */
struct star_record {
    uint32_t kind, out, in; /* out and in: 0 where a kind lacks one */
};

/* Turns any marks, 0 and 1, into a least network: going down the marks, those are dropped whose
 * ends earlier ones join; going down the rows, those are added that join two groups; then each row
 * unmarked by now is visited once, from the top, and exchanged for the dearest row on its path
 * where that one costs more. The steps stand in records in their order; the answer's amount is
 * their number, at most 2 m, and records past the last one keep their content. star_cst passes the
 * marks. count counts the records that are lent, 2 m or more. A refusal is 1, 2, 3, 4, 15, 6, 16 or
 * 11, in this order, and leaves marks and records as they were. */
uint32_t star_mend(uint32_t n, const uint8_t *left, size_t left_len, const uint8_t *right,
                   size_t right_len, const uint8_t *weight, size_t weight_len, uint8_t *mark,
                   size_t mark_len, struct star_record *records, size_t count, uint8_t *answer,
                   size_t answer_len);

/* 2,048 records or more are lent. Marks at rows not in use are neither read nor written. */
uint32_t star_work_mend(uint32_t n, const uint64_t *in_use, size_t in_use_words,
                        const uint8_t *left, size_t left_len, const uint8_t *right,
                        size_t right_len, const uint8_t *weight, size_t weight_len, uint8_t *mark,
                        size_t mark_len, struct star_record *records, size_t count, uint8_t *answer,
                        size_t answer_len);

/* Builds a network with exactly t rows at junction r, and marks its rows: every other one with
 * exactly t rows at r costs at least as much. The answer's amount is its total; the marks lent are
 * not read. A refusal is 1, 2, 3, 4, 15, 7, 11 or 19, in this order. */
uint32_t star_outlets(uint32_t n, const uint8_t *left, size_t left_len, const uint8_t *right,
                      size_t right_len, const uint8_t *weight, size_t weight_len, uint8_t *mark,
                      size_t mark_len, uint32_t r, uint32_t t, uint8_t *answer, size_t answer_len);

uint32_t star_work_outlets(uint32_t n, const uint64_t *in_use, size_t in_use_words,
                           const uint8_t *left, size_t left_len, const uint8_t *right,
                           size_t right_len, const uint8_t *weight, size_t weight_len,
                           uint8_t *mark, size_t mark_len, uint32_t r, uint32_t t, uint8_t *answer,
                           size_t answer_len);

/* The dearest of each detour. Of a claim that is a tree a number is written for each row, which is
 * another row, counted from 1: beside an unmarked row the dearest row of the way between its ends
 * along marked rows, beside a marked row the cheapest unmarked row that could take its place, 0
 * where there is none; the uppermost among equals; 0 beside rows not in use. Each is the best
 * exchange of its row. The claim is a least network exactly where no unmarked row is cheaper than
 * the row beside it. The answer's amount is the claim's total. A refusal is 1, 2, 3, 4, 15, 6, 9 or
 * 10, in this order: 3 where the numbers are not m, too. */
uint32_t star_detours(uint32_t n, const uint8_t *left, size_t left_len, const uint8_t *right,
                      size_t right_len, const uint8_t *weight, size_t weight_len,
                      const uint8_t *mark, size_t mark_len, uint32_t *rows, size_t count,
                      uint8_t *answer, size_t answer_len);

uint32_t star_work_detours(uint32_t n, const uint64_t *in_use, size_t in_use_words,
                           const uint8_t *left, size_t left_len, const uint8_t *right,
                           size_t right_len, const uint8_t *weight, size_t weight_len,
                           const uint8_t *mark, size_t mark_len, uint32_t *rows, size_t count,
                           uint8_t *answer, size_t answer_len);

/* The best exchange of a claim that is a tree: of all exchanges of one marked for one unmarked row
 * the one that saves most, the uppermost row in among equals, and for it the uppermost row out. The
 * answer has twenty-four bytes: star_read_answer reads the first sixteen, and star_read_answer of
 * answer + 8 has the least total as its amount. STAR_PASSED: no exchange saves, so that the claim
 * is a least network; amount is its total. STAR_LIGHTER: out, in, and the saving as amount; no
 * exchange of two rows gives a cheaper network. Bytes 16 to 23 are the least total, so that a
 * claim's total less it is the most that any change saves. A refusal is 1, 2, 3, 4, 15, 6, 9 or 10,
 * in this order. */
uint32_t star_best(uint32_t n, const uint8_t *left, size_t left_len, const uint8_t *right,
                   size_t right_len, const uint8_t *weight, size_t weight_len, const uint8_t *mark,
                   size_t mark_len, uint8_t *answer, size_t answer_len);

uint32_t star_work_best(uint32_t n, const uint64_t *in_use, size_t in_use_words,
                        const uint8_t *left, size_t left_len, const uint8_t *right,
                        size_t right_len, const uint8_t *weight, size_t weight_len,
                        const uint8_t *mark, size_t mark_len, uint8_t *answer, size_t answer_len);

/* The groups that any marks join, and the rings that they close; marks are read, and are bytes 0
 * and 1. groups, n bytes, gets for each junction the smallest one that marked rows join it to:
 * itself where it is that one. rings, m bytes, gets 1 at each marked row whose ends the other
 * marked rows join, and 0 elsewhere. The answer's amount is the number of groups, and in is the
 * number of rows that close a ring: the marks are a network exactly where these are 1 and 0.
 * Neither column is read. A refusal is 1, 2, 3, 4, 15 or 6, in this order, and leaves both as they
 * were. */
uint32_t star_groups(uint32_t n, const uint8_t *left, size_t left_len, const uint8_t *right,
                     size_t right_len, const uint8_t *weight, size_t weight_len,
                     const uint8_t *mark, size_t mark_len, uint8_t *groups, size_t groups_len,
                     uint8_t *rings, size_t rings_len, uint8_t *answer, size_t answer_len);

/* rings has 1,024 bytes, and gets 0 at rows not in use. */
uint32_t star_work_groups(uint32_t n, const uint64_t *in_use, size_t in_use_words,
                          const uint8_t *left, size_t left_len, const uint8_t *right,
                          size_t right_len, const uint8_t *weight, size_t weight_len,
                          const uint8_t *mark, size_t mark_len, uint8_t *groups, size_t groups_len,
                          uint8_t *rings, size_t rings_len, uint8_t *answer, size_t answer_len);

/* Reads an STP text: a first line that opens with 33D32945; sections, of which one is named Graph,
 * with its lines Nodes N, Edges M, E LEFT RIGHT PRICE for each row, END; and EOF. Sections of other
 * names are skipped. left, right and weight are lent for 1,024 rows: 1,024, 1,024 and 4,096 bytes.
 * The m rows of the text are written at the top, and rows past m keep their content. A PRICE may
 * open with -; one outside -2,147,483,648 to 2,147,483,647 is a word that cannot stand. A refusal
 * is 12, 13, 1, 2, 3, 4 or 15, in this order. The first m rows (4 m bytes of weight) are what
 * star_cst and star_mst1 take. */
uint32_t star_import(const uint8_t *text, size_t text_len, uint8_t *left, size_t left_len,
                     uint8_t *right, size_t right_len, uint8_t *weight, size_t weight_len,
                     uint8_t *answer, size_t answer_len);

/* Reads a planner's table file: a line for each trench, its two junctions, its price, and a mark or
 * none, the fields parted by semicolons, tabs, commas or blanks; comments after #; junctions as
 * numbers or as names; docs/TABLE-FILES.md has the rules. It fills a working table: left, right
 * and mark are lent for 1,024 rows, weight is 4,096 bytes, in_use sixteen words. Row i is the i-th
 * trench of the file; a line that opens with struck gives a row that is not in use. name_from and
 * name_to, 255 numbers each, get where each name is first met: byte name_from[k] is its first one,
 * and name_to[k] the place after its last; junction k + 1 has it. row_at, 1,024 numbers, gets the
 * place of each trench's first field. Rows and names past those of the file keep their content;
 * in_use is written whole. star_read_file reads the answer. A refusal is 3, 20, 21, 22, 23, 24, 25,
 * 2 or 26: 3 before the text is read, then the first line that cannot stand, and in it the first
 * fault in this order; a text of more than 16,777,216 bytes is refused 12, after 3. A refusal
 * leaves every column as it was. What else is wrong with the rows, such as two equal ends, is told
 * when the table is next judged or built. */
uint32_t star_read_table(const uint8_t *text, size_t text_len, uint64_t *in_use,
                         size_t in_use_words, uint8_t *left, size_t left_len, uint8_t *right,
                         size_t right_len, uint8_t *weight, size_t weight_len, uint8_t *mark,
                         size_t mark_len, uint32_t *name_from, size_t name_from_count,
                         uint32_t *name_to, size_t name_to_count, uint32_t *row_at,
                         size_t row_at_count, uint8_t *answer, size_t answer_len);

/* The room that star_write_table asks for: of tables without names, and of those whose longest name
 * has so many bytes, 3 or more. */
enum { STAR_MAX_FILE_TEXT = 29739 };
#define STAR_FILE_ROOM(longest) (43 + 1024 * (23 + 2 * (size_t)(longest)))

/* Writes a table as a table file that star_read_table reads back as the same: a line junctions N,
 * and a line for each of the m rows, m the length of left; a row that is not in use opens with
 * struck, and its mark is not looked at. right and mark have m bytes, weight 4 m, in_use sixteen
 * words. separator parts the fields: ' ', as planners write them down, or ';', ',' or a tab, as
 * spreadsheets do; then a header stands above. Where name_from and name_to are empty, junctions are
 * numbers; else junction k + 1 is written as the bytes of text from name_from[k] up to name_to[k],
 * as star_read_table leaves them. They are read back with their numbers where the rows meet them in
 * their order. out gets the text from its start on, keeps its content behind it, and has to have
 * room for STAR_FILE_ROOM of the longest name. star_read_written reads the answer. A refusal is
 * 2, 3, 26, 28, 29, 21, 4, 6, 20 or 30: the lengths, 26 and 28; the first name that cannot be
 * written, for 29 or 21; the first row, for 4, 6 or 20; 30, and before it 12, where the text could
 * have more than 16,777,216 bytes. ';' takes every name that star_read_table gives; with another
 * separator no name holds it, nor one that parts fields before it (docs/TABLE-FILES.md). What else
 * is wrong with the table, such as two equal ends, is not looked at. */
uint32_t star_write_table(uint32_t n, const uint64_t *in_use, size_t in_use_words,
                          const uint8_t *left, size_t left_len, const uint8_t *right,
                          size_t right_len, const uint8_t *weight, size_t weight_len,
                          const uint8_t *mark, size_t mark_len, const uint8_t *text,
                          size_t text_len, const uint32_t *name_from, size_t name_from_count,
                          const uint32_t *name_to, size_t name_to_count, uint8_t separator,
                          uint8_t *out, size_t out_len, uint8_t *answer, size_t answer_len);

/* The line of a place in a text, counted from 1: LF, CR or CR with LF after it end a line. A place
 * past the text's end is in its last line. */
uint64_t star_line_of(const uint8_t *text, size_t text_len, uint32_t place);

/* Packs a price into the weight column, and reads one, at an index from 0 on, as left[index]: row i
 * is at index i - 1. */
STAR_INLINE void star_put_price(uint8_t *weight, size_t index, int32_t price) {
    int k;
    for (k = 0; k < 4; k++) weight[4 * index + (size_t)k] = (uint8_t)((uint32_t)price >> (8 * k));
}

STAR_INLINE int32_t star_get_price(const uint8_t *weight, size_t index) {
    uint32_t bits = 0;
    int k;
    for (k = 3; k >= 0; k--) bits = bits << 8 | weight[4 * index + (size_t)k];
    return bits <= INT32_MAX ? (int32_t)bits : -1 - (int32_t)~bits;
}

/* The sixteen bytes of every door but star_import, star_read_table, star_write_table and a refused
 * star_digs_text, and the first sixteen of star_quote and star_best, as fields; those that a kind
 * lacks are 0. */
struct star_answer {
    unsigned kind;   /* byte 0: enum star_kind */
    unsigned number; /* byte 1: enum star_refusal, 0 unless refused */
    unsigned out;    /* bytes 2 and 3: lighter: the row to take out; refused: the place; star_other,
                        passed and not the only one: a row to take out */
    unsigned in;     /* bytes 4 and 5: lighter: the row to put in; star_other: as out; star_groups:
                        the number of rows that close a ring */
    unsigned only;   /* byte 6: 1 where star_cst or star_other passes the claim and no other network
                        has its total; 0 in every other answer */
    int64_t amount;  /* bytes 8 to 15, two's complement: passed: the total; lighter: the saving,
                        above 0 and at most 4,294,967,295; star_breaking: the breaking price;
                        star_digs, star_plan_digs: the list's length; star_add: the new row's
                        position; star_mend: the number of records; star_groups: the number of
                        groups */
};

STAR_INLINE struct star_answer star_read_answer(const uint8_t bytes[16]) {
    struct star_answer a;
    uint64_t bits = 0;
    int i;
    a.kind = bytes[0];
    a.number = bytes[1];
    a.out = (unsigned)bytes[2] | (unsigned)bytes[3] << 8;
    a.in = (unsigned)bytes[4] | (unsigned)bytes[5] << 8;
    a.only = bytes[6];
    for (i = 7; i >= 0; i--) bits = bits << 8 | bytes[8 + i];
    a.amount = bits <= INT64_MAX ? (int64_t)bits : -1 - (int64_t)~bits;
    return a;
}

/* The twenty-four bytes of star_quote as fields; those that a kind lacks are 0. */
struct star_quoted {
    unsigned kind;   /* byte 0: STAR_PASSED or STAR_REFUSED */
    unsigned number; /* byte 1: enum star_refusal, 0 unless refused */
    unsigned place;  /* bytes 2 and 3: the refusal's place */
    int64_t before;  /* bytes 8 to 15: the least total as the table stands */
    int64_t after;   /* bytes 16 to 23: the least total at the new price */
};

STAR_INLINE struct star_quoted star_read_quoted(const uint8_t bytes[24]) {
    struct star_answer a = star_read_answer(bytes);
    struct star_quoted q;
    q.kind = a.kind;
    q.number = a.number;
    q.place = a.out;
    q.before = a.amount;
    q.after = star_read_answer(bytes + 8).amount;
    return q;
}

/* The sixteen bytes of star_import, and of a refused star_digs_text, as fields; those that a kind
 * lacks are 0. */
struct star_imported {
    unsigned kind;   /* byte 0: STAR_PASSED or STAR_REFUSED */
    unsigned number; /* byte 1: enum star_refusal, 0 unless refused */
    unsigned n;      /* bytes 2 and 3: the junctions */
    unsigned m;      /* bytes 4 and 5: the rows */
    uint64_t place;  /* bytes 8 to 15: the refusal's place */
};

STAR_INLINE struct star_imported star_read_imported(const uint8_t bytes[16]) {
    struct star_answer a = star_read_answer(bytes);
    struct star_imported i;
    i.kind = a.kind;
    i.number = a.number;
    i.n = a.out;
    i.m = a.in;
    i.place = (uint64_t)a.amount;
    return i;
}

/* The sixteen bytes of star_read_table as fields; those that a kind lacks are 0. */
struct star_file {
    unsigned kind;   /* byte 0: STAR_PASSED or STAR_REFUSED */
    unsigned number; /* byte 1: enum star_refusal, 0 unless refused */
    unsigned names;  /* bytes 2 and 3: the names, 0 where junctions are numbers */
    unsigned m;      /* bytes 4 and 5: the rows, struck ones too */
    uint32_t n;     /* bytes 8 to 15: the junctions; a line junctions N may say more than 255, which
                        the next call that looks at the table refuses */
    uint32_t place; /* bytes 8 to 15 of a refusal: the place */
};

STAR_INLINE struct star_file star_read_file(const uint8_t bytes[16]) {
    struct star_answer a = star_read_answer(bytes);
    struct star_file f;
    f.kind = a.kind;
    f.number = a.number;
    f.names = a.out;
    f.m = a.in;
    f.n = a.kind == STAR_PASSED ? (uint32_t)a.amount : 0;
    f.place = a.kind == STAR_PASSED ? 0 : (uint32_t)a.amount;
    return f;
}

/* The sixteen bytes of star_write_table as fields; those that a kind lacks are 0. */
struct star_written {
    unsigned kind;   /* byte 0: STAR_PASSED or STAR_REFUSED */
    unsigned number; /* byte 1: enum star_refusal, 0 unless refused */
    uint32_t length; /* bytes 8 to 15: the bytes of the text */
    uint32_t place;  /* bytes 8 to 15 of a refusal: the place */
};

STAR_INLINE struct star_written star_read_written(const uint8_t bytes[16]) {
    struct star_answer a = star_read_answer(bytes);
    struct star_written w;
    w.kind = a.kind;
    w.number = a.number;
    w.length = a.kind == STAR_PASSED ? (uint32_t)a.amount : 0;
    w.place = a.kind == STAR_PASSED ? 0 : (uint32_t)a.amount;
    return w;
}

/* A table with all that belongs to it: a working table, its marks and its number of junctions. The
 * short calls below hand it to the doors. They are plain C; every verdict, total and price in their
 * answers is a door's. Each field may be read and written, and what is wrong with the content is
 * told by the next call that looks at it. A short call asks for 8 KiB more of stack than its door,
 * where nothing else is said. */
struct star_table {
    uint32_t n;                         /* the junctions */
    uint64_t in_use[STAR_COLUMN_WORDS]; /* the rows in use, as star_in_use reads them */
    uint8_t left[STAR_MAX_ROWS];        /* the ends of row i at index i - 1 */
    uint8_t right[STAR_MAX_ROWS];
    uint8_t weight[4 * STAR_MAX_ROWS]; /* the prices, as star_get_price reads them */
    uint8_t mark[STAR_MAX_ROWS];       /* the claim */
    uint32_t numbers[STAR_MAX_ROWS];   /* where the last star_table_add or star_table_merge has put
                                          row i, 0 for nowhere */
};

/* What is said of a plan: struct star_answer with both totals. Fields that a kind lacks are 0. */
struct star_verdict {
    unsigned kind;   /* enum star_kind */
    unsigned number; /* enum star_refusal, 0 unless refused */
    unsigned place;  /* refused: the place */
    unsigned only;   /* star_table_check, star_table_other: 1 where the plan passes and no other
                        network has its total */
    unsigned out;    /* lighter: the row to take out; star_table_other: one to take out for another
                        network of the same total */
    unsigned in;     /* lighter, star_table_other: the row to put in */
    unsigned which;  /* star_table_which: 1 or 2 */
    unsigned steps;  /* star_table_mend: the number of records */
    int64_t saving;  /* lighter: what the exchange saves */
    int64_t total;   /* the total of the plan, as the call leaves it */
    int64_t least;   /* the least total of the table; star_table_outlets, star_table_which: 0 */
};

/* A table of n junctions and no rows. */
void star_table_init(struct star_table *t, uint32_t n);

/* Enters a row as star_add does, unmarked; amount is its position. Where the table is packed first,
 * marks move with their rows. An end above 255 is entered as 0, which the next call that looks at
 * the rows refuses. */
struct star_answer star_table_add(struct star_table *t, uint32_t a, uint32_t b, int32_t price);

/* Marks a row, or takes its mark away where mark is 0. Returns 1, or 0 where the row is not in use;
 * then nothing is written. */
int star_table_mark(struct star_table *t, uint32_t row, int mark);

/* Takes a row out of use as star_strike does, and its mark away. */
struct star_answer star_table_strike(struct star_table *t, uint32_t row);

/* Puts a struck row back into use as star_restore does, unmarked. */
struct star_answer star_table_restore(struct star_table *t, uint32_t row);

/* Packs the rows as star_merge does; marks move with their rows. */
struct star_answer star_table_merge(struct star_table *t);

/* Judges the plan as star_cst does. Where a cheaper set exists, both totals are told beside the
 * saving: the plan's by star_total, the least one by star_mst1. */
struct star_verdict star_table_check(const struct star_table *t);

/* The same as star_other does: where another network has the same total, out and in give it. */
struct star_verdict star_table_other(const struct star_table *t);

/* The exchange of two rows that saves most as star_best gives it, with both totals; only is 0. */
struct star_verdict star_table_best(const struct star_table *t);

/* Marks a least network as star_mst1 does. */
struct star_verdict star_table_build(struct star_table *t);

/* The most steps of star_table_mend. */
enum { STAR_MAX_STEPS = 2 * STAR_MAX_ROWS };

/* Turns the plan into a least network as star_mend does. records has room for STAR_MAX_STEPS, or is
 * a null pointer where they are not wanted. The calling thread has 416 KiB of stack left. */
struct star_verdict star_table_mend(struct star_table *t, struct star_record *records);

/* Marks a network that is least among those with exactly count rows at a junction, as star_outlets
 * does. */
struct star_verdict star_table_outlets(struct star_table *t, uint32_t junction, uint32_t count);

/* Marks a least network made from the least rows of each run alone, as star_districts does; the
 * last of the ends is 1,024. forests has 1,024 bytes. */
struct star_verdict star_table_districts(struct star_table *t, const uint32_t *ends, size_t count,
                                         uint8_t *forests);

/* Which of two plans over the rows of the table costs less, as star_which does: first and second
 * have 1,024 bytes. total is that of the one that stands. The table's own marks are not read. */
struct star_verdict star_table_which(const struct star_table *t, const uint8_t *first,
                                     const uint8_t *second);

/* The least total today and at a row's new price, as star_quote gives them. */
struct star_quoted star_table_quote(const struct star_table *t, uint32_t row, int32_t price);

/* The price above which a row is in no least network, as star_breaking gives it. */
struct star_answer star_table_breaking(const struct star_table *t, uint32_t row);

/* Writes the dig list of a least network as star_digs does; text has STAR_MAX_LIST bytes. */
struct star_answer star_table_digs(const struct star_table *t, uint8_t *text);

/* Adds up the prices of the marked rows as star_total does: the answer's amount. */
struct star_answer star_table_total(const struct star_table *t);

/* Writes the dig list of the marked rows as star_plan_digs does; text has STAR_MAX_LIST bytes. */
struct star_answer star_table_plan_digs(const struct star_table *t, uint8_t *text);

/* Names beside each row the row it is best exchanged with as star_detours does; rows has 1,024
 * numbers, and the answer's amount is the plan's total. */
struct star_answer star_table_detours(const struct star_table *t, uint32_t *rows);

/* Finds what the marked rows join and where they close rings as star_groups does; groups has n
 * bytes, rings 1,024. */
struct star_answer star_table_groups(const struct star_table *t, uint8_t *groups, uint8_t *rings);

/* Fills the path matrix of the plan as star_paths does; matrix has 16 n words. */
struct star_answer star_table_paths(const struct star_table *t, uint32_t from, uint64_t *matrix);

/* Reads a table from a text: an STP text as star_import does, then no row is marked; or a planner's
 * table as star_read_table does, with marks and struck rows; its names are left out. One whose
 * first word is 33D32945 is an STP text. A refusal leaves the table as it was. It is one of
 * star_import or of star_read_table, with its place; what else is wrong with a planner's rows is
 * told by the next call that looks at them. The calling thread has 1,440 KiB of stack left. */
struct star_imported star_table_read(struct star_table *t, const char *text, size_t len);

/* The room that the text of star_table_write needs at most. */
enum { STAR_MAX_TABLE_TEXT = 32768 };

/* Writes the table as a text that star_table_read reads, unless a row has an end or a mark that no
 * file can have: 'junctions N', then a line a row, its two junctions, price and mark; one that was
 * struck opens with 'struck'. Returns the bytes of the text; where that is below size, all of it is
 * written with a zero byte behind it, else nothing is. */
size_t star_table_write(const struct star_table *t, char *text, size_t size);

#ifdef __cplusplus
}
#endif

#endif
