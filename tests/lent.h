/* A table as it is lent to a door, for the tests of every door: its columns with random bytes
   around each of them, how it is made, damaged, lent and compared, and what the plain
   implementation says of it. */
#ifndef TESTS_LENT_H
#define TESTS_LENT_H

#include "plain_work.h"
#include "rows.h"
#include "shared.h"
#include "star.h"

enum column {
    IN_USE,
    LEFT,
    RIGHT,
    WEIGHT,
    MARK,
    SECOND, /* the second plan's marks */
    RINGS,
    FORESTS,
    ENDS,
    NUMBERS,
    RECORDS,
    MATRIX,
    GROUPS,
    TEXT,
    ANSWER,
    COLUMNS
};

/* Bytes before and after each column, that no door may change. */
enum { GUARD = 48, LENT_ROWS = STAR_MAX_ROWS + 8, LENT_ENDS = 12 };
#define GUARDED(type, name, count) \
    type before_##name[GUARD / sizeof(type)], name[(count) + GUARD / sizeof(type)]

struct lent {
    int door; /* which one is called, where a test has more than one */
    uint32_t n;
    int working;         /* whether the rows in use are lent too */
    size_t len[COLUMNS]; /* the lengths that are told, in words, numbers, records or bytes */
    uint32_t at, count;  /* the row or the junction asked about; the rows at a junction */
    int32_t price;       /* a new price; the price of a new row, and its ends */
    uint8_t a, b;
    GUARDED(uint64_t, in_use, STAR_COLUMN_WORDS + 1);
    GUARDED(uint8_t, left, LENT_ROWS);
    GUARDED(uint8_t, right, LENT_ROWS);
    GUARDED(uint8_t, weight, 4 * LENT_ROWS);
    GUARDED(uint8_t, mark, LENT_ROWS);
    GUARDED(uint8_t, second, LENT_ROWS);
    GUARDED(uint8_t, rings, LENT_ROWS);
    GUARDED(uint8_t, forests, LENT_ROWS);
    GUARDED(uint32_t, ends, LENT_ENDS);
    GUARDED(uint32_t, numbers, LENT_ROWS);
    GUARDED(struct star_record, records, 2 * LENT_ROWS);
    GUARDED(uint64_t, matrix, STAR_COLUMN_WORDS *STAR_MAX_JUNCTIONS + 40);
    GUARDED(uint8_t, groups, STAR_MAX_JUNCTIONS + 8);
    GUARDED(uint8_t, text, STAR_MAX_LIST + 30);
    GUARDED(uint8_t, answer, 40);
};

/* What a test lends beside the table and the answer, a bit for each column, and the answer's
   length. The other columns are neither filled nor compared. */
#define LENDS(column) (1u << (column))
extern unsigned lends;
extern size_t answer_len;

/* A table's shape: apart is one whose rows need not join all junctions; with repeats, rows may join
   the same two. */
struct shape {
    uint32_t n;
    size_t m;
    int working, apart, repeats;
};

/* A table of a shape, with every length right; a table that is mostly small and connected, a plain
   one where k is even and a working one where it is odd; one with 1,000 rows or more. Rows in use
   stand at the top, at the bottom or scattered. Every byte that is no part of the table is
   random. */
void lent_table(struct lent *t, struct shape s);
void lent_make(struct lent *t, unsigned long k);
void lent_make_large(struct lent *t, int working);

/* The yard, with rows in use as digits, or a plain one for NULL; every other byte is 7. */
void lent_yard(struct lent *t, const char *in_use);

/* Rows put anew from the top of a table, with ends and prices, and the lengths for them. */
void lent_put(struct lent *t, size_t m, const uint8_t *left, const uint8_t *right,
              const int32_t *price);

/* No row: the lengths of a plain table without any. */
void lent_no_rows(struct lent *t);

/* Puts the lengths right. */
void lent_lengths(struct lent *t, size_t m);

/* Puts something wrong, or more: n, a length, an end, a row, a mark. */
void lent_damage(struct lent *t);

/* A length one too small or too large, or 0. */
void lent_wrong_length(struct lent *t);

/* m as the refusals count it: the length of left, or 1,024. Whether a row is one of the table. */
size_t lent_m(const struct lent *t);
int lent_used(const struct lent *t, size_t row);

/* A row of the table. The same, or now and then one that is not there. */
size_t lent_row(const struct lent *t);
uint32_t lent_any_row(const struct lent *t);

/* A price: at a limit, near another row's, small, or any. */
int32_t lent_price(const struct lent *t);

/* Marks a network where there is one: a least one, one that is nearly least, or any. */
void lent_mark(const struct lent *t, uint8_t *mark);
int64_t lent_sum(const struct lent *t, const uint8_t *mark);

/* The rows of a table. */
void lent_rows(const struct lent *t, struct rows *r);

/* For the plain implementation: the call, and its rows in use or a null pointer. */
struct call lent_call(struct lent *t);
const struct in_use *lent_in_use(struct lent *t);

/* What the plain implementation of star_mst1 says of the table, over the length of a column too
   that has to be as long as left; what star_cst says of it and its marks. */
struct star_answer lent_least(const struct lent *t, enum column as_long);
struct star_answer lent_judged(const struct lent *t);

/* What is handed to a door, null pointers for empty columns; it goes back afterwards, with what the
   door returned. */
struct handed {
    void *at[COLUMNS];
};
struct handed lent_hand(struct lent *t);
uint32_t lent_back(struct lent *t, struct handed p, uint32_t said);

/* Faults of the doors of a test, which it has to find: what such a door makes of what it is lent,
   and of what it leaves and returns; before is the table as it was lent. A test is linked with
   faultless.c, which has none, or with a file of faults. */
extern const int has_faults;
void fault_before(struct lent *t);
uint32_t fault_after(struct lent *t, struct lent *before, uint32_t said);

#define HANDED(t, p, column) (p).at[column], (t)->len[column]
#define TABLE(t, p) HANDED(t, p, LEFT), HANDED(t, p, RIGHT), HANDED(t, p, WEIGHT)

/* star_DOOR or star_work_DOOR over a table, with what else it takes. */
#define ASK(t, p, door, ...) \
    ((t)->working ? star_work_##door((t)->n, HANDED(t, p, IN_USE), TABLE(t, p), __VA_ARGS__) \
                  : star_##door((t)->n, TABLE(t, p), __VA_ARGS__))

/* A copy of what is lent, and whether two are the same, with all that stands around each column. */
void lent_copy(struct lent *to, const struct lent *from);
int lent_same(const struct lent *a, const struct lent *b);

/* Calls a door, and the plain implementation on a copy; compares what they return and leave. */
typedef uint32_t door_call(struct lent *t);
uint32_t lent_agree(struct lent *t, const char *name, door_call *door, door_call *plain);

/* Counts how a call ended; whether it was neither refused nor without an answer. */
extern unsigned long lent_done[2], lent_unwritten;
int lent_ended(const struct lent *t, uint32_t said);

/* Compares what is left where an answer has another length, so that nothing is written, or where a
   refusal is expected; whether it was one of these. before: the table as it was lent. */
int lent_refused(const struct lent *t, struct lent *before, uint32_t said, struct star_answer a);

/* Whether the answer's sixteen bytes are these; those of a refusal; of a call that is done, with an
   amount. */
int lent_answers(const struct lent *t, struct star_answer b);
int lent_refuses(const struct lent *t, unsigned number, unsigned place);
int lent_does(const struct lent *t, int64_t amount);
struct star_answer refusal(unsigned number, unsigned place);

/* Every length of a call over the yard, one too small, one too large, and 0 with a null pointer, on
   a plain and on a working one: what is held to be right of it, and that columns of a row each are
   refused 3. */
void lent_each_length(void (*held)(struct lent *));

/* Calls a door in a thread with a stack of so many bytes; whether it answers. And the same of a
   large table of each kind, made ready before. */
int lent_small_stack(door_call *door, struct lent *t, size_t stack);
void lent_small_stacks(door_call *door, void (*ready)(struct lent *), size_t stack);

/* The last lines of a test: how many calls were done, which refusals came, and 'N passed, M
   failed'. Each of the refusals has its share. What it gives is the exit status. */
int lent_told(const char *what, unsigned long calls, unsigned long one_of, const unsigned *numbers);

#endif
