/* Working tables whose answers are known, from the yard: 1-2 5, 2-3 3, 3-4 5, 1-4 4, 1-3 6; null
   pointers; the stack that the header names. */
#include <string.h>

#include "doors.h"

static struct lent t;

/* The yard with rows in use, a digit each; every other byte is 7. */
static void yard(const char *rows) {
    lent_yard(&t, rows);
    memset(t.mark, 7, sizeof t.mark);
    t.a = 2;
    t.b = 4;
    t.price = 7;
}

static struct star_answer asked(enum door door, uint32_t row) {
    t.at = door == PATHS ? 1 : row;
    doors_agree(&t, door);
    return star_read_answer(t.answer);
}

/* Whether a call is refused. */
static int refuses(enum door door, uint32_t row, unsigned number, unsigned place) {
    asked(door, row);
    return lent_refuses(&t, number, place);
}

/* Whether the first six numbers are these, and all others but the last are 0. */
static int numbered(const char *digits) {
    size_t i;
    for (i = 0; i + 1 < STAR_MAX_ROWS; i++)
        if (t.numbers[i] != (i < 6 ? (uint32_t)(digits[i] - '0') : 0)) return 0;
    return 1;
}

static int marked(const char *digits) {
    size_t i;
    for (i = 0; i < STAR_MAX_ROWS; i++)
        if (t.mark[i] != (i < 5 ? (uint8_t)(digits[i] - '0') : 0)) return 0;
    return 1;
}

static void built_and_struck(void) {
    struct star_answer a;
    yard("135");
    a = asked(MST1, 0);
    tell(a.kind == STAR_PASSED && a.amount == 16 && marked("10101"), "the yard with rows 1, 3, 5");
    memset(t.mark + 1, 7, 1);
    memset(t.mark + 3, 7, 1);
    a = asked(CST, 0);
    tell(a.kind == STAR_PASSED && a.amount == 16 && a.only == 1,
         "marks at rows 2 and 4 are not looked at");
    put_row(t.left, t.right, t.weight, 2, 1, 2, 9);
    put_row(t.left, t.right, t.weight, 4, 0, 255, 9);
    tell(asked(CST, 0).kind == STAR_PASSED, "a repeat and a bad end at rows not in use");
    star_set_in_use(t.in_use, 2, 1);
    tell(refuses(CST, 0, STAR_REPEATED_ROW, 2), "a repeat in use");
    star_set_in_use(t.in_use, 4, 1);
    tell(refuses(CST, 0, STAR_BAD_END, 4), "a bad end in use");
    yard("135");
    a = asked(STRIKE, 3);
    tell(a.kind == STAR_PASSED && t.in_use[0] == 17 && t.left[2] == 3, "row 3 struck");
    tell(refuses(MST1, 0, STAR_NO_NETWORK, 0) && t.mark[0] == 7, "no network without row 3");
    tell(refuses(STRIKE, 3, STAR_NOT_IN_USE, 0), "row 3 struck twice");
    tell(refuses(STRIKE, 0, STAR_NOT_IN_USE, 0) && refuses(STRIKE, 1025, STAR_NOT_IN_USE, 0),
         "rows 0 and 1,025");
    t.in_use[16] = ~(uint64_t)0;
    t.len[IN_USE] = 17;
    tell(refuses(STRIKE, 1025, STAR_NOT_IN_USE, 0) && refuses(STRIKE, 1, STAR_BAD_LENGTHS, 0),
         "seventeen words");
    star_set_in_use(t.in_use, 1024, 1);
    t.len[IN_USE] = 15;
    tell(refuses(STRIKE, 1024, STAR_NOT_IN_USE, 0) && refuses(STRIKE, 1, STAR_BAD_LENGTHS, 0),
         "fifteen words");
}

/* A struck row put back, with what stands in its place. */
static void restored(void) {
    struct star_answer a;
    yard("135");
    asked(STRIKE, 3);
    a = asked(RESTORE, 3);
    tell(a.kind == STAR_PASSED && t.in_use[0] == 21 && t.left[2] == 3, "row 3 restored");
    tell(refuses(RESTORE, 3, STAR_NOT_STRUCK, 0), "row 3 restored twice");
    tell(refuses(RESTORE, 0, STAR_NOT_STRUCK, 0) && refuses(RESTORE, 1025, STAR_NOT_STRUCK, 0),
         "rows 0 and 1,025");
    tell(asked(RESTORE, 1024).kind == STAR_PASSED && t.in_use[15] == (uint64_t)1 << 63,
         "row 1,024 restored");
    tell(refuses(CST, 0, STAR_BAD_END, 1024), "a bad end restored is told by the next question");
    yard("135");
    put_row(t.left, t.right, t.weight, 2, 2, 1, 9);
    tell(asked(RESTORE, 2).kind == STAR_PASSED && refuses(MST1, 0, STAR_REPEATED_ROW, 2),
         "a repeated pair too");
    yard("135");
    t.len[IN_USE] = 17;
    tell(refuses(RESTORE, 1, STAR_NOT_STRUCK, 0) && refuses(RESTORE, 2, STAR_BAD_LENGTHS, 0),
         "seventeen words");
    t.len[IN_USE] = 15;
    tell(refuses(RESTORE, 1, STAR_NOT_STRUCK, 0) && refuses(RESTORE, 1024, STAR_BAD_LENGTHS, 0),
         "fifteen words");
}

/* The marks of the yard added up: none, a ring, and a byte 7 at a row that is not in use. */
static void added_up(void) {
    struct star_answer a;
    yard("12345");
    memset(t.mark, 0, 5);
    a = asked(TOTAL, 0);
    tell(a.kind == STAR_PASSED && a.amount == 0, "no mark");
    t.mark[0] = t.mark[1] = t.mark[4] = 1;
    tell(asked(TOTAL, 0).amount == 14, "a ring");
    t.mark[3] = 7;
    tell(refuses(TOTAL, 0, STAR_BAD_MARK, 4), "a mark that is neither 0 nor 1");
    asked(STRIKE, 4);
    star_put_price(t.weight, 4, STAR_MIN_PRICE);
    tell(asked(TOTAL, 0).amount == 8 + (int64_t)STAR_MIN_PRICE, "row 4 struck, row 5 below 0");
}

static void merged_and_added(void) {
    struct star_answer a;
    yard("245");
    a = asked(MERGE, 0);
    tell(a.kind == STAR_PASSED && numbered("010230") && t.numbers[1023] == 0 && t.in_use[0] == 7 &&
             t.left[0] == 2 && t.right[1] == 4 && star_get_price(t.weight, 2) == 6 &&
             t.left[3] == 0 && t.weight[4095] == 0,
         "rows 2, 4, 5 merged");
    yard("25");
    a = asked(ADD, 0);
    tell(a.kind == STAR_PASSED && a.amount == 6 && !a.out && !a.in && numbered("020050") &&
             t.numbers[1023] == 0 && t.left[5] == 2 && t.right[5] == 4 &&
             star_get_price(t.weight, 5) == 7 && t.in_use[0] == 50,
         "a row added after row 5");
    yard("");
    tell(asked(ADD, 0).amount == 1 && numbered("000000") && t.in_use[0] == 1,
         "a row added to none");
    yard("");
    star_set_in_use(t.in_use, 1024, 1);
    put_row(t.left, t.right, t.weight, 1024, 9, 8, -1);
    tell(asked(ADD, 0).amount == 2 && numbered("000000") && t.numbers[1023] == 1 &&
             t.left[0] == 9 && t.left[1] == 2 && t.left[2] == 0 && t.in_use[0] == 3 &&
             t.in_use[15] == 0,
         "a row added after row 1,024");
    memset(t.in_use, 255, sizeof t.in_use);
    tell(refuses(ADD, 0, STAR_TABLE_FULL, 0), "a full table");
    t.len[NUMBERS] = 3;
    t.len[LEFT] = 0;
    t.len[IN_USE] = 17;
    tell(refuses(ADD, 0, STAR_TABLE_FULL, 0), "a full table, and wrong lengths");
    t.len[IN_USE] = 15;
    tell(refuses(ADD, 0, STAR_BAD_LENGTHS, 0), "a table full but for the last word");
}

/* Numbers and marks at the first rows, a digit each, and 0 at the others. */
static void numbers_and_marks(const char *numbers, const char *marks) {
    size_t i;
    memset(t.numbers, 0, sizeof t.numbers);
    memset(t.mark, 0, sizeof t.mark);
    for (i = 0; numbers[i]; i++) t.numbers[i] = (uint32_t)(numbers[i] - '0');
    for (i = 0; marks[i]; i++) t.mark[i] = (uint8_t)(marks[i] - '0');
}

static void carried(void) {
    yard("245");
    asked(MERGE, 0);
    memcpy(t.mark, "\7\1\7\0\1\7", 6);
    tell(asked(CARRY, 0).kind == STAR_PASSED && marked("10100"), "marks of rows 2, 4, 5 carried");
    numbers_and_marks("20110", "34567");
    tell(asked(CARRY, 0).kind == STAR_PASSED && marked("53000"), "of two rows the upper one's");
    numbers_and_marks("00005", "11111");
    t.numbers[0] = STAR_MAX_ROWS + 1;
    t.numbers[1] = UINT32_MAX;
    asked(CARRY, 0);
    tell(marked("00001"), "numbers that name no row");
    t.len[NUMBERS] = STAR_MAX_ROWS - 1;
    tell(refuses(CARRY, 0, STAR_BAD_LENGTHS, 0) && marked("00001"), "too few numbers");
}

/* Each length one too small, one too large, and 0 with a null pointer, for every door. */
static void lengths(enum door door) {
    enum column c;
    size_t k;
    for (c = 0; c < COLUMNS; c++)
        for (k = 0; DOOR_LENDS[door] & LENDS(c) && k < 3; k++) {
            unsigned number = STAR_BAD_LENGTHS;
            yard("124");
            memset(t.mark, 1, 4);
            t.len[c] = k == 2 ? 0 : t.len[c] + 2 * k - 1;
            asked(door, 1);
            if (c == ANSWER || c == MATRIX) continue;
            if (door == STRIKE && k == 2) number = STAR_NOT_IN_USE;
            if (door == RESTORE && k < 2) number = STAR_NOT_STRUCK;
            tell(lent_refuses(&t, number, 0), "the refusal of a length");
        }
}

/* The largest tables, in a thread of the stack that the header names; the tree before its check. */
static void *every_door(void *unused) {
    static const enum door order[DOORS] = {STRIKE, RESTORE, ADD,   MST1,  CARRY,
                                           CST,    OTHER,   TOTAL, MERGE, PATHS};
    size_t i;
    for (i = 0; i < DOORS; i++) {
        t.at = 3;
        tell(doors_call(&t, order[i]) == 1, "a door in a thread of 160 KiB");
    }
    return unused;
}

static void small_stack(void) {
    lends = ALL_LEND;
    lent_make_large(&t, 1);
    tell(on_small_stack(every_door, NULL, STACK), "a thread of 160 KiB");
}

void work_cases(void) {
    enum door door;
    built_and_struck();
    restored();
    added_up();
    merged_and_added();
    carried();
    for (door = 0; door < DOORS; door++) lengths(door);
    small_stack();
}
