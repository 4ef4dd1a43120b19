/* Compares the short calls over struct star_table with the doors called at length on another table,
 * the totals with the test's own sums and the plain implementation, and the texts with lines that
 * are printed here; every field that is not to change is compared too.
 * usage: table_test [STEPS]   prints one line 'N passed, M failed' at its end */
#include <inttypes.h>
#include <stdio.h>
#include <string.h>

#include "plain_work.h"
#include "shared.h"
#include "star.h"

/* The table that the short calls change, and the one that the doors change here. */
static struct star_table t, own;

#define IN_USE own.in_use, STAR_COLUMN_WORDS
#define COLUMNS own.left, 1024, own.right, 1024, own.weight, 4096
#define ROWS own.n, IN_USE, COLUMNS
#define MARK own.mark, 1024

static uint8_t answer[STAR_BEST_BYTES];
static unsigned long lighter, passes, others, packed, mended, refusals;

static int used(size_t row) { return star_in_use(own.in_use, row); }

static int same_tables(void) { return memcmp(&t, &own, sizeof t) == 0; }

static int same_answers(struct star_answer a) {
    struct star_answer b = star_read_answer(answer);
    return a.kind == b.kind && a.number == b.number && a.out == b.out && a.in == b.in &&
           a.only == b.only && a.amount == b.amount;
}

/* The sum of the marked rows in use. */
static int64_t sum(const uint8_t *mark) {
    int64_t total = 0;
    size_t row;
    for (row = 1; row <= STAR_MAX_ROWS; row++)
        if (used(row) && mark[row - 1] == 1) total += star_get_price(own.weight, row - 1);
    return total;
}

/* The least total, by sorted rows. */
static int64_t least(void) {
    static uint8_t mark[STAR_MAX_ROWS];
    uint8_t said[STAR_ANSWER_BYTES];
    struct in_use u = {own.in_use, STAR_COLUMN_WORDS};
    struct call c = {own.n, own.left, own.right, own.weight, mark, 1024, 1024, 4096, 1024};
    plain_work_mst1(u, &c, said, sizeof said);
    return star_read_answer(said).amount;
}

/* A verdict against the door's sixteen bytes, and its totals against sums. */
static int same_verdict(struct star_verdict v) {
    struct star_answer a = star_read_answer(answer);
    if (v.kind != a.kind || v.number != a.number || v.which || v.steps) return 0;
    if (a.kind == STAR_REFUSED) {
        refusals++;
        return v.place == a.out && !v.out && !v.in && !v.only && !v.saving && !v.total && !v.least;
    }
    if (v.place || v.out != a.out || v.in != a.in || v.only != a.only) return 0;
    if (a.kind == STAR_LIGHTER) lighter++;
    else passes++;
    if (v.saving != (a.kind == STAR_LIGHTER ? a.amount : 0)) return 0;
    return v.total == sum(own.mark) && v.least == least();
}

/* Moves the test's own marks by the numbers. */
static void carry(void) {
    uint8_t old[STAR_MAX_ROWS];
    size_t row;
    memcpy(old, own.mark, sizeof old);
    memset(own.mark, 0, sizeof old);
    for (row = 0; row < STAR_MAX_ROWS; row++)
        if (own.numbers[row]) own.mark[own.numbers[row] - 1] = old[row];
}

static void enter(struct pair p) {
    uint32_t a = any(300) ? p.a : 256 + p.a;
    int32_t price = any(5) ? (int32_t)any(4) : limit_price();
    int full = used(STAR_MAX_ROWS);
    star_add(IN_USE, COLUMNS, own.numbers, 1024, (uint8_t)(a > 255 ? 0 : a), (uint8_t)p.b, price,
             answer, 16);
    if (answer[0] == STAR_PASSED) carry();
    packed += full && answer[0] == STAR_PASSED;
    tell(same_answers(star_table_add(&t, a, p.b, price)) && same_tables(), "add");
}

static void add(void) { enter(any_pair(own.n < 2 ? 2 : own.n, 0, any(50) == 0, 400)); }

static void mark(void) {
    uint32_t row = any(10) ? any(12) : any(STAR_MAX_ROWS + 2);
    int there = row >= 1 && row <= STAR_MAX_ROWS && used(row);
    int on = (int)any(3);
    if (there) own.mark[row - 1] = on != 0;
    tell(star_table_mark(&t, row, on) == there && same_tables(), "mark");
}

static void strike(void) {
    uint32_t row = any(4) ? any(12) : any(STAR_MAX_ROWS + 2);
    star_strike(IN_USE, row, answer, 16);
    if (answer[0] == STAR_PASSED) own.mark[row - 1] = 0;
    tell(same_answers(star_table_strike(&t, row)) && same_tables(), "strike");
}

/* A struck row, most of the time; one in use, and none, are refused. */
static void restore(void) {
    uint32_t row = any(4) ? any(12) : any(STAR_MAX_ROWS + 2), k;
    for (k = 1; k <= 12 && any(10); k++)
        if (own.left[k - 1] && !used(k)) row = k;
    if (row >= 1 && row <= STAR_MAX_ROWS && !own.left[row - 1]) return;
    star_restore(IN_USE, row, answer, 16);
    if (answer[0] == STAR_PASSED) own.mark[row - 1] = 0;
    tell(same_answers(star_table_restore(&t, row)) && same_tables(), "restore");
}

static void merge(void) {
    star_merge(IN_USE, COLUMNS, own.numbers, 1024, answer, 16);
    carry();
    tell(same_answers(star_table_merge(&t)) && same_tables(), "merge");
}

static void judge(void) {
    star_work_cst(ROWS, MARK, answer, 16);
    tell(same_verdict(star_table_check(&t)) && same_tables(), "check");
    star_work_other(ROWS, MARK, answer, 16);
    others += answer[0] == STAR_PASSED && answer[2] != answer[4];
    tell(same_verdict(star_table_other(&t)) && same_tables(), "other");
}

/* The answer of star_best has the least total behind its sixteen bytes. */
static void best(void) {
    struct star_verdict v = star_table_best(&t);
    star_work_best(ROWS, MARK, answer, 24);
    tell(v.only == 0 && same_verdict(v) && same_tables(), "best");
    if (v.kind) tell(v.least == star_read_answer(answer + 8).amount, "the least total of best");
}

/* Rows, groups and rings that are lent have a content, which a refusal leaves; behind the last row
   in use the short calls write 0, as the working doors do. */
static void explain(void) {
    static uint32_t rows[STAR_MAX_ROWS], beside[STAR_MAX_ROWS];
    static uint8_t groups[257], parts[257], rings[STAR_MAX_ROWS], closed[STAR_MAX_ROWS];
    random_bytes(beside, sizeof beside);
    random_bytes(parts, sizeof parts);
    random_bytes(closed, sizeof closed);
    memcpy(rows, beside, sizeof rows);
    memcpy(groups, parts, sizeof groups);
    memcpy(rings, closed, sizeof rings);
    star_work_detours(ROWS, MARK, rows, STAR_MAX_ROWS, answer, 16);
    tell(same_answers(star_table_detours(&t, beside)), "detours");
    tell(!memcmp(rows, beside, sizeof rows) && same_tables(), "the rows beside each row");
    star_work_groups(ROWS, MARK, groups, own.n, rings, STAR_MAX_ROWS, answer, 16);
    tell(same_answers(star_table_groups(&t, parts, closed)), "groups");
    tell(!memcmp(groups, parts, sizeof groups) && same_tables(), "the group of each junction");
    tell(!memcmp(rings, closed, sizeof rings), "the rings");
}

static void build(void) {
    star_work_mst1(ROWS, MARK, answer, 16);
    tell(same_verdict(star_table_build(&t)) && same_tables(), "build");
}

static void mend(void) {
    static struct star_record theirs[STAR_MAX_STEPS], ours[STAR_MAX_STEPS];
    int wanted = any(4) > 0;
    struct star_verdict v = star_table_mend(&t, wanted ? theirs : NULL);
    struct star_answer a;
    star_work_mend(ROWS, MARK, ours, STAR_MAX_STEPS, answer, 16);
    a = star_read_answer(answer);
    if (a.kind == STAR_REFUSED) {
        tell(same_verdict(v) && same_tables(), "a refused mend");
        return;
    }
    mended++;
    tell(v.kind == STAR_PASSED && v.steps == a.amount && same_tables(), "mend");
    tell(v.total == sum(own.mark) && v.least == least() && v.total == v.least, "a mend's totals");
    if (wanted) tell(!memcmp(theirs, ours, v.steps * sizeof *ours), "the records");
}

static void outlets(void) {
    uint32_t junction = any(own.n + 2), count = any(4);
    struct star_verdict v = star_table_outlets(&t, junction, count);
    struct star_answer a;
    star_work_outlets(ROWS, MARK, junction, count, answer, 16);
    a = star_read_answer(answer);
    tell(v.kind == a.kind && v.number == a.number && v.place == a.out && same_tables(), "outlets");
    if (a.kind == STAR_PASSED) tell(v.total == sum(own.mark) && !v.least, "the outlets' total");
}

static void districts(void) {
    uint32_t ends[3];
    uint8_t theirs[STAR_MAX_ROWS] = {0}, ours[STAR_MAX_ROWS] = {0};
    ends[0] = 1 + any(20);
    ends[1] = ends[0] + any(8);
    ends[2] = any(10) ? 1024 : 1023;
    star_work_districts(ROWS, ends, 3, ours, 1024, MARK, answer, 16);
    tell(same_verdict(star_table_districts(&t, ends, 3, theirs)) && same_tables(), "districts");
    tell(!memcmp(theirs, ours, sizeof ours), "the forests");
}

static void which(void) {
    uint8_t other[STAR_MAX_ROWS], said[16];
    struct star_verdict v;
    struct star_answer a;
    uint32_t stands;
    int turned = (int)any(2);
    star_work_mst1(ROWS, other, 1024, said, 16);
    if (said[0] == STAR_REFUSED) memset(other, 0, sizeof other);
    v = turned ? star_table_which(&t, other, own.mark) : star_table_which(&t, own.mark, other);
    if (turned) stands = star_work_which(ROWS, other, 1024, MARK, answer, 16);
    else stands = star_work_which(ROWS, MARK, other, 1024, answer, 16);
    a = star_read_answer(answer);
    tell(v.kind == a.kind && v.number == a.number && v.which == stands && same_tables(), "which");
    if (stands) tell(v.total == sum((stands == 1) == turned ? other : own.mark), "which total");
    else tell(v.place == a.out && !v.total, "the place of which");
}

static void ask(void) {
    static uint8_t theirs[STAR_MAX_LIST], ours[STAR_MAX_LIST];
    static uint64_t matrix[STAR_COLUMN_WORDS * 257], columns[STAR_COLUMN_WORDS * 257];
    uint32_t row = any(12), from = any(own.n + 2);
    int32_t price = limit_price();
    struct star_quoted q = star_table_quote(&t, row, price), r;
    star_work_quote(ROWS, row, price, answer, 24);
    r = star_read_quoted(answer);
    tell(q.kind == r.kind && q.number == r.number && q.place == r.place, "the quote's kind");
    tell(q.before == r.before && q.after == r.after, "the quote");
    star_work_breaking(ROWS, row, answer, 16);
    tell(same_answers(star_table_breaking(&t, row)), "the breaking price");
    star_work_digs(ROWS, ours, sizeof ours, answer, 16);
    tell(same_answers(star_table_digs(&t, theirs)), "digs");
    tell(!memcmp(theirs, ours, sizeof ours), "the list");
    star_work_plan_digs(ROWS, MARK, ours, sizeof ours, answer, 16);
    tell(same_answers(star_table_plan_digs(&t, theirs)), "the plan's digs");
    tell(!memcmp(theirs, ours, sizeof ours), "the plan's list");
    star_work_total(ROWS, MARK, answer, 16);
    tell(same_answers(star_table_total(&t)), "the total");
    if (answer[0] == STAR_PASSED)
        tell(star_read_answer(answer).amount == sum(own.mark), "the sum of the marks");
    star_work_paths(ROWS, MARK, from, columns, 16 * (size_t)own.n, answer, 16);
    tell(same_answers(star_table_paths(&t, from, matrix)), "paths");
    tell(!memcmp(matrix, columns, sizeof matrix) && same_tables(), "the matrix");
}

/* The text of the test's own table, printed here; the last row that is printed is the last in use,
   or the last struck one. */
static size_t print(char *text) {
    size_t row, last = 0, len = (size_t)sprintf(text, "junctions %" PRIu32 "\n", own.n);
    for (row = 1; row <= STAR_MAX_ROWS; row++)
        if (used(row) || own.left[row - 1]) last = row;
    for (row = 1; row <= last; row++) {
        if (!used(row)) len += (size_t)sprintf(text + len, "struck ");
        len += (size_t)sprintf(text + len, "%d %d %" PRId32, own.left[row - 1], own.right[row - 1],
                               star_get_price(own.weight, row - 1));
        len += (size_t)sprintf(text + len, " %d\n", used(row) ? own.mark[row - 1] : 0);
    }
    return len;
}

static void write(void) {
    static char theirs[STAR_MAX_TABLE_TEXT], ours[STAR_MAX_TABLE_TEXT];
    size_t len = print(ours);
    theirs[0] = 7;
    tell(star_table_write(&t, theirs, len) == len && theirs[0] == 7, "a text that does not fit");
    tell(star_table_write(&t, theirs, len + 1) == len && !strcmp(theirs, ours), "the text");
    tell(star_table_write(&t, NULL, 0) == len && same_tables(), "the length alone");
}

/* An STP text of the rows in use, with a fault or none. */
static size_t print_stp(char *text) {
    size_t row, m = 0, len = (size_t)sprintf(text, "33D32945 STP\nSECTION Graph\n");
    for (row = 1; row <= STAR_MAX_ROWS; row++) m += (size_t)used(row);
    len += (size_t)sprintf(text + len, "Nodes %" PRIu32 "\n", own.n + (any(4) == 0));
    len += (size_t)sprintf(text + len, "Edges %zu\n", m + (any(6) == 0));
    for (row = 1; row <= STAR_MAX_ROWS; row++)
        if (used(row))
            len += (size_t)sprintf(text + len, "E %d %d %" PRId32 "\n", own.left[row - 1],
                                   own.right[row - 1], star_get_price(own.weight, row - 1));
    return len + (size_t)sprintf(text + len, any(6) ? "END\nEOF\n" : "ENDED\n");
}

static void read(void) {
    static char text[65536];
    static struct star_table fresh;
    size_t len = print_stp(text), row;
    struct star_imported i, k;
    memset(&fresh, 0, sizeof fresh);
    star_import((uint8_t *)text, len, fresh.left, 1024, fresh.right, 1024, fresh.weight, 4096,
                answer, 16);
    k = star_read_imported(answer);
    if (k.kind == STAR_PASSED) {
        fresh.n = k.n;
        for (row = 0; row < k.m; row++) fresh.in_use[row / 64] |= (uint64_t)1 << row % 64;
        own = fresh;
    }
    i = star_table_read(&t, text, len);
    tell(i.kind == k.kind && i.number == k.number && i.place == k.place, "read");
    tell(i.n == k.n && i.m == k.m && same_tables(), "the table that is read");
}

/* What is left of the test's own table where it is read from its text: struck rows have no mark,
   and rows behind the last one are empty. */
static void keep_written(void) {
    static struct star_table kept;
    size_t row, last = 0;
    for (row = 1; row <= STAR_MAX_ROWS; row++)
        if (used(row) || own.left[row - 1]) last = row;
    memset(&kept, 0, sizeof kept);
    kept.n = own.n;
    memcpy(kept.in_use, own.in_use, sizeof kept.in_use);
    memcpy(kept.left, own.left, last);
    memcpy(kept.right, own.right, last);
    memcpy(kept.weight, own.weight, 4 * last);
    for (row = 1; row <= last; row++) kept.mark[row - 1] = used(row) ? own.mark[row - 1] : 0;
    own = kept;
}

/* Puts a line that cannot stand before one of the lines of a text, and gives its place. */
static size_t spoil(char *text, size_t *len) {
    static const char *const lines[] = {"1 2\n", "1 2 x 1\n", "1 2 3 1 1\n", "struck 1 2\n",
                                        "E 1 2 3\n"};
    const char *line = lines[any(5)];
    size_t at = any((uint32_t)*len);
    while (at > 0 && text[at - 1] != '\n') at--;
    memmove(text + at + strlen(line), text + at, *len - at);
    memcpy(text + at, line, strlen(line));
    *len += strlen(line);
    return at;
}

/* Whether a line of the test's own table cannot stand: with an end that is 0, which a row has that
   was entered with one above 255, or a mark that is none. */
static int unreadable(void) {
    size_t row, last = 0;
    for (row = 1; row <= STAR_MAX_ROWS; row++)
        if (used(row) || own.left[row - 1]) last = row;
    for (row = 1; row <= last; row++)
        if (!own.left[row - 1] || !own.right[row - 1] || (used(row) && own.mark[row - 1] > 1))
            return 1;
    return 0;
}

static void read_planner(void) {
    static char text[65536];
    size_t marked = any(3) ? 0 : 3, len, place = 0;
    int broken = any(3) == 0, odd = unreadable();
    struct star_imported i;
    memcpy(text, "\xef\xbb\xbf", 3);
    len = print(text + marked);
    if (broken) place = marked + spoil(text + marked, &len);
    else if (!odd) keep_written();
    i = star_table_read(&t, text, marked + len);
    tell((i.kind == STAR_REFUSED) == (broken || odd) && same_tables(), "read a planner's table");
    if (odd) tell(i.number >= STAR_NOT_TRENCH, "a table that cannot be read");
    else if (broken)
        tell(i.number >= STAR_NOT_TRENCH && i.number <= STAR_MIXED_NAMES && i.place >= place &&
                 i.place < place + 10,
             "the line that cannot stand");
    else tell(i.n == own.n && !i.number && !i.place, "the planner's junctions");
}

/* A small table, mostly connected and often with a network marked. */
static void start_small(uint32_t n) {
    size_t row, joined = any(8) ? n - 1 : any(n), more = any(6);
    int marked = any(3) > 0;
    for (row = 1; row <= joined; row++) enter(any_pair(n, row, 0, 400));
    for (row = 1; marked && row <= joined; row++) t.mark[row - 1] = own.mark[row - 1] = 1;
    while (more-- > 0) add();
}

/* 1,024 rows, of which some are struck and the last is not. */
static void start_large(uint32_t n) {
    size_t row;
    for (row = 1; row <= STAR_MAX_ROWS; row++) {
        struct pair p = any_pair(n, row < n ? row : 0, 0, 400);
        put_row(own.left, own.right, own.weight, row, p.a, p.b, (int32_t)any(1000));
        star_set_in_use(own.in_use, row, any(300) > 0 || row == STAR_MAX_ROWS);
    }
    memset(own.mark, 1, n - 1);
    t = own;
    add();
}

static void start(void) {
    uint32_t n = any(15) ? 2 + any(7) : any(258);
    no_pair_given();
    star_table_init(&t, n);
    memset(&own, 0, sizeof own);
    own.n = n;
    tell(same_tables(), "init");
    if (n >= 60 && n <= 255) start_large(n);
    else if (n >= 2 && n <= 8) start_small(n);
}

static void step(unsigned long k) {
    static void (*const calls[])(void) = {
        add,       add,   mark,         strike,  merge, judge, build, mend,   outlets,
        which,     ask,   write,        read,    mark,  judge, mark,  mark,   judge,
        districts, build, read_planner, restore, judge, mark,  best,  explain};
    unsigned i;
    if (k % 20 == 0) start();
    if (any(200) == 0) t.mark[3] = own.mark[3] = 2;
    i = any(sizeof calls / sizeof calls[0]);
    calls[i]();
}

/* The largest table, on the stack that the header asks for. */
static void *largest(void *with) {
    tell(star_table_strike(&t, 1000).kind == STAR_PASSED, "the largest table struck");
    tell(star_table_build(&t).kind == STAR_PASSED, "the largest table built");
    tell(star_table_check(&t).kind == STAR_PASSED, "the largest table checked");
    tell(star_table_write(&t, NULL, 0) > 15000, "the largest table written");
    tell(star_table_merge(&t).kind == STAR_PASSED, "the largest table merged");
    return with;
}

static void *largest_mend(void *with) {
    tell(star_table_mend(&t, NULL).kind == STAR_PASSED, "the largest table mended");
    return with;
}

static void *largest_read(void *with) {
    static char text[65536];
    own = t;
    star_table_read(&t, text, print_stp(text));
    return with;
}

static void *largest_lines(void *with) {
    static char text[65536];
    size_t len;
    own = t;
    len = print(text);
    tell(star_table_read(&t, text, len).kind == STAR_PASSED, "the largest table read");
    return with;
}

static void known(void) {
    struct star_verdict v;
    size_t row;
    star_table_init(&t, 4);
    put_yard(t.left, t.right, t.weight);
    t.in_use[0] = 31;
    for (row = 1; row <= 3; row++) tell(star_table_mark(&t, (uint32_t)row, 1), "the yard's marks");
    v = star_table_check(&t);
    tell(v.kind == STAR_LIGHTER && v.out == 1 && v.in == 4 && v.saving == 1, "the yard's exchange");
    tell(v.total == 13 && v.least == 12 && !v.only, "the yard's totals");
    v = star_table_build(&t);
    tell(v.kind == STAR_PASSED && v.total == 12 && v.least == 12, "the yard built");
    star_table_init(&t, 255);
    no_pair_given();
    for (row = 1; row <= STAR_MAX_ROWS; row++) {
        struct pair p = any_pair(255, row < 255 ? row : 0, 0, 400);
        put_row(t.left, t.right, t.weight, row, p.a, p.b, (int32_t)bits());
    }
    memset(t.in_use, 255, sizeof t.in_use);
    tell(on_small_stack(largest, &t, 168 << 10), "a thread of 168 KiB");
    tell(on_small_stack(largest_mend, &t, 416 << 10), "a thread of 416 KiB");
    tell(on_small_stack(largest_read, &t, 1440 << 10), "a thread of 1,440 KiB");
    tell(on_small_stack(largest_lines, &t, 1440 << 10), "the same for a planner's table");
}

int main(int count, char **words) {
    unsigned long steps = run(count, words, 200000, known, step);
    share(lighter, 50, steps, "the share of lighter plans");
    share(passes, 10, steps, "the share of plans that pass");
    share(others, 200, steps, "the share of plans with another of the same total");
    share(mended, 100, steps, "the share of mends");
    share(refusals, 50, steps, "the share of refusals");
    if (steps >= 20000) tell(packed >= 3, "tables that are packed by an addition");
    printf("table: %lu steps, %lu lighter, %lu passed, %lu with another, %lu mended, %lu refused, "
           "%lu packed by an addition\n",
           steps, lighter, passes, others, mended, refusals, packed);
    return told();
}
