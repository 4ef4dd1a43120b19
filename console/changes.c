/* The commands that change lines of a table file: strike, unstrike, mark, unmark, price, add and
   merge. The doors of working tables say which trench is struck, where a new one goes and which
   numbers change; the lines of the file follow. */
#include <string.h>

#include "commands.h"
#include "edit.h"
#include "faults.h"
#include "json.h"
#include "refusal.h"
#include "status.h"
#include "usage.h"

static struct edit edit;
static uint32_t numbers[STAR_MAX_ROWS];

static int refused(const struct message *words) {
    fault_tell(words);
    return EXIT_REFUSED;
}

/* ---- Trenches that are named: strike, unstrike, mark, unmark, price ---- */

/* Whether a number is that of a trench of the table, struck or not. */
static int there(const struct table *t, uint32_t trench) { return trench >= 1 && trench <= t->m; }

/* The trench that a word names; each is named once. */
static int once_named(const struct table *t, const char *word, uint32_t *trench) {
    struct message words = {{0}, 0};
    int status = trench_named(word, trench);
    if (status != 0 || !there(t, *trench) || edit.change[*trench - 1] == CHANGE_NONE) return status;
    say(&words, "star: trench %u is named twice, and nothing is written", (unsigned)*trench);
    fault_tell(&words);
    return EXIT_USAGE;
}

/* The trenches that are named, and those of them whose lines say already what they are to say, with
   how that is told. */
static struct {
    unsigned named[STAR_MAX_ROWS], same[STAR_MAX_ROWS];
    const char *says[STAR_MAX_ROWS];
    size_t count, sames;
} changed;

static void note_same(uint32_t trench, const char *says) {
    changed.same[changed.sames] = (unsigned)trench;
    changed.says[changed.sames++] = says;
}

static int changed_json(const struct options *with) {
    struct output own;
    struct json j;
    if (!json_beside(&j, &own, with, "written")) return EXIT_UNWRITTEN;
    json_numbers(&j, "trenches", changed.named, changed.count);
    json_numbers(&j, "same", changed.same, changed.sames);
    return json_beside_end(&j, &own);
}

/* What is told of a file that was written, by the status of that. */
static int tell_changed(int status, const struct options *with) {
    size_t i;
    if (status != 0) return status;
    if (with->json) return changed_json(with);
    for (i = 0; i < changed.sames; i++)
        fprintf(stderr, "trench %u %s\n", changed.same[i], changed.says[i]);
    return EXIT_PASSED;
}

/* Changes a trench in the table; the line follows. Refuses in words where it cannot be. */
typedef int change_one(struct table *t, uint32_t trench, const char *word);

static int change_each(struct table *t, const struct options *with, const char *command,
                       enum change change, change_one *one) {
    int i, status = 0;
    if (with->count == 0) return misused("the number of a trench follows the file of", command);
    for (i = 0; i < with->count && status == 0; i++) {
        uint32_t trench;
        status = once_named(t, with->words[i], &trench);
        if (status == 0) status = one(t, trench, with->words[i]);
        if (status != 0) return status;
        edit.change[trench - 1] = (uint8_t)change;
        changed.named[changed.count++] = (unsigned)trench;
    }
    return status;
}

/* A trench that is not there, or is struck, has no mark and no price to be changed. */
static int in_use(const struct table *t, uint32_t trench, const char *word) {
    struct message words = {{0}, 0};
    if (there(t, trench) && !t->struck[trench - 1]) return 0;
    refusal_of_asked(&words, t, trench, word);
    return refused(&words);
}

static int strike(struct table *t, uint32_t trench, const char *word) {
    struct message words = {{0}, 0};
    if (table_strike(t, trench).kind == STAR_PASSED) return 0;
    refusal_of_strike(&words, t, trench, word);
    return refused(&words);
}

int command_strike(struct table *t, const struct options *with, struct output *o) {
    int status = change_each(t, with, "strike", CHANGE_STRUCK, strike);
    return tell_changed(status == 0 ? edit_write(o, t, &edit) : status, with);
}

static int mark(struct table *t, uint32_t trench, const char *word) {
    int status = in_use(t, trench, word);
    if (status != 0) return status;
    if (t->mark[trench - 1] == 1) note_same(trench, "is marked already");
    t->mark[trench - 1] = 1;
    return 0;
}

int command_mark(struct table *t, const struct options *with, struct output *o) {
    int status = change_each(t, with, "mark", CHANGE_MARK, mark);
    return tell_changed(status == 0 ? edit_write(o, t, &edit) : status, with);
}

static int unmark(struct table *t, uint32_t trench, const char *word) {
    int status = in_use(t, trench, word);
    if (status != 0) return status;
    if (t->mark[trench - 1] == 0) note_same(trench, "is unmarked already");
    t->mark[trench - 1] = 0;
    return 0;
}

int command_unmark(struct table *t, const struct options *with, struct output *o) {
    int status = change_each(t, with, "unmark", CHANGE_MARK, unmark);
    return tell_changed(status == 0 ? edit_write(o, t, &edit) : status, with);
}

int command_price(struct table *t, const struct options *with, struct output *o) {
    uint8_t price[PRICE_BYTES], *own;
    uint32_t trench;
    int status;
    if (with->count != 2)
        return misused("the number of a trench and its price follow the file of", "price");
    status = trench_named(with->words[0], &trench);
    if (status == 0) status = price_named(with->words[1], price);
    if (status == 0) status = in_use(t, trench, with->words[0]);
    if (status != 0) return status;
    own = t->weight + PRICE_BYTES * (trench - 1);
    if (memcmp(own, price, PRICE_BYTES) == 0) note_same(trench, "has this price already");
    memcpy(own, price, PRICE_BYTES);
    edit.change[trench - 1] = CHANGE_PRICE;
    changed.named[changed.count++] = (unsigned)trench;
    return tell_changed(edit_write(o, t, &edit), with);
}

/* ---- Trenches that come in: unstrike, add ---- */

/* Writes the changed file, unless its table would be refused: a trench that comes in may be
   wrong. */
static int write_sound(struct output *o, const struct table *t, struct message *notes) {
    struct message words = {{0}, 0};
    if (!edit_refused(t, &edit, &words, notes)) return edit_write(o, t, &edit);
    say(&words, "\nNothing is written: that would be said of the file with this change.");
    return refused(&words);
}

static int unstrike(struct table *t, uint32_t trench, const char *word) {
    struct message words = {{0}, 0};
    if (!there(t, trench)) {
        refusal_of_asked(&words, t, trench, word);
        return refused(&words);
    }
    if (!t->struck[trench - 1]) note_same(trench, "is not struck");
    return 0;
}

int command_unstrike(struct table *t, const struct options *with, struct output *o) {
    struct message notes = {{0}, 0};
    size_t i;
    int status = change_each(t, with, "unstrike", CHANGE_UNSTRUCK, unstrike);
    if (status != 0) return status;
    for (i = table_next(t, 0); i <= t->m; i = table_next(t, i)) edit.change[i - 1] = CHANGE_NONE;
    return tell_changed(write_sound(o, t, &notes), with);
}

/* Tells the numbers of trenches that have new ones. */
static void tell_numbers(const struct table *t) {
    struct message words = {{0}, 0};
    size_t i;
    if (t->strikes == 0) say(&words, "No trench is struck: the file is as it was.");
    else say_count(&words, t->strikes, "struck trench is gone.", "struck trenches are gone.");
    fprintf(stderr, "%s\n", words.text);
    for (i = table_next(t, 0); i <= t->m; i = table_next(t, i))
        if (numbers[i - 1] != i)
            fprintf(stderr, "trench %zu is now trench %u\n", i, (unsigned)numbers[i - 1]);
}

/* The same as keys of an object: how many are gone, and each trench with its new number. */
static void json_renumbered(struct json *j, const struct table *t) {
    size_t i;
    json_number(j, "gone", (int64_t)t->strikes);
    json_open(j, "numbers", '[');
    for (i = table_next(t, 0); i <= t->m; i = table_next(t, i)) {
        if (numbers[i - 1] == i) continue;
        json_open(j, NULL, '{');
        json_number(j, "old", (int64_t)i);
        json_number(j, "new", numbers[i - 1]);
        json_close(j, '}');
    }
    json_close(j, ']');
}

/* The words LEFT RIGHT PRICE. */
static int new_trench(const struct table *t, const struct options *with, struct entered *new) {
    int i, status = 0;
    if (with->count != 3) return misused("two junctions and a price follow the file of", "add");
    for (i = 0; i < 2 && status == 0; i++)
        status = junction_entered(t, with->words[i], &new->end[i]);
    return status == 0 ? price_named(with->words[2], new->price) : status;
}

/* The junctions with those of a new trench. */
static uint32_t junctions_with(const struct table *t, const struct entered *new) {
    uint32_t n = t->n, number;
    int i;
    for (i = 0; i < 2; i++)
        if (!text_number(new->end[i], &number)) n += table_named(t, new->end[i]) == 0;
        else if (number > n) n = number;
    return n;
}

/* A name that no line had, since it may be mistyped, and one that no line has any more. */
static void note_names(const struct table *t, struct message *notes) {
    uint8_t lost[STAR_MAX_NAMES];
    size_t i;
    for (i = 0; t->names > 0 && edit.added && i < 2; i++)
        if (table_named(t, edit.added->end[i]) == 0) {
            say(notes, "%sJunction ", notes->len > 0 ? " " : "");
            say_word(notes, edit.added->end[i]);
            say(notes, " is new: no other line names it.");
        }
    if (edit_lost(t, &edit, lost) == 0) return;
    for (i = 0; i < t->names; i++)
        if (lost[i]) {
            say(notes, "%sNo line names junction ", notes->len > 0 ? " " : "");
            say_word(notes, t->name[i]);
            say(notes, " any more.");
        }
}

static int add_json(const struct table *t, const struct options *with, size_t at,
                    const struct message *notes) {
    struct output own;
    struct json j;
    if (!json_beside(&j, &own, with, "written")) return EXIT_UNWRITTEN;
    json_number(&j, "trench", (int64_t)at);
    if (edit.merge) json_renumbered(&j, t);
    if (notes->len > 0) json_text(&j, "notes", notes->text);
    return json_beside_end(&j, &own);
}

int command_add(struct table *t, const struct options *with, struct output *o) {
    struct message words = {{0}, 0}, notes = {{0}, 0};
    struct entered new;
    struct star_answer a;
    size_t at, last = t->m;
    int status = new_trench(t, with, &new);
    if (status != 0) return status;
    a = table_add(t, numbers);
    if (a.kind != STAR_PASSED) {
        refusal_words(&words, t, a);
        return refused(&words);
    }
    at = (size_t)a.amount;
    while (last > 0 && t->struck[last - 1]) last--;
    edit.added = &new;
    edit.merge = at <= last; /* the table was packed first */
    edit.instead = !edit.merge && at <= t->m ? at : 0;
    edit.n = junctions_with(t, &new);
    status = write_sound(o, t, &notes);
    if (status != 0) return status;
    note_names(t, &notes);
    if (with->json) return add_json(t, with, at, &notes);
    if (edit.merge) tell_numbers(t);
    fprintf(stderr, "trench %zu is new\n", at);
    if (notes.len > 0) fprintf(stderr, "%s\n", notes.text);
    return EXIT_PASSED;
}

static int merge_json(const struct table *t, const struct options *with,
                      const struct message *notes) {
    struct output own;
    struct json j;
    if (!json_beside(&j, &own, with, "written")) return EXIT_UNWRITTEN;
    json_renumbered(&j, t);
    if (notes->len > 0) json_text(&j, "notes", notes->text);
    return json_beside_end(&j, &own);
}

int command_merge(struct table *t, const struct options *with, struct output *o) {
    struct message words = {{0}, 0}, notes = {{0}, 0};
    struct star_answer a;
    int status;
    a = table_merge(t, numbers);
    if (a.kind != STAR_PASSED) {
        refusal_words(&words, t, a);
        return refused(&words);
    }
    edit.merge = 1;
    edit.n = t->n;
    status = edit_write(o, t, &edit);
    if (status != 0) return status;
    note_names(t, &notes);
    if (with->json) return merge_json(t, with, &notes);
    tell_numbers(t);
    if (notes.len > 0) fprintf(stderr, "%s\n", notes.text);
    return EXIT_PASSED;
}
