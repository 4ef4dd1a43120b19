/* A planner's console over the door: checks a marked network, builds a least one, explains and
   draws it, answers questions about prices and plans, and changes its table. This file reads the
   command line. */
#include <stdio.h>
#include <string.h>

#include "commands.h"
#include "faults.h"
#include "help.h"
#include "input.h"
#include "json.h"
#include "output.h"
#include "status.h"
#include "usage.h"

struct command {
    const char *name;
    command *run;
    const char *takes; /* what it takes beside a file: c --certificate, t --table, a --all, s
                          --steps, p --static, l --plan, v --csv, j --json, w words */
    enum needs {
        FILE_ALONE,
        PLAN,
        LINES,
        TEXT
    } needs; /* marks, or lines that can be changed, which an STP file has not; its text, refused or
                not */
    enum result {
        WORDS,
        WRITING,
        TABLE
    } result;         /* words, of which a refusal is one too, or a file, or one that is a table */
    const char *plan; /* what it does with a plan; NULL where it needs none */
};

static const struct command COMMANDS[] = {
    {"check", command_check, "cj", PLAN, WORDS, "check"},
    {"build", command_build, "tj", FILE_ALONE, WORDS, NULL},
    {"explain", command_explain, "ajw", PLAN, WORDS, "explain"},
    {"draw", command_draw, "", FILE_ALONE, WRITING, NULL},
    {"dot", command_dot, "", FILE_ALONE, WRITING, NULL},
    {"page", command_page, "p", FILE_ALONE, WRITING, NULL},
    {"table", command_table, "v", FILE_ALONE, TABLE, NULL},
    {"digs", command_digs, "lj", TEXT, WRITING, "list"},
    {"quote", command_quote, "jw", FILE_ALONE, WORDS, NULL},
    {"breaking", command_breaking, "jw", FILE_ALONE, WORDS, NULL},
    {"which", command_which, "jw", PLAN, WORDS, "compare"},
    {"stretch", command_stretch, "jw", PLAN, WORDS, "follow"},
    {"strike", command_strike, "jw", LINES, TABLE, NULL},
    {"add", command_add, "jw", LINES, TABLE, NULL},
    {"merge", command_merge, "j", LINES, TABLE, NULL},
    {"unstrike", command_unstrike, "jw", LINES, TABLE, NULL},
    {"mark", command_mark, "jw", LINES, TABLE, NULL},
    {"unmark", command_unmark, "jw", LINES, TABLE, NULL},
    {"price", command_price, "jw", LINES, TABLE, NULL},
    {"districts", command_districts, "tjw", FILE_ALONE, WORDS, NULL},
    {"mend", command_mend, "sj", LINES, TABLE, NULL},
    {"outlets", command_outlets, "tjw", FILE_ALONE, WORDS, NULL},
};

struct request {
    const struct command *command;
    const char *file;
    struct options with;
    struct output out;
    int outputs; /* how often -o was given */
    int help;
};

static const struct command *find(const char *name) {
    size_t i;
    for (i = 0; i < sizeof COMMANDS / sizeof COMMANDS[0]; i++)
        if (strcmp(name, COMMANDS[i].name) == 0) return &COMMANDS[i];
    return NULL;
}

static int takes(const struct request *r, char what) {
    return strchr(r->command->takes, what) != NULL;
}

/* The words that are no options: a file, and others where the command takes them. */
static int operand(struct request *r, char *word, int before) {
    if (before == 0) r->file = word;
    else if (takes(r, 'w')) r->with.words[r->with.count++] = word;
    else return misused("one file is read, and there is also", word);
    return 0;
}

/* The word that follows -o. One that opens with - is an option before whose name was forgotten:
   './-x' names a file. */
static int output_named(struct request *r, const char *word) {
    if (!word || (word[0] == '-' && word[1] != '\0')) return misused("no file follows", "-o");
    if (r->outputs++ > 0) return misused("one output is written, and there is also", word);
    if (strcmp(word, "-") != 0) r->out.file = word;
    return 0;
}

/* Reads the words after the command; 0 if they are right. */
static int options(struct request *r, char **words) {
    int files_only = 0, count = 0, status;
    r->with.words = words; /* they are moved to the front */
    for (; *words; words++) {
        char *word = *words;
        int price = takes(r, 'w') && word[0] == '-' && word[1] >= '0' && word[1] <= '9';
        int option = !files_only && !price && word[0] == '-' && word[1] != '\0';
        if (!option) {
            status = operand(r, word, count++);
            if (status != 0) return status;
        } else if (strcmp(word, "--") == 0) files_only = 1;
        else if (strcmp(word, "-h") == 0 || strcmp(word, "--help") == 0) r->help = 1;
        else if (strcmp(word, "--table") == 0 && takes(r, 't')) r->with.table = 1;
        else if (strcmp(word, "--certificate") == 0 && takes(r, 'c')) r->with.certificate = 1;
        else if (strcmp(word, "--all") == 0 && takes(r, 'a')) r->with.all = 1;
        else if (strcmp(word, "--steps") == 0 && takes(r, 's')) r->with.steps = 1;
        else if (strcmp(word, "--static") == 0 && takes(r, 'p')) r->with.static_page = 1;
        else if (strcmp(word, "--plan") == 0 && takes(r, 'l')) r->with.plan = 1;
        else if (strcmp(word, "--csv") == 0 && takes(r, 'v')) r->with.csv = 1;
        else if (strcmp(word, "--json") == 0 && takes(r, 'j')) r->with.json = 1;
        else if (strncmp(word, "-o", 2) == 0) {
            status = output_named(r, word[2] ? word + 2 : *++words);
            if (status != 0) return status;
        } else return misused("unknown option", word);
    }
    if (r->with.json && r->command->result == TABLE && !r->out.file && !r->help)
        return misused("the object of --json goes to standard output, and the file to '-o FILE', "
                       "which is missing after",
                       r->command->name);
    if (r->with.json && r->with.table)
        return misused("an object or a table is written, and not both, by", r->command->name);
    if (r->out.file && !r->file && !r->help)
        return misused("no file is named to be read, which may be '-', and the output goes to",
                       r->out.file);
    return 0;
}

static int run(struct request *r) {
    static struct table t;
    struct input in;
    struct message fault = {{0}, 0};
    int status = input_open(&in, r->file, &fault), over;
    int marks = r->command->needs == PLAN || r->with.plan;
    r->with.file = in.file;
    over = status == 0 ? output_spares(&r->out, in.id, r->command->name,
                                       !in.stp && !r->with.csv &&
                                           (r->command->result == TABLE || r->with.table))
                       : 0;
    if (over != 0) {
        input_close(&in);
        return over;
    }
    if (status == 0 && in.stp && (marks || r->command->needs == LINES)) {
        say_place(&fault, in.file, 0);
        if (r->command->needs == LINES)
            say(&fault,
                "an STP file is not changed. 'star table' writes a table, whose lines %s can "
                "change.",
                r->command->name);
        else
            say(&fault,
                "an STP file marks no trench, so there is no plan to %s. 'star build' chooses the "
                "cheapest trenches;\n"
                "'star table' writes a table in which the trenches of the plan can be marked.",
                r->command->plan);
        status = EXIT_UNREADABLE;
    }
    if (status == 0) status = input_table(&in, &t, &fault);
    if (status == 0) {
        r->with.read = &t;
        status = r->command->run(&t, &r->with, &r->out);
        r->with.read = NULL;
    } else if (status == EXIT_REFUSED &&
               r->command->needs == TEXT) { /* the list of a text that is refused has one line, and
                                               the words stand beside it */
        fault_tell(&fault);
        status = r->command->run(&t, &r->with, &r->out);
    } else {
        if (status == EXIT_REFUSED && r->command->result == WORDS)
            status = tell_refused(&r->out, &r->with, &fault);
        else fault_tell(&fault);
    }
    input_close(&in);
    return status;
}

/* Writes what the console says of itself to standard output, so that no plan is replaced by it: the
   help of a command, or of all where it is NULL. */
static int tell_help(struct request *r) {
    const struct page *p = r->command ? page_of(r->command->name) : NULL;
    FILE *to;
    if (r->file) output_bar(file_named(r->file));
    r->out.file = NULL;
    to = output_open(&r->out);
    if (!to) return EXIT_UNWRITTEN;
    if (p) help_of(to, p);
    else help_all(to);
    return EXIT_PASSED;
}

static int tell_version(struct request *r) {
    FILE *to = output_open(&r->out);
    if (!to) return EXIT_UNWRITTEN;
    fprintf(to, "star %s\n", star_version());
    return EXIT_PASSED;
}

/* Whether a fault ended the command before its result: a refusal is the result where that is words.
 */
static int fault_ends(const struct request *r, int status) {
    if (status == EXIT_REFUSED) return r->command->result == TABLE;
    return status == EXIT_UNREADABLE || status == EXIT_USAGE;
}

/* The object of such a fault, which may have come before it was known which word is the file. */
static int tell_fault(struct request *r, int status, char **words) {
    FILE *to;
    for (; *words; words++) output_bar(file_named(*words));
    r->out.file = NULL;
    to = output_open(&r->out);
    if (!to) return status; /* standard output is a file that is named */
    json_fault(to, &r->with, status, fault_last());
    return output_close(&r->out) ? status : EXIT_UNWRITTEN;
}

/* Whether --json stands among the words, for faults that are found before it is reached. */
static int asks_json(const struct request *r, char **words) {
    for (; *words && strcmp(*words, "--") != 0; words++)
        if (strcmp(*words, "--json") == 0) return takes(r, 'j');
    return 0;
}

static int asks_help(const char *word) {
    return strcmp(word, "--help") == 0 || strcmp(word, "-h") == 0 || strcmp(word, "help") == 0;
}

int main(int count, char **words) {
    static struct request r; /* nothing is asked for yet */
    int status;
    file_limit_told();
    if (count < 2) {
        help_all(stderr);
        return EXIT_USAGE;
    }
    r.command = find(words[1]);
    if (r.command) {
        r.with.command = r.command->name;
        r.with.json = asks_json(&r, words + 2);
        status = options(&r, words + 2);
        r.with.file = r.file && strcmp(r.file, "-") != 0 ? r.file : "standard input";
        if (status == 0) status = r.help ? tell_help(&r) : run(&r);
    } else if (asks_help(words[1])) {
        status = tell_help(&r);
    } else if (strcmp(words[1], "--version") == 0) {
        status = tell_version(&r);
    } else {
        return misused(words[1][0] == '-' ? "unknown option" : "unknown command", words[1]);
    }
    if (status > EXIT_REFUSED) output_drop(&r.out);
    if (r.with.json && fault_ends(&r, status)) return tell_fault(&r, status, words + 2);
    return output_close(&r.out) ? status : EXIT_UNWRITTEN;
}
