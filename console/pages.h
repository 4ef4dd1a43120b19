/* The commands as planners read of them. They are described here and nowhere else: the help, the
   manual page and the lists of the documents are made from this table (see console/manual). */
#ifndef CONSOLE_PAGES_H
#define CONSOLE_PAGES_H

#include <stddef.h>

struct page {
    const char *name;
    const char *words;    /* what follows the name beside options */
    const char *options;  /* its own options, parted by blanks; "" for none */
    const char *line;     /* what it does, in at most 46 letters */
    const char *does;     /* the same at length, paragraphs parted by an empty line */
    const char *example;  /* what follows 'star', over the files of console/examples */
    const char *output;   /* what the example writes, both streams; "" for a picture or nothing */
    const char *statuses; /* a line a status: its number, a blank, what it says of this command */
    const char *keys; /* of the object that --json writes beside those of every object; NULL where
                         it writes none */
};

/* A word that stands for what a planner puts in place of it, and what that is. */
struct operand {
    const char *name, *is;
};

/* An option, what follows it, and what it does. */
struct option {
    const char *name, *value, *does;
};

/* The keys of every object, of a fault, and of a trench, a line a key: its name, a colon, what it
   says. */
struct keys {
    const char *name, *lines;
};

/* Each table ends with an entry whose name is NULL. */
extern const struct keys KEYS[];
extern const struct operand OPERANDS[];
extern const struct page PAGES[];
extern const struct option OPTIONS[];

/* What the statuses say of every command that says nothing else of them. */
enum { STATUSES = 6 };
extern const char *const STATUS_TEXT[STATUSES];

/* The page of a command, NULL for none. */
const struct page *page_of(const char *name);

/* What a status says of a command, a line of text, and its length; 0 where the command never ends
   with it. */
size_t page_status(const struct page *p, int status, const char **text);

/* Whether a word stands among those that follow a command. */
int page_takes(const struct page *p, const char *operand);

/* Whether an option is one of a command's own, or one of every command. */
int page_has(const struct page *p, const char *option);

#endif
