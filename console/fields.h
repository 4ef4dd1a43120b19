/* The fields of a line of a table file, as docs/TABLE-FILES.md parts them: for the words in which a
   line is refused, and for the bytes that an edit changes. What a file says is read by
   star_read_table alone, before and after an edit. */
#ifndef CONSOLE_FIELDS_H
#define CONSOLE_FIELDS_H

#include "text.h"

/* The fields that are kept: a struck trench has five. */
enum { FIELDS = 6 };

struct fields {
    struct span whole[FIELDS]; /* without the blanks around it */
    struct span bare[FIELDS];  /* without its quotes too */
    size_t kept;               /* fields that are kept, empty ones at the line's end too */
    size_t count;              /* fields of the line, those empty ones left out */
    char by;                   /* what parts them */
};

/* The line without its comment and the blanks around it. */
struct span fields_content(struct span line);

struct fields fields_of(struct span content);

/* The first byte of ;, tab, comma and blank that can part fields with these bytes in them; 0 where
   none can. */
char fields_part(struct span one, struct span other, char first);

/* What parts fields, in words: 'a semicolon', 'semicolons'. */
const char *fields_parted(char by);
const char *fields_parts(char by);

#endif
