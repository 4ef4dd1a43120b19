/* Lines and words of a text that is not changed, and messages put together piece by piece. */
#ifndef CONSOLE_TEXT_H
#define CONSOLE_TEXT_H

#include <stddef.h>
#include <stdint.h>

struct span {
    const char *at;
    size_t len;
};

/* A piece of a text, and the number of the line it begins in, counted from 1. */
struct place {
    size_t line;
    struct span text;
};

/* Takes the next line off the front of rest, without its end; 0 if nothing is left. LF, CR, or CR
   and LF together, end a line. */
int text_line(struct span *rest, struct span *line);

/* Takes the next word off the front of rest; 0 if none is left. Blanks and line ends part words. */
int text_word(struct span *rest, struct span *word);

/* Word k of a line, counted from 0; an empty one if there are fewer. */
struct span text_nth(struct span line, int k);

/* Whether two words are the same, letters in either case; and whether a word is a name. */
int text_alike(struct span one, struct span other);
int text_is(struct span word, const char *name);

/* A decimal number, digits alone; 0 if the word is none. Above 4294967295 it is taken as that. */
int text_number(struct span word, uint32_t *value);

/* The bytes of a letter in UTF-8 that stands at the front of a text; 0 where none does: also where
   it could be shorter, is half of a pair, or is above the last letter. */
size_t text_letter(struct span s);

/* A message that is put together; what does not fit is left out. The longest tells of twenty lines
   of a file. */
enum { MESSAGE = 16384 };
struct message {
    char text[MESSAGE];
    size_t len;
};

void say(struct message *to, const char *format, ...);

/* 'FILE:LINE: ', or 'FILE: ' for line 0; nothing where there is no name. */
void say_place(struct message *to, const char *file, size_t line);

/* A piece of a text, cut after 40 letters; bytes that cannot be printed stand as \xNN. Quoted: in
   quotation marks. */
void say_word(struct message *to, struct span s);
void say_quoted(struct message *to, struct span s);

/* A word of the command line in the same way: a number is told as it was given. */
void say_given(struct message *to, const char *word);

/* A count with its noun: '1 trench', '2 trenches'. */
void say_count(struct message *to, size_t count, const char *one, const char *more);

#endif
