/* What is wrong with a line of a table file that star_read_table refuses, in words. */
#ifndef CONSOLE_WRONG_H
#define CONSOLE_WRONG_H

#include "reading.h"
#include "text.h"

/* The line that has a place, without its end; in a byte order mark there is none. */
struct span wrong_line(struct span text, size_t place);

/* Says why a text is refused: what stands there, and what can stand there. */
void wrong_words(struct message *to, struct span text, struct star_file refused);

#endif
