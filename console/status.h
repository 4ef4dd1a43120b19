/* How the console ends. The manual page and the help say the same. */
#ifndef CONSOLE_STATUS_H
#define CONSOLE_STATUS_H

enum {
    EXIT_PASSED = 0,     /* passed, built, told, drawn or written */
    EXIT_LIGHTER = 1,    /* check, stretch: a cheaper set exists */
    EXIT_REFUSED = 2,    /* the table, the text, the plan or what was asked was refused */
    EXIT_UNREADABLE = 3, /* the input could not be read, or the two files of which have not the same
                            trenches */
    EXIT_USAGE = 4,      /* wrong command, option, number of files or other word */
    EXIT_UNWRITTEN = 5   /* the output could not be written */
};

#endif
