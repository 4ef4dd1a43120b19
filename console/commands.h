/* What the console does with a table. Each command writes its result to the output, says faults on
   standard error, and gives a status. */
#ifndef CONSOLE_COMMANDS_H
#define CONSOLE_COMMANDS_H

#include "output.h"
#include "table.h"

/* What is asked for beside the command. */
struct options {
    int table;       /* build, districts, outlets: the table with the chosen trenches marked */
    int certificate; /* check: the certificate of the verdict in place of its words */
    int all;         /* explain: every trench that is left out */
    int steps;       /* mend: each step too */
    int static_page; /* page: the one without its program */
    int plan;        /* digs: the marked trenches, and not a cheapest network */
    int csv;         /* table: a file for spreadsheets */
    int json;        /* an object in place of words */
    char **words;    /* what follows the file */
    int count;
    const char *command, *file; /* their names, for the object */
    const struct table *read;   /* the table that was read, for its names; NULL for none */
};

/* What every command is: it gives the exit status. */
typedef int command(struct table *t, const struct options *with, struct output *o);

command command_check;     /* judges the marked trenches */
command command_build;     /* lists the cheapest trenches that reach every junction */
command command_explain;   /* says why, trench by trench */
command command_draw;      /* writes a picture as SVG */
command command_dot;       /* writes a picture for Graphviz */
command command_page;      /* writes a page to try the plan on, or one of pictures that explain */
command command_table;     /* writes the table */
command command_quote;     /* the cheapest total before and after a new price */
command command_breaking;  /* the price up to which a cheapest network has a trench */
command command_which;     /* which of two plans over one table costs less */
command command_stretch;   /* the dearest trench between two junctions */
command command_digs;      /* writes the dig list */
command command_strike;    /* writes the file with trenches struck */
command command_add;       /* writes the file with a trench more */
command command_merge;     /* writes the file without its struck trenches */
command command_unstrike;  /* writes the file with trenches no longer struck */
command command_mark;      /* writes the file with trenches marked */
command command_unmark;    /* writes the file with trenches no longer marked */
command command_price;     /* writes the file with another price of a trench */
command command_districts; /* lists the cheapest trenches of each district, and of the city */
command command_mend;      /* writes the file with its plan mended, and tells each step */
command command_outlets;   /* lists the cheapest network with a number of trenches at a junction */

/* Why there are 255 junctions at most. */
void explain_limit(struct message *to);

#endif
