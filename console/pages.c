/* The table of commands. The examples are run by tests/help.py, and their output is held to what
   stands here. */
#include "pages.h"

#include <string.h>

/* The keys of a verdict. */
#define VERDICT_KEYS \
    "total: the plan's total\n" \
    "only: whether a plan that passed is the only cheapest network\n" \
    "out: the trench that an exchange takes out: one that saves, or, of a plan that " \
    "passed and is not the only cheapest network, one that gives another of the " \
    "same total\n" \
    "in: the trench that it puts in\n" \
    "saving: what an exchange saves\n" \
    "after: the total after an exchange that saves\n" \
    "least: the least total, beside it\n" \
    "most: what is saved at most, beside it\n" \
    "rings: where the marks are no network, and there are some: the rings, a list; " \
    "each has trenches and junctions, two lists of numbers in order, the first " \
    "junction once more at the end\n" \
    "groups: beside rings, the groups of junctions that marked trenches join, a " \
    "list of lists"

const char *const STATUS_TEXT[STATUSES] = {
    "passed, built, told, drawn or written",
    "a cheaper set exists",
    "the table, the text, the plan or what was asked was refused; the message has the refusal's "
    "number",
    "the input could not be read",
    "wrong usage",
    "the output could not be written",
};

const struct keys KEYS[] = {
    {"Every object",
     "command: the command\n"
     "file: the file's name as it was given, or 'standard input'\n"
     "verdict: passed, cheaper, built, told, mended, written, refused, unreadable or misused\n"
     "status: the exit status\n"
     "names: where the file has names, the names of the junctions in the order of their numbers"},
    {"A refusal", "refusal: its number\n"
                  "place: the trench or junction that it names, where it has one\n"
                  "line: the line of the file, where it has one\n"
                  "words: the message"},
    {"Unreadable input and wrong usage", "words: the message, which stands on standard error too"},
    {"A trench", "trench: its number\n"
                 "left: its first junction\n"
                 "right: its second junction\n"
                 "price: its price\n"
                 "line: its line in a table file"},
    {NULL, NULL},
};

const struct operand OPERANDS[] = {
    {"FILE", "a table, or an STP file if no plan is needed; - is standard input"},
    {"TRENCH", "the number of a trench, by its place in the file, from 1 on"},
    {"JUNCTION", "a junction: its number, from 1 on, or its name"},
    {"LEFT", "the junction at one end of the trench, by number or name"},
    {"RIGHT", "the junction at its other end"},
    {"PRICE", "a whole number from -2147483648 to 2147483647"},
    {"COUNT", "how many trenches"},
    {"END", "the number of a district's last trench"},
    {"OUTPUT", "a file"},
    {NULL, NULL},
};

const struct option OPTIONS[] = {
    {"--table", "", "writes a table with the chosen trenches marked"},
    {"--certificate", "", "writes what shows the verdict, for another program to check"},
    {"--all", "", "tells of all trenches left out, rings, groups; not of a few"},
    {"--steps", "", "tells each step too"},
    {"--plan", "", "lists the marked trenches, and not a cheapest network"},
    {"--csv", "", "writes a file that spreadsheets open"},
    {"--static", "", "writes the page that needs no script, to read and to print"},
    {"--json", "", "writes one object (JSON) in place of words"},
    {"-o", "OUTPUT", "writes the file OUTPUT, as a whole or not at all"},
    {"--help", "", "writes the command's page; also -h"},
    {NULL, NULL, NULL},
};

const struct page PAGES[] = {
    {
        .name = "check",
        .words = "[FILE]",
        .options = "--certificate --json",
        .line = "say whether the plan is a cheapest network",
        .does = "Says whether the marked trenches reach every junction at the least total "
                "price.\n\n"
                "Where a cheaper set exists, it names one trench to take out, one to put in, "
                "and what that saves: of all such exchanges the one that saves most. It tells "
                "the plan's total, the total after this exchange, the least total, and what can "
                "be saved at most.\n\n"
                "Where none exists, it says whether the plan is the only cheapest network; if "
                "it is not, it names an exchange that gives another of the same total.\n\n"
                "Where the marks are no network, it names the trenches of each ring that they "
                "close, and the groups of junctions that they leave apart; of each the first "
                "twenty.\n\n"
                "With --certificate it writes what shows the verdict, so that nobody has to "
                "believe this program: 'passed TOTAL only' or 'passed TOTAL not-only', and a "
                "line for each trench left out, 'left-out TRENCH dearest TRENCH detour "
                "TRENCH..'; or 'cheaper OUT IN BEFORE AFTER', the exchange and both totals.",
        .example = "check yard-dear.txt",
        .output = "A cheaper set exists, for 1 less:\n"
                  "  take out trench 1 (1-2, price 5)\n"
                  "  put in   trench 4 (1-4, price 4)\n"
                  "The plan's total is 13, and 12 after this exchange. The least total is 12.\n"
                  "At most 1 is saved, and this exchange saves all of it.\n"
                  "'star explain' says why.\n"
                  "'star mend' writes the file with its plan made a cheapest network.\n",
        .statuses = "0 passed\n1 a cheaper set exists\n2 the table or the plan was refused",
        .keys = VERDICT_KEYS,
    },
    {
        .name = "build",
        .words = "[FILE]",
        .options = "--table --json",
        .line = "list a cheapest network",
        .does = "Lists the cheapest trenches that reach every junction, and their total, "
                "which has - before it where it is below 0. Where trenches are marked, it "
                "says what they cost and what is saved against them.\n\n"
                "With --table it writes the file with these trenches marked: comments, blank "
                "lines, the order and all else stand as they did.",
        .example = "build yard-dear.txt",
        .output = "trench 1: 1-2, price 5\n"
                  "trench 2: 2-3, price 3\n"
                  "trench 4: 1-4, price 4\n"
                  "Total 12\n"
                  "The marked trenches cost 13: these save 1.\n",
        .statuses = "0 built\n2 the table or the text was refused",
        .keys = "rows: the trenches of the network, a list\n"
                "total: their total\n"
                "marked: what was marked before, where something was and the table is sound; it "
                "has cost, network (whether it was one) and saving (where it was)",
    },
    {
        .name = "explain",
        .words = "[FILE [TRENCH]]",
        .options = "--all --json",
        .line = "say why, trench by trench",
        .does = "Says why. Of a plan that is a network: each trench that is left out, with "
                "its detour, the way around over marked trenches; the sum of the detour, "
                "which does not count; its dearest trench, which does; and the comparison of "
                "the two prices. Those that save come first, those that cost as much next, "
                "and ten are told unless --all is given.\n\n"
                "Where TRENCH is given, it is told of that one alone; of a trench of the "
                "plan, which others could come in for it. A trench that is struck, or a "
                "number that no trench has, is refused (7).\n\n"
                "Of marks that are no network: the rings that they close, and the groups of "
                "junctions that they leave apart; of each the first twenty unless --all is "
                "given. Of too many junctions: why there are 255.",
        .example = "explain yard.txt 5",
        .output = "3 marked trenches join all 4 junctions, for 12 in all.\n"
                  "A trench that is left out is held against the dearest trench of its detour, the "
                  "way around over marked trenches, and against nothing else.\n"
                  "trench 5 (1-3, price 6) is left out. Its detour: trenches 4, 3 (1-4-3)\n"
                  "  sum 9, does not count; dearest 5 (trench 3); 6 > 5: the exchange would give a "
                  "network of 13, for 1 more, so it stays out\n"
                  "Passed: the marked trenches reach every junction, and no set that does is "
                  "cheaper. Total 12.\n"
                  "Another network costs the same: take out trench 3 (3-4, price 5), put in trench "
                  "1 (1-2, price 5).\n",
        .statuses = "0 explained, and the plan was not refused\n2 the table, the plan or what was "
                    "asked was refused, and why is told",
        .keys = VERDICT_KEYS
        "\n"
        "rows: the trenches that are explained, a list: each a trench with marked; one "
        "left out has detour (its trenches in order), junctions, sum, dearest (a "
        "trench), standing (cheaper, equal or dearer than that) and after (the total "
        "after the exchange); one of the plan has instead (numbers) and cheapest (a "
        "trench)\n"
        "hidden: the trenches left out that are not told\n"
        "looked_at: false where a trench is named, and the table or the plan is refused",
    },
    {
        .name = "page",
        .words = "[FILE]",
        .options = "--static",
        .line = "write a page (HTML) to try the plan on",
        .does = "Writes one HTML file with the table inside, to be opened in a browser or sent: "
                "a click marks a trench, and the procedures inside the page answer. What it "
                "saves is a table file again. 'make page' builds the page's program, and 'make "
                "install' installs it; where it is not there, that is told, and the page of "
                "--static is written; one of another version than the console's is not taken, "
                "and no page is written.\n\n"
                "With --static it writes one HTML file that shows what explain says in pictures, "
                "without a script: a ring and a "
                "junction that is cut off, a view of each trench that is left out, two "
                "networks of one total, and the limit of 255. What the table does not show is "
                "shown on the yard, a table of four junctions. Its last lines say which "
                "sentences are answers of the proved procedures.",
        .example = "page --static yard.txt -o yard.html",
        .output = "",
        .statuses = "0 written, and the plan, if there is one, was not refused\n"
                    "2 the table or the plan was refused; the page is written where only the plan "
                    "was (9 and 10), or where there are too many junctions (1)",
    },
    {
        .name = "draw",
        .words = "[FILE]",
        .options = "",
        .line = "write a picture (SVG) with the verdict",
        .does = "Writes a picture (SVG): marked trenches heavy, those of an exchange in two "
                "colours, each with its number and price, and what check says of the plan.\n\n"
                "Where the junctions stand depends on what the trenches join and not on marks "
                "or prices, so that the pictures of two plans of one network can be compared.",
        .example = "draw yard.txt -o yard.svg",
        .output = "",
        .statuses = "0 drawn, and the plan, if there is one, was not refused\n"
                    "2 the table or the plan was refused; the picture is written where only the "
                    "plan was (9 and 10)",
    },
    {
        .name = "dot",
        .words = "[FILE]",
        .options = "",
        .line = "write the same for Graphviz (DOT)",
        .does = "Writes what draw draws for the programs of Graphviz.",
        .example = "dot yard.txt -o yard.dot",
        .output = "",
        .statuses = "0 drawn, and the plan, if there is one, was not refused\n"
                    "2 the table or the plan was refused; the picture is written where only the "
                    "plan was (9 and 10)",
    },
    {
        .name = "table",
        .words = "[FILE]",
        .options = "--csv",
        .line = "write the trenches as a table",
        .does = "Writes the trenches of an STP file as a table, one line a trench, none of "
                "them marked. A table is written as it stands, unless it is refused.\n\n"
                "With --csv it writes a file that spreadsheets open and that every command "
                "reads: a header, semicolons, the names of junctions in UTF-8; comments are "
                "left out.",
        .example = "table street.stp",
        .output = "junctions 8\n1 2 40 0\n2 3 35 0\n3 4 52 0\n1 5 61 0\n2 6 28 0\n3 7 44 0\n4 8 30 "
                  "0\n5 6 33 0\n6 7 47 0\n7 8 39 0\n1 6 55 0\n3 8 58 0\n",
        .statuses = "0 written\n2 the table or the text was refused",
    },
    {
        .name = "digs",
        .words = "[FILE]",
        .options = "--plan --json",
        .line = "write the dig list for the site",
        .does = "Writes the dig list for the site, as the program diglist prints it: a line "
                "for each trench of the cheapest network that build chooses, from the top of "
                "the file, with its number, its two junctions and its price, a single space "
                "between; then a line with Total and the sum. Of a file with names it has the "
                "names, with - between. With --plan it lists the marked trenches, cheapest or "
                "not, if they are a network.\n\n"
                "A refusal is the list's only line, Refused with the number and the place, "
                "and is told in words on standard error.",
        .example = "digs yard.txt",
        .output = "1 1 2 5\n2 2 3 3\n4 1 4 4\nTotal 12\n",
        .statuses = "0 written\n2 the table or the text was refused",
        .keys = "rows: the trenches of the list, in its order\n"
                "total: their total",
    },
    {
        .name = "quote",
        .words = "FILE TRENCH PRICE",
        .options = "--json",
        .line = "say what a new price of a trench changes",
        .does = "Says what the cheapest network costs today, and what it costs when TRENCH "
                "has the price PRICE and all else stays. The two totals differ by at most the "
                "change in price, and never in the opposite direction. No trench need be "
                "marked.\n\n"
                "A trench that is struck, or a number that no trench has, is refused (7).",
        .example = "quote yard.txt 4 9",
        .output = "trench 4 (1-4, price 4) at the new price 9:\n"
                  "The cheapest network costs 12 today and 13 at the new price: 1 more.\n",
        .statuses = "0 told\n2 the table, the text or what was asked was refused",
        .keys = "trench: the trench\n"
                "price: its new price\n"
                "before: the least total today\n"
                "after: the least total at the new price\n"
                "more: after less before",
    },
    {
        .name = "breaking",
        .words = "FILE TRENCH",
        .options = "--json",
        .line = "say up to which price a trench is worth it",
        .does = "Says up to which price a cheapest network has TRENCH, which trench takes its "
                "place above, and what the cheapest network then costs. At this price, the "
                "breaking price, some cheapest network has the trench; below it each one has, "
                "and above it none. Marks play no part. Where nothing else joins what it "
                "joins there is no such price: it is in every network.\n\n"
                "It refuses as quote does.",
        .example = "breaking yard.txt 4",
        .output = "trench 4 (1-4, price 4) is in a cheapest network up to 5; above, trench 1 (1-2, "
                  "price 5) takes its place.\n"
                  "The cheapest network costs 12 today, and 13 at any price from 5 on.\n",
        .statuses = "0 told\n2 the table, the text or what was asked was refused",
        .keys = "trench: the trench\n"
                "always: whether it is in every network\n"
                "before: the least total today\n"
                "breaking: its breaking price, unless it is in every network\n"
                "after: the least total at any price from that on\n"
                "instead: the trench that takes its place",
    },
    {
        .name = "which",
        .words = "FILE FILE",
        .options = "--json",
        .line = "say which of two plans costs less",
        .does = "Says which of two plans costs less, and by how much; the first where they "
                "cost the same. The two files have the same trenches in the same order, and "
                "differ in their marks alone; where they differ in more, the first such "
                "trench is named with its line in each, and the status is 3.\n\n"
                "Both plans have to reach every junction, and neither has to be a cheapest "
                "one: the first plan's refusal is told before the second's.",
        .example = "which office-a.txt office-b.txt",
        .output = "The second plan stands, office-b.txt: it costs 17 and the first 19, 2 more.\n",
        .statuses = "0 told\n2 a table or a plan was refused\n3 a file could not be read, or the "
                    "two have not the same trenches",
        .keys = "second: the name of the second file\n"
                "stands: 1 or 2\n"
                "totals: the totals of both plans, a list",
    },
    {
        .name = "stretch",
        .words = "FILE JUNCTION JUNCTION",
        .options = "--json",
        .line = "list the plan's way between two junctions",
        .does = "Lists the trenches of the plan between two junctions, in order, what they "
                "cost in all, the dearest of them, and which others are as dear. Where the "
                "plan is a cheapest network, no route between the two over the table's "
                "trenches has a dearest trench that is cheaper. Where a cheaper set exists, "
                "that is said in place of it, and the status is 1.\n\n"
                "A number that no junction has is refused (7).",
        .example = "stretch yard.txt 1 2",
        .output = "From junction 1 to junction 2 the plan has 3 trenches:\n"
                  "trench 4: 1-4, price 4\n"
                  "trench 3: 4-3, price 5\n"
                  "trench 2: 3-2, price 3\n"
                  "The way costs 12 in all. Its dearest is trench 3, price 5; no other of its "
                  "trenches is as dear.\n"
                  "No route between 1 and 2 over the table's trenches has a dearest trench cheaper "
                  "than 5.\n",
        .statuses =
            "0 told\n1 a cheaper set exists\n2 the table, the plan or what was asked was refused",
        .keys = "junctions: the junctions of the way, in order\n"
                "rows: its trenches, in order\n"
                "sum: what they cost in all\n"
                "dearest: the dearest of them, the uppermost of equals\n"
                "as_dear: the numbers of the others that are as dear",
    },
    {
        .name = "strike",
        .words = "FILE TRENCH..",
        .options = "--json",
        .line = "write the file with these trenches struck",
        .does = "Writes the file with 'struck' before the lines of the trenches named. All "
                "else stands as it did, comments too. A trench that is struck already, or a "
                "number that no trench has, is refused (18), and nothing is written; so where "
                "a trench is named twice.",
        .example = "strike yard.txt 3",
        .output = "# The yard: four junctions, five trenches. Junction, junction, price, mark.\n"
                  "1 2 5 0\n2 3 3 1\nstruck 3 4 5 1\n1 4 4 1\n1 3 6 0\n",
        .statuses = "0 written\n2 the table or what was asked was refused, and nothing was written",
        .keys = "trenches: the numbers of the trenches that are named\n"
                "same: an empty list",
    },
    {
        .name = "unstrike",
        .words = "FILE TRENCH..",
        .options = "--json",
        .line = "write the file with these struck no longer",
        .does = "Writes the file without 'struck' before the lines of the trenches named, "
                "which have the prices and marks of their lines again. All else stands as it "
                "did, comments too. A number that no trench has is refused (7); a trench that "
                "is not struck is told, and stays.\n\n"
                "Where the table would be refused with such a trench in use, nothing is "
                "written, and the refusal that would follow is told.",
        .example = "unstrike struck.txt 3",
        .output = "# The yard with the street between junctions 3 and 4 blocked: its trench is "
                  "struck. It keeps its number and is left out of everything.\n"
                  "1 2 5 1\n2 3 3 1\n3 4 5 0  # blocked until spring\n1 4 4 1\n1 3 6 0\n",
        .statuses = "0 written\n2 the table or what was asked was refused, and nothing was written",
        .keys = "trenches: the numbers of the trenches that are named\n"
                "same: those of them that were not struck",
    },
    {
        .name = "mark",
        .words = "FILE TRENCH..",
        .options = "--json",
        .line = "write the file with these trenches marked",
        .does = "Writes the file with the mark 1 in the lines of the trenches named, which "
                "are then trenches of the plan. All else stands as it did, comments too. A "
                "trench that is struck, or a number that no trench has, is refused (7), and "
                "nothing is written; a trench that is marked already is told.",
        .example = "mark yard.txt 1",
        .output = "# The yard: four junctions, five trenches. Junction, junction, price, mark.\n"
                  "1 2 5 1\n2 3 3 1\n3 4 5 1\n1 4 4 1\n1 3 6 0\n",
        .statuses = "0 written\n2 the table or what was asked was refused, and nothing was written",
        .keys = "trenches: the numbers of the trenches that are named\n"
                "same: those of them that were marked already",
    },
    {
        .name = "unmark",
        .words = "FILE TRENCH..",
        .options = "--json",
        .line = "write the file with these marked no longer",
        .does = "Writes the file with the mark 0 in the lines of the trenches named. It takes "
                "and refuses what mark does.",
        .example = "unmark yard.txt 3",
        .output = "# The yard: four junctions, five trenches. Junction, junction, price, mark.\n"
                  "1 2 5 0\n2 3 3 1\n3 4 5 0\n1 4 4 1\n1 3 6 0\n",
        .statuses = "0 written\n2 the table or what was asked was refused, and nothing was written",
        .keys = "trenches: the numbers of the trenches that are named\n"
                "same: those of them that were not marked",
    },
    {
        .name = "price",
        .words = "FILE TRENCH PRICE",
        .options = "--json",
        .line = "write the file with a trench's new price",
        .does = "Writes the file with the price PRICE in the line of one trench. All else "
                "stands as it did, comments too. A trench that is struck, or a number that no "
                "trench has, is refused (7), and nothing is written. What the new price "
                "changes is said by quote.",
        .example = "price yard.txt 4 9",
        .output = "# The yard: four junctions, five trenches. Junction, junction, price, mark.\n"
                  "1 2 5 0\n2 3 3 1\n3 4 5 1\n1 4 9 1\n1 3 6 0\n",
        .statuses = "0 written\n2 the table or what was asked was refused, and nothing was written",
        .keys = "trenches: the numbers of the trenches that are named\n"
                "same: the trench, where it had this price already",
    },
    {
        .name = "add",
        .words = "FILE LEFT RIGHT PRICE",
        .options = "--json",
        .line = "write the file with a trench more",
        .does = "Writes the file with one trench more, which is not marked: directly after "
                "the last trench in use, in place of a struck one that stands there, and else "
                "at the end. It tells the new trench's number on standard error. Where trench "
                "1024 is in use and another one is struck, the file is merged first; where "
                "all 1024 are in use, the trench is refused (17). A name that no line has yet "
                "is a new junction, which is told.\n\n"
                "Where the table would be refused with the new trench, as for a loop, a pair "
                "that is there already or an end above the number of junctions, nothing is "
                "written, and the refusal that would follow is told.",
        .example = "add yard.txt 2 4 7",
        .output = "# The yard: four junctions, five trenches. Junction, junction, price, mark.\n"
                  "1 2 5 0\n2 3 3 1\n3 4 5 1\n1 4 4 1\n1 3 6 0\n2 4 7 0\n"
                  "trench 6 is new\n",
        .statuses = "0 written\n2 the table or the trench was refused, and nothing was written",
        .keys = "trench: the number of the new trench\n"
                "gone: where the file is merged first, the struck trenches that are gone\n"
                "numbers: beside it, the trenches that have new numbers, a list; each has old "
                "and new\n"
                "notes: what else is told of the new table",
    },
    {
        .name = "merge",
        .words = "[FILE]",
        .options = "--json",
        .line = "write the file without its struck trenches",
        .does = "Writes the file without its struck trenches, in the order of the others, and "
                "tells on standard error which trench has which new number. No total changes "
                "by that, and a plan that passed passes again.",
        .example = "merge struck.txt",
        .output = "junctions 4\n"
                  "# The yard with the street between junctions 3 and 4 blocked: its trench is "
                  "struck. It keeps its number and is left out of everything.\n"
                  "1 2 5 1\n2 3 3 1\n1 4 4 1\n1 3 6 0\n"
                  "1 struck trench is gone.\ntrench 4 is now trench 3\ntrench 5 is now trench 4\n",
        .statuses = "0 written\n2 the table was refused, and nothing was written",
        .keys = "gone: the struck trenches that are gone\n"
                "numbers: the trenches that have new numbers, a list; each has old and new\n"
                "notes: the names that no line has any more, where there are such, in words",
    },
    {
        .name = "districts",
        .words = "FILE END..",
        .options = "--table --json",
        .line = "list a cheapest network by districts",
        .does = "Takes the trenches in at most eight districts, each a run of the file's "
                "lines. END is the number of a district's last trench; the last END is the "
                "number of the file's last trench, struck or not. It lists the cheapest "
                "trenches of each district, which join whatever the district's trenches join, "
                "and their total; then a cheapest network of the city from these trenches "
                "alone. No network of the whole table is cheaper.",
        .example = "districts yard.txt 2 5",
        .output = "District 1, trenches 1 to 2:\n"
                  "trench 1: 1-2, price 5\n"
                  "trench 2: 2-3, price 3\n"
                  "Total 8\n"
                  "District 2, trenches 3 to 5:\n"
                  "trench 3: 3-4, price 5\n"
                  "trench 4: 1-4, price 4\n"
                  "Total 9\n"
                  "The city, from the districts' trenches:\n"
                  "trench 1: 1-2, price 5\n"
                  "trench 2: 2-3, price 3\n"
                  "trench 4: 1-4, price 4\n"
                  "Total 12\n"
                  "No network of the whole table is cheaper.\n",
        .statuses = "0 listed\n2 the table, the text or the districts were refused",
        .keys = "districts: a list; each has first and last (trenches of the file), rows and "
                "total\n"
                "rows: the trenches of the city's network, a list\n"
                "total: their total",
    },
    {
        .name = "mend",
        .words = "[FILE]",
        .options = "--steps --json",
        .line = "write the file with a cheapest network marked",
        .does = "Writes the file with its plan made a cheapest network, whatever was marked. "
                "Marks are changed, and all else stands as it did, comments too. On standard "
                "error it tells the trenches that are taken out and put in, and the totals "
                "before and after; where the plan was a network and more than one exchange is "
                "made, also the one that alone saves most.\n\n"
                "With --steps it tells each step below that: going down the marks, a trench "
                "that closes a ring is dropped; going down the trenches, one that joins what "
                "was apart is added; then each trench left out is exchanged for the dearest "
                "of its detour where that one costs more.",
        .example = "mend old.txt",
        .output = "# The yard in an old drawing: trenches 1, 2 and 5 make a ring, and junction 4 "
                  "is left out. star mend makes it a cheapest network.\n"
                  "1 2 5 0\n"
                  "2 3 3 1\n"
                  "3 4 5 1\n"
                  "1 4 4 1\n"
                  "1 3 6 0\n"
                  "taken out trench 1 (1-2, price 5)\n"
                  "taken out trench 5 (1-3, price 6)\n"
                  "put in    trench 3 (3-4, price 5)\n"
                  "put in    trench 4 (1-4, price 4)\n"
                  "The marked trenches were no network, and cost 14. The "
                  "plan's total is 12 now: no network is cheaper.\n",
        .statuses = "0 written\n2 the table was refused, and nothing was written",
        .keys = "out: the trenches taken out, a list\n"
                "in: the trenches put in, a list\n"
                "marked: what was marked before; it has cost and network (whether it was one)\n"
                "total: the total now\n"
                "steps: with --steps, a list; each has step (dropped, added or exchanged), out "
                "and in, those that it has",
    },
    {
        .name = "outlets",
        .words = "FILE JUNCTION COUNT",
        .options = "--table --json",
        .line = "list one with COUNT trenches at JUNCTION",
        .does = "Lists a cheapest network among those with exactly COUNT trenches at "
                "JUNCTION, such as a boiler house with a fixed number of outlets, its total, "
                "and what it costs more than a cheapest network with any number there. Where "
                "no network has that number, it says which are possible.",
        .example = "outlets yard.txt 1 3",
        .output = "A cheapest network with exactly 3 trenches at junction 1:\n"
                  "trench 1: 1-2, price 5\n"
                  "trench 4: 1-4, price 4\n"
                  "trench 5: 1-3, price 6\n"
                  "Total 15\n"
                  "With any number at junction 1 the cheapest network costs 12: 3 less.\n",
        .statuses = "0 listed\n2 the table, the text or what was asked was refused",
        .keys = "junction: the junction\n"
                "count: the trenches there\n"
                "rows: the trenches of the network, a list\n"
                "total: their total\n"
                "least: the least total with any number there\n"
                "possible: the least and the largest number that are possible, where no network "
                "has this one",
    },
    {.name = NULL},
};

const struct page *page_of(const char *name) {
    const struct page *p;
    for (p = PAGES; p->name; p++)
        if (strcmp(p->name, name) == 0) return p;
    return NULL;
}

size_t page_status(const struct page *p, int status, const char **text) {
    const char *at = p->statuses;
    while (at && *at - '0' != status) {
        at = strchr(at, '\n');
        if (at) at++;
    }
    if (at) *text = at + 2;
    else if (status > 2) *text = STATUS_TEXT[status];
    else return 0;
    return strcspn(*text, "\n");
}

int page_takes(const struct page *p, const char *operand) {
    size_t len = strlen(operand);
    const char *at;
    for (at = strstr(p->words, operand); at; at = strstr(at + 1, operand))
        if (at[len] < 'A' || at[len] > 'Z') return 1;
    return 0;
}

int page_has(const struct page *p, const char *option) {
    size_t len = strlen(option);
    const char *at;
    if (strcmp(option, "-o") == 0 || strcmp(option, "--help") == 0) return 1;
    for (at = strstr(p->options, option); at; at = strstr(at + 1, option))
        if (at[len] == ' ' || at[len] == '\0') return 1;
    return 0;
}
