/* The part of the library that is written in C: its version, and the refusals in words. It stands
   beside the proved procedures in libstar.a. */
#include "star.h"

const char *star_version(void) { return STAR_VERSION; }

/* A line a refusal, at its number. */
static const char *const TEXTS[] = {
    [0] = "not refused",
    [STAR_BAD_JUNCTION_COUNT] = "the number of junctions is 0 or above 255",
    [STAR_TOO_MANY_ROWS] = "there are more than 1024 rows",
    [STAR_BAD_LENGTHS] = "the columns have not the lengths that belong together",
    [STAR_BAD_END] =
        "a row has an end that is 0 or above the number of junctions, or two equal ends",
    [STAR_BAD_MARK] = "a mark is neither 0 nor 1",
    [STAR_BAD_SOURCE] = "the junction asked about is 0 or above the number of junctions, or the "
                        "row asked about is not in use",
    [STAR_SHORT_MATRIX] = "the path matrix has fewer than 16 words for each junction",
    [STAR_BAD_MARK_COUNT] = "the marked rows are not one fewer than the junctions",
    [STAR_NOT_JOINED] = "the marked rows do not join all junctions",
    [STAR_NO_NETWORK] = "no set of rows joins every junction",
    [STAR_BAD_TEXT] = "the text is longer than its kind of file may be or breaks its layout",
    [STAR_BAD_EDGE_COUNT] = "the E lines are not as many as the line Edges says",
    [STAR_BAD_RUNS] =
        "the ends of the runs are more than eight, do not rise, or do not close with the last row",
    [STAR_REPEATED_ROW] = "a row joins the same two junctions as an earlier row",
    [STAR_SHORT_RECORDS] = "the list has fewer than two records for each row",
    [STAR_TABLE_FULL] = "a row is added, and all 1024 are in use",
    [STAR_NOT_IN_USE] = "the row to strike is not in use",
    [STAR_NO_OUTLETS] = "no network has exactly this number of rows at the junction",
    [STAR_NOT_TRENCH] = "a line is not a trench: two junctions, a price, and a mark or none",
    [STAR_NOT_JUNCTION] = "a junction is neither a number from 1 to 255 nor a name",
    [STAR_NOT_PRICE] = "a price is not a whole number from -2147483648 to 2147483647",
    [STAR_NOT_MARK] = "a mark is neither 1, x, yes, true nor 0, no, false",
    [STAR_NOT_COUNT] = "a line 'junctions N' is none, or a second one",
    [STAR_MIXED_NAMES] = "a name stands among numbers of junctions, or a number among names",
    [STAR_TOO_MANY_NAMES] = "there are more than 255 names of junctions",
    [STAR_NOT_STRUCK] = "the row to put back is in use, or is none of the table",
    [STAR_BAD_SEPARATOR] = "fields are parted by a blank, a semicolon, a comma or a tab",
    [STAR_BAD_NAME_PLACES] = "the places of a junction's name do not lie in the text",
    [STAR_SHORT_TEXT] = "the text that is lent may be too short",
};

const char *star_refusal_text(unsigned number) {
    return number < sizeof TEXTS / sizeof TEXTS[0] && TEXTS[number] ? TEXTS[number]
                                                                    : "a refusal without a text";
}
