/* Words of the command line, and what is wrong with them. */
#include "usage.h"

#include <string.h>

#include "faults.h"
#include "status.h"

int misused(const char *what, const char *word) {
    struct message words = {{0}, 0};
    say(&words, "star: %s '%.200s'; 'star --help' says how it is used", what, word);
    fault_tell(&words);
    return EXIT_USAGE;
}

int trench_named(const char *word, uint32_t *trench) {
    struct span number = {word, strlen(word)};
    return text_number(number, trench)
               ? 0
               : misused("a trench is named by its number, from 1 on, and not by", word);
}

/* A name that no junction has is taken as a number above all of them. */
int junction_asked(const struct table *t, const char *word, uint32_t *junction) {
    struct span own = {word, strlen(word)};
    if (text_number(own, junction)) return 0;
    *junction = table_named(t, own);
    if (*junction > 0) return 0;
    *junction = UINT32_MAX;
    return t->names > 0 ? 0
                        : misused("a junction is named by its number, from 1 on, and not by", word);
}

/* In a file with names a number is that of a junction, whose name is meant. In one without
   trenches either can stand. */
int junction_entered(const struct table *t, const char *word, struct span *as) {
    uint32_t number = 0;
    as->at = word;
    as->len = strlen(word);
    if (!text_number(*as, &number)) {
        if (t->names > 0 || t->m == 0) return 0;
    } else if (t->names == 0) {
        for (; as->len > 1 && as->at[0] == '0'; as->len--) as->at++;
        if (number >= 1 && number <= STAR_MAX_JUNCTIONS) return 0;
    } else {
        if (number < 1 || number > t->names)
            return misused("a junction of this file is named, and none is", word);
        *as = t->name[number - 1];
        return 0;
    }
    return misused("a junction is a number from 1 to 255, and not", word);
}

int price_named(const char *word, uint8_t bytes[PRICE_BYTES]) {
    struct span figures = {word, strlen(word)};
    return price_read(figures, bytes) ? 0 : misused("a price is " PRICE_TEXT ", and not", word);
}
