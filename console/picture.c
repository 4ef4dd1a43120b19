/* The looks that the pictures share. */
#include "picture.h"

const struct style STYLES[LOOKS] = {
    {"other", "#9e9e9e", "1", "not marked"},
    {"marked", "#222222", "4", "marked"},
    {"out", "#c62828", "5", "take out"},
    {"in", "#1565c0", "5", "put in"},
};

enum look picture_look(const struct picture *p, size_t i) {
    if (i == p->out) return TAKE_OUT;
    if (i == p->in) return PUT_IN;
    return p->t->mark[i - 1] == 1 ? MARKED : OTHER;
}
