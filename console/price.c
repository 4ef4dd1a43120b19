/* Prices: four bytes with a sign, packed and read as the door's header does. */
#include "price.h"

#include <inttypes.h>
#include <stdio.h>

int price_read(struct span word, uint8_t bytes[PRICE_BYTES]) {
    int below = word.len > 0 && word.at[0] == '-';
    uint32_t size;
    if (below) {
        word.at++;
        word.len--;
    }
    if (!text_number(word, &size) || size > (uint32_t)STAR_MAX_PRICE + (uint32_t)below) return 0;
    star_put_price(bytes, 0, (int32_t)(below ? -(int64_t)size : size));
    return 1;
}

const char *price_figures(char figures[FIGURES], const uint8_t bytes[PRICE_BYTES]) {
    return amount_figures(figures, star_get_price(bytes, 0));
}

const char *amount_figures(char figures[FIGURES], int64_t amount) {
    snprintf(figures, FIGURES, "%" PRId64, amount);
    return figures;
}
