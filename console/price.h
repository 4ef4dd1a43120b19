/* Prices and sums of prices: how they are read, stored and printed. */
#ifndef CONSOLE_PRICE_H
#define CONSOLE_PRICE_H

#include "star.h"
#include "text.h"

#define PRICE_TEXT "a whole number from -2147483648 to 2147483647"

enum { PRICE_BYTES = 4, FIGURES = 24 };

/* Stores the price that a word gives, as the door takes it; 0 if the word is no price. A price
   below 0 opens with -. */
int price_read(struct span word, uint8_t bytes[PRICE_BYTES]);

/* A price and a sum of prices in decimal, with - before one below 0, written to figures. */
const char *price_figures(char figures[FIGURES], const uint8_t bytes[PRICE_BYTES]);
const char *amount_figures(char figures[FIGURES], int64_t amount);

#endif
