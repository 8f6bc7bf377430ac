/* Plain C through the strips of a stock in dictionary order, the usual other way. Nothing is checked where the name does
 * not say so. */
#ifndef DICTIONARY_H
#define DICTIONARY_H

#include "plain.h"

/* The next strip in dictionary order; false on the last. */
ALWAYS bool dictionary_next(uint8_t *strip, size_t n)
{
    size_t i = n - 1, j = n - 1;
    while (i > 0 && strip[i - 1] >= strip[i]) {
        i--;
    }
    if (i == 0) {
        return false;
    }
    while (strip[j] <= strip[i - 1]) {
        j--;
    }
    exchange(strip, i - 1, j);
    for (j = n - 1; i < j; i++, j--) {
        exchange(strip, i, j);
    }
    return true;
}

CALLED bool step_by_dictionary(uint8_t *strip, size_t n)
{
    return dictionary_next(strip, n);
}

CALLED bool checked_step_by_dictionary(const uint16_t *stock, size_t kinds, uint8_t *strip, size_t n)
{
    return is_right(stock, kinds, strip, n) && dictionary_next(strip, n);
}

/* whole * part / n, where only the quotient has to fit. */
static inline uint64_t share(uint64_t whole, uint64_t part, uint64_t n)
{
    return whole >> 52 == 0 ? whole * part / n : whole / n * part + whole % n * part / n;
}

/* From the last block to the first: of the blocks behind, their orders and how many of these come before theirs. */
CALLED uint64_t dictionary_number(const uint8_t *strip, size_t n)
{
    uint64_t seen[17] = {0}, orders = 1, number = 0;
    for (size_t m = 1; m <= n; m++) {
        uint8_t kind = strip[n - m];
        uint64_t alike = ++seen[kind], less = 0;
        for (uint8_t j = 1; j < kind; j++) {
            less += seen[j];
        }
        number += share(orders, less, alike);
        orders = share(orders, m, alike);
    }
    return number;
}

/* From the first block to the last: of the orders of what is left, each kind begins as large a share as it has of it. */
CALLED void dictionary_strip(const uint16_t *stock, size_t kinds, uint64_t number, uint8_t *strip, size_t n)
{
    uint64_t left[16], ways = 1, m = stock[0];
    for (size_t j = 0; j < kinds; j++) {
        left[j] = stock[j];
        for (uint64_t c = 1; j > 0 && c <= stock[j]; c++) {
            ways = share(ways, ++m, c);
        }
    }
    for (size_t i = 0; i < n; i++) {
        size_t kind = 0;
        uint64_t own;
        while ((own = share(ways, left[kind], n - i)) <= number) {
            number -= own;
            kind++;
        }
        ways = own;
        left[kind]--;
        strip[i] = (uint8_t)(kind + 1);
    }
}

#endif
