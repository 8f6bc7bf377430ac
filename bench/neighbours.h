/* Plain C that looks for a strip without equal neighbours: it steps through the book by the left rule, and tests each
 * strip in one pass that stops at the first two that touch. Nothing is checked where the name does not say so. */
#ifndef NEIGHBOURS_H
#define NEIGHBOURS_H

#include "plain.h"

/* Whether two neighbours are of one kind. Hung endless, the last place neighbours the first. */
ALWAYS bool some_touch(const uint8_t *strip, size_t n, bool endless)
{
    for (size_t i = 1; i < n; i++) {
        if (strip[i - 1] == strip[i]) {
            return true;
        }
    }
    return endless && strip[n - 1] == strip[0];
}

typedef struct {
    uint8_t outcome; /* 1 found, 2 none, 3 stopped; 0 where the stock, the strip or the directions are not right */
    uint64_t moves;
} plain_spaced;

CALLED plain_spaced checked_next_apart(const uint16_t *stock, size_t kinds, uint8_t *strip, size_t n, bool *back,
                                       bool endless, uint64_t given)
{
    uint8_t word[64], places[2];
    bool heading[16];
    if (!checked_open(stock, kinds, strip, n, heading) || memcmp(heading, back, sizeof heading) != 0) {
        return (plain_spaced){0, 0};
    }
    memcpy(word, strip, n);
    uint64_t moves = 0;
    while (book_beside(by_left, false, stock, kinds, word, n, heading, places)) {
        if (moves == given) {
            return (plain_spaced){3, moves};
        }
        moves++;
        if (!some_touch(word, n, endless)) {
            memcpy(strip, word, n);
            memcpy(back, heading, sizeof heading);
            return (plain_spaced){1, moves};
        }
    }
    return (plain_spaced){2, moves};
}

#endif
