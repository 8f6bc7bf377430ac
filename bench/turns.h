/* Plain C on strips that are hung endless, either end up: the smallest turn is found, and a strip is tested, as the
 * library does it. Nothing is checked where the name does not say so. */
#ifndef TURNS_H
#define TURNS_H

#include "dictionary.h"

/* The smallest number of places to turn a strip by to have the smallest of its turns. The strip is lent twice in a row,
 * so that each turn is a part of it. */
ALWAYS size_t least_turn(const uint8_t *twice, size_t n)
{
    size_t best = 0, t = 1, k = 0;
    while (t < n) {
        uint8_t one = twice[t + k], other = twice[best + k];
        size_t next = k + 1;
        if (one < other) {
            best = t < best + next ? best + next : t;
            t = best + 1;
            k = 0;
        } else if (other < one) {
            t += next;
            k = 0;
        } else if (next < n) {
            k = next;
        } else {
            return best;
        }
    }
    return best;
}

/* Whether a turn of a strip, read backwards or not, comes before it; backwards it is known that none does as it stands.
 * No block is looked at after the first that shows that one does. */
ALWAYS bool some_before(const uint8_t *strip, size_t n, bool back)
{
    size_t t = back ? 0 : 1, k = 0;
    while (t < n) {
        size_t at = t + k < n ? t + k : t + k - n;
        uint8_t one = strip[back ? n - 1 - at : at], other = strip[k];
        if (one < other) {
            return true;
        }
        size_t next = k + 1;
        if (other < one) {
            t += next;
            k = 0;
        } else if (next < n) {
            k = next;
        } else {
            return false;
        }
    }
    return false;
}

/* Whether no turn of a strip comes before it. */
ALWAYS bool is_standing(const uint8_t *strip, size_t n)
{
    return !some_before(strip, n, false) && !some_before(strip, n, true);
}

typedef struct {
    bool right;
    uint64_t turn;
    bool reversed;
} plain_stood;

/* The smallest turn each way, and of the two the smaller. */
CALLED plain_stood checked_stand(const uint16_t *stock, size_t kinds, uint8_t *strip, size_t n)
{
    if (!is_right(stock, kinds, strip, n)) {
        return (plain_stood){false, 0, false};
    }
    uint8_t there[128], back[128];
    for (size_t i = 0; i < n; i++) {
        back[i] = strip[n - 1 - i];
    }
    memcpy(back + n, back, n);
    memcpy(there, strip, n);
    memcpy(there + n, strip, n);
    size_t t = least_turn(there, n), u = least_turn(back, n);
    bool reversed = memcmp(back + u, there + t, n) < 0;
    memcpy(strip, reversed ? back + u : there + t, n);
    return (plain_stood){true, reversed ? u : t, reversed};
}

/* The smallest turn of a strip as it stands, to see what looking both ways costs. */
CALLED plain_stood checked_stand_one_way(const uint16_t *stock, size_t kinds, uint8_t *strip, size_t n)
{
    if (!is_right(stock, kinds, strip, n)) {
        return (plain_stood){false, 0, false};
    }
    uint8_t twice[128];
    memcpy(twice, strip, n);
    memcpy(twice + n, strip, n);
    size_t t = least_turn(twice, n);
    memcpy(strip, twice + t, n);
    return (plain_stood){true, t, false};
}

typedef struct {
    uint8_t outcome; /* 1 found, 2 none left, 3 stopped; 0 where the strip or the stock is not right */
    uint64_t steps;
} plain_stepped;

CALLED plain_stepped checked_next_paper(const uint16_t *stock, size_t kinds, uint8_t *strip, size_t n, uint64_t given)
{
    if (!is_right(stock, kinds, strip, n)) {
        return (plain_stepped){0, 0};
    }
    uint8_t word[64];
    memcpy(word, strip, n);
    uint64_t steps = 0;
    while (dictionary_next(word, n)) {
        if (steps == given) {
            return (plain_stepped){3, steps};
        }
        steps++;
        if (is_standing(word, n)) {
            memcpy(strip, word, n);
            return (plain_stepped){1, steps};
        }
    }
    return (plain_stepped){2, steps};
}

#endif
