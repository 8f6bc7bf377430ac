/* Strips from which a strip without equal neighbours is looked for. */
#ifndef STARTS_H
#define STARTS_H

#include "neighbours.h"
#include "work.h"

/* The same in each run. */
static size_t any_number(size_t below)
{
    static uint64_t state = 1;
    state = state * 6364136223846793005u + 1442695040888963407u;
    return (state >> 33) % below;
}

/* Whether a block of a kind is left, and behind it the rest can be laid without equal neighbours. */
static bool can_lay(const uint16_t *left, size_t kinds, size_t rest, size_t kind)
{
    bool can = left[kind] > 0;
    for (size_t j = 0; j < kinds; j++) {
        can = can && (j == kind ? left[j] - 1u <= rest / 2 : left[j] <= (rest + 1) / 2);
    }
    return can;
}

/* A strip without equal neighbours, otherwise in no order. */
static void lay_apart(const work *w, uint8_t *strip)
{
    uint16_t left[16];
    memcpy(left, w->stock, sizeof left);
    for (size_t i = 0; i < w->n; i++) {
        size_t kind = any_number(w->kinds), tried = 0;
        while ((i > 0 && strip[i - 1] == kind + 1) || !can_lay(left, w->kinds, w->n - 1 - i, kind)) {
            kind = (kind + 1) % w->kinds;
            must(++tried < w->kinds, "no strip is without equal neighbours");
        }
        left[kind]--;
        strip[i] = (uint8_t)(kind + 1);
    }
}

/* Blocks in the order of their kinds, from one place to before another. */
static void sort_blocks(uint8_t *strip, size_t from, size_t to)
{
    for (size_t i = from; i < to; i++) {
        for (size_t k = i; k > from && strip[k] < strip[k - 1]; k--) {
            exchange(strip, k - 1, k);
        }
    }
}

/* ---- one strip after the other, as many as there are strips in no order */

typedef void search_start(const work *w, size_t i, uint8_t *strip);

static void from_first(const work *w, size_t i, uint8_t *strip)
{
    memcpy(strip, w->first, w->n);
    (void)i;
}

static void from_any(const work *w, size_t i, uint8_t *strip)
{
    memcpy(strip, w->strips[i], w->n);
}

/* Only blocks at the front touch, in the first quarter or less of it: most moves are made there. */
static void from_front(const work *w, size_t i, uint8_t *strip)
{
    lay_apart(w, strip);
    sort_blocks(strip, 0, 3 + any_number(w->n / 4 - 2));
    (void)i;
}

/* Only blocks at the end touch: a pass from the front finds them last. */
static void from_end(const work *w, size_t i, uint8_t *strip)
{
    lay_apart(w, strip);
    for (size_t from = w->n; !some_touch(strip, w->n, false); from--) {
        sort_blocks(strip, from - 1, w->n);
    }
    (void)i;
}

/* One to four moves before a strip without equal neighbours, with the walker there; false where many tries lead to none. */
static bool step_before(const work *w, bool endless, uint8_t *strip, nelfrupi_walker *walker)
{
    uint8_t list[8];
    for (int tried = 0; tried < STRIPS; tried++) {
        lay_apart(w, strip);
        if (!some_touch(strip, w->n, endless)) {
            nelfrupi_opened opened = nelfrupi_open(w->stock, w->kinds, strip, w->n);
            nelfrupi_ran ran = nelfrupi_run(w->stock, w->kinds, strip, w->n, opened.walker, true, list,
                                            2 * (1 + any_number(4)));
            must(ran.refusal.no == 0, "Run refuses");
            *walker = ran.walker;
            if (ran.moves > 0) {
                return true;
            }
        }
    }
    return false;
}

#endif
