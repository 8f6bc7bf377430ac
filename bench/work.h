/* What is measured on: a stock with its first strip and with many strips in no order. */
#ifndef WORK_H
#define WORK_H

#include <stdio.h>
#include <stdlib.h>
#include <string.h>
#include <time.h>

#include "dictionary.h"
#include "nelfrupi.h"
#include "plain.h"

/* So many strips that the processor does not learn by heart which way each branch goes on them. */
enum { STRIPS = 4096 };

/* The last of the stocks is sixteen 4s. */
enum { STOCKS = 5, SIXTEEN = STOCKS - 1 };

typedef struct {
    const char *title;
    size_t kinds, n;
    uint16_t stock[16];
    uint64_t moves; /* how many are made, from the first strip */
    bool numbered;  /* whether the book has fewer than 2^64 strips */
    uint8_t first[64], strips[STRIPS][64];
    uint64_t numbers[STRIPS], cuts[STRIPS];
    nelfrupi_walker walkers[STRIPS];
    uint8_t reached[64]; /* where moves from the first strip have come to, */
    nelfrupi_walker walker; /* and the walker there */
} work;

static void must(bool so, const char *what)
{
    if (!so) {
        printf("bench: %s\n", what);
        exit(1);
    }
}

/* The processor's time, in nanoseconds. */
static double now(void)
{
    return (double)clock() * (1e9 / CLOCKS_PER_SEC);
}

/* The first strip, and strips in no order, the same in each run: shuffled by a generator of fixed constants. */
static void prepare(work *w)
{
    static uint64_t state = 1;
    for (size_t j = 0; j < w->kinds; j++) {
        w->n += w->stock[j];
    }
    must(nelfrupi_first(w->stock, w->kinds, w->first, w->n).no == 0, "First refuses");
    w->numbered = nelfrupi_count(w->stock, w->kinds).refusal.no == 0;
    for (size_t i = 0; i < STRIPS; i++) {
        memcpy(w->strips[i], w->first, w->n);
        for (size_t k = w->n - 1; k > 0; k--) {
            state = state * 6364136223846793005u + 1442695040888963407u;
            exchange(w->strips[i], k, (state >> 33) % (k + 1));
        }
    }
}

#endif
