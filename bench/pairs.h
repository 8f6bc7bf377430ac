/* How long Which takes, by the kind at which two strips part. */
#ifndef PAIRS_H
#define PAIRS_H

#include "work.h"

enum { PAIR_ROUNDS = 20, PAIRINGS = 5 };

/* A second strip for each of the strips in no order, and what Which and plain C say of the two. */
typedef struct {
    const char *title;
    uint8_t partners[STRIPS][64];
    nelfrupi_compared given[STRIPS];
    plain_compared plain[STRIPS];
    double took[2]; /* nanoseconds a pair: Which, and plain C */
} pairing;

static void compared(const work *w, pairing *p, size_t i)
{
    p->given[i] = nelfrupi_which(w->stock, w->kinds, w->strips[i], w->n, p->partners[i], w->n);
}

static void plain_compared_pair(const work *w, pairing *p, size_t i)
{
    p->plain[i] = checked_which(w->stock, w->kinds, w->strips[i], p->partners[i], w->n);
}

typedef void pair_call(const work *w, pairing *p, size_t i);

static pair_call *const pair_calls[2] = {compared, plain_compared_pair};

/* ---- second strips */

/* The strips beside. */
static void pair_any(const work *w, pairing *p)
{
    for (size_t i = 0; i < STRIPS; i++) {
        memcpy(p->partners[i], w->strips[(i + 1) % STRIPS], 64);
    }
}

static void pair_equal(const work *w, pairing *p)
{
    memcpy(p->partners, w->strips, sizeof p->partners);
}

/* Another strip with the kinds below one in the order that they have in the first: the two part at that kind, or above. */
static void take_lower(const uint8_t *first, const uint8_t *other, size_t n, uint8_t kind, uint8_t *partner)
{
    size_t at = 0;
    for (size_t i = 0; i < n; i++) {
        partner[i] = other[i];
        if (other[i] < kind) {
            while (first[at] >= kind) {
                at++;
            }
            partner[i] = first[at++];
        }
    }
}

static void pair_at(const work *w, pairing *p, uint8_t kind)
{
    for (size_t i = 0; i < STRIPS; i++) {
        size_t other = i;
        do {
            other = (other + 1) % STRIPS;
            take_lower(w->strips[i], w->strips[other], w->n, kind, p->partners[i]);
            plain_compared_pair(w, p, i);
        } while (p->plain[i].kind != kind);
    }
}

/* Strips that are refused at the end of the checks, by 6: one block of the last kind is of the kind below it. */
static void pair_refused(const work *w, pairing *p)
{
    for (size_t i = 0; i < STRIPS; i++) {
        memcpy(p->partners[i], w->strips[i], 64);
        size_t at = 0;
        while (p->partners[i][at] != w->kinds) {
            at++;
        }
        p->partners[i][at]--;
    }
}

/* ---- times */

/* Which and plain C must say the same, and where there are numbers, what the numbers say. */
static void hold_pairs(const work *w, pairing *p)
{
    for (size_t i = 0; i < STRIPS; i++) {
        compared(w, p, i);
        plain_compared_pair(w, p, i);
        must(p->given[i].which == p->plain[i].which && p->given[i].kind == p->plain[i].kind, "Which and plain C differ");
        if (w->numbered && p->given[i].which != 0) {
            uint64_t one = book_number(w->stock, w->kinds, w->strips[i], w->n).number;
            uint64_t two = book_number(w->stock, w->kinds, p->partners[i], w->n).number;
            must(p->given[i].which == (one < two ? NELFRUPI_FIRST : two < one ? NELFRUPI_SECOND : NELFRUPI_EQUAL),
                 "Which and the numbers differ");
        }
    }
}

/* Of each pairing the least of its rounds. The pairings and the two ways take turns. */
static void measure_pairs(const work *w, pairing *pairings, size_t count)
{
    for (int round = 0; round < PAIR_ROUNDS; round++) {
        for (size_t k = 0; k < 2 * count; k++) {
            pairing *p = &pairings[k / 2];
            double began = now();
            for (size_t i = 0; i < STRIPS; i++) {
                pair_calls[k % 2](w, p, i);
            }
            double spent = (now() - began) / STRIPS;
            p->took[k % 2] = round == 0 || spent < p->took[k % 2] ? spent : p->took[k % 2];
        }
    }
}

/* Strips of one stock that part at different kinds, beside the checks alone. */
static void print_parting(const work *w)
{
    static pairing pairings[PAIRINGS] = {
        {.title = "refused"}, {.title = "kind 2"}, {.title = "kind 9"}, {.title = "kind 16"}, {.title = "equal"},
    };
    pair_refused(w, &pairings[0]);
    pair_at(w, &pairings[1], 2);
    pair_at(w, &pairings[2], 9);
    pair_at(w, &pairings[3], 16);
    pair_equal(w, &pairings[4]);
    for (size_t k = 0; k < PAIRINGS; k++) {
        hold_pairs(w, &pairings[k]);
    }
    measure_pairs(w, pairings, PAIRINGS);
    for (size_t k = 0; k < PAIRINGS; k++) {
        const double *took = pairings[k].took;
        printf("%-12s%9.0f%12.2f%12.2f\n", pairings[k].title, took[0], took[0] / pairings[0].took[0], took[0] / took[1]);
    }
}

static void print_pairs(const work *works)
{
    static pairing any;
    printf("\nWhich on strips in no order: nanoseconds, and how many times as long as plain C that makes the same checks and\n"
           "stops at the same kind.\n\n");
    printf("%-12s%9s%12s\n", "stock", "Which", "Which / C");
    for (size_t i = 0; i < STOCKS; i++) {
        pair_any(&works[i], &any);
        hold_pairs(&works[i], &any);
        measure_pairs(&works[i], &any, 1);
        printf("%-12s%9.0f%12.2f\n", works[i].title, any.took[0], any.took[0] / any.took[1]);
    }
    printf("\nWhich on two strips of sixteen 4s that part at a kind: nanoseconds, and how many times as long as the checks alone\n"
           "and as plain C. The checks alone are those of a second strip with one block too many of kind 15, which is\n"
           "refused.\n\n");
    printf("%-12s%9s%12s%12s\n", "parting at", "Which", "/ checks", "/ C");
    print_parting(&works[SIXTEEN]);
}

#endif
