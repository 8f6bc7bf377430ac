/* How long Stand and Next paper take, beside plain C that gives the same. */
#ifndef PAPERS_H
#define PAPERS_H

#include "turns.h"
#include "work.h"

/* So many searches begin at strips in no order, with so many steps given that nearly all of the time is the steps'. */
enum { PAPER_ROUNDS = 20, SEARCHES = 512, GIVEN = 4000 };

/* What calls leave and answer: the lent strips, and for each whether it was reversed and its turn, or how a search ended
 * and its steps. */
typedef struct {
    uint8_t strips[STRIPS][64], reached[64];
    uint8_t outcomes[STRIPS];
    bool reversed[STRIPS];
    uint64_t numbers[STRIPS];
} papers;

/* ---- one call: on the strip at i, or on where those before it have come to from the first strip */

typedef void paper_call(const work *w, papers *p, size_t i);

static void stand_at(const work *w, papers *p, size_t i)
{
    nelfrupi_stood stood = nelfrupi_stand(w->stock, w->kinds, p->strips[i], w->n);
    p->outcomes[i] = stood.refusal.no == 0;
    p->reversed[i] = stood.reversed;
    p->numbers[i] = stood.turn;
}

static void put_plain_stood(papers *p, size_t i, plain_stood stood)
{
    p->outcomes[i] = stood.right;
    p->reversed[i] = stood.reversed;
    p->numbers[i] = stood.turn;
}

static void plain_stand_at(const work *w, papers *p, size_t i)
{
    put_plain_stood(p, i, checked_stand(w->stock, w->kinds, p->strips[i], w->n));
}

static void plain_stand_one_way_at(const work *w, papers *p, size_t i)
{
    put_plain_stood(p, i, checked_stand_one_way(w->stock, w->kinds, p->strips[i], w->n));
}

static void search_from(const work *w, papers *p, size_t i)
{
    nelfrupi_stepped stepped = nelfrupi_next_paper(w->stock, w->kinds, p->strips[i], w->n, GIVEN);
    p->outcomes[i] = stepped.outcome;
    p->numbers[i] = stepped.steps;
}

static void plain_search_from(const work *w, papers *p, size_t i)
{
    plain_stepped stepped = checked_next_paper(w->stock, w->kinds, p->strips[i], w->n, GIVEN);
    p->outcomes[i] = stepped.outcome;
    p->numbers[i] = stepped.steps;
}

static void find_on(const work *w, papers *p, size_t i)
{
    nelfrupi_stepped stepped = nelfrupi_next_paper(w->stock, w->kinds, p->reached, w->n, UINT64_MAX);
    p->outcomes[i] = stepped.outcome;
    p->numbers[i] = stepped.steps;
}

static void plain_find_on(const work *w, papers *p, size_t i)
{
    plain_stepped stepped = checked_next_paper(w->stock, w->kinds, p->reached, w->n, UINT64_MAX);
    p->outcomes[i] = stepped.outcome;
    p->numbers[i] = stepped.steps;
}

/* ---- times */

/* The strips in no order, but for one that is the last of the dictionary, so that a search has none left. */
static void lend(const work *w, papers *p)
{
    memcpy(p->strips, w->strips, sizeof p->strips);
    memcpy(p->reached, w->first, sizeof p->reached);
    for (size_t j = 0; j < w->n; j++) {
        p->strips[0][j] = w->first[w->n - 1 - j];
    }
}

/* The library and plain C must leave the same strips and answer the same. */
static void hold_papers(const papers *given, const papers *plain)
{
    must(memcmp(given->strips, plain->strips, sizeof given->strips) == 0, "a strip that is left and plain C's differ");
    must(memcmp(given->reached, plain->reached, sizeof given->reached) == 0, "the papers come to different strips");
    must(memcmp(given->outcomes, plain->outcomes, sizeof given->outcomes) == 0, "an outcome and plain C's differ");
    must(memcmp(given->reversed, plain->reversed, sizeof given->reversed) == 0, "what is reversed and plain C's differ");
    must(memcmp(given->numbers, plain->numbers, sizeof given->numbers) == 0, "a turn or the steps and plain C's differ");
}

/* The nanoseconds of so many calls by some ways, each the least of its rounds. The ways take turns. The first two are the
 * library's and plain C's, and are held against each other. Answers the sum of what they count. */
static uint64_t measure_papers(const work *w, paper_call *const *made, size_t many, size_t calls, double *took)
{
    static papers ways[3];
    for (size_t k = 0; k < many * PAPER_ROUNDS; k++) {
        papers *p = &ways[k % many];
        lend(w, p);
        double began = now();
        for (size_t i = 0; i < calls; i++) {
            made[k % many](w, p, i);
        }
        double spent = now() - began;
        took[k % many] = k < many || spent < took[k % many] ? spent : took[k % many];
    }
    hold_papers(&ways[0], &ways[1]);
    uint64_t counted = 0;
    for (size_t i = 0; i < calls; i++) {
        must(ways[0].outcomes[i] != 0, "a paper is refused");
        counted += ways[0].numbers[i];
    }
    return counted;
}

static void print_papers(const work *works)
{
    static paper_call *const stands[3] = {stand_at, plain_stand_at, plain_stand_one_way_at};
    static paper_call *const searches[2] = {search_from, plain_search_from}, *const finds[2] = {find_on, plain_find_on};
    printf("\nEndless papers: nanoseconds of Stand on strips in no order; of a step of Next paper from such strips, with %d\n"
           "steps given; and of a call of Next paper from the first strip on, each from the strip that the last one found; how\n"
           "many steps such a call makes; how many times as long Stand takes as plain C that makes the same checks, and as plain\n"
           "C that looks at the strip as it stands only; and how many times as long the others take as plain C that makes the\n"
           "same checks.\n\n",
           GIVEN);
    printf("%-12s%9s%9s%9s%9s%12s%12s%12s%12s\n", "stock", "Stand", "step", "find", "steps", "Stand / C", "/ C one way",
           "step / C", "find / C");
    for (size_t i = 0; i < STOCKS; i++) {
        double stood[3], stepped[2], found[2];
        measure_papers(&works[i], stands, 3, STRIPS, stood);
        double steps = (double)measure_papers(&works[i], searches, 2, SEARCHES, stepped);
        double finding = (double)measure_papers(&works[i], finds, 2, STRIPS, found);
        printf("%-12s%9.0f%9.1f%9.0f%9.2f%12.2f%12.2f%12.2f%12.2f\n", works[i].title, stood[0] / STRIPS,
               stepped[0] / steps, found[0] / STRIPS, finding / STRIPS, stood[0] / stood[1], stood[0] / stood[2],
               stepped[0] / stepped[1], found[0] / found[1]);
    }
}

#endif
