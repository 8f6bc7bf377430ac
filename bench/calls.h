/* How long a call takes on strips in no order, beside plain C that gives the same. */
#ifndef CALLS_H
#define CALLS_H

#include "work.h"

enum { ROUNDS = 40 };

/* ---- one call: on the strip or the number at i, or on where those before it have come to from the first strip */

typedef void call(work *w, size_t i);

static void number(work *w, size_t i)
{
    nelfrupi_numbered told = nelfrupi_number(w->stock, w->kinds, w->strips[i], w->n);
    w->numbers[i] = told.number;
    w->cuts[i] = told.cuts;
}

static void plain_number(work *w, size_t i)
{
    plain_numbered told = book_number(w->stock, w->kinds, w->strips[i], w->n);
    w->numbers[i] = told.number;
    w->cuts[i] = told.cuts;
}

static void strip(work *w, size_t i)
{
    nelfrupi_strip(w->stock, w->kinds, w->numbers[i], w->strips[i], w->n);
}

static void plain_strip(work *w, size_t i)
{
    book_strip(w->stock, w->kinds, w->numbers[i], w->strips[i], w->n);
}

static void opened(work *w, size_t i)
{
    w->walkers[i] = nelfrupi_open(w->stock, w->kinds, w->strips[i], w->n).walker;
}

static void walk(work *w, size_t i)
{
    nelfrupi_moved moved = nelfrupi_walk(w->stock, w->kinds, w->reached, w->n, w->walker, false);
    must(moved.refusal.no == 0, "Walk refuses");
    w->walker = moved.walker;
    (void)i;
}

static void plain_opened(work *w, size_t i)
{
    must(checked_open(w->stock, w->kinds, w->strips[i], w->n, w->walkers[i].back), "plain C opens nothing");
}

static void plain_walk(work *w, size_t i)
{
    uint8_t places[2];
    must(checked_walk(w->stock, w->kinds, w->reached, w->n, w->walker.back, places), "plain C does not walk");
    (void)i;
}

static void filed_number(work *w, size_t i)
{
    w->numbers[i] = nelfrupi_dictionary_number(w->stock, w->kinds, w->strips[i], w->n).number;
}

static void plain_filed_number(work *w, size_t i)
{
    w->numbers[i] = dictionary_number(w->strips[i], w->n);
}

static void filed_strip(work *w, size_t i)
{
    nelfrupi_dictionary_strip(w->stock, w->kinds, w->numbers[i], w->strips[i], w->n);
}

static void plain_filed_strip(work *w, size_t i)
{
    dictionary_strip(w->stock, w->kinds, w->numbers[i], w->strips[i], w->n);
}

static void filed_next(work *w, size_t i)
{
    must(nelfrupi_dictionary_next(w->stock, w->kinds, w->reached, w->n).no == 0, "the next strip is refused");
    (void)i;
}

static void checked_filed_next(work *w, size_t i)
{
    must(checked_step_by_dictionary(w->stock, w->kinds, w->reached, w->n), "the dictionary ends");
    (void)i;
}

static void plain_filed_next(work *w, size_t i)
{
    must(step_by_dictionary(w->reached, w->n), "the dictionary ends");
    (void)i;
}

/* One round of a call, over all strips. */
static double round_of(call *made, work *w)
{
    memcpy(w->reached, w->first, w->n);
    w->walker = (nelfrupi_walker){{false}};
    double began = now();
    for (int i = 0; i < STRIPS; i++) {
        made(w, (size_t)i);
    }
    return (now() - began) / STRIPS;
}

/* Of some calls, each the least of its rounds. The calls take turns, so that what else the machine does falls on all. */
static void least(call *const *made, int calls, work *w, double *took)
{
    for (int i = 0; i < calls; i++) {
        took[i] = round_of(made[i], w);
    }
    for (int round = 1; round < ROUNDS; round++) {
        for (int i = 0; i < calls; i++) {
            double spent = round_of(made[i], w);
            took[i] = spent < took[i] ? spent : took[i];
        }
    }
}

/* Two ways from strips to numbers and back must agree. Gives nanoseconds of the first, and how many times as long it takes
 * as the second. */
static void hold_numbers(work *w, call *const to_number[2], call *const to_strip[2], double took[2], double ratio[2])
{
    static uint64_t given[STRIPS], cut[STRIPS];
    static uint8_t lent[STRIPS][64];
    double spent[2];
    memcpy(lent, w->strips, sizeof lent);
    round_of(to_number[0], w);
    memcpy(given, w->numbers, sizeof given);
    memcpy(cut, w->cuts, sizeof cut);
    least(to_number, 2, w, spent);
    must(memcmp(given, w->numbers, sizeof given) == 0, "a number and plain C's differ");
    must(memcmp(cut, w->cuts, sizeof cut) == 0, "the cuts and plain C's differ");
    took[0] = spent[0];
    ratio[0] = spent[0] / spent[1];
    round_of(to_strip[0], w);
    must(memcmp(lent, w->strips, sizeof lent) == 0, "a number gives another strip");
    least(to_strip, 2, w, spent);
    must(memcmp(lent, w->strips, sizeof lent) == 0, "plain C gives another strip");
    took[1] = spent[0];
    ratio[1] = spent[0] / spent[1];
}

/* Open and Walk, and plain C that makes the same checks, must come to the same walkers and the same strip. */
static void hold_walkers(work *w, double took[2], double ratio[2])
{
    static call *const openings[2] = {opened, plain_opened}, *const walks[2] = {walk, plain_walk};
    static nelfrupi_walker given[STRIPS];
    uint8_t came[64];
    double spent[2];
    round_of(opened, w);
    memcpy(given, w->walkers, sizeof given);
    least(openings, 2, w, spent);
    must(memcmp(given, w->walkers, sizeof given) == 0, "Open and plain C's walker differ");
    took[0] = spent[0];
    ratio[0] = spent[0] / spent[1];
    round_of(walk, w);
    memcpy(came, w->reached, w->n);
    given[0] = w->walker;
    least(walks, 2, w, spent);
    must(memcmp(came, w->reached, w->n) == 0, "Walk and plain C come to different strips");
    must(memcmp(given, &w->walker, sizeof given[0]) == 0, "Walk and plain C come to different walkers");
    took[1] = spent[0];
    ratio[1] = spent[0] / spent[1];
}

static void print_calls(work *w)
{
    static call *const to_number[2] = {number, plain_number}, *const to_strip[2] = {strip, plain_strip};
    double took[4], ratio[4];
    hold_walkers(w, took, ratio);
    printf("%-12s%9.0f%9.0f", w->title, took[0], took[1]);
    if (w->numbered) {
        hold_numbers(w, to_number, to_strip, took + 2, ratio + 2);
        printf("%9.0f%9.0f%12.2f%12.2f%12.2f%12.2f\n", took[2], took[3], ratio[0], ratio[1], ratio[2], ratio[3]);
    } else {
        printf("%9s%9s%12.2f%12.2f%12s%12s\n", "-", "-", ratio[0], ratio[1], "-", "-");
    }
}

static void print_next(work *w)
{
    static call *const steps[3] = {filed_next, checked_filed_next, plain_filed_next};
    uint8_t came[64];
    double spent[3];
    round_of(filed_next, w);
    memcpy(came, w->reached, w->n);
    least(steps, 3, w, spent);
    must(memcmp(came, w->reached, w->n) == 0, "the next strip and plain C's differ");
    printf("%9.0f%12.2f%12.2f\n", spent[0], spent[0] / spent[1], spent[0] / spent[2]);
}

static void print_filed(work *w)
{
    static call *const to_number[2] = {filed_number, plain_filed_number}, *const to_strip[2] = {filed_strip, plain_filed_strip};
    static call *const numbers[2] = {filed_number, number};
    printf("%-12s", w->title);
    if (w->numbered) {
        double took[2], ratio[2], spent[2];
        least(numbers, 2, w, spent);
        hold_numbers(w, to_number, to_strip, took, ratio);
        printf("%9.0f%9.2f%9.0f%12.2f%12.2f", took[0], spent[0] / spent[1], took[1], ratio[0], ratio[1]);
    } else {
        printf("%9s%9s%9s%12s%12s", "-", "-", "-", "-", "-");
    }
    print_next(w);
}

static void print_all_calls(work *works)
{
    printf("\nA call: nanoseconds, of Walk from the first strip on, of the others on strips in no order; how many times as long\n"
           "Open and Walk take as plain C that makes the same checks; and how many times as long Number and Strip take as\n"
           "plain C that has a table of binomials, counts the cuts too, and checks nothing.\n\n");
    printf("%-12s%9s%9s%9s%9s%12s%12s%12s%12s\n", "stock", "Open", "Walk", "Number", "Strip", "Open / C", "Walk / C",
           "Number / C", "Strip / C");
    for (size_t i = 0; i < STOCKS; i++) {
        print_calls(&works[i]);
    }
    printf("\nA call on dictionary numbers: nanoseconds of number and strip on strips in no order, and of the next strip from the\n"
           "first on; how many times as long number takes as the book's Number; how many times as long number and strip take\n"
           "as plain C by the same way, which checks nothing; and the next strip as plain C that makes the same checks, and as\n"
           "plain C that makes none.\n\n");
    printf("%-12s%9s%9s%9s%12s%12s%9s%12s%12s\n", "stock", "number", "/ book", "strip", "number / C", "strip / C", "next",
           "/ checked C", "/ C");
    for (size_t i = 0; i < STOCKS; i++) {
        print_filed(&works[i]);
    }
}

#endif
