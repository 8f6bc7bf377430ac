/* How long a move takes: Run, and plain C through the same strips. */
#ifndef MOVES_H
#define MOVES_H

#include "work.h"

enum { ROOM = 50000 };

/* The ways through the strips of a stock, on, and back again over what the first two have made. */
enum { RUN, LEFT, RECURSION, DICTIONARY, ON, RUN_BACK = ON, LEFT_BACK, WAYS };

/* One way through the strips of a stock: where it stands, and the processor's time that it took. */
typedef struct {
    uint8_t strip[64], list[2 * ROOM];
    nelfrupi_walker walker;
    double took;
} way;

/* ---- so many moves, as many as the list has room for at most */

typedef void moving(const work *w, way *v, size_t moves, bool back);

static void by_run(const work *w, way *v, size_t moves, bool back)
{
    nelfrupi_ran ran = nelfrupi_run(w->stock, w->kinds, v->strip, w->n, v->walker, back, v->list, 2 * moves);
    must(ran.refusal.no == 0 && ran.moves == moves, "Run stops");
    v->walker = ran.walker;
}

static void by_left_rule(const work *w, way *v, size_t moves, bool back)
{
    plain_run *run = back ? run_back_by_left : run_by_left;
    must(run(w->stock, w->kinds, v->strip, w->n, v->walker.back, v->list, moves) == moves, "the book ends");
}

static void by_rule(const work *w, way *v, size_t moves, bool back)
{
    must(!back, "there is no way back by the recursion");
    must(run_by_recursion(w->stock, w->kinds, v->strip, w->n, v->walker.back, v->list, moves) == moves, "the book ends");
}

static void by_dictionary(const work *w, way *v, size_t moves, bool back)
{
    must(!back, "there is no way back through the dictionary");
    for (size_t i = 0; i < moves; i++) {
        must(step_by_dictionary(v->strip, w->n), "the dictionary ends");
    }
}

static void stand(way *v, const uint8_t *strip, nelfrupi_walker walker, size_t n)
{
    memcpy(v->strip, strip, n);
    v->walker = walker;
}

/* One list of moves each way, in turn, so that what else the machine does falls on all of them. */
static void go(const work *w, way *ways, size_t moves)
{
    static moving *const movings[WAYS] = {by_run, by_left_rule, by_rule, by_dictionary, by_run, by_left_rule};
    for (int i = 0; i < WAYS; i++) {
        bool back = i >= ON;
        if (back) {
            stand(&ways[i], ways[i - ON].strip, ways[i - ON].walker, w->n);
        }
        double began = now();
        movings[i](w, &ways[i], moves, back);
        ways[i].took += now() - began;
    }
}

/* The ways through the book must come to the same strip by the same places. */
static void hold_together(const work *w, const way *ways, size_t moves)
{
    for (int i = LEFT; i <= RECURSION; i++) {
        must(memcmp(ways[RUN].strip, ways[i].strip, w->n) == 0, "Run and plain C come to different strips");
        must(memcmp(ways[RUN].list, ways[i].list, 2 * moves) == 0, "Run and plain C list different places");
    }
}

/* Those back must come to where the moves on began, by the same places in reverse order. */
static void hold_back(const work *w, const way *ways, const uint8_t *began, size_t moves)
{
    for (int i = RUN_BACK; i <= LEFT_BACK; i++) {
        must(memcmp(began, ways[i].strip, w->n) == 0, "the way back ends elsewhere");
        for (size_t m = 0; m < moves; m++) {
            const uint8_t *there = ways[RUN].list + 2 * (moves - 1 - m), *back = ways[i].list + 2 * m;
            must(there[0] == back[0] && there[1] == back[1], "the way back lists different places");
        }
    }
}

static void walk_all(const work *w, way *ways)
{
    uint8_t began[64];
    for (uint64_t made = 0; made < w->moves;) {
        size_t moves = w->moves - made < ROOM ? (size_t)(w->moves - made) : ROOM;
        memcpy(began, ways[RUN].strip, w->n);
        go(w, ways, moves);
        hold_together(w, ways, moves);
        hold_back(w, ways, began, moves);
        made += moves;
    }
}

/* What a move takes each way, in nanoseconds. */
static void measure_moves(const work *w, double *took)
{
    static way ways[WAYS];
    for (int i = 0; i < WAYS; i++) {
        ways[i].took = 0;
        stand(&ways[i], w->first, (nelfrupi_walker){{false}}, w->n);
    }
    walk_all(w, ways);
    for (int i = 0; i < WAYS; i++) {
        took[i] = ways[i].took / (double)w->moves;
    }
}

static void print_on(const work *w, const double *took)
{
    printf("%-12s%12.0f", w->title, (double)w->moves);
    for (int i = RUN; i < ON; i++) {
        printf("%11.1f", took[i]);
    }
    for (int i = LEFT; i < ON; i++) {
        printf("%11.2f", took[RUN] / took[i]);
    }
    printf("\n");
}

static void print_back(const work *w, const double *took)
{
    printf("%-12s%11.1f%11.1f%11.2f%11.2f\n", w->title, took[RUN_BACK], took[LEFT_BACK], took[RUN_BACK] / took[RUN],
           took[RUN_BACK] / took[LEFT_BACK]);
}

static void print_moves(work *works, uint64_t most)
{
    static double took[STOCKS][WAYS];
    printf("A move, from the first strip on: nanoseconds of Run, of plain C by the left rule, by the recursion and in\n"
           "dictionary order; and how many times as long Run takes as each.\n\n");
    printf("%-12s%12s%11s%11s%11s%11s%11s%11s%11s\n", "stock", "moves", "Run", "left", "recursion", "dictionary", "left",
           "recursion", "dictionary");
    for (size_t i = 0; i < STOCKS; i++) {
        works[i].moves = works[i].moves < most ? works[i].moves : most;
        measure_moves(&works[i], took[i]);
        print_on(&works[i], took[i]);
    }
    printf("\nA move of Run of 32 32 takes %.2f times as long as one of 3 3 3 3 3.\n", took[3][RUN] / took[0][RUN]);
    printf("\nA move back over the same strips: nanoseconds of Run and of plain C by the left rule; and how many times as long\n"
           "Run takes back as on, and as that plain C.\n\n");
    printf("%-12s%11s%11s%11s%11s\n", "stock", "Run", "left", "on", "left");
    for (size_t i = 0; i < STOCKS; i++) {
        print_back(&works[i], took[i]);
    }
}

#endif
