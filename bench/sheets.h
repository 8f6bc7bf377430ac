/* How long a press sheet takes: writing it, beside plain C that writes the same bytes, and rebuilding it. */
#ifndef SHEETS_H
#define SHEETS_H

#include "work.h"

enum { SHEET_ROUNDS = 20, MOST_STRIPS = 1024, PILE = 16 * (83 + 3 * 10000), MOST_MOVES = 10000 };

/* The sheets of so many moves from the first so many strips: as they are written, and with every move spoiled. */
typedef struct {
    size_t moves, strips, length;
    uint8_t right[PILE], spoiled[PILE], out[83 + 3 * MOST_MOVES];
} pile;

typedef void sheet_call(const work *w, pile *p, size_t i);

static void written(const work *w, pile *p, size_t i)
{
    nelfrupi_written given = nelfrupi_write_sheet(w->stock, w->kinds, w->strips[i], w->n, p->moves, p->out, p->length);
    must(given.refusal.no == 0 && given.length == p->length, "writing a sheet is refused");
}

/* It makes the checks of a stock and a strip, and writes as it walks: where the book ends too early, half a sheet. */
static void plain_written(const work *w, pile *p, size_t i)
{
    static uint8_t list[2 * MOST_MOVES];
    uint8_t word[64] = {0};
    bool back[16] = {false};
    must(checked_open(w->stock, w->kinds, w->strips[i], w->n, back), "plain C opens nothing");
    memset(p->out, 0, 82);
    p->out[0] = 1;
    for (size_t j = 0; j < w->kinds; j++) {
        p->out[1 + j] = (uint8_t)w->stock[j];
    }
    p->out[17] = 2;
    memcpy(p->out + 18, w->strips[i], w->n);
    memcpy(word, w->strips[i], w->n);
    must(run_by_left(w->stock, w->kinds, word, w->n, back, list, p->moves) == p->moves, "the book ends");
    for (size_t m = 0; m < p->moves; m++) {
        uint8_t *at = p->out + 82 + 3 * m;
        at[0] = 3;
        at[1] = list[2 * m];
        at[2] = list[2 * m + 1];
    }
    p->out[82 + 3 * p->moves] = 4;
}

static void rebuilt(const uint8_t *sheets, uint64_t differing, pile *p, size_t i)
{
    nelfrupi_rebuilt given = nelfrupi_rebuild(sheets + i * p->length, p->length, p->out, p->length);
    must(given.refusal.no == 0 && given.moves == p->moves && given.differing == differing, "rebuilding goes wrong");
}

static void rebuilt_right(const work *w, pile *p, size_t i)
{
    rebuilt(p->right, 0, p, i);
    (void)w;
}

static void rebuilt_spoiled(const work *w, pile *p, size_t i)
{
    rebuilt(p->spoiled, p->moves, p, i);
    (void)w;
}

enum { WRITTEN, PLAIN_WRITTEN, REBUILT, REBUILT_SPOILED, SHEET_CALLS };

static sheet_call *const sheet_calls[SHEET_CALLS] = {written, plain_written, rebuilt_right, rebuilt_spoiled};

/* Each call must leave the sheet that writing leaves. */
static void hold_sheets(const work *w, pile *p)
{
    for (size_t i = 0; i < p->strips; i++) {
        uint8_t *right = p->right + i * p->length, *spoiled = p->spoiled + i * p->length;
        written(w, p, i);
        memcpy(right, p->out, p->length);
        memcpy(spoiled, p->out, p->length);
        for (size_t at = 82; at < p->length; at++) {
            spoiled[at] ^= 64;
        }
        for (int k = PLAIN_WRITTEN; k < SHEET_CALLS; k++) {
            memset(p->out, 0, p->length);
            sheet_calls[k](w, p, i);
            must(memcmp(p->out, right, p->length) == 0, "a sheet and the one that is written differ");
        }
    }
}

/* Of each call the least of its rounds, in nanoseconds a sheet. The calls take turns. */
static void measure_sheets(const work *w, pile *p, double *took)
{
    for (int round = 0; round < SHEET_ROUNDS; round++) {
        for (int k = 0; k < SHEET_CALLS; k++) {
            double began = now();
            for (size_t i = 0; i < p->strips; i++) {
                sheet_calls[k](w, p, i);
            }
            double spent = (now() - began) / (double)p->strips;
            took[k] = round == 0 || spent < took[k] ? spent : took[k];
        }
    }
}

static void print_sheets(const work *works)
{
    static const size_t moves[3] = {0, 30, MOST_MOVES}, strips[3] = {MOST_STRIPS, MOST_STRIPS, 16};
    static pile p;
    double took[SHEET_CALLS];
    printf("\nA press sheet of so many moves: nanoseconds of writing it and of rebuilding it, undamaged and with every move\n"
           "spoiled; how many times as long each takes as writing; and writing as plain C that makes the same checks and\n"
           "walks once.\n\n");
    printf("%-12s%9s%11s%11s%11s%12s%12s%12s\n", "stock", "moves", "write", "rebuild", "spoiled", "rebuild", "spoiled",
           "write / C");
    for (size_t i = 0; i < STOCKS; i++) {
        for (size_t k = 0; k < 3; k++) {
            p.moves = moves[k];
            p.strips = strips[k];
            p.length = 83 + 3 * p.moves;
            hold_sheets(&works[i], &p);
            measure_sheets(&works[i], &p, took);
            printf("%-12s%9zu%11.0f%11.0f%11.0f%12.2f%12.2f%12.2f\n", works[i].title, p.moves, took[WRITTEN], took[REBUILT],
                   took[REBUILT_SPOILED], took[REBUILT] / took[WRITTEN], took[REBUILT_SPOILED] / took[WRITTEN],
                   took[WRITTEN] / took[PLAIN_WRITTEN]);
        }
    }
}

#endif
