/* How long an order of so many moves takes as a press sheet of single moves and as one of a stride. */
#ifndef STRIDES_H
#define STRIDES_H

#include "work.h"

enum { ORDER = 10000000, ORDERS = 3, STRIDE_ROUNDS = 20, STRIDE_REPEATS = 500, LONG_ROUNDS = 3 };

/* An order: its sheet of single moves, its sheet of one stride, and room for what is written again. */
typedef struct {
    uint64_t moves;
    size_t listed, strided;
    uint8_t *single, stride[92], none[83], out[92], shown[64];
} order;

typedef void order_call(const work *w, order *o);

static void write_single(const work *w, order *o)
{
    nelfrupi_written given = nelfrupi_write_sheet(w->stock, w->kinds, w->first, w->n, o->moves, o->single, o->listed);
    must(given.refusal.no == 0 && given.length == o->listed, "writing single moves is refused");
}

static void write_stride(const work *w, order *o)
{
    nelfrupi_written given = nelfrupi_write_long(w->stock, w->kinds, w->first, w->n, o->moves, o->stride, 92);
    must(given.refusal.no == 0 && given.length == o->strided, "writing a stride is refused");
}

static void read_order(const uint8_t *sheet, size_t length, uint64_t moves, order *o)
{
    nelfrupi_readout given = nelfrupi_read_editions(sheet, length, o->shown, 64);
    must(given.refusal.no == 0 && given.moves == moves, "reading is refused");
}

static void read_single(const work *w, order *o)
{
    read_order(o->single, o->listed, o->moves, o);
    (void)w;
}

static void read_stride(const work *w, order *o)
{
    read_order(o->stride, o->strided, o->moves, o);
    (void)w;
}

/* The sheet of the same stock and strip without a record behind them but the end. */
static void read_none(const work *w, order *o)
{
    read_order(o->none, 83, 0, o);
    (void)w;
}

static void rewrite_single(const work *w, order *o)
{
    nelfrupi_written given = nelfrupi_rewrite(o->single, o->listed, o->out, 92);
    must(given.refusal.no == 0 && given.length == o->strided, "rewriting is refused");
    (void)w;
}

/* Number of the first strip of the order, and Strip of the last. */
static void number_and_strip(const work *w, order *o)
{
    nelfrupi_numbered first = nelfrupi_number(w->stock, w->kinds, w->first, w->n);
    must(first.refusal.no == 0, "Number refuses");
    must(nelfrupi_strip(w->stock, w->kinds, first.number + o->moves, o->shown, w->n).no == 0, "Strip refuses");
}

enum { WRITE_SINGLE, READ_SINGLE, REWRITE_SINGLE, WRITE_STRIDE, READ_STRIDE, READ_NONE, NUMBER_AND_STRIP, ORDER_CALLS };

static order_call *const order_calls[ORDER_CALLS] = {write_single, read_single, rewrite_single,  write_stride,
                                                     read_stride,  read_none,   number_and_strip};

/* The strip that each way leads to must be the same, and so the sheet that is written and the one that is rewritten. */
static void hold_order(const work *w, order *o)
{
    uint8_t shown[64];
    must(nelfrupi_write_long(w->stock, w->kinds, w->first, w->n, 0, o->none, 83).length == 83, "writing is refused");
    write_single(w, o);
    write_stride(w, o);
    number_and_strip(w, o);
    memcpy(shown, o->shown, w->n);
    for (int k = READ_SINGLE; k <= READ_STRIDE; k += READ_STRIDE - READ_SINGLE) {
        memset(o->shown, 0, 64);
        order_calls[k](w, o);
        must(memcmp(o->shown, shown, w->n) == 0, "the final strips of one order differ");
    }
    rewrite_single(w, o);
    must(memcmp(o->out, o->stride, o->strided) == 0, "a sheet that is written and one that is rewritten differ");
}

/* Of a call the least of its rounds, in nanoseconds. */
static double order_time(const work *w, order *o, order_call *made, int rounds, int repeats)
{
    double least = 0;
    for (int round = 0; round < rounds; round++) {
        double began = now();
        for (int i = 0; i < repeats; i++) {
            made(w, o);
        }
        double spent = (now() - began) / repeats;
        least = round == 0 || spent < least ? spent : least;
    }
    return least;
}

static void print_order(const work *w, order *o)
{
    double took[ORDER_CALLS];
    hold_order(w, o);
    for (int k = 0; k < ORDER_CALLS; k++) {
        bool many = k <= REWRITE_SINGLE && o->moves == ORDER;
        took[k] = order_time(w, o, order_calls[k], many ? LONG_ROUNDS : STRIDE_ROUNDS, many ? 1 : STRIDE_REPEATS);
    }
    double stride = took[READ_STRIDE] - took[READ_NONE];
    printf("%-11s%9llu%11.0f%11.0f%11.0f%8.0f%8.0f%8.0f%8.0f%10.1f%8.2f\n", w->title, (unsigned long long)o->moves,
           took[WRITE_SINGLE], took[READ_SINGLE], took[REWRITE_SINGLE], took[WRITE_STRIDE], took[READ_STRIDE], stride,
           took[NUMBER_AND_STRIP], took[READ_SINGLE] / took[READ_STRIDE], stride / took[NUMBER_AND_STRIP]);
}

/* Of the stocks that can be numbered, from the first strip. */
static void print_strides(const work *works)
{
    static const uint64_t moves[ORDERS] = {3, 1000, ORDER};
    static order o;
    o.single = malloc(83 + 3 * (size_t)ORDER);
    must(o.single != NULL, "no memory for a sheet");
    printf("\nAn order of so many moves from the first strip, as a press sheet of single moves and as one of a stride:\n"
           "nanoseconds of writing, reading and rewriting the first, and of writing and reading the second; of the stride\n"
           "alone, which is what reading takes more than for a sheet without moves; and of one Number and one Strip. How many\n"
           "times as long the moves take to read as the stride's sheet, and the stride alone as the Number and the Strip.\n\n");
    printf("%-11s%9s%11s%11s%11s%8s%8s%8s%8s%10s%8s\n", "stock", "moves", "write", "read", "rewrite", "write 5", "read 5",
           "stride", "N + S", "read/5", "5/N+S");
    for (size_t i = 0; i < SIXTEEN; i++) {
        for (size_t k = 0; k < ORDERS; k++) {
            o.moves = moves[k];
            o.listed = 83 + 3 * (size_t)moves[k];
            o.strided = 92;
            print_order(&works[i], &o);
        }
    }
    free(o.single);
}

#endif
