/* How long Replay takes for an exchange, beside one Number of each strip that stands, and beside plain C that tells the
 * same. */
#ifndef REPLAYS_H
#define REPLAYS_H

#include "work.h"

enum { REPLAY_ROUNDS = 40, BARS = 8, MOST_NUMBERS = 4096 };

/* A stock whose book Replay takes. */
typedef struct {
    const char *title;
    size_t kinds, n, strips;
    uint16_t stock[16];
    uint8_t first[64];
} bar;

typedef struct {
    bool right;
    uint64_t walked, different, missing;
} plain_replayed;

/* A list of exchanges from the first strip, the strips that stand after each, and what comes of it. */
typedef struct {
    size_t exchanges;
    uint8_t pairs[2 * STRIPS], stood[STRIPS][64], left[64];
    uint64_t numbers[STRIPS];
    nelfrupi_replayed given;
    plain_replayed plain;
} by_hand;

/* ---- plain C */

/* Whether a book has at most 4,096 strips; how many it has. */
static bool few_strips(const uint16_t *stock, size_t kinds, size_t *strips)
{
    size_t below = 0, product = 1;
    for (size_t j = 0; j < kinds && product <= MOST_NUMBERS; j++) {
        uint64_t patterns = binomials[below + stock[j]][below];
        product = patterns <= MOST_NUMBERS ? product * (size_t)patterns : MOST_NUMBERS + 1;
        below += stock[j];
    }
    *strips = product;
    return product <= MOST_NUMBERS;
}

static bool are_pairs(const uint8_t *pairs, size_t length, size_t n)
{
    for (size_t i = 0; i + 1 < length; i += 2) {
        if (pairs[i] == 0 || pairs[i + 1] <= pairs[i] || pairs[i + 1] > n) {
            return false;
        }
    }
    return length % 2 == 0;
}

/* One number for each exchange, a flag for each number, and two passes over the flags at the end. */
CALLED plain_replayed checked_replay(const uint16_t *stock, size_t kinds, uint8_t *strip, size_t n, const uint8_t *pairs,
                                     size_t length)
{
    bool seen[MOST_NUMBERS];
    plain_replayed told = {false, 0, 0, 0};
    size_t strips;
    if (!is_right(stock, kinds, strip, n) || !few_strips(stock, kinds, &strips) || !are_pairs(pairs, length, n)) {
        return told;
    }
    memset(seen, false, strips);
    uint64_t number = book_number(stock, kinds, strip, n).number;
    seen[number] = true;
    for (size_t i = 0; i < length; i += 2) {
        uint64_t before = number;
        exchange(strip, pairs[i] - 1u, pairs[i + 1] - 1u);
        number = book_number(stock, kinds, strip, n).number;
        seen[number] = true;
        told.walked += number == before + 1;
    }
    for (size_t i = 0; i < strips; i++) {
        told.different += seen[i];
    }
    while (told.missing < strips && seen[told.missing]) {
        told.missing++;
    }
    told.right = true;
    return told;
}

/* ---- lists of exchanges */

/* The moves of the whole book, as Run lists them. */
static void list_moves(const bar *b, by_hand *x)
{
    uint8_t strip[64];
    memcpy(strip, b->first, b->n);
    nelfrupi_ran ran =
        nelfrupi_run(b->stock, b->kinds, strip, b->n, (nelfrupi_walker){{false}}, false, x->pairs, sizeof x->pairs);
    must(ran.refusal.no == 0 && ran.ended && ran.moves == b->strips - 1, "Run does not go through the book");
    x->exchanges = (size_t)ran.moves;
}

/* Pairs in no order, the same in each run. */
static void list_any(const bar *b, by_hand *x)
{
    static uint64_t state = 1;
    x->exchanges = STRIPS;
    for (size_t i = 0; i < x->exchanges;) {
        state = state * 6364136223846793005u + 1442695040888963407u;
        size_t low = (state >> 33) % b->n, high = (state >> 48) % b->n;
        if (low < high) {
            x->pairs[2 * i] = (uint8_t)(low + 1);
            x->pairs[2 * i + 1] = (uint8_t)(high + 1);
            i++;
        }
    }
}

/* The strip that stands after each exchange. */
static void write_down(const bar *b, by_hand *x)
{
    const uint8_t *before = b->first;
    for (size_t i = 0; i < x->exchanges; i++) {
        memcpy(x->stood[i], before, b->n);
        exchange(x->stood[i], x->pairs[2 * i] - 1u, x->pairs[2 * i + 1] - 1u);
        before = x->stood[i];
    }
}

/* ---- times */

typedef void replaying(const bar *b, by_hand *x);

static void replayed(const bar *b, by_hand *x)
{
    memcpy(x->left, b->first, b->n);
    x->given = nelfrupi_replay(b->stock, b->kinds, x->left, b->n, x->pairs, 2 * x->exchanges);
}

static void plain_replayed_list(const bar *b, by_hand *x)
{
    memcpy(x->left, b->first, b->n);
    x->plain = checked_replay(b->stock, b->kinds, x->left, b->n, x->pairs, 2 * x->exchanges);
}

static void numbered(const bar *b, by_hand *x)
{
    for (size_t i = 0; i < x->exchanges; i++) {
        x->numbers[i] = nelfrupi_number(b->stock, b->kinds, x->stood[i], b->n).number;
    }
}

enum { REPLAYED, PLAIN_REPLAYED, NUMBERED, REPLAY_WAYS };

static replaying *const replay_ways[REPLAY_WAYS] = {replayed, plain_replayed_list, numbered};

/* Replay and plain C must tell the same, leave the strip that stands last, and agree with the numbers. */
static void hold_replays(const bar *b, by_hand *x)
{
    const uint8_t *last = x->stood[x->exchanges - 1];
    uint64_t walked = 0, before = 0;
    replayed(b, x);
    must(x->given.refusal.no == 0 && memcmp(x->left, last, b->n) == 0, "Replay leaves another strip");
    plain_replayed_list(b, x);
    must(x->plain.right && memcmp(x->left, last, b->n) == 0, "plain C leaves another strip");
    must(x->given.walked == x->plain.walked && x->given.different == x->plain.different &&
             x->given.missing == x->plain.missing,
         "Replay and plain C tell different things");
    numbered(b, x);
    for (size_t i = 0; i < x->exchanges; i++) {
        walked += x->numbers[i] == before + 1;
        before = x->numbers[i];
    }
    must(x->given.walked == walked, "Replay and the numbers differ");
}

/* Of each way the least of its rounds, in nanoseconds an exchange. The ways take turns. */
static void measure_replays(const bar *b, by_hand *x, double *took)
{
    size_t lists = (STRIPS + x->exchanges - 1) / x->exchanges;
    for (int round = 0; round < REPLAY_ROUNDS; round++) {
        for (int k = 0; k < REPLAY_WAYS; k++) {
            double began = now();
            for (size_t i = 0; i < lists; i++) {
                replay_ways[k](b, x);
            }
            double spent = (now() - began) / (double)(lists * x->exchanges);
            took[k] = round == 0 || spent < took[k] ? spent : took[k];
        }
    }
}

static void print_list(const bar *b, by_hand *x)
{
    double took[REPLAY_WAYS];
    write_down(b, x);
    hold_replays(b, x);
    measure_replays(b, x, took);
    printf("%9.0f%9.0f%10.2f%10.2f", took[REPLAYED], took[NUMBERED], took[REPLAYED] / took[NUMBERED],
           took[REPLAYED] / took[PLAIN_REPLAYED]);
}

static void print_replays(void)
{
    static bar bars[BARS] = {
        {.title = "six 1s", .kinds = 6, .stock = {1, 1, 1, 1, 1, 1}},
        {.title = "6 6", .kinds = 2, .stock = {6, 6}},
        {.title = "4 3 2", .kinds = 3, .stock = {4, 3, 2}},
        {.title = "2 2 2 2", .kinds = 4, .stock = {2, 2, 2, 2}},
        {.title = "12 1 1 1", .kinds = 4, .stock = {12, 1, 1, 1}},
        {.title = "30 1 1", .kinds = 3, .stock = {30, 1, 1}},
        {.title = "62 2", .kinds = 2, .stock = {62, 2}},
        {.title = "62 1 1", .kinds = 3, .stock = {62, 1, 1}},
    };
    static by_hand x;
    printf("\nReplay: nanoseconds of an exchange, of the moves of the whole book, T - 1 of them, and of %d pairs in no order; of\n"
           "one Number of the strips that stand then; and how many times as long an exchange takes as that Number, and as one of\n"
           "plain C that makes the same checks and tells the same.\n\n",
           STRIPS);
    printf("%-12s%6s%9s%9s%10s%10s%9s%9s%10s%10s\n", "stock", "T", "moves", "Number", "/ Number", "/ C", "no order", "Number",
           "/ Number", "/ C");
    for (size_t i = 0; i < BARS; i++) {
        bar *b = &bars[i];
        for (size_t j = 0; j < b->kinds; j++) {
            b->n += b->stock[j];
        }
        must(nelfrupi_first(b->stock, b->kinds, b->first, b->n).no == 0, "First refuses");
        b->strips = (size_t)nelfrupi_count(b->stock, b->kinds).total;
        printf("%-12s%6zu", b->title, b->strips);
        list_moves(b, &x);
        print_list(b, &x);
        list_any(b, &x);
        print_list(b, &x);
        printf("\n");
    }
}

#endif
