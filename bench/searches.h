/* How long the search for the next strip without equal neighbours takes, beside Run over the same moves and plain C that
 * gives the same. */
#ifndef SEARCHES_H
#define SEARCHES_H

#include "starts.h"

/* A set of long searches has so many, each of so many moves at most; it is gone through until it has made SET_MOVES. They
 * are the longest of those that make MOST_TRIED moves. */
enum { SEARCH_ROUNDS = 10, SET = 16, FAR = 10000, SET_MOVES = SET * FAR, MOST_TRIED = 16 * SET_MOVES };

/* The stocks that are searched besides those of the other tables. */
enum { MORE = 3 };

/* A set of searches: where they begin, the moves that each is given, and those that each makes. */
typedef struct {
    bool endless;
    size_t count;
    uint64_t given, moves[STRIPS];
    uint8_t strips[STRIPS][64], list[2 * SET_MOVES];
    nelfrupi_walker walkers[STRIPS];
} searches;

/* What one of them comes to. */
typedef struct {
    uint8_t strip[64], outcome;
    uint64_t moves;
    nelfrupi_walker walker;
} reached;

/* ---- one search, and Run over the same moves */

typedef void search_way(const work *w, searches *s, size_t i, reached *r);

static void by_search(const work *w, searches *s, size_t i, reached *r)
{
    nelfrupi_spaced spaced =
        nelfrupi_next_apart(w->stock, w->kinds, r->strip, w->n, s->walkers[i], s->endless, s->given);
    r->outcome = spaced.outcome;
    r->moves = spaced.moves;
    r->walker = spaced.walker;
}

static void by_run_alone(const work *w, searches *s, size_t i, reached *r)
{
    nelfrupi_ran ran =
        nelfrupi_run(w->stock, w->kinds, r->strip, w->n, s->walkers[i], false, s->list, 2 * (size_t)s->moves[i]);
    r->moves = ran.moves;
    r->walker = ran.walker;
}

static void by_plain_search(const work *w, searches *s, size_t i, reached *r)
{
    r->walker = s->walkers[i];
    plain_spaced spaced = checked_next_apart(w->stock, w->kinds, r->strip, w->n, r->walker.back, s->endless, s->given);
    r->outcome = spaced.outcome;
    r->moves = spaced.moves;
}

enum { SEARCHED, RUN_ALONE, PLAIN_SEARCHED, SEARCH_WAYS };

static search_way *const search_ways[SEARCH_WAYS] = {by_search, by_run_alone, by_plain_search};

/* ---- sets of searches */

/* The search of a set at i, begun there and made by plain C. */
static void begin_at(const work *w, searches *s, size_t i, const uint8_t *strip, nelfrupi_walker walker, reached *r)
{
    memcpy(s->strips[i], strip, w->n);
    memcpy(r->strip, strip, w->n);
    s->walkers[i] = walker;
    by_plain_search(w, s, i, r);
    s->moves[i] = r->moves;
}

/* So many searches from such strips, the longest of many. */
static void choose_longest(const work *w, searches *s, search_start *from, size_t count)
{
    uint64_t tried = 0;
    uint8_t strip[64];
    reached r;
    memset(s->moves, 0, sizeof s->moves);
    s->count = count;
    for (size_t i = 0; i < (count == 1 ? 1 : STRIPS) && tried < MOST_TRIED; i++) {
        size_t shortest = 0;
        for (size_t k = 0; k < count; k++) {
            shortest = s->moves[k] < s->moves[shortest] ? k : shortest;
        }
        from(w, i, strip);
        begin_at(w, s, count, strip, nelfrupi_open(w->stock, w->kinds, strip, w->n).walker, &r);
        tried += r.moves;
        if (s->moves[count] > s->moves[shortest]) {
            begin_at(w, s, shortest, strip, s->walkers[count], &r);
        }
    }
}

/* From a strip in no order on, each search from the strip that the one before found; false where few are found. */
static bool choose_chain(const work *w, searches *s)
{
    reached r;
    memcpy(r.strip, w->strips[0], w->n);
    r.walker = nelfrupi_open(w->stock, w->kinds, r.strip, w->n).walker;
    s->given = SET_MOVES;
    uint64_t moves = 0;
    for (s->count = 0; s->count < STRIPS && moves < SET_MOVES; s->count++) {
        uint8_t strip[64];
        memcpy(strip, r.strip, w->n);
        begin_at(w, s, s->count, strip, r.walker, &r);
        if (r.outcome != NELFRUPI_FOUND) {
            break;
        }
        moves += r.moves;
    }
    return s->count > SET;
}

/* From strips that are few moves before one that is found. */
static bool choose_few(const work *w, searches *s)
{
    uint8_t strip[64];
    nelfrupi_walker walker;
    reached r;
    s->given = UINT64_MAX;
    for (s->count = 0; s->count < STRIPS; s->count++) {
        if (!step_before(w, s->endless, strip, &walker)) {
            return false;
        }
        begin_at(w, s, s->count, strip, walker, &r);
    }
    return true;
}

/* ---- times */

/* The search and plain C must come to the same, and Run to the strip that is found. */
static void hold_searches(const work *w, const searches *s, reached ends[SEARCH_WAYS][STRIPS])
{
    for (size_t i = 0; i < s->count; i++) {
        const reached *r = &ends[SEARCHED][i], *plain = &ends[PLAIN_SEARCHED][i], *run = &ends[RUN_ALONE][i];
        must(r->outcome != 0 && r->outcome == plain->outcome, "a search and plain C's end differently");
        must(r->moves == s->moves[i] && r->moves == plain->moves && r->moves == run->moves, "the moves of a search differ");
        must(memcmp(r->strip, plain->strip, w->n) == 0, "a search and plain C leave different strips");
        must(memcmp(&r->walker, &plain->walker, sizeof r->walker) == 0, "a search and plain C give different walkers");
        must(r->outcome != NELFRUPI_FOUND || memcmp(r->strip, run->strip, w->n) == 0, "a search and Run differ");
    }
}

/* Of a set: the moves and the nanoseconds of a search, the nanoseconds of a move, and how many times as long as Run and as
 * plain C. */
typedef struct {
    double moves, call, move, run, plain;
} told;

/* Nanoseconds of a whole set one way. */
static double set_time(const work *w, searches *s, size_t passes, int way, reached *ends)
{
    double began = now();
    for (size_t pass = 0; pass < passes; pass++) {
        for (size_t i = 0; i < s->count; i++) {
            memcpy(ends[i].strip, s->strips[i], w->n);
            search_ways[way](w, s, i, &ends[i]);
        }
    }
    return (now() - began) / (double)passes;
}

static double middle(double *values)
{
    for (int i = 0; i < SEARCH_ROUNDS; i++) {
        for (int k = i; k > 0 && values[k] < values[k - 1]; k--) {
            double value = values[k];
            values[k] = values[k - 1];
            values[k - 1] = value;
        }
    }
    return values[SEARCH_ROUNDS / 2];
}

/* The time is the least of the rounds. How many times as long is asked in each round, in which the ways take turns, and the
 * middle is told: so where the machine is slow for a while, that falls on all ways. */
static told tell(const work *w, searches *s)
{
    static reached ends[SEARCH_WAYS][STRIPS];
    double run[SEARCH_ROUNDS], plain[SEARCH_ROUNDS], least = 0, calls = (double)s->count, moves = 0;
    for (size_t i = 0; i < s->count; i++) {
        moves += (double)s->moves[i];
    }
    size_t passes = s->count > SET ? 1 : 1 + (size_t)(SET_MOVES / moves);
    for (int round = 0; round < SEARCH_ROUNDS; round++) {
        double took[SEARCH_WAYS];
        for (int way = 0; way < SEARCH_WAYS; way++) {
            took[way] = set_time(w, s, passes, way, ends[way]);
        }
        least = round == 0 || took[SEARCHED] < least ? took[SEARCHED] : least;
        run[round] = took[SEARCHED] / took[RUN_ALONE];
        plain[round] = took[SEARCHED] / took[PLAIN_SEARCHED];
    }
    hold_searches(w, s, ends);
    return (told){moves / calls, least / calls, least / moves, middle(run), middle(plain)};
}

/* A line of long searches from each kind of strip. Answers the most that a move takes of one of Run. */
static double print_long(const work *w, searches *s)
{
    static search_start *const starts[4] = {from_first, from_any, from_front, from_end};
    double most = 0;
    for (int k = 0; k < 4; k++) {
        s->given = k == 0 ? SET_MOVES : FAR;
        choose_longest(w, s, starts[k], k == 0 ? 1 : SET);
        told t = tell(w, s);
        most = t.run > most ? t.run : most;
        printf("%10.1f%7.2f%7.2f", t.move, t.run, t.plain);
    }
    return most;
}

/* A line of searches that find a strip after few moves, and of a chain of them. */
static double print_short(const work *w, searches *s)
{
    if (choose_few(w, s)) {
        told t = tell(w, s);
        printf("%10.1f%10.0f%7.2f%7.2f", t.moves, t.call, t.run, t.plain);
    } else {
        printf("%10s%10s%7s%7s", "-", "-", "-", "-");
    }
    if (choose_chain(w, s)) {
        told t = tell(w, s);
        printf("%10.1f%10.1f%7.2f%7.2f", t.moves, t.move, t.run, t.plain);
        return t.run;
    }
    printf("%10s%10s%7s%7s", "-", "-", "-", "-");
    return 0;
}

/* Two lines for each stock, panel and endless. Answers the most of what they answer. */
static double print_lines(const work *works, const work *more, double (*print)(const work *w, searches *s))
{
    static searches s;
    double most = 0;
    for (size_t i = 0; i < 2 * (STOCKS + MORE); i++) {
        const work *w = i / 2 < STOCKS ? &works[i / 2] : &more[i / 2 - STOCKS];
        s.endless = i % 2 == 1;
        printf("%-12s%-8s", w->title, s.endless ? "endless" : "panel");
        double answered = print(w, &s);
        most = answered > most ? answered : most;
        printf("\n");
    }
    return most;
}

static void print_searches(const work *works, const work *more)
{
    printf("\nA move of Next apart in a long search: nanoseconds, and how many times as long as one of Run over the same moves, and\n"
           "as one of plain C by the left rule that makes the same checks and tests each strip in one pass. The searches begin at\n"
           "the first strip, up to %d moves; and up to %d at strips in no order, at strips where only blocks at the front\n"
           "touch, and at strips where only blocks at the end do, each time the longest of many.\n\n",
           SET_MOVES, FAR);
    printf("%-20s", "stock");
    static const char *const titles[4] = {"first", "no order", "front", "end"};
    for (int k = 0; k < 4; k++) {
        printf("%10s%7s%7s", titles[k], "/ Run", "/ C");
    }
    printf("\n");
    printf("\nA move takes at most %.2f times as long as one of Run.\n", print_lines(works, more, print_long));
    printf("\nA call of Next apart from one to four moves before a strip that it finds: the moves, nanoseconds, and how many times\n"
           "as long as Run over the same moves, and as that plain C. And the same of a chain of calls, each from the strip that the\n"
           "last one found, with the nanoseconds of a move, where more than %d are found on the way.\n\n",
           SET);
    printf("%-20s%10s%10s%7s%7s%10s%10s%7s%7s\n", "stock", "moves", "call", "/ Run", "/ C", "moves", "move", "/ Run", "/ C");
    print_lines(works, more, print_short);
}

#endif
