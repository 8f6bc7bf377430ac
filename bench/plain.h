/* Plain C to hold the library against. Nothing is checked where the name does not say so: the caller lends what is
 * right. The book is stepped through by the rule's own recursion and by the rule from the left, as the library does it,
 * and numbered by the recursion, whose cuts are counted, with a table of binomials, which the library has not. */
#ifndef PLAIN_H
#define PLAIN_H

#include <stdbool.h>
#include <stddef.h>
#include <stdint.h>
#include <string.h>

/* A call stays a call, as those of the library do. */
#define CALLED __attribute__((noinline)) static

/* One text serves for both finders, and each gets code of its own. */
#define ALWAYS __attribute__((always_inline)) static inline

static void exchange(uint8_t *strip, size_t low, size_t high)
{
    uint8_t block = strip[low];
    strip[low] = strip[high];
    strip[high] = block;
}

/* ---- one kind in a word of a blocks, of which so many are others: its move on, or back */

typedef struct {
    bool found;
    size_t low, high;
} plain_step;

typedef plain_step finder(const uint8_t *word, size_t a, uint8_t kind, size_t others, bool back);

static const plain_step nowhere = {false, 0, 0};

static plain_step or_else(plain_step step, size_t low, size_t high)
{
    return step.found ? step : (plain_step){true, low, high};
}

static plain_step word_prev(const uint8_t *word, size_t a, uint8_t kind, size_t others);

static plain_step word_next(const uint8_t *word, size_t a, uint8_t kind, size_t others)
{
    if (others == 0 || a <= others) {
        return nowhere;
    }
    if (word[a - 1] == kind) {
        return or_else(word_next(word, a - 1, kind, others), a - 2, a - 1);
    }
    if (word[a - 2] != kind) {
        return word_next(word, a - 2, kind, others - 2);
    }
    if (others == 1) {
        return nowhere;
    }
    return or_else(word_prev(word, a - 2, kind, others - 1), others - 2, a - 2);
}

static plain_step word_prev(const uint8_t *word, size_t a, uint8_t kind, size_t others)
{
    if (others == 0 || a <= others) {
        return nowhere;
    }
    if (word[a - 1] == kind) {
        return word_prev(word, a - 1, kind, others);
    }
    if (word[a - 2] == kind) {
        return or_else(word_next(word, a - 2, kind, others - 1), a - 2, a - 1);
    }
    return or_else(word_prev(word, a - 2, kind, others - 2), others - 2, a - 2);
}

static inline plain_step by_recursion(const uint8_t *word, size_t a, uint8_t kind, size_t others, bool back)
{
    return back ? word_prev(word, a, kind, others) : word_next(word, a, kind, others);
}

/* Where a run that begins at a place ends: of the kind, or of others. */
static inline size_t run_end(const uint8_t *word, size_t a, uint8_t kind, bool own, size_t from)
{
    while (from < a && (word[from] == kind) == own) {
        from++;
    }
    return from;
}

/* By the first runs of the word: x of the kind, perhaps none, and others to before j. */
static inline plain_step by_left(const uint8_t *word, size_t a, uint8_t kind, size_t others, bool back)
{
    size_t x = run_end(word, a, kind, true, 0);
    size_t j = run_end(word, a, kind, false, x);
    if (((others - (j - x)) % 2 == 1) == back) {
        if (j == a) {
            return nowhere;
        }
        bool odd = (run_end(word, a, kind, false, j + 1) - (j + 1)) % 2 == 1;
        return odd ? (plain_step){true, j, j + 1} : (plain_step){true, j - 1, j};
    }
    if (x > 0) {
        return j == x ? nowhere : (plain_step){true, (j - x) % 2 == 1 ? x - 1 : 0, x};
    }
    size_t k = run_end(word, a, kind, true, j);
    size_t l = run_end(word, a, kind, false, k);
    if (l == k) {
        return nowhere;
    }
    return (l - k) % 2 == 1 ? (plain_step){true, j - 1, k - 1} : (plain_step){true, j, k};
}

/* The reduced strip at a kind; answers its length. Each block is written, and the next one over it where it is not to
 * stay: no branch hangs on a block. */
static size_t reduce(const uint8_t *strip, size_t n, uint8_t kind, uint8_t *word)
{
    size_t a = 0;
    for (size_t i = 0; i < n; i++) {
        word[a] = strip[i];
        a += strip[i] <= kind;
    }
    return a;
}

/* Whether the index of the kind's pattern is odd. C(a, b) is where a - b and b have no binary digit in common. */
static bool has_odd_index(const uint8_t *word, size_t a, uint8_t kind, size_t others)
{
    bool odd = false, turned = false;
    while (others < a) {
        bool ends = (others & (--a - others)) == 0, own = word[a] == kind;
        odd ^= own ? turned && !ends : ends;
        others -= !own;
        turned = !own && !turned;
    }
    return odd;
}

static uint64_t binomials[65][65];

static void fill_binomials(void)
{
    for (size_t a = 0; a <= 64; a++) {
        binomials[a][0] = binomials[a][a] = 1;
        for (size_t b = 1; b < a; b++) {
            binomials[a][b] = binomials[a - 1][b - 1] + binomials[a - 1][b];
        }
    }
}

/* The cuts that it takes are added to those before. */
static uint64_t word_index(const uint8_t *word, size_t a, uint8_t kind, size_t others, uint64_t *cuts)
{
    if (others == 0 || a <= others) {
        return 0;
    }
    ++*cuts;
    if (word[a - 1] == kind) {
        return word_index(word, a - 1, kind, others, cuts);
    }
    uint64_t before = binomials[a - 1][others];
    if (word[a - 2] == kind) {
        return before + binomials[a - 2][others - 1] - 1 - word_index(word, a - 2, kind, others - 1, cuts);
    }
    return before + binomials[a - 2][others - 1] + word_index(word, a - 2, kind, others - 2, cuts);
}

/* The first blocks of the word are those of the others. */
static void word_lay(uint8_t *word, size_t a, uint8_t kind, size_t others, uint64_t index)
{
    bool turned = false;
    while (others < a) {
        uint64_t ends = binomials[--a][others];
        if (index < ends) {
            word[a] = kind;
            index = turned ? ends - 1 - index : index;
            turned = false;
        } else {
            word[a] = word[--others];
            index -= ends;
            turned = !turned;
        }
    }
}

/* ---- the book of a stock */

/* Whether a stock and a strip of it are right: what refusals 1 to 6 look at. */
static bool is_right(const uint16_t *stock, size_t kinds, const uint8_t *strip, size_t length)
{
    size_t n = 0, seen[17] = {0};
    bool right = kinds >= 1 && kinds <= 16 && stock[kinds - 1] != 0;
    for (size_t j = 0; right && j < kinds; j++) {
        n += stock[j];
        right = n <= 64;
    }
    if (!right || length != n) {
        return false;
    }
    for (size_t i = 0; i < n; i++) {
        if (strip[i] == 0 || strip[i] > kinds) {
            return false;
        }
        seen[strip[i]]++;
    }
    for (size_t j = 0; j < kinds; j++) {
        right = right && seen[j + 1] == stock[j];
    }
    return right;
}

/* The next strip of the book, or the one before it, with the directions of its kinds and the places, from 1, of the two
 * blocks that are exchanged; false where there is none. */
ALWAYS bool book_beside(finder *find, bool before, const uint16_t *stock, size_t kinds, uint8_t *strip, size_t n,
                        bool *back, uint8_t *places)
{
    size_t lo = 0, hi = n;
    for (size_t j = kinds; j-- > 0;) {
        bool heading = back[j] != before;
        plain_step step = find(strip + lo, hi - lo, (uint8_t)(j + 1), hi - lo - stock[j], heading);
        if (step.found) {
            exchange(strip, lo + step.low, lo + step.high);
            places[0] = (uint8_t)(lo + step.low + 1);
            places[1] = (uint8_t)(lo + step.high + 1);
            for (size_t i = j + 1; i < kinds; i++) {
                back[i] = !back[i];
            }
            return true;
        }
        if (heading) {
            hi -= stock[j];
        } else {
            lo += stock[j];
        }
    }
    return false;
}

/* Moves as Run does: answers how many moves there are, at most as many as the list has room for. */
ALWAYS size_t book_run(finder *find, bool before, const uint16_t *stock, size_t kinds, uint8_t *strip, size_t n,
                       bool *back, uint8_t *list, size_t room)
{
    size_t moves = 0;
    while (moves < room && book_beside(find, before, stock, kinds, strip, n, back, list + 2 * moves)) {
        moves++;
    }
    return moves;
}

typedef size_t plain_run(const uint16_t *stock, size_t kinds, uint8_t *strip, size_t n, bool *back, uint8_t *list,
                         size_t room);

CALLED size_t run_by_recursion(const uint16_t *stock, size_t kinds, uint8_t *strip, size_t n, bool *back, uint8_t *list,
                               size_t room)
{
    return book_run(by_recursion, false, stock, kinds, strip, n, back, list, room);
}

CALLED size_t run_by_left(const uint16_t *stock, size_t kinds, uint8_t *strip, size_t n, bool *back, uint8_t *list,
                          size_t room)
{
    return book_run(by_left, false, stock, kinds, strip, n, back, list, room);
}

CALLED size_t run_back_by_left(const uint16_t *stock, size_t kinds, uint8_t *strip, size_t n, bool *back, uint8_t *list,
                               size_t room)
{
    return book_run(by_left, true, stock, kinds, strip, n, back, list, room);
}

typedef struct {
    uint64_t number, cuts;
} plain_numbered;

CALLED plain_numbered book_number(const uint16_t *stock, size_t kinds, const uint8_t *strip, size_t n)
{
    uint64_t number = 0, cuts = 0;
    size_t below = 0;
    for (size_t j = 0; j < kinds; j++) {
        uint8_t word[64];
        size_t a = reduce(strip, n, (uint8_t)(j + 1), word);
        uint64_t index = word_index(word, a, (uint8_t)(j + 1), below, &cuts), patterns = binomials[a][below];
        number = number * patterns + (number % 2 == 1 ? patterns - 1 - index : index);
        below += stock[j];
    }
    return (plain_numbered){number, cuts};
}

CALLED void book_strip(const uint16_t *stock, size_t kinds, uint64_t number, uint8_t *strip, size_t n)
{
    uint64_t indices[16];
    size_t a = n, below = 0;
    for (size_t j = kinds; j-- > 0;) {
        uint64_t patterns = binomials[a][a - stock[j]], place = number % patterns;
        number /= patterns;
        indices[j] = number % 2 == 1 ? patterns - 1 - place : place;
        a -= stock[j];
    }
    for (size_t j = 0; j < kinds; j++) {
        a = below + stock[j];
        word_lay(strip, a, (uint8_t)(j + 1), below, indices[j]);
        below = a;
    }
}

/* The direction of each kind at a strip. */
static void directions(const uint16_t *stock, size_t kinds, const uint8_t *strip, size_t n, bool *back)
{
    bool odd = false;
    size_t below = 0;
    memset(back, false, 16);
    for (size_t j = 0; j < kinds; j++) {
        uint8_t word[64];
        back[j] = odd;
        odd ^= has_odd_index(word, reduce(strip, n, (uint8_t)(j + 1), word), (uint8_t)(j + 1), below);
        below += stock[j];
    }
}

CALLED bool checked_open(const uint16_t *stock, size_t kinds, const uint8_t *strip, size_t n, bool *back)
{
    if (!is_right(stock, kinds, strip, n)) {
        return false;
    }
    directions(stock, kinds, strip, n, back);
    return true;
}

typedef struct {
    uint8_t which, kind;
} plain_compared;

/* Which of two words of a blocks has the kind's pattern first, in the kind's list or in the reversed one. */
static uint8_t word_order(const uint8_t *one, const uint8_t *two, size_t a, uint8_t kind, bool back)
{
    bool turned = false;
    while (a-- > 0) {
        bool own = one[a] == kind;
        if (own != (two[a] == kind)) {
            return own == back ? 2 : 1;
        }
        back ^= own && turned;
        turned = !own && !turned;
    }
    return 3;
}

/* Which of two strips stands first in the book, 3 where they are the same, and the first kind from 2 upward at which their
 * reduced strips differ; 0 and 0 where a strip or the stock is not right. */
CALLED plain_compared checked_which(const uint16_t *stock, size_t kinds, const uint8_t *first, const uint8_t *second,
                                    size_t n)
{
    if (!is_right(stock, kinds, first, n) || !is_right(stock, kinds, second, n)) {
        return (plain_compared){0, 0};
    }
    bool odd = false;
    size_t below = stock[0];
    for (uint8_t kind = 2; kind <= kinds; kind++) {
        uint8_t one[64], two[64];
        size_t a = reduce(first, n, kind, one);
        reduce(second, n, kind, two);
        if (memcmp(one, two, a) != 0) {
            return (plain_compared){word_order(one, two, a, kind, odd), kind};
        }
        odd ^= has_odd_index(one, a, kind, below);
        below = a;
    }
    return (plain_compared){3, 0};
}

/* One move on by the recursion, of a strip and directions that are looked at first. */
CALLED bool checked_walk(const uint16_t *stock, size_t kinds, uint8_t *strip, size_t n, bool *back, uint8_t *places)
{
    bool right[16];
    return checked_open(stock, kinds, strip, n, right) && memcmp(right, back, sizeof right) == 0 &&
           book_beside(by_recursion, false, stock, kinds, strip, n, back, places);
}

#endif
