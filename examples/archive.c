/* Looks a strip up by its number, as the archive does when a decorator rings: archive NUMBER COUNT..
 * It prints the strip with the number that the strip itself has, then the next strips of the book, each with the two
 * places whose blocks the press exchanges to come to it, then where as many moves back lead, and the press sheet of the
 * moves on. */
#include <errno.h>
#include <stdbool.h>
#include <stdio.h>
#include <stdlib.h>

#include "nelfrupi.h"

enum { MOST_BLOCKS = 64, MOVES = 4 };

static bool read_number(const char *text, uint64_t most, uint64_t *number)
{
    char *end;
    if (*text < '0' || *text > '9') {
        return false;
    }
    errno = 0;
    *number = strtoull(text, &end, 10);
    return *end == '\0' && errno == 0 && *number <= most;
}

static bool accepted(nelfrupi_refusal refusal)
{
    if (refusal.no != 0) {
        printf("refused %u %llu\n", (unsigned)refusal.no, (unsigned long long)refusal.place);
    }
    return refusal.no == 0;
}

static void print_strip(uint64_t number, const uint8_t *strip, size_t length)
{
    printf("%llu ", (unsigned long long)number);
    for (size_t i = 0; i < length; i++) {
        printf(i == 0 ? "%u" : "-%u", (unsigned)strip[i]);
    }
}

/* Goes back as the press driver does, who lends the walker, and prints the strip that so many moves lead to. */
static bool print_back(const uint16_t *stock, size_t kinds, uint8_t *strip, size_t length, nelfrupi_walker walker,
                       uint64_t moves)
{
    for (uint64_t m = 0; m < moves; m++) {
        if (!accepted(nelfrupi_drive(stock, kinds, strip, length, &walker, true).refusal)) {
            return false;
        }
    }
    nelfrupi_numbered numbered = nelfrupi_number(stock, kinds, strip, length);
    if (!accepted(numbered.refusal)) {
        return false;
    }
    print_strip(numbered.number, strip, length);
    printf(" by as many moves back\n");
    return true;
}

/* Prints the strips that follow, by the places that Run lists, and where as many moves back lead. */
static bool print_next(const uint16_t *stock, size_t kinds, const uint8_t *strip, size_t length, uint64_t number)
{
    uint8_t shown[MOST_BLOCKS], moved[MOST_BLOCKS], list[2 * MOVES];
    for (size_t i = 0; i < length; i++) {
        shown[i] = moved[i] = strip[i];
    }
    nelfrupi_opened opened = nelfrupi_open(stock, kinds, strip, length);
    nelfrupi_ran ran = nelfrupi_run(stock, kinds, moved, length, opened.walker, false, list, sizeof list);
    if (!accepted(ran.refusal)) {
        return false;
    }
    for (uint64_t m = 0; m < ran.moves; m++) {
        uint8_t low = list[2 * m], high = list[2 * m + 1], block = shown[low - 1];
        shown[low - 1] = shown[high - 1];
        shown[high - 1] = block;
        print_strip(number + m + 1, shown, length);
        printf(" by exchanging places %u and %u\n", (unsigned)low, (unsigned)high);
    }
    if (ran.ended) {
        printf("the book ends here\n");
    }
    return print_back(stock, kinds, moved, length, ran.walker, ran.moves);
}

/* Prints the press sheet of the moves that follow, a record a line. */
static bool print_sheet(const uint16_t *stock, size_t kinds, const uint8_t *strip, size_t length)
{
    uint8_t sheet[83 + 3 * MOVES];
    uint64_t moves = MOVES;
    nelfrupi_written written = nelfrupi_write_sheet(stock, kinds, strip, length, moves, sheet, sizeof sheet);
    while (written.refusal.no == 9) {
        moves--; /* near the end of the book fewer are left */
        written = nelfrupi_write_sheet(stock, kinds, strip, length, moves, sheet, sizeof sheet);
    }
    if (!accepted(written.refusal)) {
        return false;
    }
    printf("press sheet, %llu bytes:\n", (unsigned long long)written.length);
    for (size_t at = 0; at < written.length;) {
        size_t body = sheet[at] == 1 ? 16 : sheet[at] == 2 ? 64 : sheet[at] == 3 ? 2 : 0;
        for (size_t i = 0; i <= body; i++) {
            printf(i == 0 ? "%u" : " %u", (unsigned)sheet[at + i]);
        }
        printf("\n");
        at += 1 + body;
    }
    return true;
}

int main(int argc, char **argv)
{
    uint16_t stock[MOST_BLOCKS];
    uint8_t strip[MOST_BLOCKS];
    uint64_t number, count;
    size_t kinds = 0, length = 0;
    if (argc < 2 || argc - 2 > MOST_BLOCKS || !read_number(argv[1], UINT64_MAX, &number)) {
        fprintf(stderr, "usage: archive NUMBER COUNT..\n");
        return 2;
    }
    for (int i = 2; i < argc; i++) {
        if (!read_number(argv[i], UINT16_MAX, &count)) {
            fprintf(stderr, "archive: %s is no count\n", argv[i]);
            return 2;
        }
        stock[kinds++] = (uint16_t)count;
        length += count;
    }
    /* an accepted stock has at most 64 blocks, so that its strips fit the buffer */
    if (!accepted(nelfrupi_count(stock, kinds).refusal) ||
        !accepted(nelfrupi_strip(stock, kinds, number, strip, length))) {
        return 1;
    }
    nelfrupi_numbered numbered = nelfrupi_number(stock, kinds, strip, length);
    if (!accepted(numbered.refusal)) {
        return 1;
    }
    print_strip(numbered.number, strip, length);
    printf("\n");
    return print_next(stock, kinds, strip, length, numbered.number) && print_sheet(stock, kinds, strip, length) ? 0 : 1;
}
