/* Measures the library against plain C that does the same on the same input in the same run, and prints times and how
 * many times as long the library takes. It also holds what they give against each other, and stops where they differ.
 *
 *     bench [MILLIONS]    at most so many millions of moves of a stock; without it, as many as the table says */
#include "calls.h"
#include "moves.h"
#include "pairs.h"
#include "papers.h"
#include "replays.h"
#include "searches.h"
#include "sheets.h"
#include "strides.h"

int main(int count, char **arguments)
{
    static work works[STOCKS] = {
        {.title = "3 3 3 3 3", .kinds = 5, .stock = {3, 3, 3, 3, 3}, .moves = 168167999},
        {.title = "2 3 5 2 3", .kinds = 5, .stock = {2, 3, 5, 2, 3}, .moves = 75675599},
        {.title = "24 13 10", .kinds = 3, .stock = {24, 13, 10}, .moves = 20000000},
        {.title = "32 32", .kinds = 2, .stock = {32, 32}, .moves = 20000000},
        {.title = "sixteen 4s", .kinds = 16, .stock = {4, 4, 4, 4, 4, 4, 4, 4, 4, 4, 4, 4, 4, 4, 4, 4}, .moves = 20000000},
    };
    static work more[MORE] = {
        {.title = "2 2 2 2 2 2", .kinds = 6, .stock = {2, 2, 2, 2, 2, 2}},
        {.title = "31 31 1", .kinds = 3, .stock = {31, 31, 1}},
        {.title = "16 16 16 16", .kinds = 4, .stock = {16, 16, 16, 16}},
    };
    uint64_t most = count > 1 ? strtoull(arguments[1], NULL, 10) * 1000000 : UINT64_MAX;
    must(most > 0, "MILLIONS is a number from 1 on");
    fill_binomials();
    for (size_t i = 0; i < STOCKS; i++) {
        prepare(&works[i]);
    }
    for (size_t i = 0; i < MORE; i++) {
        prepare(&more[i]);
    }
    print_moves(works, most);
    print_all_calls(works);
    print_pairs(works);
    print_papers(works);
    print_sheets(works);
    print_replays();
    print_strides(works);
    print_searches(works, more);
    return 0;
}
