/* The strip book for C: the calls of target/staticlib/libexports.a, which `./library` proves and builds.
 *
 * WORDS
 *   stock    how many blocks there are of each kind: 1 to 16 counts, the last not 0, their sum n at most 64.
 *            Kinds are numbered from 1: stock[0] is the count of kind 1. A kind whose count is 0 keeps its number.
 *   strip    one order of the stock: n bytes, each a kind, each kind as often as its count says.
 *            Places are numbered from 1: the block at place p is strip[p - 1].
 *   book     all strips of a stock, each once, in one fixed order. From a strip to the next, two blocks change places.
 *   number   a strip's place in its book, counted from 0. T is the number of strips in the book, so the last is T - 1.
 *   walker   the direction in which each kind moves at one strip, also of kinds whose count is 0. Each strip has one
 *            walker, which nelfrupi_open gives.
 *   dictionary, dictionary number
 *            the same strips as in a dictionary: of two, the first place at which they differ decides, and the lower kind
 *            comes first. A strip's place there, counted from 0, is its dictionary number.
 *   paper    what a strip is when it is hung endless, either end up: the strip and all its turns, as it stands and read
 *            backwards, are one paper. The smallest of them in dictionary order is the standing strip of the paper.
 *
 * LENDING
 *   A list is lent as a pointer to its first element and a length, which is a number of elements. The pointer is not
 *   NULL, also where the length is 0, and so many elements can be read there, and written if it is not const. What can
 *   be written overlaps with nothing else that is lent to the same call. What the elements are is free: any content is
 *   taken, and a bad one is refused. A walker's sixteen bytes are each true or false.
 *   No call keeps a pointer, takes memory or has a state of its own. Every call comes back.
 *   Besides the caller's stack nelfrupi_walk and nelfrupi_drive need up to 11 KiB, for a recursion that is at most 64
 *   deep, nelfrupi_replay up to 5 KiB, for its flags, and each other call up to 2 KiB. This was measured on the library as
 *   an older kit built it, and is not promised.
 *
 * REFUSALS
 *   Each answer says in `refusal` whether the call was accepted (no 0, place 0) or refused (a number of this table, and
 *   its place). A refused call leaves everything that was lent as it was. In its answer every other number is 0, a bool
 *   is false, and a walker is the one that was lent; nelfrupi_open has none to give back, and gives all forward.
 *   Where several rows hold, the first one in the order that stands with the call is answered.
 *
 *   no  when                                                            place
 *    1  the stock has no kinds, or more than 16                         0
 *    2  the last count is 0                                             that kind
 *    3  n is above 64                                                   0
 *    4  a strip, or a buffer for a strip, has not the length n          0
 *    5  a byte of a strip is no kind of the stock                       the smallest such place
 *    6  a strip has more or fewer blocks of a kind than its count, as   the smallest such kind
 *       where a byte names a kind whose count is 0
 *    7  T is 2^64 or more;                                              0
 *       in a stride of a sheet                                          the record's first byte, counted from 0
 *    8  the number is T or more                                         0
 *    9  no strip follows in the book, or for going back none precedes;  0
 *       for writing a sheet, fewer strips follow than moves are asked;
 *       for nelfrupi_dictionary_next, none follows in the dictionary
 *   10  the walker is not the one of the strip                          the smallest kind whose direction is wrong
 *   11  a record of a sheet is missing, unknown, out of order or cut    the record's first byte, counted from 0, or
 *       short, a strip's padding is not zero, or bytes follow the end;  that of the first byte after the end
 *       for rebuilding also, the sheet has under 82 bytes               0
 *   12  a move of a sheet is not the next one, or none is left;         the record's first byte, counted from 0
 *       a stride passes the last strip
 *   13  the buffer for a sheet has fewer bytes than it needs: 83 + 3c   0
 *       for c moves, or 92 for one stride
 *   14  the distance is below -2^63, or above 2^63 - 1                  0
 *   15  T is above 4,096                                                0
 *   16  a pair has a place outside 1 to n, its places are equal or      the smallest such pair's number, counted from 1
 *       fall, or half a pair stands at the end
 *   17  the number of a stride is below 2                               the record's first byte, counted from 0
 */
#ifndef NELFRUPI_H
#define NELFRUPI_H

#include <stdbool.h>
#include <stddef.h>
#include <stdint.h>

#ifdef __cplusplus
extern "C" {
#endif

typedef struct {
    uint8_t no;
    uint64_t place;
} nelfrupi_refusal;

/* back[j - 1] is the direction of kind j: true is backward. Kind 1, and a kind that the stock has not, runs forward. */
typedef struct {
    bool back[16];
} nelfrupi_walker;

/* ---- the book and its numbers */

typedef struct {
    nelfrupi_refusal refusal;
    uint64_t total; /* T */
} nelfrupi_counted;

/* Count: how many strips the book of the stock has.
 * Refused: 1, 2, 3, 7. */
nelfrupi_counted nelfrupi_count(const uint16_t *stock, size_t kinds);

/* First: writes strip 0, the blocks of kind 1, then those of kind 2, and so on. The buffer has n bytes, and what they
 * were before is not looked at.
 * Refused: 1, 2, 3, 4; the buffer is then as it was. */
nelfrupi_refusal nelfrupi_first(const uint16_t *stock, size_t kinds, uint8_t *buffer, size_t length);

typedef struct {
    nelfrupi_refusal refusal;
    uint64_t number;
    uint64_t cuts; /* at most 840 */
} nelfrupi_numbered;

/* Number: the number of a strip, and the cuts that it takes to find it. For each kind from 2, with the kinds above it
 * taken out, the blocks of the kind are the letters K of a word and all others its letters R. As long as the word has
 * both letters, a cut takes the last one off where that is K, and else the last two. With N(j) for the blocks of kinds 1
 * to j, the cuts are at most the sum of N(j) - 1 over the kinds j from 2 that have blocks, leaving out the stock's first
 * kind that has any.
 * Refused: 1, 2, 3, 4, 5, 6, 7. */
nelfrupi_numbered nelfrupi_number(const uint16_t *stock, size_t kinds, const uint8_t *strip, size_t length);

/* Strip: writes the strip of a number. The buffer has n bytes, and what they were before is not looked at.
 * Refused: 1, 2, 3, 4, 7, 8; the buffer is then as it was. */
nelfrupi_refusal nelfrupi_strip(const uint16_t *stock, size_t kinds, uint64_t number, uint8_t *buffer, size_t length);

/* ---- the old drawers: dictionary numbers */

typedef struct {
    nelfrupi_refusal refusal;
    uint64_t number;
} nelfrupi_filed;

/* The dictionary number of a strip.
 * Refused: 1, 2, 3, 4, 5, 6, 7. */
nelfrupi_filed nelfrupi_dictionary_number(const uint16_t *stock, size_t kinds, const uint8_t *strip, size_t length);

/* Writes the strip of a dictionary number. The buffer has n bytes, and what they were before is not looked at.
 * Refused: 1, 2, 3, 4, 7, 8; the buffer is then as it was. */
nelfrupi_refusal nelfrupi_dictionary_strip(const uint16_t *stock, size_t kinds, uint64_t number, uint8_t *buffer,
                                           size_t length);

/* The lent strip becomes the next one in the dictionary, also where T is 2^64 or more.
 * Refused: 1, 2, 3, 4, 5, 6, 9; the strip is then as it was. */
nelfrupi_refusal nelfrupi_dictionary_next(const uint16_t *stock, size_t kinds, uint8_t *strip, size_t length);

/* Conversion: of the strip that has a number in the book, the dictionary number; and of the strip that has a dictionary
 * number, the number in the book. One after the other, in either order, they give the number one began with.
 * Refused: 1, 2, 3, 7, 8. */
nelfrupi_filed nelfrupi_to_dictionary(const uint16_t *stock, size_t kinds, uint64_t number);
nelfrupi_filed nelfrupi_to_book(const uint16_t *stock, size_t kinds, uint64_t number);

/* ---- two strips of one stock. The two may be the same bytes, or overlap */

enum { NELFRUPI_FIRST = 1, NELFRUPI_SECOND = 2, NELFRUPI_EQUAL = 3 };

typedef struct {
    nelfrupi_refusal refusal;
    uint8_t which; /* 1, 2 or 3 as named above; 0 where it is refused */
    uint8_t kind;  /* the kind at which the two part; 0 where they are equal, or where it is refused */
} nelfrupi_compared;

/* Which: the strip that stands first in the book, or that the two are equal, also where T is 2^64 or more; and the first
 * kind from 2 upward at which the two differ when all higher kinds are taken out of both. That kind settles the order:
 * after the checks none above it is looked at.
 * Refused: 1, 2, 3; then 4, 5, 6 of the first strip; then 4, 5, 6 of the second. */
nelfrupi_compared nelfrupi_which(const uint16_t *stock, size_t kinds, const uint8_t *first, size_t first_length,
                                 const uint8_t *second, size_t second_length);

typedef struct {
    nelfrupi_refusal refusal;
    int64_t moves;
} nelfrupi_apart;

/* Distance: the number of the second strip minus the number of the first; below 0 where the second stands first.
 * Refused: 1, 2, 3; then 4, 5, 6 of the first strip; then 4, 5, 6 of the second; then 7, 14. */
nelfrupi_apart nelfrupi_distance(const uint16_t *stock, size_t kinds, const uint8_t *first, size_t first_length,
                                 const uint8_t *second, size_t second_length);

typedef struct {
    nelfrupi_refusal refusal;
    bool same;
} nelfrupi_asked;

/* Same paper: whether the second strip is the first turned round, as it stands or read backwards. Turning by t places, t
 * from 0 to n - 1, takes the first t blocks in order to the end.
 * Refused: 1, 2, 3; then 4, 5, 6 of the first strip; then 4, 5, 6 of the second. */
nelfrupi_asked nelfrupi_same_paper(const uint16_t *stock, size_t kinds, const uint8_t *first, size_t first_length,
                                   const uint8_t *second, size_t second_length);

typedef struct {
    nelfrupi_refusal refusal;
    uint64_t turn;
    bool reversed;
} nelfrupi_stood;

/* Stand: the strip becomes the one that stands for its paper, of all its turns, as it stands and read backwards, the
 * smallest in dictionary order. `reversed` says whether the strip was reversed first, which it is only where no turn of it
 * as it stands will do; `turn` is the smallest number of places to turn it by then. Refused, 0 and false. Two strips become
 * the same exactly when Same paper says yes.
 * Refused: 1, 2, 3, 4, 5, 6. */
nelfrupi_stood nelfrupi_stand(const uint16_t *stock, size_t kinds, uint8_t *strip, size_t length);

/* How a search in steps ended. */
enum { NELFRUPI_FOUND = 1, NELFRUPI_NONE_LEFT = 2, NELFRUPI_STOPPED = 3 };

typedef struct {
    nelfrupi_refusal refusal;
    uint8_t outcome;
    uint64_t steps;
} nelfrupi_stepped;

/* Next paper: looks for the next later standing strip in dictionary order, within the given steps, each from a strip to
 * the next in the dictionary. `outcome` is one of the three above; refused, 0.
 *   found       the strip becomes that standing strip, and `steps` leads to it.
 *   none left   no later strip is standing, and the given steps reach the last strip; `steps` leads to the last.
 *   stopped     otherwise: all the given steps are made.
 * None left and stopped are no refusals, and leave the strip as it was. The first strip in dictionary order, which
 * nelfrupi_first gives, is standing; it and the strips found from there, each with T - 1 steps or more, are every paper of
 * the stock, once.
 * Refused: 1, 2, 3, 4, 5, 6. */
nelfrupi_stepped nelfrupi_next_paper(const uint16_t *stock, size_t kinds, uint8_t *strip, size_t length, uint64_t steps);

/* ---- walking, also where T is 2^64 or more */

typedef struct {
    nelfrupi_refusal refusal;
    nelfrupi_walker walker;
} nelfrupi_opened;

/* Open: the walker of a strip.
 * Refused: 1, 2, 3, 4, 5, 6. */
nelfrupi_opened nelfrupi_open(const uint16_t *stock, size_t kinds, const uint8_t *strip, size_t length);

typedef struct {
    nelfrupi_refusal refusal;
    uint8_t low;  /* the two places that changed blocks, */
    uint8_t high; /* smaller first */
    nelfrupi_walker walker;
} nelfrupi_moved;

/* Walk: the lent strip becomes the next strip of the book, or where back is true the one before it. The walker is the
 * strip's own; the answer has the one of the new strip.
 * Refused: 1, 2, 3, 4, 5, 6, 10, 9; the strip is then as it was. */
nelfrupi_moved nelfrupi_walk(const uint16_t *stock, size_t kinds, uint8_t *strip, size_t length,
                             nelfrupi_walker walker, bool back);

/* The same move for a driver that lends its walker: the answer is that of nelfrupi_walk, and the lent walker becomes the
 * one in the answer, so that the next call can take it as it stands.
 * Refused: 1, 2, 3, 4, 5, 6, 10, 9; the strip and the walker are then as they were. */
nelfrupi_moved nelfrupi_drive(const uint16_t *stock, size_t kinds, uint8_t *strip, size_t length,
                              nelfrupi_walker *walker, bool back);

typedef struct {
    nelfrupi_refusal refusal;
    uint64_t moves;
    bool ended; /* whether the strip is now the last of the book, or where back was true its strip 0 */
    nelfrupi_walker walker;
} nelfrupi_ran;

/* Run: moves the lent strip on, or where back is true back, move by move, and writes the two places of each move, smaller
 * first, into the list. It stops when the list has no room for two places more, or on the last strip of the book, or
 * going back on strip 0. So a list of 2 m bytes, or of one byte more, has room for m moves. The answer has the moves made
 * and the walker of the strip as it then stands; the bytes of the list after two for each move are as they were. No room,
 * and a start at that end of the book, are no refusals: it then makes 0 moves.
 * Refused: 1, 2, 3, 4, 5, 6, 10; the strip and the list are then as they were. */
nelfrupi_ran nelfrupi_run(const uint16_t *stock, size_t kinds, uint8_t *strip, size_t length, nelfrupi_walker walker,
                          bool back, uint8_t *list, size_t list_length);

typedef struct {
    nelfrupi_refusal refusal;
    uint8_t outcome;
    uint64_t moves;
    nelfrupi_walker walker;
} nelfrupi_spaced;

/* Next apart: looks for the next later strip of the book in which no two blocks of a kind are neighbours, within the given
 * moves. Where endless is true the last place also neighbours the first, and a strip of one block neighbours itself.
 * `outcome` says how the search ended, with the numbers of Next paper; refused, 0.
 *   found       the strip becomes that strip, `moves` leads to it, and the walker is its walker.
 *   none left   no later strip is such, and the given moves reach the last strip; `moves` leads to the last.
 *   stopped     otherwise: all the given moves are made.
 * None left and stopped are no refusals: the strip is then as it was, and the walker the one lent. The lent strip itself is
 * not looked at.
 * Refused: 1, 2, 3, 4, 5, 6, 10. */
nelfrupi_spaced nelfrupi_next_apart(const uint16_t *stock, size_t kinds, uint8_t *strip, size_t length,
                                    nelfrupi_walker walker, bool endless, uint64_t moves);

/* ---- what the press really printed: blocks exchanged by hand, for stocks with T up to 4,096 */

typedef struct {
    nelfrupi_refusal refusal;
    uint64_t walked;    /* how many exchanges were the walk's next move on from where the bar then stood */
    uint64_t different; /* how many different strips stood on the bar, the first one included */
    uint64_t missing;   /* the smallest number of a strip that never did; T where none is missing */
} nelfrupi_replayed;

/* Replay: exchanges pairs of blocks one after the other, and leaves the final strip in the lent one. A pair is two bytes,
 * the places of the two blocks, smaller first, as nelfrupi_run lists them; two blocks of one kind may be exchanged, which
 * changes nothing. An exchange was the walk's next move on where it made the next strip of the book. No pair is no refusal.
 * Refused: 1, 2, 3, 4, 5, 6, 15, 16; no exchange is then made, and the strip is as it was. */
nelfrupi_replayed nelfrupi_replay(const uint16_t *stock, size_t kinds, uint8_t *strip, size_t length,
                                  const uint8_t *pairs, size_t pairs_length);

/* ---- press sheets, also where T is 2^64 or more
 *
 * A sheet is a row of records, each a byte of kind and a body: 1 and sixteen bytes, the counts, with 0 for each kind
 * without blocks, and after the last; 2 and 64 bytes, the strip, with 0 after place n; 3 and two bytes for each move on,
 * its places, smaller first; and 4, the end. With c moves it has 83 + 3c bytes. */

typedef struct {
    nelfrupi_refusal refusal;
    uint64_t length; /* the bytes that were written */
} nelfrupi_written;

/* Writing: the sheet of a stock, a strip of it and c moves on from there, 83 + 3c bytes, at the start of the lent sheet,
 * whose later bytes are as they were. The strip is not moved.
 * Refused: 1, 2, 3, 4, 5, 6, 13, 9; the sheet is then as it was. */
nelfrupi_written nelfrupi_write_sheet(const uint16_t *stock, size_t kinds, const uint8_t *strip, size_t length,
                                      uint64_t moves, uint8_t *sheet, size_t sheet_length);

typedef struct {
    nelfrupi_refusal refusal;
    uint64_t moves; /* c */
} nelfrupi_readout;

/* Reading: takes exactly the sheets that nelfrupi_write_sheet gives, and writes the strip after the last move into the
 * first n bytes of the buffer, whose later bytes are as they were. The buffer has 64 bytes or more.
 * Refused: 4 for a buffer under 64 bytes; then record by record: 11 for a kind, an order or a body cut short; 1 (no
 * count but 0), 3 in the stock, whose kinds run to the last count that is not 0; 5, 6, then 11 for the padding, in the
 * strip; 12 in a move. A record that is missing is 11 at the sheet's length. The buffer is then as it was.
 * The places of 1, 3, 5 and 6 are the table's: kinds of the stock and places of the strip that the sheet holds. Only
 * those of 11 and 12 are bytes of the sheet. */
nelfrupi_readout nelfrupi_read_sheet(const uint8_t *sheet, size_t sheet_length, uint8_t *buffer, size_t length);

typedef struct {
    nelfrupi_refusal refusal;
    uint64_t moves;     /* c */
    uint64_t differing; /* how many of the c moves differed */
    uint64_t first;     /* the first of these, counted from 1; 0 where none differed */
} nelfrupi_rebuilt;

/* Rebuilding: of a sheet that may be damaged behind its stock and its strip, the proper sheet of c moves, at the start of
 * the second buffer, whose later bytes are as they were. With L bytes lent, c is (L - 82) / 3 rounded down, or the moves
 * left in the book if fewer. A move differed where its three bytes are not those of the damaged sheet at the same offset;
 * the end is written, and not compared. A sheet that nelfrupi_read_sheet takes comes out unchanged, with 0 differing.
 * Refused: 11 at 0 for under 82 bytes; then, as in reading, 11, 1, 3 in the stock and 11, 5, 6, 11 in the strip; then 13
 * for a second buffer of under 83 + 3c bytes. The second buffer is then as it was. */
nelfrupi_rebuilt nelfrupi_rebuild(const uint8_t *sheet, size_t sheet_length, uint8_t *out, size_t out_length);

/* ---- press sheets of edition 2, for long orders
 *
 * Edition 2 has one record more, 5 and eight bytes, the stride: a number of 2 or more, highest byte first, of moves on that
 * are not listed. Where T is below 2^64 it may stand wherever a move may. A sheet without strides is one of both editions.
 * nelfrupi_read_sheet meets a stride with 11, and nelfrupi_rebuild takes its bytes for damaged moves. */

/* Writing: the sheet of a stock, a strip of it and c moves on from there in its one form, at the start of the lent sheet,
 * whose later bytes are as they were. Where T is below 2^64 and c is 3 or more, it has one stride and no single moves, 92
 * bytes, and no move is made; otherwise it is the sheet of nelfrupi_write_sheet. No sheet that nelfrupi_read_editions reads
 * as the same stock, strip and moves is shorter.
 * Refused: 1, 2, 3, 4, 5, 6, 13, 9; the sheet is then as it was. */
nelfrupi_written nelfrupi_write_long(const uint16_t *stock, size_t kinds, const uint8_t *strip, size_t length,
                                     uint64_t moves, uint8_t *sheet, size_t sheet_length);

/* Reading: takes the sheets of both editions, and answers the moves of all their records together. A stride takes as long
 * whatever its number is. Otherwise, also in its refusals, it is nelfrupi_read_sheet.
 * Refused: as nelfrupi_read_sheet; in a stride 11 where it is cut short, then 17, 7, 12, each at the record's first byte. */
nelfrupi_readout nelfrupi_read_editions(const uint8_t *sheet, size_t sheet_length, uint8_t *buffer, size_t length);

/* Rewriting: of a sheet of either edition, the one form of its stock, its strip and its moves, at the start of the second
 * buffer, whose later bytes are as they were. A sheet in that form comes out unchanged.
 * Refused: as nelfrupi_read_editions, without 4; then 13. The second buffer is then as it was. */
nelfrupi_written nelfrupi_rewrite(const uint8_t *sheet, size_t sheet_length, uint8_t *out, size_t out_length);

#ifdef __cplusplus
}
#endif

#endif
