/*
 * Uvalinda: numbers the squares of a rectangle along the Gilbert curve.
 *
 * An area is w squares wide and h high, each from 1 to 65,535, and has at most 16,777,216 squares in all: 4,096 by 4,096 passes, 4,096 by 4,097 does
 * not. Its numbers run from 0 to w * h - 1, and so take 24 bits at most. Its squares lie on the site grid, counted from a datum post: those from
 * (ox, oy), the area's origin, to (ox + w - 1, oy + h - 1). Each of ox and oy is from -1,000,000 to 1,000,000; a site that counts from the area's own
 * corner has origin 0, 0. Calls that ask or answer squares take the origin behind w and h, and have squares as int32_t; numbers, tables, checks,
 * cards and counts of blocks do not depend on it. Every call takes any numbers at all and comes to an end; nothing has to be checked before.
 *
 * What a call returns: 0, or the number of a refusal (UVALINDA_AREA_LIMIT and so on), or UVALINDA_SHORT_RESULT.
 *
 * What a call writes: its values go to the first places of `result` (`blocks` of a fill, `bytes` and `block` of cards), in the order given with each
 * call. At a refusal each of them is 0, except those that the call says it tells beside a refusal (the area in force, see uvalinda_handle_line, the
 * number of runs at NO_ROOM, see uvalinda_runs_for_window, and the block at BAD_CHECK, see uvalinda_read_card), and a table, a file, or the slice for
 * runs, is left as it was. Places after the values are never written. Where there are fewer places than values, the call writes nothing, fills
 * nothing and returns UVALINDA_SHORT_RESULT, whatever else there is to refuse.
 *
 * Who owns what: every pointer is lent for the time of the call. The library keeps nothing, allocates nothing, calls nothing and has no state, so
 * calls from several threads do not disturb each other; a fill, a check or writing a card of any area takes under 8 KB of stack, and reading a card
 * under 12 KB, on x86-64 and, by its frames, on Arm. A pointer is followed by its length, in places (in bytes, for a line or a file), and may be null
 * where that length is 0. What the caller has to see to, since C cannot: a pointer has as many places as its length says, and what is written to
 * overlaps nothing else that the same call was lent.
 *
 * Example: where is number 8 of a 3 by 4 area whose first square is (-5, 7)?
 *
 *     int32_t found[UVALINDA_SQUARE_PLACES];
 *     uint32_t refusal = uvalinda_number_to_square(3, 4, -5, 7, 8, found, UVALINDA_SQUARE_PLACES);
 *     if (refusal == UVALINDA_ANSWERED) {
 *         printf("(%d, %d), held by %d blocks\n", found[0], found[1], found[2]); // (-3, 8), held by 3 blocks
 *     } else {
 *         printf("refused: %u\n", refusal);
 *     }
 */
#ifndef UVALINDA_H
#define UVALINDA_H

#include <stddef.h>
#include <stdint.h>

#define UVALINDA_VERSION "2.0.0"

#ifdef __cplusplus
extern "C" {
#endif

/* What a call returns. 1 to 15 are the refusals; which of them a call can give is said with the call. */
#define UVALINDA_ANSWERED 0u        /* not refused */
#define UVALINDA_AREA_LIMIT 1u      /* w or h is 0 or over 65,535 */
#define UVALINDA_SQUARE_OUTSIDE 2u  /* x < ox, y < oy, x >= ox + w or y >= oy + h, in whole numbers; of a square or of a window's corner */
#define UVALINDA_NUMBER_OUTSIDE 3u  /* number >= w * h */
#define UVALINDA_TABLE_LENGTH 4u    /* the table has not exactly w * h places, or the file to be written not exactly as many bytes as its card */
#define UVALINDA_NOT_A_NUMBER 5u    /* a field of a line is not a number */
#define UVALINDA_WRONG_SHAPE 6u     /* a line has the wrong shape */
#define UVALINDA_NO_AREA 7u         /* an N, S or ORIGIN line with no area in force */
#define UVALINDA_LONG_LINE 8u       /* a line has over 64 bytes */
#define UVALINDA_TOO_DEEP 9u        /* over 64 blocks of the division hold a square; proved never to arise */
#define UVALINDA_CORNERS_CROSSED 10u /* x0 > x1 or y0 > y1 */
#define UVALINDA_NO_ROOM 11u        /* there are more runs than whole pairs of room; the value tells how many runs there are */
#define UVALINDA_ORIGIN_LIMIT 12u   /* ox or oy is under -1,000,000 or over 1,000,000 */
#define UVALINDA_TOO_MANY_SQUARES 13u /* the area has more than 16,777,216 squares */
#define UVALINDA_BAD_CHECK 14u      /* the check of a block of the file is bad; the value tells the first such block */
#define UVALINDA_DEPARTURE 15u      /* the file is otherwise not this area's card of this kind, there is no such kind, or the table is wrong */
#define UVALINDA_SHORT_RESULT 255u  /* `result`, `blocks`, `bytes` or `block` is too short: nothing was done */

/* How many values each call writes. */
#define UVALINDA_SQUARE_PLACES 3u
#define UVALINDA_NUMBER_PLACES 2u
#define UVALINDA_FINISH_PLACES 2u
#define UVALINDA_FILL_PLACES 1u
#define UVALINDA_CHECK_PLACES 3u
#define UVALINDA_CARD_LENGTH_PLACES 1u
#define UVALINDA_READ_PLACES 1u
#define UVALINDA_RUNS_PLACES 1u
#define UVALINDA_LINE_PLACES 8u

/* The kinds of a table, as a card has them: which of the two fills writes it. */
#define UVALINDA_BY_NUMBER 1u
#define UVALINDA_BY_SQUARE 2u

/* What kind of reply a line got: the fifth value of uvalinda_handle_line. */
#define UVALINDA_REPLY_REFUSED 0
#define UVALINDA_REPLY_AREA 1
#define UVALINDA_REPLY_CELL 2
#define UVALINDA_REPLY_NUMBER 3
#define UVALINDA_REPLY_ORIGIN 4

/*
 * The square of a number. Values: x, y, and how many blocks of the division hold the square, at most 41.
 * Refusals, in this order: AREA_LIMIT, TOO_MANY_SQUARES, ORIGIN_LIMIT, NUMBER_OUTSIDE, TOO_DEEP.
 */
uint32_t uvalinda_number_to_square(uint32_t w, uint32_t h, int32_t ox, int32_t oy, uint32_t number, int32_t *result, size_t result_length);

/*
 * The number of a square. Values: the number, and how many blocks of the division hold the square, at most 41.
 * Refusals, in this order: AREA_LIMIT, TOO_MANY_SQUARES, ORIGIN_LIMIT, SQUARE_OUTSIDE, TOO_DEEP.
 */
uint32_t uvalinda_square_to_number(uint32_t w, uint32_t h, int32_t ox, int32_t oy, int32_t x, int32_t y, uint32_t *result, size_t result_length);

/*
 * The finish square of an area, where a crew stands at the end: the square of number w * h - 1. Values: x, y. From the origin it lies (w - 1, 0) off,
 * except for width 1 with height above 1, where that is (0, h - 1), and for odd width of 3 or more with height 2, where it is (w - 2, 0).
 * Refusals, in this order: AREA_LIMIT, TOO_MANY_SQUARES, ORIGIN_LIMIT.
 */
uint32_t uvalinda_finish_square(uint32_t w, uint32_t h, int32_t ox, int32_t oy, int32_t *result, size_t result_length);

/*
 * Fills a table of exactly w * h places, in which a square counts from the area's own corner whatever the origin is: (0, 0) is the first. By number:
 * place i gets y * w + x of square number i. By square: place y * w + x gets the square's number. The largest table has 16,777,216 places, 64 MiB.
 * Value, of 64 bits: how many blocks the division has. They can be more than the area has squares, and are at most 33,554,431.
 * Refusals, in this order: AREA_LIMIT, TOO_MANY_SQUARES, TABLE_LENGTH, TOO_DEEP. The table is then as it was, as it is at SHORT_RESULT.
 */
uint32_t uvalinda_fill_by_number(uint32_t w, uint32_t h, uint32_t *table, size_t table_length, uint64_t *blocks, size_t blocks_length);
uint32_t uvalinda_fill_by_square(uint32_t w, uint32_t h, uint32_t *table, size_t table_length, uint64_t *blocks, size_t blocks_length);

/*
 * Checks a table of exactly w * h places against what the fill of the same kind would write. Values: 0, 0, 0 where it is right; else 1, the
 * first wrong place, and the value due there. A check by number stops there: no part of the table that begins behind that place is looked at. One
 * by square goes through the whole table.
 * Refusals, in this order: AREA_LIMIT, TOO_MANY_SQUARES, TABLE_LENGTH, TOO_DEEP.
 */
uint32_t uvalinda_check_by_number(uint32_t w, uint32_t h, const uint32_t *table, size_t table_length, uint32_t *result, size_t result_length);
uint32_t uvalinda_check_by_square(uint32_t w, uint32_t h, const uint32_t *table, size_t table_length, uint32_t *result, size_t result_length);

/*
 * A card is a file that holds a filled table, in blocks of 512 bytes, which are not those of the division. A block is 128 words of 32 bits, each with
 * its lowest byte first: 126 of content, one that counts those in use, and a check, which is 1 plus the sum of the other 127, modulo 2 to the 32nd.
 * Words that are not in use are 0. Block 0 uses four: the version, which is 1, then w, h and the kind of the table. The table stands from block 1 on,
 * 126 places to a block and the rest in the last one: place p at byte 512 * (1 + p / 126) + 4 * (p % 126). The origin is not on a card.
 *
 * How many bytes the card of an area has. Value, of 64 bits: UVALINDA_CARD_BYTES(w, h), at most 68,174,848. The macro is for an area that is known to
 * be accepted, as where the length of an array has to be a constant; the call refuses any other.
 * Refusals, in this order: AREA_LIMIT, TOO_MANY_SQUARES.
 */
#define UVALINDA_CARD_BYTES(w, h) (512u * (1u + ((uint64_t)(w) * (uint64_t)(h) + 125u) / 126u))
uint32_t uvalinda_card_length(uint32_t w, uint32_t h, uint64_t *bytes, size_t bytes_length);

/*
 * Writes the card of a table to `file`, which has exactly as many bytes. `kind` says which table it is, UVALINDA_BY_NUMBER or UVALINDA_BY_SQUARE, and
 * only a right one is taken. There are no values, and so there is no SHORT_RESULT.
 * Refusals, in this order: AREA_LIMIT, TOO_MANY_SQUARES, TABLE_LENGTH for the table or the file, TOO_DEEP, DEPARTURE for any other kind or a wrong
 * table. The file is then as it was.
 */
uint32_t uvalinda_write_card(uint32_t w, uint32_t h, uint32_t kind, const uint32_t *table, size_t table_length, uint8_t *file, size_t file_length);

/*
 * Reads the table of a card from `file`. The one file that is taken is what uvalinda_write_card writes for this area and this kind.
 * Value, of 64 bits: at BAD_CHECK the index of the first whole block whose check is bad, which can be 0; else 0.
 * Refusals, in this order: AREA_LIMIT, TOO_MANY_SQUARES, TABLE_LENGTH for the table, TOO_DEEP, BAD_CHECK for any whole block of the file, also behind
 * those of the card, DEPARTURE for every other file that is not the card, as one of another length, and for any other kind. The table is then as it
 * was, as it is at SHORT_RESULT.
 *
 * A table goes onto a card and comes back:
 *
 *     uint32_t table[3 * 4];
 *     uint8_t file[UVALINDA_CARD_BYTES(3, 4)]; // 1,024 bytes
 *     uint64_t blocks[UVALINDA_FILL_PLACES], block[UVALINDA_READ_PLACES];
 *     uvalinda_fill_by_number(3, 4, table, 12, blocks, UVALINDA_FILL_PLACES);
 *     uint32_t refusal = uvalinda_write_card(3, 4, UVALINDA_BY_NUMBER, table, 12, file, sizeof file);
 *     if (refusal == UVALINDA_ANSWERED) { // another depot does this, from its copy of the file
 *         refusal = uvalinda_read_card(3, 4, UVALINDA_BY_NUMBER, file, sizeof file, table, 12, block, UVALINDA_READ_PLACES);
 *     }
 *     if (refusal == UVALINDA_ANSWERED) {
 *         printf("place 8 holds %u\n", table[8]); // place 8 holds 5
 *     } else if (refusal == UVALINDA_BAD_CHECK) {
 *         printf("block %llu is bad\n", (unsigned long long)block[0]);
 *     } else {
 *         printf("refused: %u\n", refusal);
 *     }
 */
uint32_t uvalinda_read_card(uint32_t w, uint32_t h, uint32_t kind, const uint8_t *file, size_t file_length, uint32_t *table, size_t table_length,
                            uint64_t *block, size_t block_length);

/*
 * The numbers of the squares with x from x0 to x1 and y from y0 to y1, ends included, as runs: the pairs (first, last) go to `runs` one behind the
 * other, ascending, no two runs touching or overlapping. Places behind the last pair are not written; room is whole pairs, so that an odd last place
 * never is. Value: how many runs there are, also at NO_ROOM.
 * Refusals, in this order: AREA_LIMIT, TOO_MANY_SQUARES, ORIGIN_LIMIT, CORNERS_CROSSED, SQUARE_OUTSIDE for a corner outside the area, NO_ROOM,
 * TOO_DEEP. `runs` is then as it was, as it is at SHORT_RESULT. A window of W by H squares takes time by its border, W + H, not by its area.
 *
 * Who does not know how much room to lend asks first with none:
 *
 *     uint32_t count[UVALINDA_RUNS_PLACES];
 *     uint32_t refusal = uvalinda_runs_for_window(3, 4, 0, 0, 0, 0, 1, 1, NULL, 0, count, UVALINDA_RUNS_PLACES);
 *     if (refusal == UVALINDA_NO_ROOM) {
 *         size_t places = 2 * (size_t)count[0];
 *         uint32_t *runs = malloc(places * sizeof *runs);
 *         if (runs != NULL) { // with that much room the call is answered
 *             uvalinda_runs_for_window(3, 4, 0, 0, 0, 0, 1, 1, runs, places, count, UVALINDA_RUNS_PLACES);
 *             for (size_t i = 0; i < count[0]; i++) {
 *                 printf("%u to %u\n", runs[2 * i], runs[2 * i + 1]); // 0 to 1, then 9 to 10
 *             }
 *             free(runs);
 *         }
 *     } else {
 *         printf("refused: %u\n", refusal);
 *     }
 */
uint32_t uvalinda_runs_for_window(uint32_t w, uint32_t h, int32_t ox, int32_t oy, int32_t x0, int32_t y0, int32_t x1, int32_t y1, uint32_t *runs,
                                  size_t runs_length, uint32_t *result, size_t result_length);

/*
 * Answers one order line: `AREA w h`, `ORIGIN ox oy`, `N i` or `S x y`, any bytes, without the newline. The caller keeps the area in force as four
 * numbers, w, h, ox and oy, begins with 0 each for none, and hands on from line to line what the last call left. Numbers that are no accepted area,
 * such as one of too many squares, or an origin beyond the range, count as none.
 *
 * Which area is in force after the line: an accepted AREA line sets w and h, and the origin to 0 0. An accepted ORIGIN line sets the origin,
 * whatever it was: it does not add to it. A refused line whose first bytes are AREA or ORIGIN leaves no area, whatever it is refused for. No other
 * line, refused or not, alters the area or its origin.
 *
 * A number of the line is plain, as 30, or padded with zeros to exactly ten digits, as 0000000030; 07 is none. Those of ORIGIN and S may carry a
 * minus, as -30 or -0000000030, and are at most 2,147,483,647 either way; -0 is none.
 *
 * Values, of 64 bits, so that one type holds signed and unsigned 32-bit numbers: w, h, ox and oy of the area in force after the line, 0 each for
 * none, also where the line is refused; then
 *   UVALINDA_REPLY_AREA, how many squares the area has, x and y of its finish square; or
 *   UVALINDA_REPLY_ORIGIN, ox, oy, 0; or
 *   UVALINDA_REPLY_CELL, x, y, blocks; or
 *   UVALINDA_REPLY_NUMBER, number, blocks, 0; or
 *   UVALINDA_REPLY_REFUSED, 0, 0, 0.
 * Refusals, in this order: LONG_LINE, WRONG_SHAPE, NOT_A_NUMBER, NO_AREA for any line but AREA, then those of the call that the line asks for; of an
 * AREA line AREA_LIMIT and TOO_MANY_SQUARES, of an ORIGIN line ORIGIN_LIMIT.
 *
 * A form line by line, each under the area that the one before it left:
 *
 *     const char *form[] = {"AREA 3 4", "ORIGIN -5 7", "N 8"};
 *     int64_t now[UVALINDA_LINE_PLACES] = {0}; // no area in force
 *     for (size_t i = 0; i < 3; i++) {
 *         uint32_t refusal = uvalinda_handle_line((uint32_t)now[0], (uint32_t)now[1], (int32_t)now[2], (int32_t)now[3],
 *                                                 (const uint8_t *)form[i], strlen(form[i]), now, UVALINDA_LINE_PLACES);
 *         if (refusal != UVALINDA_ANSWERED) {
 *             printf("refused: %u\n", refusal);
 *         } else if (now[4] == UVALINDA_REPLY_CELL) {
 *             printf("(%d, %d)\n", (int)now[5], (int)now[6]); // (-3, 8)
 *         }
 *     }
 */
uint32_t uvalinda_handle_line(uint32_t w, uint32_t h, int32_t ox, int32_t oy, const uint8_t *line, size_t line_length, int64_t *result,
                              size_t result_length);

#ifdef __cplusplus
}
#endif

#endif
