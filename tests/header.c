/*
 * The header as a C program and as a C++ program see it: every function answered, refused and with a result that is one place too short, with
 * the worked cases of documents 01 and 02; every constant by what a call returns or by its value.
 */
#include "uvalinda.h"

#include <stdio.h>
#include <string.h>

static int wrong = 0;

static void expect(int holds, const char *what) {
    if (!holds) {
        printf("header: not so: %s\n", what);
        wrong = 1;
    }
}

#define EXPECT(fact) expect((fact), #fact)

static void lookups(void) {
    int32_t found[UVALINDA_SQUARE_PLACES];
    uint32_t number[UVALINDA_NUMBER_PLACES];
    EXPECT(uvalinda_number_to_square(3, 4, 0, 0, 8, found, UVALINDA_SQUARE_PLACES) == UVALINDA_ANSWERED);
    EXPECT(found[0] == 2 && found[1] == 1 && found[2] == 3);
    EXPECT(uvalinda_number_to_square(3, 4, 0, 0, 12, found, UVALINDA_SQUARE_PLACES) == UVALINDA_NUMBER_OUTSIDE);
    EXPECT(found[0] == 0 && found[1] == 0 && found[2] == 0);
    EXPECT(uvalinda_number_to_square(65536, 1, 0, 0, 0, found, UVALINDA_SQUARE_PLACES) == UVALINDA_AREA_LIMIT);
    EXPECT(uvalinda_number_to_square(3, 4, 0, 0, 8, NULL, 0) == UVALINDA_SHORT_RESULT);
    EXPECT(uvalinda_number_to_square(3, 4, 0, 0, 8, found, UVALINDA_SQUARE_PLACES - 1) == UVALINDA_SHORT_RESULT);
    EXPECT(uvalinda_square_to_number(4, 3, 0, 0, 2, 1, number, UVALINDA_NUMBER_PLACES) == UVALINDA_ANSWERED);
    EXPECT(number[0] == 9 && number[1] == 3);
    EXPECT(uvalinda_square_to_number(4, 3, 0, 0, 4, 0, number, UVALINDA_NUMBER_PLACES) == UVALINDA_SQUARE_OUTSIDE);
    EXPECT(uvalinda_square_to_number(4, 3, 0, 0, 2, 1, number, UVALINDA_NUMBER_PLACES - 1) == UVALINDA_SHORT_RESULT);
    EXPECT(uvalinda_finish_square(5, 2, 0, 0, found, UVALINDA_FINISH_PLACES) == UVALINDA_ANSWERED);
    EXPECT(found[0] == 3 && found[1] == 0);
    EXPECT(uvalinda_finish_square(1, 7, 0, 0, found, UVALINDA_FINISH_PLACES) == UVALINDA_ANSWERED);
    EXPECT(found[0] == 0 && found[1] == 6);
    EXPECT(uvalinda_finish_square(65535, 256, 0, 0, found, UVALINDA_FINISH_PLACES) == UVALINDA_ANSWERED);
    EXPECT(found[0] == 65534 && found[1] == 0);
    EXPECT(uvalinda_finish_square(0, 5, 0, 0, found, UVALINDA_FINISH_PLACES) == UVALINDA_AREA_LIMIT);
    EXPECT(found[0] == 0 && found[1] == 0);
    EXPECT(uvalinda_finish_square(0, 5, 0, 0, found, UVALINDA_FINISH_PLACES - 1) == UVALINDA_SHORT_RESULT);
    EXPECT(UVALINDA_TOO_DEEP == 9);
}

/* Squares of the site, west and south of its post too: the same area as above, and the refusal of an origin, directly after that of an area. */
static void origins(void) {
    int32_t found[UVALINDA_SQUARE_PLACES];
    uint32_t number[UVALINDA_NUMBER_PLACES];
    EXPECT(uvalinda_number_to_square(3, 4, -5, 7, 8, found, UVALINDA_SQUARE_PLACES) == UVALINDA_ANSWERED);
    EXPECT(found[0] == -3 && found[1] == 8 && found[2] == 3);
    EXPECT(uvalinda_square_to_number(3, 4, -5, 7, -3, 8, number, UVALINDA_NUMBER_PLACES) == UVALINDA_ANSWERED);
    EXPECT(number[0] == 8 && number[1] == 3);
    EXPECT(uvalinda_square_to_number(3, 4, -5, 7, -6, 8, number, UVALINDA_NUMBER_PLACES) == UVALINDA_SQUARE_OUTSIDE);
    EXPECT(uvalinda_square_to_number(3, 4, 1000000, 0, INT32_MIN, 0, number, UVALINDA_NUMBER_PLACES) == UVALINDA_SQUARE_OUTSIDE);
    EXPECT(uvalinda_finish_square(3, 4, -1000000, 1000000, found, UVALINDA_FINISH_PLACES) == UVALINDA_ANSWERED);
    EXPECT(found[0] == -999998 && found[1] == 1000000);
    EXPECT(uvalinda_finish_square(3, 4, -1000001, 0, found, UVALINDA_FINISH_PLACES) == UVALINDA_ORIGIN_LIMIT);
    EXPECT(found[0] == 0 && found[1] == 0);
    EXPECT(uvalinda_number_to_square(3, 4, 0, 1000001, 12, found, UVALINDA_SQUARE_PLACES) == UVALINDA_ORIGIN_LIMIT);
    EXPECT(uvalinda_square_to_number(3, 4, INT32_MAX, 0, -1, 0, number, UVALINDA_NUMBER_PLACES) == UVALINDA_ORIGIN_LIMIT);
    EXPECT(uvalinda_square_to_number(0, 4, INT32_MAX, 0, -1, 0, number, UVALINDA_NUMBER_PLACES) == UVALINDA_AREA_LIMIT);
}

/* The limit of squares, by every call: the nearest areas that pass and that do not, and its refusal directly after that of a side and before all else. */
static void limits(void) {
    int32_t found[UVALINDA_SQUARE_PLACES];
    uint32_t number[UVALINDA_NUMBER_PLACES], count[UVALINDA_RUNS_PLACES], judged[UVALINDA_CHECK_PLACES], places[3] = {7, 7, 7};
    uint64_t blocks[UVALINDA_FILL_PLACES];
    EXPECT(uvalinda_number_to_square(4096, 4096, 0, 0, 5592404, found, UVALINDA_SQUARE_PLACES) == UVALINDA_ANSWERED);
    EXPECT(found[0] == 0 && found[1] == 4094 && found[2] == 24);
    EXPECT(uvalinda_number_to_square(4096, 4096, 0, 0, 16777216, found, UVALINDA_SQUARE_PLACES) == UVALINDA_NUMBER_OUTSIDE);
    EXPECT(uvalinda_number_to_square(4096, 4097, 1000001, 0, UINT32_MAX, found, UVALINDA_SQUARE_PLACES) == UVALINDA_TOO_MANY_SQUARES);
    EXPECT(found[0] == 0 && found[1] == 0 && found[2] == 0);
    EXPECT(uvalinda_square_to_number(4097, 4096, 1000001, 0, -1, 0, number, UVALINDA_NUMBER_PLACES) == UVALINDA_TOO_MANY_SQUARES);
    EXPECT(uvalinda_square_to_number(65536, 257, 1000001, 0, -1, 0, number, UVALINDA_NUMBER_PLACES) == UVALINDA_AREA_LIMIT);
    EXPECT(uvalinda_finish_square(65535, 65535, 0, -1000001, found, UVALINDA_FINISH_PLACES) == UVALINDA_TOO_MANY_SQUARES);
    EXPECT(uvalinda_finish_square(65535, 256, 0, -1000001, found, UVALINDA_FINISH_PLACES) == UVALINDA_ORIGIN_LIMIT);
    EXPECT(uvalinda_fill_by_number(4096, 4097, places, 3, blocks, UVALINDA_FILL_PLACES) == UVALINDA_TOO_MANY_SQUARES && blocks[0] == 0);
    EXPECT(uvalinda_fill_by_square(4096, 4097, NULL, 0, blocks, UVALINDA_FILL_PLACES) == UVALINDA_TOO_MANY_SQUARES);
    EXPECT(uvalinda_fill_by_square(4096, 4096, places, 3, blocks, UVALINDA_FILL_PLACES) == UVALINDA_TABLE_LENGTH);
    EXPECT(uvalinda_check_by_number(4096, 4097, NULL, 0, judged, UVALINDA_CHECK_PLACES) == UVALINDA_TOO_MANY_SQUARES && judged[0] == 0);
    EXPECT(uvalinda_check_by_square(4096, 4097, places, 3, judged, UVALINDA_CHECK_PLACES) == UVALINDA_TOO_MANY_SQUARES);
    EXPECT(uvalinda_runs_for_window(65535, 257, 0, 1000001, 1, 0, 0, 9, places, 3, count, UVALINDA_RUNS_PLACES) == UVALINDA_TOO_MANY_SQUARES && count[0] == 0);
    EXPECT(uvalinda_runs_for_window(65535, 256, 0, 0, 0, 0, 65534, 255, places, 2, count, UVALINDA_RUNS_PLACES) == UVALINDA_ANSWERED && count[0] == 1);
    EXPECT(places[0] == 0 && places[1] == 16776959 && places[2] == 7);
}

/* What a caller does who does not know how much room to lend: it asks with none, and again with as much as it was told. */
static void windows(void) {
    uint32_t count[UVALINDA_RUNS_PLACES], runs[5] = {7, 7, 7, 7, 7};
    EXPECT(uvalinda_runs_for_window(3, 4, 0, 0, 0, 0, 1, 1, NULL, 0, count, UVALINDA_RUNS_PLACES) == UVALINDA_NO_ROOM && count[0] == 2);
    EXPECT(uvalinda_runs_for_window(3, 4, 0, 0, 0, 0, 1, 1, runs, 3, count, UVALINDA_RUNS_PLACES) == UVALINDA_NO_ROOM && count[0] == 2 && runs[0] == 7);
    EXPECT(uvalinda_runs_for_window(3, 4, 0, 0, 0, 0, 1, 1, runs, 2 * (size_t)count[0], count, UVALINDA_RUNS_PLACES) == UVALINDA_ANSWERED && count[0] == 2);
    EXPECT(runs[0] == 0 && runs[1] == 1 && runs[2] == 9 && runs[3] == 10 && runs[4] == 7);
    EXPECT(uvalinda_runs_for_window(3, 4, 0, 0, 1, 0, 0, 9, runs, 5, count, UVALINDA_RUNS_PLACES) == UVALINDA_CORNERS_CROSSED && count[0] == 0);
    EXPECT(uvalinda_runs_for_window(3, 4, 0, 0, 0, 0, 3, 0, runs, 5, count, UVALINDA_RUNS_PLACES) == UVALINDA_SQUARE_OUTSIDE);
    EXPECT(uvalinda_runs_for_window(0, 4, 0, 0, 1, 0, 0, 0, runs, 5, count, UVALINDA_RUNS_PLACES) == UVALINDA_AREA_LIMIT);
    EXPECT(uvalinda_runs_for_window(3, 4, 0, 0, 0, 0, 2, 3, runs, 5, NULL, 0) == UVALINDA_SHORT_RESULT && runs[1] == 1);
    EXPECT(uvalinda_runs_for_window(3, 4, -5, 7, -4, 8, -3, 10, runs, 5, count, UVALINDA_RUNS_PLACES) == UVALINDA_ANSWERED && count[0] == 1);
    EXPECT(runs[0] == 4 && runs[1] == 9 && runs[2] == 9);
    EXPECT(uvalinda_runs_for_window(3, 4, -5, 7, 0, 0, 1, 1, runs, 5, count, UVALINDA_RUNS_PLACES) == UVALINDA_SQUARE_OUTSIDE);
    EXPECT(uvalinda_runs_for_window(3, 4, -1000001, 7, 1, 0, 0, 9, runs, 5, count, UVALINDA_RUNS_PLACES) == UVALINDA_ORIGIN_LIMIT);
}

static void tables(void) {
    static const uint32_t due[12] = {0, 3, 6, 9, 10, 11, 8, 7, 5, 4, 1, 2};
    static const uint32_t by_square[12] = {0, 10, 11, 1, 9, 8, 2, 7, 6, 3, 4, 5};
    uint32_t table[12], judged[UVALINDA_CHECK_PLACES];
    uint64_t blocks[UVALINDA_FILL_PLACES];
    EXPECT(uvalinda_fill_by_number(3, 4, table, 12, blocks, UVALINDA_FILL_PLACES) == UVALINDA_ANSWERED);
    EXPECT(blocks[0] == 10 && memcmp(table, due, sizeof due) == 0);
    EXPECT(uvalinda_check_by_number(3, 4, table, 12, judged, UVALINDA_CHECK_PLACES) == UVALINDA_ANSWERED);
    EXPECT(judged[0] == 0 && judged[1] == 0 && judged[2] == 0);
    EXPECT(uvalinda_check_by_square(3, 4, table, 12, judged, UVALINDA_CHECK_PLACES) == UVALINDA_ANSWERED);
    EXPECT(judged[0] == 1 && judged[1] == 1 && judged[2] == 10);
    EXPECT(uvalinda_fill_by_square(3, 4, table, 11, blocks, UVALINDA_FILL_PLACES) == UVALINDA_TABLE_LENGTH);
    EXPECT(blocks[0] == 0 && memcmp(table, due, sizeof due) == 0);
    EXPECT(uvalinda_fill_by_square(3, 4, table, 12, NULL, 0) == UVALINDA_SHORT_RESULT);
    EXPECT(memcmp(table, due, sizeof due) == 0);
    EXPECT(uvalinda_fill_by_square(3, 4, NULL, 0, blocks, UVALINDA_FILL_PLACES) == UVALINDA_TABLE_LENGTH);
    EXPECT(uvalinda_fill_by_number(65536, 1, table, 12, blocks, UVALINDA_FILL_PLACES) == UVALINDA_AREA_LIMIT);
    EXPECT(uvalinda_fill_by_number(3, 4, table, 12, blocks, UVALINDA_FILL_PLACES - 1) == UVALINDA_SHORT_RESULT);
    EXPECT(uvalinda_check_by_number(3, 4, table, 11, judged, UVALINDA_CHECK_PLACES) == UVALINDA_TABLE_LENGTH);
    EXPECT(uvalinda_check_by_square(0, 4, table, 12, judged, UVALINDA_CHECK_PLACES) == UVALINDA_AREA_LIMIT);
    EXPECT(uvalinda_check_by_number(3, 4, table, 12, judged, UVALINDA_CHECK_PLACES - 1) == UVALINDA_SHORT_RESULT);
    EXPECT(uvalinda_check_by_square(3, 4, table, 12, judged, UVALINDA_CHECK_PLACES - 1) == UVALINDA_SHORT_RESULT);
    EXPECT(uvalinda_fill_by_square(3, 4, table, 12, blocks, UVALINDA_FILL_PLACES) == UVALINDA_ANSWERED);
    EXPECT(blocks[0] == 10 && memcmp(table, by_square, sizeof by_square) == 0);
    EXPECT(uvalinda_check_by_square(3, 4, table, 12, judged, UVALINDA_CHECK_PLACES) == UVALINDA_ANSWERED && judged[0] == 0);
}

/* A word of a file. */
static uint32_t word(const uint8_t *file, size_t at) {
    const uint8_t *bytes = file + 4 * at;
    return bytes[0] | (uint32_t)bytes[1] << 8 | (uint32_t)bytes[2] << 16 | (uint32_t)bytes[3] << 24;
}

/* What two depots do: the one writes a card of the table that it has, the other reads it into a table of its own. The room for the file is known beforehand, by
 * the macro or by the call. */
static void cards(void) {
    static const uint32_t due[12] = {0, 3, 6, 9, 10, 11, 8, 7, 5, 4, 1, 2};
    static const uint32_t head[6] = {1, 3, 4, UVALINDA_BY_NUMBER, 0, 0};
    uint8_t file[UVALINDA_CARD_BYTES(3, 4)] = {7};
    uint32_t table[12] = {9};
    uint64_t bytes[UVALINDA_CARD_LENGTH_PLACES], block[UVALINDA_READ_PLACES];
    EXPECT(uvalinda_card_length(3, 4, bytes, UVALINDA_CARD_LENGTH_PLACES) == UVALINDA_ANSWERED);
    EXPECT(bytes[0] == 1024 && sizeof file == 1024);
    EXPECT(UVALINDA_CARD_BYTES(14, 9) == 1024 && UVALINDA_CARD_BYTES(127, 1) == 1536 && UVALINDA_CARD_BYTES(2 + 1, 2 + 2) == 1024);
    EXPECT(uvalinda_card_length(4096, 4096, bytes, UVALINDA_CARD_LENGTH_PLACES) == UVALINDA_ANSWERED);
    EXPECT(bytes[0] == 68174848 && UVALINDA_CARD_BYTES(4096, 4096) == 68174848);
    EXPECT(uvalinda_card_length(65535, 256, bytes, UVALINDA_CARD_LENGTH_PLACES) == UVALINDA_ANSWERED && bytes[0] == UVALINDA_CARD_BYTES(65535u, 256u));
    EXPECT(uvalinda_card_length(0, 4, bytes, UVALINDA_CARD_LENGTH_PLACES) == UVALINDA_AREA_LIMIT && bytes[0] == 0);
    EXPECT(uvalinda_card_length(4096, 4097, bytes, UVALINDA_CARD_LENGTH_PLACES) == UVALINDA_TOO_MANY_SQUARES);
    EXPECT(uvalinda_card_length(3, 4, bytes, UVALINDA_CARD_LENGTH_PLACES - 1) == UVALINDA_SHORT_RESULT);

    EXPECT(uvalinda_write_card(3, 4, UVALINDA_BY_SQUARE, due, 12, file, sizeof file) == UVALINDA_DEPARTURE && file[0] == 7);
    EXPECT(uvalinda_write_card(3, 4, 0, due, 12, file, sizeof file) == UVALINDA_DEPARTURE && file[0] == 7);
    EXPECT(uvalinda_write_card(3, 4, UVALINDA_BY_NUMBER, due, 11, file, sizeof file) == UVALINDA_TABLE_LENGTH);
    EXPECT(uvalinda_write_card(3, 4, UVALINDA_BY_NUMBER, due, 12, file, sizeof file - 1) == UVALINDA_TABLE_LENGTH);
    EXPECT(uvalinda_write_card(3, 4, 3, NULL, 0, NULL, 0) == UVALINDA_TABLE_LENGTH);
    EXPECT(uvalinda_write_card(3, 0, UVALINDA_BY_NUMBER, due, 12, file, sizeof file) == UVALINDA_AREA_LIMIT);
    EXPECT(uvalinda_write_card(4097, 4096, UVALINDA_BY_NUMBER, due, 12, file, sizeof file) == UVALINDA_TOO_MANY_SQUARES);
    EXPECT(file[0] == 7 && file[1] == 0);
    EXPECT(uvalinda_write_card(3, 4, UVALINDA_BY_NUMBER, due, 12, file, sizeof file) == UVALINDA_ANSWERED);
    for (size_t i = 0; i < 6; i++) {
        EXPECT(word(file, i) == head[i]);
    }
    for (size_t i = 0; i < 12; i++) {
        EXPECT(word(file, 128 + i) == due[i]);
    }
    EXPECT(word(file, 126) == 4 && word(file, 127) == 14 && word(file, 254) == 12 && word(file, 255) == 79);

    EXPECT(uvalinda_read_card(3, 4, UVALINDA_BY_NUMBER, file, sizeof file, table, 12, NULL, 0) == UVALINDA_SHORT_RESULT && table[0] == 9);
    EXPECT(uvalinda_read_card(3, 4, UVALINDA_BY_SQUARE, file, sizeof file, table, 12, block, UVALINDA_READ_PLACES) == UVALINDA_DEPARTURE);
    EXPECT(uvalinda_read_card(4, 3, UVALINDA_BY_NUMBER, file, sizeof file, table, 12, block, UVALINDA_READ_PLACES) == UVALINDA_DEPARTURE);
    EXPECT(uvalinda_read_card(3, 4, UVALINDA_BY_NUMBER, file, sizeof file - 1, table, 12, block, UVALINDA_READ_PLACES) == UVALINDA_DEPARTURE);
    EXPECT(uvalinda_read_card(3, 4, UVALINDA_BY_NUMBER, NULL, 0, table, 12, block, UVALINDA_READ_PLACES) == UVALINDA_DEPARTURE);
    EXPECT(uvalinda_read_card(3, 4, UVALINDA_BY_NUMBER, file, sizeof file, table, 11, block, UVALINDA_READ_PLACES) == UVALINDA_TABLE_LENGTH);
    EXPECT(uvalinda_read_card(65536, 1, UVALINDA_BY_NUMBER, file, sizeof file, table, 12, block, UVALINDA_READ_PLACES) == UVALINDA_AREA_LIMIT);
    EXPECT(uvalinda_read_card(4096, 4097, 3, file, sizeof file, table, 12, block, UVALINDA_READ_PLACES) == UVALINDA_TOO_MANY_SQUARES);
    EXPECT(block[0] == 0 && table[0] == 9);
    file[600] = 1;
    EXPECT(uvalinda_read_card(3, 4, UVALINDA_BY_NUMBER, file, sizeof file, table, 12, block, UVALINDA_READ_PLACES) == UVALINDA_BAD_CHECK);
    EXPECT(block[0] == 1 && table[0] == 9);
    file[600] = 0;
    EXPECT(uvalinda_read_card(3, 4, UVALINDA_BY_NUMBER, file, sizeof file, table, 12, block, UVALINDA_READ_PLACES) == UVALINDA_ANSWERED);
    EXPECT(block[0] == 0 && memcmp(table, due, sizeof due) == 0);
}

/* One line of an order form, under the area that the line before it left. */
static uint32_t handle(const char *line, int64_t *now) {
    return uvalinda_handle_line((uint32_t)now[0], (uint32_t)now[1], (int32_t)now[2], (int32_t)now[3], (const uint8_t *)line, strlen(line), now,
                                UVALINDA_LINE_PLACES);
}

/* Whether the area in force and its origin are these, and the reply. */
static int in_force(const int64_t *now, int64_t w, int64_t h, int64_t ox, int64_t oy) {
    return now[0] == w && now[1] == h && now[2] == ox && now[3] == oy;
}

static int replied(const int64_t *now, int64_t kind, int64_t first, int64_t second, int64_t third) {
    return now[4] == kind && now[5] == first && now[6] == second && now[7] == third;
}

static void lines(void) {
    int64_t now[UVALINDA_LINE_PLACES] = {0, 0, 0, 0, 0, 0, 0, 0};
    EXPECT(handle("N 8", now) == UVALINDA_NO_AREA);
    EXPECT(handle("AREA 3 4", now) == UVALINDA_ANSWERED);
    EXPECT(in_force(now, 3, 4, 0, 0) && replied(now, UVALINDA_REPLY_AREA, 12, 2, 0));
    EXPECT(handle("N 8", now) == UVALINDA_ANSWERED && replied(now, UVALINDA_REPLY_CELL, 2, 1, 3));
    EXPECT(handle("S 2 1", now) == UVALINDA_ANSWERED && replied(now, UVALINDA_REPLY_NUMBER, 8, 3, 0));
    EXPECT(handle("N 3E4", now) == UVALINDA_NOT_A_NUMBER);
    EXPECT(in_force(now, 3, 4, 0, 0) && replied(now, UVALINDA_REPLY_REFUSED, 0, 0, 0));
    EXPECT(handle("", now) == UVALINDA_WRONG_SHAPE);
    EXPECT(handle("N 00000000000000000000000000000000000000000000000000000000000000000", now) == UVALINDA_LONG_LINE);
    EXPECT(handle("ORIGIN -5 0000000007", now) == UVALINDA_ANSWERED);
    EXPECT(in_force(now, 3, 4, -5, 7) && replied(now, UVALINDA_REPLY_ORIGIN, -5, 7, 0));
    EXPECT(handle("N 8", now) == UVALINDA_ANSWERED && replied(now, UVALINDA_REPLY_CELL, -3, 8, 3));
    EXPECT(handle("S -3 8", now) == UVALINDA_ANSWERED && replied(now, UVALINDA_REPLY_NUMBER, 8, 3, 0));
    EXPECT(handle("S -0 8", now) == UVALINDA_NOT_A_NUMBER && in_force(now, 3, 4, -5, 7));
    EXPECT(handle("AREA 3 4", now) == UVALINDA_ANSWERED && in_force(now, 3, 4, 0, 0));
    EXPECT(handle("ORIGIN 0 1000001", now) == UVALINDA_ORIGIN_LIMIT && in_force(now, 0, 0, 0, 0));
    EXPECT(handle("ORIGIN 0 1", now) == UVALINDA_NO_AREA);
    EXPECT(handle("AREA 0 4", now) == UVALINDA_AREA_LIMIT && in_force(now, 0, 0, 0, 0));
    EXPECT(handle("AREA 4096 4096", now) == UVALINDA_ANSWERED && replied(now, UVALINDA_REPLY_AREA, 16777216, 4095, 0));
    EXPECT(handle("AREA 4096 4097", now) == UVALINDA_TOO_MANY_SQUARES && in_force(now, 0, 0, 0, 0) && replied(now, UVALINDA_REPLY_REFUSED, 0, 0, 0));
    EXPECT(handle("N 0", now) == UVALINDA_NO_AREA);
    EXPECT(handle("AREA 65535 65535", now) == UVALINDA_TOO_MANY_SQUARES);
    EXPECT(uvalinda_handle_line(4096, 4097, 0, 0, (const uint8_t *)"N 0", 3, now, UVALINDA_LINE_PLACES) == UVALINDA_NO_AREA);
    EXPECT(uvalinda_handle_line(3, 4, 0, 0, NULL, 0, now, UVALINDA_LINE_PLACES) == UVALINDA_WRONG_SHAPE);
    EXPECT(uvalinda_handle_line(3, 4, 0, 0, NULL, 0, now, UVALINDA_LINE_PLACES - 1) == UVALINDA_SHORT_RESULT);
}

int main(void) {
    lookups();
    origins();
    limits();
    windows();
    tables();
    cards();
    lines();
    return wrong;
}
