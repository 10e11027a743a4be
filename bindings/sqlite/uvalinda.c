/*
 * Uvalinda for SQLite 3.31 or later. bindings/sqlite/build makes uvalinda.so of it, which the sqlite3 shell takes by `.load ./uvalinda`.
 *
 *     uvalinda_number(w, h, x, y)             the number of a square
 *     uvalinda_x(w, h, number)                the square of a number
 *     uvalinda_y(w, h, number)
 *     uvalinda_runs(w, h, x0, y0, x1, y1)     the numbers of a window's squares as runs: a table of rows (first, last), ascending
 *
 * Each takes the area's origin too, ox and oy behind w and h. An INTEGER may be any that SQLite has: one that the library cannot be given is refused as a
 * square, a number, an area or an origin that is too far off. A TEXT is read as a field of an order line: '3E4' and '07' are not numbers, '0000000030' is
 * 30. A REAL and a BLOB are not numbers. A NULL gives NULL, or no rows. A refusal is an error that says its number, its name and what it means.
 */
#include <sqlite3ext.h>
SQLITE_EXTENSION_INIT1

#include "uvalinda.h"

#include <string.h>

/* The refusals, named as the Rust bindings name them. */
static const struct {
    uint32_t number;
    const char *name, *means;
} refusals[] = {
    {UVALINDA_AREA_LIMIT, "AreaLimit", "the width or the height is 0 or over 65,535"},
    {UVALINDA_SQUARE_OUTSIDE, "SquareOutside", "the square is outside the area"},
    {UVALINDA_NUMBER_OUTSIDE, "NumberOutside", "the area has no such number"},
    {UVALINDA_TABLE_LENGTH, "TableLength", "the table has not as many places as the area has squares, or the file not as many bytes as its card"},
    {UVALINDA_NOT_A_NUMBER, "NotANumber", "a field is not a number"},
    {UVALINDA_WRONG_SHAPE, "WrongShape", "the line has the wrong shape"},
    {UVALINDA_NO_AREA, "NoArea", "no area is in force"},
    {UVALINDA_LONG_LINE, "LongLine", "the line has over 64 bytes"},
    {UVALINDA_TOO_DEEP, "TooDeep", "over 64 blocks of the division hold the square"},
    {UVALINDA_CORNERS_CROSSED, "CornersCrossed", "the window's corners are crossed"},
    {UVALINDA_NO_ROOM, "NoRoom", "there are more runs than there is room for"},
    {UVALINDA_ORIGIN_LIMIT, "OriginLimit", "the origin is beyond 1,000,000 either way"},
    {UVALINDA_TOO_MANY_SQUARES, "TooManySquares", "the area has more than 16,777,216 squares"},
    {UVALINDA_BAD_CHECK, "BadCheck", "the check of a block is bad"},
    {UVALINDA_DEPARTURE, "Departure", "the file is not the card of this area and kind, or the table not the right one"},
};

enum { REFUSALS = sizeof refusals / sizeof *refusals };

/* The most arguments that a call takes, and the most bytes of a TEXT that an error shows. */
enum { ARGUMENTS = 8, SHOWN = 24 };

/* A value as an error shows it. Only plain characters go into an error, whatever bytes a TEXT has. */
static void show(sqlite3_str *out, sqlite3_value *value) {
    int text = sqlite3_value_type(value) == SQLITE_TEXT;
    if (sqlite3_value_type(value) == SQLITE_BLOB) {
        sqlite3_str_appendall(out, "a blob");
        return;
    }
    const unsigned char *bytes = sqlite3_value_text(value);
    int length = bytes == NULL ? 0 : sqlite3_value_bytes(value);
    sqlite3_str_appendall(out, text ? "'" : "");
    for (int i = 0; i < length && i < SHOWN; i++) {
        sqlite3_str_appendchar(out, 1, ' ' <= bytes[i] && bytes[i] <= '~' ? (char)bytes[i] : '?');
    }
    sqlite3_str_appendall(out, length > SHOWN ? ".." : "");
    sqlite3_str_appendall(out, text ? "'" : "");
}

/* What an error says: the call as it was made, so that one row among many can be found, and the refusal. For sqlite3_free; NULL where memory is short. */
static char *complaint(const char *name, int given, sqlite3_value **values, uint32_t refusal) {
    sqlite3_str *out = sqlite3_str_new(NULL);
    sqlite3_str_appendall(out, name);
    for (int i = 0; i < given; i++) {
        sqlite3_str_appendall(out, i == 0 ? "(" : ", ");
        show(out, values[i]);
    }
    sqlite3_str_appendf(out, "): refused %u", refusal);
    for (int i = 0; i < REFUSALS; i++) {
        if (refusals[i].number == refusal) {
            sqlite3_str_appendf(out, ", %s: %s", refusals[i].name, refusals[i].means);
        }
    }
    return sqlite3_str_finish(out);
}

/*
 * Whether a TEXT is a number, by the library's reader: as the field of an N line, or, where a minus is allowed, of an S line. With no area in force a line of
 * numbers is refused as NO_AREA, and any other sooner: a space, nothing or too much makes a line of another shape, and a byte 0 is a byte like others.
 */
static int is_number(const unsigned char *text, int length, int minus) {
    uint8_t line[64];
    int64_t ignored[UVALINDA_LINE_PLACES];
    const char *behind = minus ? " 0" : "";
    size_t bytes = (size_t)length, end = 2 + bytes;
    if (text == NULL || bytes > sizeof line - 4) {
        return 0; /* memory was short, or the line would be too long for the reader */
    }
    memcpy(line, minus ? "S " : "N ", 2);
    memcpy(line + 2, text, bytes);
    memcpy(line + end, behind, strlen(behind));
    return uvalinda_handle_line(0, 0, 0, 0, line, end + strlen(behind), ignored, UVALINDA_LINE_PLACES) == UVALINDA_NO_AREA;
}

/* An argument as a number. What the reader takes for one has digits alone, and SQLite reads it so too. */
static uint32_t read_one(sqlite3_value *value, int minus, sqlite3_int64 *number) {
    int type = sqlite3_value_type(value);
    if (type == SQLITE_TEXT) {
        const unsigned char *text = sqlite3_value_text(value);
        if (!is_number(text, sqlite3_value_bytes(value), minus)) {
            return UVALINDA_NOT_A_NUMBER;
        }
    } else if (type != SQLITE_INTEGER) {
        return UVALINDA_NOT_A_NUMBER;
    }
    *number = sqlite3_value_int64(value);
    return UVALINDA_ANSWERED;
}

/* All arguments as numbers. `signs` has a letter for each, the origin's included: - where a minus is allowed. An origin that was left out is 0, 0. */
static uint32_t read_all(int given, sqlite3_value **values, const char *signs, sqlite3_int64 *numbers) {
    int all = (int)strlen(signs), left_out = all - given;
    numbers[2] = numbers[3] = 0;
    for (int i = 0; i < given; i++) {
        int place = i < 2 ? i : i + left_out;
        uint32_t refusal = read_one(values[i], signs[place] == '-', &numbers[place]);
        if (refusal != UVALINDA_ANSWERED) {
            return refusal;
        }
    }
    return UVALINDA_ANSWERED;
}

static int any_null(int given, sqlite3_value **values) {
    for (int i = 0; i < given; i++) {
        if (sqlite3_value_type(values[i]) == SQLITE_NULL) {
            return 1;
        }
    }
    return 0;
}

/*
 * SQLite's integers have 64 bits and the library's 32. What does not fit becomes one that is refused wherever it stands: no area is as wide, has that number,
 * lies or reaches that far.
 */
static uint32_t narrowed(sqlite3_int64 number) {
    return number < 0 || number > UINT32_MAX ? UINT32_MAX : (uint32_t)number;
}

static int32_t narrowed_signed(sqlite3_int64 number) {
    return number < INT32_MIN ? INT32_MIN : number > INT32_MAX ? INT32_MAX : (int32_t)number;
}

/* Two corners: those that are crossed stay so where both are too far off. */
static void narrowed_span(sqlite3_int64 from, sqlite3_int64 to, int32_t *span) {
    span[0] = from > to ? 1 : narrowed_signed(from);
    span[1] = from > to ? 0 : narrowed_signed(to);
}

static void answer(sqlite3_context *context, const char *name, int given, sqlite3_value **values, uint32_t refusal, sqlite3_int64 found) {
    if (refusal == UVALINDA_ANSWERED) {
        sqlite3_result_int64(context, found);
        return;
    }
    char *said = complaint(name, given, values, refusal);
    if (said == NULL) {
        sqlite3_result_error_nomem(context);
    } else {
        sqlite3_result_error(context, said, -1);
    }
    sqlite3_free(said);
}

/* A function by name, and which of the values that the library writes it answers. */
typedef struct {
    const char *name;
    int place;
} Function;

static void number(sqlite3_context *context, int given, sqlite3_value **values) {
    const Function *function = sqlite3_user_data(context);
    sqlite3_int64 n[ARGUMENTS];
    uint32_t found[UVALINDA_NUMBER_PLACES] = {0};
    if (any_null(given, values)) {
        return;
    }
    uint32_t refusal = read_all(given, values, "  ----", n);
    if (refusal == UVALINDA_ANSWERED) {
        refusal = uvalinda_square_to_number(narrowed(n[0]), narrowed(n[1]), narrowed_signed(n[2]), narrowed_signed(n[3]), narrowed_signed(n[4]),
                                            narrowed_signed(n[5]), found, UVALINDA_NUMBER_PLACES);
    }
    answer(context, function->name, given, values, refusal, found[function->place]);
}

static void coordinate(sqlite3_context *context, int given, sqlite3_value **values) {
    const Function *function = sqlite3_user_data(context);
    sqlite3_int64 n[ARGUMENTS];
    int32_t found[UVALINDA_SQUARE_PLACES] = {0};
    if (any_null(given, values)) {
        return;
    }
    uint32_t refusal = read_all(given, values, "  -- ", n);
    if (refusal == UVALINDA_ANSWERED) {
        refusal = uvalinda_number_to_square(narrowed(n[0]), narrowed(n[1]), narrowed_signed(n[2]), narrowed_signed(n[3]), narrowed(n[4]), found,
                                            UVALINDA_SQUARE_PLACES);
    }
    answer(context, function->name, given, values, refusal, found[function->place]);
}

/* The table of runs. Its arguments are hidden columns behind first and last. */
enum { FIRST, LAST, HIDDEN };

/* The plans: with all arguments, or without. */
enum { COMPLETE, INCOMPLETE };

typedef struct {
    sqlite3_vtab_cursor base;
    sqlite3_value *values[ARGUMENTS];
    uint32_t *runs; /* pairs, as the library writes them */
    uint32_t count, at;
} Cursor;

static int runs_connect(sqlite3 *db, void *unused, int argc, const char *const *argv, sqlite3_vtab **table, char **error) {
    (void)unused, (void)argc, (void)argv, (void)error;
    int status = sqlite3_declare_vtab(db, "CREATE TABLE runs (first INTEGER, last INTEGER, a1 HIDDEN, a2 HIDDEN, a3 HIDDEN, a4 HIDDEN, a5 HIDDEN, a6 HIDDEN,"
                                          " a7 HIDDEN, a8 HIDDEN)");
    if (status != SQLITE_OK) {
        return status;
    }
    *table = sqlite3_malloc(sizeof **table);
    if (*table == NULL) {
        return SQLITE_NOMEM;
    }
    memset(*table, 0, sizeof **table);
    return sqlite3_vtab_config(db, SQLITE_VTAB_INNOCUOUS);
}

static int runs_disconnect(sqlite3_vtab *table) {
    sqlite3_free(table);
    return SQLITE_OK;
}

/* Leaves an error with the table, as SQLite wants it. */
static int failed(sqlite3_vtab *table, char *said) {
    sqlite3_free(table->zErrMsg);
    table->zErrMsg = said;
    return said == NULL ? SQLITE_NOMEM : SQLITE_ERROR;
}

/*
 * How the runs are come by: from the arguments, and nothing else. Where first or last is compared with something that is known, the runs would be made again
 * for each row of another table. That is right and ruinous, and the cost says so: the runs belong outside and the readings inside, whatever SQLite supposes
 * of a table that it has not analyzed. A plan without all arguments is none to take; SQLite asks for such ones too, as for each side of an OR, so that it is
 * an error only where it is carried out.
 */
static int runs_plan(sqlite3_vtab *table, sqlite3_index_info *info) {
    (void)table;
    int inside = 0, given = 0; /* a bit for each argument */
    for (int i = 0; i < info->nConstraint; i++) {
        int place = info->aConstraint[i].iColumn - HIDDEN, usable = info->aConstraint[i].usable;
        if (place < 0) {
            inside |= usable;
        } else if (info->aConstraint[i].op == SQLITE_INDEX_CONSTRAINT_EQ && (given & 1 << place) == 0) {
            if (!usable) {
                return SQLITE_CONSTRAINT; /* an argument of a table that comes later */
            }
            info->aConstraintUsage[i].argvIndex = place + 1;
            info->aConstraintUsage[i].omit = 1;
            given |= 1 << place;
        }
    }
    if (given != (1 << (ARGUMENTS - 2)) - 1 && given != (1 << ARGUMENTS) - 1) {
        for (int i = 0; i < info->nConstraint; i++) {
            info->aConstraintUsage[i].argvIndex = info->aConstraintUsage[i].omit = 0;
        }
        info->idxNum = INCOMPLETE;
        info->estimatedCost = 1e99;
        return SQLITE_OK;
    }
    info->idxNum = COMPLETE;
    info->estimatedCost = inside ? 1e12 : 100;
    info->estimatedRows = 100;
    return SQLITE_OK;
}

static int runs_open(sqlite3_vtab *table, sqlite3_vtab_cursor **opened) {
    (void)table;
    Cursor *cursor = sqlite3_malloc(sizeof *cursor);
    if (cursor == NULL) {
        return SQLITE_NOMEM;
    }
    memset(cursor, 0, sizeof *cursor);
    *opened = &cursor->base;
    return SQLITE_OK;
}

static void emptied(Cursor *cursor) {
    for (int i = 0; i < ARGUMENTS; i++) {
        sqlite3_value_free(cursor->values[i]);
        cursor->values[i] = NULL;
    }
    sqlite3_free(cursor->runs);
    cursor->runs = NULL;
    cursor->count = cursor->at = 0;
}

static int runs_close(sqlite3_vtab_cursor *base) {
    Cursor *cursor = (Cursor *)base;
    emptied(cursor);
    sqlite3_free(cursor);
    return SQLITE_OK;
}

/* Asks for a window's runs, with this much room. */
static uint32_t ask(const sqlite3_int64 *n, uint32_t *runs, size_t places, uint32_t *count) {
    int32_t x[2], y[2];
    narrowed_span(n[4], n[6], x);
    narrowed_span(n[5], n[7], y);
    return uvalinda_runs_for_window(narrowed(n[0]), narrowed(n[1]), narrowed_signed(n[2]), narrowed_signed(n[3]), x[0], y[0], x[1], y[1], runs, places, count,
                                    UVALINDA_RUNS_PLACES);
}

static int runs_filter(sqlite3_vtab_cursor *base, int plan, const char *unused, int given, sqlite3_value **values) {
    (void)unused;
    Cursor *cursor = (Cursor *)base;
    sqlite3_int64 n[ARGUMENTS];
    uint32_t count[UVALINDA_RUNS_PLACES];
    emptied(cursor);
    if (plan == INCOMPLETE) {
        return failed(base->pVtab, sqlite3_mprintf("uvalinda_runs takes w, h, x0, y0, x1, y1, or w, h, ox, oy, x0, y0, x1, y1"));
    }
    if (any_null(given, values)) {
        return SQLITE_OK;
    }
    uint32_t refusal = read_all(given, values, "  ------", n);
    if (refusal == UVALINDA_ANSWERED) {
        refusal = ask(n, NULL, 0, count); /* a window has a run at least, so that no room is never enough */
    }
    if (refusal != UVALINDA_NO_ROOM) {
        return failed(base->pVtab, complaint("uvalinda_runs", given, values, refusal));
    }
    size_t places = 2 * (size_t)count[0];
    int short_of_memory = (cursor->runs = sqlite3_malloc64(places * sizeof *cursor->runs)) == NULL;
    for (int i = 0; i < given; i++) {
        short_of_memory |= (cursor->values[i] = sqlite3_value_dup(values[i])) == NULL;
    }
    if (short_of_memory) {
        return SQLITE_NOMEM;
    }
    ask(n, cursor->runs, places, count);
    cursor->count = count[0];
    return SQLITE_OK;
}

static int runs_next(sqlite3_vtab_cursor *base) {
    ((Cursor *)base)->at++;
    return SQLITE_OK;
}

static int runs_eof(sqlite3_vtab_cursor *base) {
    const Cursor *cursor = (const Cursor *)base;
    return cursor->at >= cursor->count;
}

/* A hidden column answers its argument, since SQLite may compare it once more. */
static int runs_column(sqlite3_vtab_cursor *base, sqlite3_context *context, int column) {
    const Cursor *cursor = (const Cursor *)base;
    if (column < HIDDEN) {
        sqlite3_result_int64(context, cursor->runs[2 * (size_t)cursor->at + (size_t)(column - FIRST)]);
    } else if (cursor->values[column - HIDDEN] != NULL) {
        sqlite3_result_value(context, cursor->values[column - HIDDEN]);
    }
    return SQLITE_OK;
}

static int runs_rowid(sqlite3_vtab_cursor *base, sqlite3_int64 *rowid) {
    *rowid = ((const Cursor *)base)->at;
    return SQLITE_OK;
}

static const sqlite3_module runs = {
    .xConnect = runs_connect,
    .xBestIndex = runs_plan,
    .xDisconnect = runs_disconnect,
    .xOpen = runs_open,
    .xClose = runs_close,
    .xFilter = runs_filter,
    .xNext = runs_next,
    .xEof = runs_eof,
    .xColumn = runs_column,
    .xRowid = runs_rowid,
};

/* SQLite finds it by the name of the file, uvalinda.so. */
__attribute__((visibility("default"))) int sqlite3_uvalinda_init(sqlite3 *db, char **error, const sqlite3_api_routines *api) {
    static const struct {
        Function function;
        int arguments; /* with the origin */
        void (*call)(sqlite3_context *, int, sqlite3_value **);
    } functions[] = {
        {{"uvalinda_number", 0}, 6, number},
        {{"uvalinda_x", 0}, 5, coordinate},
        {{"uvalinda_y", 1}, 5, coordinate},
    };
    SQLITE_EXTENSION_INIT2(api)
    (void)error;
    int status = sqlite3_create_module_v2(db, "uvalinda_runs", &runs, NULL, NULL);
    for (size_t i = 0; i < 2 * (sizeof functions / sizeof *functions) && status == SQLITE_OK; i++) {
        int arguments = functions[i / 2].arguments - (i % 2 == 0 ? 2 : 0);
        status = sqlite3_create_function_v2(db, functions[i / 2].function.name, arguments, SQLITE_UTF8 | SQLITE_DETERMINISTIC | SQLITE_INNOCUOUS,
                                            (void *)&functions[i / 2].function, functions[i / 2].call, NULL, NULL, NULL);
    }
    return status;
}
