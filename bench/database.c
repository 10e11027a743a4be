/*
 * database EXTENSION FILE SIDE: makes a database in FILE with a reading for each square of a SIDE by SIDE area, kept in three ways, and reads the same windows
 * from each: how many pages SQLite reads for a window that it has nothing of yet, and the processor's time for one whose pages it has. Every way has to find
 * the same readings.
 */
#include <sqlite3.h>
#include <stdint.h>
#include <stdio.h>
#include <stdlib.h>
#include <time.h>

enum { WINDOWS = 20, AGAIN = 3 };

static const char *extension, *path;
static sqlite3_int64 side;

/* A reading is made of its square, so that it is the same however it is kept. In `arrived` the rows stand in another order than the numbers. */
#define READING(x, y) "(" x " * 7919 + " y " * 104729) % 1000"
#define OF_NUMBER(n) READING("uvalinda_x(?1, ?1, " n ")", "uvalinda_y(?1, ?1, " n ")")
#define EACH "WITH RECURSIVE each (i) AS (SELECT 0 UNION ALL SELECT i + 1 FROM each WHERE i + 1 < ?1 * ?1) INSERT INTO "

static const char *const made_by[] = {
    "PRAGMA journal_mode = OFF",
    "PRAGMA synchronous = OFF",
    "CREATE TABLE by_number (number INTEGER PRIMARY KEY, reading INTEGER)",
    EACH "by_number SELECT i, " OF_NUMBER("i") " FROM each",
    "CREATE TABLE by_row (y INTEGER, x INTEGER, reading INTEGER, PRIMARY KEY (y, x)) WITHOUT ROWID",
    EACH "by_row SELECT i / ?1, i % ?1, " READING("i % ?1", "(i / ?1)") " FROM each",
    "CREATE TABLE arrived (id INTEGER PRIMARY KEY, number INTEGER, reading INTEGER)",
    EACH "arrived SELECT i, number, " OF_NUMBER("number") " FROM (SELECT i, i * 2654435761 % (?1 * ?1) AS number FROM each)",
    "CREATE INDEX arrived_by_number ON arrived (number)",
};

#define BY_RUNS(table) \
    "SELECT count(*), sum(r.reading) FROM uvalinda_runs(?1, ?1, ?2, ?3, ?4, ?5) AS run JOIN " table " AS r ON r.number BETWEEN run.first AND run.last"

static const struct {
    const char *name, *sql;
} ways[] = {
    {"by number, with runs", BY_RUNS("by_number")},
    {"by (y, x), row by row", "WITH RECURSIVE line (y) AS (SELECT ?3 UNION ALL SELECT y + 1 FROM line WHERE y < ?5) SELECT count(*), sum(r.reading) FROM line"
                              " CROSS JOIN by_row AS r ON r.y = line.y AND r.x BETWEEN ?2 AND ?4"},
    {"by (y, x), plain WHERE", "SELECT count(*), sum(reading) FROM by_row WHERE x BETWEEN ?2 AND ?4 AND y BETWEEN ?3 AND ?5"},
    {"number only indexed, with runs", BY_RUNS("arrived")},
};

enum { WAYS = sizeof ways / sizeof *ways };

/* What a window holds and what it took to read it. */
typedef struct {
    sqlite3_int64 count, sum;
    double pages, milliseconds;
} Read;

static void must(int held, const char *what, sqlite3 *db) {
    if (!held) {
        fprintf(stderr, "database: %s: %s\n", what, db == NULL ? "" : sqlite3_errmsg(db));
        exit(1);
    }
}

/* Milliseconds that the processor has worked for this program, so that other work on the machine counts little. */
static double now(void) {
    struct timespec t;
    clock_gettime(CLOCK_PROCESS_CPUTIME_ID, &t);
    return (double)t.tv_sec * 1e3 + (double)t.tv_nsec / 1e6;
}

static sqlite3_int64 below(sqlite3_int64 n) {
    static uint64_t state = 88172645463325252u;
    state ^= state << 13;
    state ^= state >> 7;
    state ^= state << 17;
    return (sqlite3_int64)((state >> 11) % (uint64_t)n);
}

/* A connection that has read nothing yet, and has room for all that it will read. */
static sqlite3 *opened(void) {
    sqlite3 *db;
    must(sqlite3_open(path, &db) == SQLITE_OK, path, db);
    sqlite3_db_config(db, SQLITE_DBCONFIG_ENABLE_LOAD_EXTENSION, 1, NULL);
    must(sqlite3_load_extension(db, extension, NULL, NULL) == SQLITE_OK, extension, db);
    must(sqlite3_exec(db, "PRAGMA cache_size = -4000000", NULL, NULL, NULL) == SQLITE_OK, "the cache", db);
    return db;
}

static sqlite3_stmt *prepared(sqlite3 *db, const char *sql) {
    sqlite3_stmt *statement;
    must(sqlite3_prepare_v2(db, sql, -1, &statement, NULL) == SQLITE_OK, sql, db);
    sqlite3_bind_int64(statement, 1, side);
    return statement;
}

static void make(void) {
    sqlite3 *db = opened();
    for (size_t i = 0; i < sizeof made_by / sizeof *made_by; i++) {
        sqlite3_stmt *statement = prepared(db, made_by[i]);
        while (sqlite3_step(statement) == SQLITE_ROW) {
        }
        must(sqlite3_finalize(statement) == SQLITE_OK, made_by[i], db);
    }
    sqlite3_close(db);
}

static void step(sqlite3 *db, sqlite3_stmt *statement, Read *read) {
    must(sqlite3_step(statement) == SQLITE_ROW, sqlite3_sql(statement), db);
    read->count = sqlite3_column_int64(statement, 0);
    read->sum = sqlite3_column_int64(statement, 1);
    must(sqlite3_reset(statement) == SQLITE_OK, sqlite3_sql(statement), db);
}

/* A window read by a connection of its own: once with nothing read before, for its pages, then for the least time. */
static Read read_window(const char *sql, const sqlite3_int64 *corners) {
    Read read = {0, 0, 0, 1e9};
    int pages, ignored;
    sqlite3 *db = opened();
    sqlite3_stmt *statement = prepared(db, sql);
    for (int i = 0; i < 4; i++) {
        sqlite3_bind_int64(statement, 2 + i, corners[i]);
    }
    sqlite3_db_status(db, SQLITE_DBSTATUS_CACHE_MISS, &pages, &ignored, 1);
    step(db, statement, &read);
    sqlite3_db_status(db, SQLITE_DBSTATUS_CACHE_MISS, &pages, &ignored, 1);
    read.pages = pages;
    for (int i = 0; i < AGAIN; i++) {
        double start = now(), took;
        step(db, statement, &read);
        took = now() - start;
        read.milliseconds = took < read.milliseconds ? took : read.milliseconds;
    }
    sqlite3_finalize(statement);
    sqlite3_close(db);
    return read;
}

/* Reads windows of one shape in every way, and prints their line of the table: the averages. */
static void compare(sqlite3_int64 w, sqlite3_int64 h) {
    Read total[WAYS] = {{0, 0, 0, 0}};
    for (int i = 0; i < WINDOWS; i++) {
        sqlite3_int64 x = below(side - w + 1), y = below(side - h + 1), corners[] = {x, y, x + w - 1, y + h - 1}, sum = 0;
        for (int way = 0; way < WAYS; way++) {
            Read read = read_window(ways[way].sql, corners);
            sum = way == 0 ? read.sum : sum;
            must(read.count == w * h && read.sum == sum, "a way finds other readings", NULL);
            total[way].pages += read.pages / WINDOWS;
            total[way].milliseconds += read.milliseconds / WINDOWS;
        }
    }
    printf("| %lld by %lld |", w, h);
    for (int way = 0; way < WAYS; way++) {
        printf(" %.*f pages, %.*f ms |", total[way].pages < 100, total[way].pages, total[way].milliseconds < 1 ? 2 : 1, total[way].milliseconds);
    }
    printf("\n");
    fflush(stdout);
}

int main(int argc, char **argv) {
    static const sqlite3_int64 shapes[][2] = {{10, 10}, {100, 100}, {500, 500}, {1000, 4}, {4, 1000}};
    must(argc == 4, "database EXTENSION FILE SIDE", NULL);
    extension = argv[1];
    path = argv[2];
    side = atoll(argv[3]);
    must(side >= 1000, "the side is 1,000 at least", NULL);
    make();
    printf("| window |");
    for (int way = 0; way < WAYS; way++) {
        printf(" %s |", ways[way].name);
    }
    printf("\n|---|---|---|---|---|\n");
    for (size_t i = 0; i < sizeof shapes / sizeof *shapes; i++) {
        compare(shapes[i][0], shapes[i][1]);
    }
    return 0;
}
