/*
 * vectors_sqlite EXTENSION FILE: the extension answers the test vectors in SQL as tests/vectors.txt says, those of squares, numbers and windows. An argument
 * is an INTEGER, or a TEXT where the vector begins with `text`; a call whose origin is 0 0 is made without it too. How many blocks hold a square is not told
 * in SQL.
 */
#include "vectors.h"

#include <sqlite3.h>

static sqlite3 *db;
static char answer[LINE];

/* The calls by their names in C, each in SQL with the origin and without. */
static const struct {
    const char *name, *sql[2];
    int blocks; /* whether the answer in C ends in a count of blocks */
} calls[] = {
    {"number_to_square", {"SELECT uvalinda_x(?1, ?2, ?3, ?4, ?5), uvalinda_y(?1, ?2, ?3, ?4, ?5)", "SELECT uvalinda_x(?1, ?2, ?5), uvalinda_y(?1, ?2, ?5)"}, 1},
    {"square_to_number", {"SELECT uvalinda_number(?1, ?2, ?3, ?4, ?5, ?6)", "SELECT uvalinda_number(?1, ?2, ?5, ?6)"}, 1},
    {"runs_for_window", {"SELECT * FROM uvalinda_runs(?1, ?2, ?3, ?4, ?5, ?6, ?7, ?8)", "SELECT * FROM uvalinda_runs(?1, ?2, ?5, ?6, ?7, ?8)"}, 0},
};

enum { CALLS = sizeof calls / sizeof *calls };

static void fail(const char *what) {
    printf("vectors: %s: %s\n", what, sqlite3_errmsg(db));
    exit(1);
}

static void bind(sqlite3_stmt *statement, const char *arguments, int text) {
    for (int place = 1; *arguments != 0; place++) {
        size_t length = strcspn(arguments, " ");
        char bytes[LINE];
        if (text) {
            sqlite3_bind_text(statement, place, bytes, (int)unescaped(arguments, length, bytes), SQLITE_TRANSIENT);
        } else {
            sqlite3_bind_int64(statement, place, strtoll(arguments, NULL, 10));
        }
        arguments += length + (arguments[length] == ' ');
    }
}

/* All rows of an answer as words, or the number that a refusal names. */
static void ask(sqlite3_stmt *statement) {
    const char *refused;
    size_t said = 0;
    int status;
    answer[0] = 0;
    while ((status = sqlite3_step(statement)) == SQLITE_ROW) {
        for (int i = 0; i < sqlite3_column_count(statement); i++) {
            said += (size_t)snprintf(answer + said, sizeof answer - said, said == 0 ? "%lld" : " %lld", sqlite3_column_int64(statement, i));
        }
    }
    if (status != SQLITE_DONE && (refused = strstr(sqlite3_errmsg(db), "): refused ")) != NULL) {
        snprintf(answer, sizeof answer, "refused %d", atoi(refused + strlen("): refused ")));
    }
    sqlite3_reset(statement);
    sqlite3_clear_bindings(statement);
}

/* Whether a call, made as one of its two forms, is answered as is due. */
static int right(const char *sql, const char *arguments, int text, const char *due) {
    sqlite3_stmt *statement;
    if (sqlite3_prepare_v2(db, sql, -1, &statement, NULL) != SQLITE_OK) {
        fail(sql);
    }
    bind(statement, arguments, text);
    ask(statement);
    sqlite3_finalize(statement);
    if (strcmp(answer, due) != 0) {
        printf("vectors: '%s' is answered '%s' for %s, and '%s' is due\n", sql, answer, arguments, due);
    }
    return strcmp(answer, due) == 0;
}

/* Whether the third and the fourth word are 0. */
static int at_zero(const char *arguments) {
    for (int i = 0; i < 2; i++) {
        arguments += strcspn(arguments, " ") + 1;
    }
    return strncmp(arguments, "0 0 ", 4) == 0;
}

/* Compares a vector in each form that it has, and counts them; those of other calls are passed by. */
static void compare(const char *asked, char *due, int *compared, int *wrong) {
    int text = strncmp(asked, "text ", 5) == 0;
    asked += text || strncmp(asked, "wide ", 5) == 0 ? 5 : 0;
    for (int i = 0; i < CALLS; i++) {
        size_t length = strlen(calls[i].name);
        if (strncmp(asked, calls[i].name, length) != 0) {
            continue;
        }
        if (calls[i].blocks && strncmp(due, "refused", 7) != 0) {
            *strrchr(due, ' ') = 0;
        }
        for (int form = 0; form < 1 + at_zero(asked + length + 1); form++) {
            *compared += 1;
            *wrong += !right(calls[i].sql[form], asked + length + 1, text, due);
        }
    }
}

int main(int argc, char **argv) {
    static char vector[LINE], *due;
    int compared = 0, wrong = 0;
    FILE *file = argc == 3 ? fopen(argv[2], "r") : NULL;
    if (file == NULL || sqlite3_open(":memory:", &db) != SQLITE_OK) {
        fail("no file of vectors, or no database");
    }
    sqlite3_db_config(db, SQLITE_DBCONFIG_ENABLE_LOAD_EXTENSION, 1, NULL);
    if (sqlite3_load_extension(db, argv[1], NULL, NULL) != SQLITE_OK) {
        fail("the extension cannot be loaded");
    }
    while ((due = next_vector(file, vector)) != NULL) {
        compare(vector, due, &compared, &wrong);
    }
    fclose(file);
    sqlite3_close(db);
    printf("vectors: SQL answers %d, %d wrong\n", compared, wrong);
    return compared == 0 || wrong != 0;
}
