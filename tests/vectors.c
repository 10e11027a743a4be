/*
 * vectors FILE: the library answers the test vectors through its C header as tests/vectors.txt says. Those that begin with `wide` cannot be asked in C and
 * are left out. An answer is put into words as the file has them, and compared.
 */
#include "uvalinda.h"
#include "vectors.h"

#include <stdarg.h>

enum { WORDS = 512, PLACES = 1024, BYTES = 4096 };

/* A word of a vector as the bytes that it stands for. Those of a word that is no number may hold a byte 0. */
typedef struct {
    char bytes[LINE];
    size_t length;
} Word;

static Word words[WORDS];
static char answer[LINE];

static void say(const char *form, ...) {
    va_list values;
    size_t said = strlen(answer);
    va_start(values, form);
    vsnprintf(answer + said, sizeof answer - said, form, values);
    va_end(values);
}

/* The words of what is asked. */
static int read_words(const char *asked) {
    int count = 0;
    while (*asked != 0 && count < WORDS) {
        size_t length = strcspn(asked, " ");
        Word *word = &words[count++];
        word->length = unescaped(asked, length, word->bytes);
        word->bytes[word->length] = 0;
        asked += length + (asked[length] == ' ');
    }
    return count;
}

static uint32_t u(int place) { return (uint32_t)strtoll(words[place].bytes, NULL, 10); }
static int32_t s(int place) { return (int32_t)strtoll(words[place].bytes, NULL, 10); }

/* Whether a word is a number as a field of a line. With no area in force a line of numbers is refused as NO_AREA, and any other sooner. */
static int is_number(const Word *word, int minus) {
    uint8_t line[LINE + 4];
    int64_t ignored[UVALINDA_LINE_PLACES];
    size_t length = word->length;
    memcpy(line, minus ? "S " : "N ", 2);
    memcpy(line + 2, word->bytes, length);
    memcpy(line + 2 + length, " 0", 2);
    return uvalinda_handle_line(0, 0, 0, 0, line, length + (minus ? 4 : 2), ignored, UVALINDA_LINE_PLACES) == UVALINDA_NO_AREA;
}

/* Whether every argument of a call in text is a number. The width and the height carry no minus, nor does a number. */
static int are_numbers(const char *call, int from, int count) {
    for (int i = from; i < count; i++) {
        int minus = i >= from + 2 && !(strcmp(call, "number_to_square") == 0 && i == from + 4);
        if (!is_number(&words[i], minus)) {
            return 0;
        }
    }
    return 1;
}

/* Fills what is lent to be written with a word that is never due, so that nothing that a call before left there passes for an answer. */
static void spoil(void *room, size_t bytes) { memset(room, 0xA7, bytes); }

static void say_all(uint32_t refusal, const uint32_t *values, size_t count) {
    if (refusal != UVALINDA_ANSWERED) {
        say("refused %u", refusal);
        return;
    }
    for (size_t i = 0; i < count; i++) {
        say(i == 0 ? "%u" : " %u", values[i]);
    }
}

/* The runs of a window with a slice of so many places. */
static void window(int at, size_t places, int tell_count) {
    static uint32_t runs[PLACES];
    uint32_t count[UVALINDA_RUNS_PLACES];
    spoil(runs, sizeof runs);
    uint32_t refusal = uvalinda_runs_for_window(u(at), u(at + 1), s(at + 2), s(at + 3), s(at + 4), s(at + 5), s(at + 6), s(at + 7), runs, places, count,
                                                UVALINDA_RUNS_PLACES);
    say_all(refusal, runs, refusal == UVALINDA_ANSWERED ? 2 * (size_t)count[0] : 0);
    if (refusal == UVALINDA_NO_ROOM && tell_count) {
        say(" %u", count[0]);
    }
}

static void call(const char *name, int at) {
    int32_t found[UVALINDA_SQUARE_PLACES];
    uint32_t number[UVALINDA_NUMBER_PLACES], refusal;
    if (strcmp(name, "number_to_square") == 0) {
        refusal = uvalinda_number_to_square(u(at), u(at + 1), s(at + 2), s(at + 3), u(at + 4), found, UVALINDA_SQUARE_PLACES);
        refusal == UVALINDA_ANSWERED ? say("%d %d %d", found[0], found[1], found[2]) : say("refused %u", refusal);
    } else if (strcmp(name, "square_to_number") == 0) {
        refusal = uvalinda_square_to_number(u(at), u(at + 1), s(at + 2), s(at + 3), s(at + 4), s(at + 5), number, UVALINDA_NUMBER_PLACES);
        say_all(refusal, number, UVALINDA_NUMBER_PLACES);
    } else if (strcmp(name, "finish_square") == 0) {
        refusal = uvalinda_finish_square(u(at), u(at + 1), s(at + 2), s(at + 3), found, UVALINDA_FINISH_PLACES);
        refusal == UVALINDA_ANSWERED ? say("%d %d", found[0], found[1]) : say("refused %u", refusal);
    } else if (strcmp(name, "runs_for_window") == 0) {
        window(at, PLACES, 0);
    }
}

static void fill(int by_square) {
    static uint32_t table[PLACES];
    uint64_t blocks[UVALINDA_FILL_PLACES];
    size_t places = u(3);
    spoil(table, sizeof table);
    uint32_t refusal = by_square ? uvalinda_fill_by_square(u(1), u(2), table, places, blocks, UVALINDA_FILL_PLACES)
                                 : uvalinda_fill_by_number(u(1), u(2), table, places, blocks, UVALINDA_FILL_PLACES);
    if (refusal == UVALINDA_ANSWERED) {
        say("%llu ", (unsigned long long)blocks[0]);
    }
    say_all(refusal, table, places);
}

static void check(int by_square, int count) {
    static uint32_t table[PLACES];
    uint32_t judged[UVALINDA_CHECK_PLACES];
    size_t places = (size_t)(count - 3);
    for (int i = 3; i < count; i++) {
        table[i - 3] = u(i);
    }
    uint32_t refusal = by_square ? uvalinda_check_by_square(u(1), u(2), table, places, judged, UVALINDA_CHECK_PLACES)
                                 : uvalinda_check_by_number(u(1), u(2), table, places, judged, UVALINDA_CHECK_PLACES);
    if (refusal != UVALINDA_ANSWERED) {
        say("refused %u", refusal);
    } else if (judged[0] == 0) {
        say("right");
    } else {
        say("wrong %u %u", judged[1], judged[2]);
    }
}

static void card_length(void) {
    uint64_t bytes[UVALINDA_CARD_LENGTH_PLACES];
    uint32_t refusal = uvalinda_card_length(u(1), u(2), bytes, UVALINDA_CARD_LENGTH_PLACES);
    refusal == UVALINDA_ANSWERED ? say("%llu", (unsigned long long)bytes[0]) : say("refused %u", refusal);
}

/* The bytes of a file that the words from one on stand for; how many there are. */
static size_t read_file(int from, int count, uint8_t *file) {
    size_t length = 0;
    memset(file, 0, BYTES);
    for (int i = from; i < count; i++) {
        const char *word = words[i].bytes;
        if (strncmp(word, "0*", 2) == 0) {
            length += 4 * (size_t)atoi(word + 2);
        } else if (word[0] == 'x') {
            for (size_t j = 1; j + 1 < words[i].length; j += 2) {
                char digits[3] = {word[j], word[j + 1], 0};
                file[length++] = (uint8_t)strtol(digits, NULL, 16);
            }
        } else {
            for (int byte = 0; byte < 4; byte++) {
                file[length++] = (uint8_t)(u(i) >> 8 * byte);
            }
        }
    }
    return length;
}

static uint32_t word_at(const uint8_t *file, size_t at) {
    return file[at] | (uint32_t)file[at + 1] << 8 | (uint32_t)file[at + 2] << 16 | (uint32_t)file[at + 3] << 24;
}

/* A file of whole words as the vectors have it. */
static void say_file(const uint8_t *file, size_t length) {
    for (size_t at = 0; at < length;) {
        size_t zeros = 0;
        while (at + 4 * zeros < length && word_at(file, at + 4 * zeros) == 0) {
            zeros++;
        }
        say(at == 0 ? "" : " ");
        zeros > 1 ? say("0*%zu", zeros) : say("%u", word_at(file, at));
        at += 4 * (zeros > 1 ? zeros : 1);
    }
}

static void write_card(int count) {
    static uint32_t table[PLACES];
    static uint8_t file[BYTES];
    size_t bytes = u(4);
    for (int i = 5; i < count; i++) {
        table[i - 5] = u(i);
    }
    spoil(file, sizeof file);
    uint32_t refusal = uvalinda_write_card(u(1), u(2), u(3), table, (size_t)(count - 5), file, bytes);
    refusal == UVALINDA_ANSWERED ? say_file(file, bytes) : say("refused %u", refusal);
}

static void read_card(int count) {
    static uint32_t table[PLACES];
    static uint8_t file[BYTES];
    uint64_t block[UVALINDA_READ_PLACES];
    size_t bytes = read_file(5, count, file), places = u(4);
    spoil(table, sizeof table);
    uint32_t refusal = uvalinda_read_card(u(1), u(2), u(3), file, bytes, table, places, block, UVALINDA_READ_PLACES);
    say_all(refusal, table, places);
    if (refusal == UVALINDA_BAD_CHECK) {
        say(" %llu", (unsigned long long)block[0]);
    }
}

/* A reply of each kind as the file names it, with so many values. */
static void line(void) {
    static const struct {
        const char *name;
        int values;
    } kinds[] = {{"refused", 0}, {"area", 3}, {"cell", 3}, {"number", 2}, {"origin", 2}};
    int64_t now[UVALINDA_LINE_PLACES];
    uint32_t refusal = uvalinda_handle_line(u(1), u(2), s(3), s(4), (const uint8_t *)words[5].bytes, words[5].length, now, UVALINDA_LINE_PLACES);
    say("%lld %lld %lld %lld %s", (long long)now[0], (long long)now[1], (long long)now[2], (long long)now[3], kinds[now[4]].name);
    for (int i = 0; i < kinds[now[4]].values; i++) {
        say(" %lld", (long long)now[5 + i]);
    }
    if (refusal != UVALINDA_ANSWERED) {
        say(" %u", refusal);
    }
}

static void answered(int count) {
    const char *name = words[0].bytes;
    if (strcmp(name, "text") == 0 && !are_numbers(words[1].bytes, 2, count)) {
        say("refused %u", UVALINDA_NOT_A_NUMBER);
    } else if (strcmp(name, "text") == 0) {
        call(words[1].bytes, 2);
    } else if (strcmp(name, "room") == 0) {
        window(2, u(1), 1);
    } else if (strncmp(name, "fill_by_", 8) == 0) {
        fill(strcmp(name + 8, "square") == 0);
    } else if (strncmp(name, "check_by_", 9) == 0) {
        check(strcmp(name + 9, "square") == 0, count);
    } else if (strcmp(name, "card_length") == 0) {
        card_length();
    } else if (strcmp(name, "write_card") == 0) {
        write_card(count);
    } else if (strcmp(name, "read_card") == 0) {
        read_card(count);
    } else if (strcmp(name, "handle_line") == 0) {
        line();
    } else {
        call(name, 1);
    }
}

int main(int argc, char **argv) {
    static char vector[LINE], *due;
    int compared = 0, wrong = 0;
    FILE *file = argc == 2 ? fopen(argv[1], "r") : NULL;
    if (file == NULL) {
        fprintf(stderr, "vectors: no file of vectors\n");
        return 1;
    }
    while ((due = next_vector(file, vector)) != NULL) {
        if (strncmp(vector, "wide ", 5) == 0) {
            continue;
        }
        answer[0] = 0;
        answered(read_words(vector));
        compared++;
        if (strcmp(answer, due) != 0) {
            printf("vectors: C answers '%s' to '%s', and '%s' is due\n", answer, vector, due);
            wrong++;
        }
    }
    fclose(file);
    printf("vectors: C answers %d, %d wrong\n", compared, wrong);
    return compared == 0 || wrong != 0;
}
