/* The file of test vectors, for the programs in C that ask them: tests/vectors.txt, whose first lines say how a vector is read. */
#include <stdio.h>
#include <stdlib.h>
#include <string.h>

enum { LINE = 4096 };

/* A word as the bytes that it stands for, which may hold a byte 0; how many there are. */
static size_t unescaped(const char *word, size_t length, char *bytes) {
    size_t count = 0;
    for (size_t i = 0; i < length; i++) {
        char byte = word[i];
        if (byte == '\\' && word[i + 1] == 'e') {
            break;
        } else if (byte == '\\' && word[i + 1] == '_') {
            byte = ' ';
            i += 1;
        } else if (byte == '\\') {
            char digits[3] = {word[i + 2], word[i + 3], 0};
            byte = (char)strtol(digits, NULL, 16);
            i += 3;
        }
        bytes[count++] = byte;
    }
    return count;
}

/* The next vector of a file: what is asked goes to `asked`, of LINE bytes, and what is due stands behind it. NULL at the end. */
static char *next_vector(FILE *file, char *asked) {
    do {
        if (fgets(asked, LINE, file) == NULL) {
            return NULL;
        }
    } while (asked[0] == '#');
    char *due = strstr(asked, " = ");
    if (due == NULL) {
        printf("vectors: what is due of %s?\n", asked);
        exit(1);
    }
    *due = 0;
    due[3 + strcspn(due + 3, "\n")] = 0;
    return due + 3;
}
