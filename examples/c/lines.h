/* Reads lines of text as `dcc encode` does (docs/FORMATS.md). A fault ends the program with status 3, after what
 * it has written. */
#ifndef LINES_H
#define LINES_H

#include <stdbool.h>
#include <stdint.h>
#include <stdio.h>
#include <stdlib.h>

enum { LINE_BYTES = 512, INPUT_BYTES = 67108864 }; /* the most of a line, and of the input */

/* A line of the input, its line feed left out. */
typedef struct {
    unsigned number; /* from 1 */
    uint32_t len;
    char bytes[LINE_BYTES];
} text_line;

/* Ends the program at a line that has the fault P1 to P14. */
static void refuse_line(const text_line *line, unsigned fault) {
    fprintf(stderr, "U3 line %u: P%u\n", line->number, fault);
    exit(3);
}

static bool is_blank(char c) {
    return c == ' ' || c == '\t' || c == '\r';
}

/* Returns true if the line has a word and is no comment. */
static bool has_words(const text_line *line) {
    uint32_t at = 0;
    while (at < line->len && is_blank(line->bytes[at])) at++;
    return at < line->len && line->bytes[0] != '#';
}

/* Reads the next line, whatever it has. Returns false at the end. */
static bool any_line(text_line *line) {
    static uint32_t bytes;
    int c = 0;
    line->number++;
    for (line->len = 0; c != '\n'; ) {
        c = getchar();
        if (c == EOF) return line->len > 0;
        if (++bytes > INPUT_BYTES) {
            fprintf(stderr, "U7 input too long\n");
            exit(3);
        }
        if (c == '\n') continue;
        if (line->len == LINE_BYTES || c > 127) refuse_line(line, 10);
        line->bytes[line->len++] = (char)c;
    }
    return true;
}

/* Reads the next line that has words and is no comment. Returns false at the end. The number of a line is 0 before
 * the first call. */
static bool next_line(text_line *line) {
    while (any_line(line)) {
        if (has_words(line)) return true;
    }
    return false;
}

#endif
