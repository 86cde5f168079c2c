/* Reads captures as `dcc show` does (docs/FORMATS.md): durations in microseconds, runs of them as 58*28, comments
 * from # on. A fault ends the program with status 3, after what it has written. */
#ifndef CAPTURE_H
#define CAPTURE_H

#include <stdbool.h>
#include <stdint.h>
#include <stdio.h>
#include <stdlib.h>

enum { CAPTURE_HALVES = 16777216, CAPTURE_BYTES = 67108864 }; /* the most that is read */

static void refuse_capture(unsigned line) {
    if (line > 0) {
        fprintf(stderr, "U2 line %u: bad number\n", line);
    } else {
        fprintf(stderr, "U7 input too long\n");
    }
    exit(3);
}

/* The next byte, EOF at the end. A comment is left out up to its line feed. */
static int next_byte(void) {
    static uint32_t bytes;
    bool is_comment = false;
    for (int c = getchar();; c = getchar()) {
        if (c != EOF && ++bytes > CAPTURE_BYTES) refuse_capture(0);
        is_comment |= c == '#';
        if (!is_comment || c == '\n' || c == EOF) return c;
    }
}

/* Reads a number whose first byte is c. Returns the byte after its digits. No number, or one of more digits than
 * most, clears *is_good. */
static int next_number(int c, int most, uint64_t *number, bool *is_good) {
    int digits = 0;
    *number = 0;
    for (; c >= '0' && c <= '9'; c = next_byte()) {
        if (++digits <= most) *number = *number * 10 + (uint64_t)(c - '0');
    }
    *is_good &= digits > 0 && digits <= most;
    return c;
}

static bool is_blank(int c) {
    return c == ' ' || c == '\t' || c == '\r' || c == '\n';
}

/* The next run of half-bits. Returns 0 at the end. */
static int next_run(uint16_t *us, uint32_t *n) {
    static int c = ' '; /* the byte after the last word */
    static unsigned line = 1;
    static uint32_t halves;
    uint64_t duration, count = 1;
    bool is_good = true;
    for (; is_blank(c); c = next_byte()) line += c == '\n';
    if (c == EOF) return 0;
    c = next_number(c, 10, &duration, &is_good);
    if (c == '*') c = next_number(next_byte(), 8, &count, &is_good);
    for (; !is_blank(c) && c != EOF; c = next_byte()) is_good = false;
    if (!is_good || count < 1 || count > CAPTURE_HALVES) refuse_capture(line);
    if (count > CAPTURE_HALVES - halves) refuse_capture(0);
    halves += (uint32_t)count;
    *us = duration > 65535 ? 65535 : (uint16_t)duration;
    *n = (uint32_t)count;
    return 1;
}

#endif
