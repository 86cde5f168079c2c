/* Functions that the boards under qemu share, and boards whose debugger has semihosting: bytes from standard input,
 * text to standard output. */
#include "qemu.h"
#include "board.h"
#include "semihosting.h"

int read_byte(void) {
    static uint8_t bytes[256];
    static uint32_t len, place;
    static intptr_t input = -1;
    if (input < 0) input = host_stream(HOST_INPUT);
    if (place == len) {
        len = host_read(input, bytes, sizeof bytes);
        place = 0;
    }
    return place < len ? bytes[place++] : -1;
}

/* The next byte of the capture that is in no comment, -1 at its end. */
static int next_byte(void) {
    int c = read_byte();
    if (c == '#') {
        while (c >= 0 && c != '\n') c = read_byte();
    }
    return c;
}

static bool is_digit(int c) {
    return c >= '0' && c <= '9';
}

bool next_half(uint32_t *us) {
    int c = next_byte();
    while (c >= 0 && !is_digit(c)) c = next_byte();
    if (c < 0) return false;
    for (*us = 0; is_digit(c); c = next_byte()) *us = *us * 10 + (uint32_t)(c - '0');
    return true;
}

intptr_t open_word(uint32_t number, intptr_t mode) {
    static char words[256];
    char *at = words;
    host_words(words, sizeof words);
    for (; number > 0 && *at; number--) {
        while (*at && *at != ' ') at++;
        if (*at) at++;
    }
    for (uint32_t i = 0; at[i]; i++) {
        if (at[i] == ' ') at[i] = 0;
    }
    return *at ? host_open(at, mode) : -1;
}

/* (a board with a UART has a function of its own) */
__attribute__((weak)) void show(const char *text) {
    static intptr_t output = -1;
    uint32_t len = 0;
    if (output < 0) output = host_stream(HOST_OUTPUT);
    while (text[len]) len++;
    host_write(output, text, len);
}

void show_number(uint32_t number) {
    char digits[11], *first = digits + 10;
    *first = 0;
    do {
        *--first = (char)('0' + number % 10);
        number /= 10;
    } while (number);
    show(first);
}

_Noreturn void stop(int status) {
    host_exit(status);
}
