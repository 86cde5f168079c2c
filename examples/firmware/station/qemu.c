/* The board of a station under qemu. Standard input has the lines that are typed. The half-bits of the track go to
 * standard output, each on a line. A line `wait N` is not typed: N half-bits pass before the next line. */
#include "board.h"

static uint32_t left; /* how many half-bits pass before the next line */
static bool is_over;

/* Returns the number after `wait `, or 0 if the line is another line. */
static uint32_t waits(const char *line, uint32_t len) {
    static const char word[] = "wait ";
    uint32_t number = 0;
    for (uint32_t i = 0; i < len; i++) {
        if (i < 5 && line[i] != word[i]) return 0;
        if (i >= 5) number = number * 10 + (uint32_t)(line[i] - '0');
    }
    return number;
}

bool next_line(char line[LINE], uint32_t *len) {
    if (left > 0 || is_over) return false;
    int c = read_byte();
    for (*len = 0; c >= 0 && c != '\n'; c = read_byte()) {
        if (*len < LINE) line[*len] = (char)c;
        ++*len;
    }
    is_over = c < 0;
    left = *len > LINE ? 0 : waits(line, *len);
    return left == 0 && !is_over;
}

bool wait_for_interrupt(void) {
    if (is_over) return false;
    show_number(on_timer());
    show("\n");
    if (left > 0) left--;
    return true;
}
