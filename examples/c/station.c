/* A command station. `station QUEUE SLOTS REPEATS` reads packet lines, which are commands, and lines `send N`. It
 * writes the frames that the station sends, as `dcc encode --hex --station` does. */
#include "dcc.h"
#include "lines.h"
#include <string.h>

static dcc_station station;

/* A real station gives the half-bits of the frame to a booster here (dcc_halves). */
static void send_next(void) {
    dcc_frame frame;
    dcc_station_next(&station, &frame);
    for (int i = 0; i < frame.len; i++) printf("%02x", frame.bytes[i]);
    printf("\n");
}

/* A word of a line, from *at on, and where the next one may begin. Its length is 0 if there is none. */
static uint32_t word_at(const text_line *line, uint32_t *at) {
    while (*at < line->len && is_blank(line->bytes[*at])) ++*at;
    uint32_t end = *at;
    while (end < line->len && !is_blank(line->bytes[end])) end++;
    return end - *at;
}

/* The number of 1 to 5 decimal digits, or 0. */
static unsigned number_of(const char *word, uint32_t len) {
    unsigned number = 0;
    for (uint32_t i = 0; i < len; i++) {
        if (len > 5 || word[i] < '0' || word[i] > '9') return 0;
        number = number * 10 + (unsigned)(word[i] - '0');
    }
    return number;
}

/* How many packets a line `send N` asks for, 0 if it is another line. A fault of such a line ends the program. */
static unsigned asked(const text_line *line) {
    uint32_t at = 0, len = word_at(line, &at);
    if (len != 4 || memcmp(line->bytes + at, "send", 4)) return 0;
    at += len;
    len = word_at(line, &at);
    if (len == 0) refuse_line(line, DCC_P10_WORD);
    unsigned number = number_of(line->bytes + at, len);
    if (number < 1 || number > 1000) refuse_line(line, DCC_P11_NUMBER);
    at += len;
    if (word_at(line, &at) > 0) refuse_line(line, DCC_P10_WORD);
    return number;
}

static void command(const text_line *line) {
    dcc_frame frame;
    uint8_t fault = dcc_frame_of_line(line->bytes, line->len, &frame);
    if (fault) refuse_line(line, fault);
    fault = dcc_station_command(&station, frame.bytes, frame.len);
    if (fault) printf("# refused C%u\n", fault);
}

/* A size of the station. A number that a byte cannot hold is 0, which no station has. */
static uint8_t size_of(const char *word) {
    unsigned number = number_of(word, (uint32_t)strlen(word));
    return number > 255 ? 0 : (uint8_t)number;
}

int main(int argc, char **argv) {
    static text_line line;
    if (argc != 4 || dcc_station_new(&station, size_of(argv[1]), size_of(argv[2]), size_of(argv[3]))) {
        fprintf(stderr, "usage: station QUEUE SLOTS REPEATS, 1 to 64, 1 to 128, 1 to 8\n");
        return 2;
    }
    while (next_line(&line)) {
        unsigned count = asked(&line);
        if (count == 0) command(&line);
        for (; count > 0; count--) send_next();
    }
    return 0;
}
