/* The board of the command station under qemu. Standard input is the serial line, and standard output has the answers.
 * The files that the words of the command line name are the tracks:
 *
 *     STATION [MAIN [PROGRAMMING CURRENT]]
 *
 * MAIN and PROGRAMMING get the half-bits of the tracks, each on a line. Without MAIN, standard error gets those of the
 * main track. From CURRENT the board reads a byte after each half-bit of the programming track: 1 if the decoder draws
 * the current of an acknowledgement, and 0 if not. track/pipe.c is a decoder that writes these bytes.
 *
 * The time is that of the tracks. The serial lines have 115,200 baud. Some lines are orders to the board:
 *
 * - `wait MS` lets milliseconds pass before the next line, and `wait` lets time pass until the programming track has no
 *   power. The end of the input does the same, and then the program ends. Joined tracks must be separated before.
 * - `port 1` and `port 0` choose the port to which the next lines come. From the first `port 1` on, the answers to port
 *   1 are shown too, with `1 ` before each.
 * - `draw MA` is the current of the main track in milliamperes from now on, while the track has power. */
#include "board.h"
#include "qemu.h"
#include "semihosting.h"

/* A track. */
typedef struct {
    uint32_t due;      /* the time of the next interrupt of its timer */
    uint32_t last;     /* the time of the last edge */
    bool has_power;
    intptr_t file;     /* -1 if there is none */
    char bytes[256];   /* half-bits that are not written */
    uint32_t len;
} track;

static track main_track = {.file = -1}, programming_track = {.file = -1};
static intptr_t current = -1;
static uint32_t now;
static bool draws;

/* The input waits until this time, and also for the programming track if waits_for_track is true. */
static uint32_t wait_until;
static bool waits_for_track, has_begun, is_over;
/* A line of the input that is read, and the port to which it comes. */
static char line[128];
static uint32_t len, place;
static uint8_t port_of_line;
static bool has_second_port;
/* The current of the main track while it has power. */
static uint16_t drawn;

/* A line of the answers that is not complete. */
typedef struct {
    char bytes[128];
    uint32_t len;
} answer;

enum { PORTS = 2 };
static answer answers[PORTS];

/* The microseconds between the questions whether a track without power gets power, and those of a byte. */
enum { POLL = 1000, BYTE = 87 };

static bool is_before(uint32_t time, uint32_t other) {
    return (int32_t)(time - other) < 0;
}

/* Reads the next line of the input, or a part of a long line. */
static void read_line(void) {
    int c = 0;
    for (len = 0, place = 0; len < sizeof line && c != '\n'; line[len++] = (char)c) {
        c = read_byte();
        if (c < 0) break;
    }
    if (c < 0 && len == 0) {
        is_over = true;
        waits_for_track = true;
        wait_until = now + 2 * POLL;
    }
}

/* Returns true if the line begins with a word of four letters, and writes the number after it, which is 0 if there is
 * none. */
static bool has_word(const char *word, uint32_t *number) {
    uint32_t i = 0;
    for (; i < 4; i++) {
        if (i >= len || line[i] != word[i]) return false;
    }
    *number = 0;
    for (i = 5; i < len && line[i] >= '0' && line[i] <= '9'; i++) *number = *number * 10 + (uint32_t)(line[i] - '0');
    return true;
}

/* Takes an order to the board. Returns false if the line is another line. */
static bool take_order(void) {
    uint32_t number;
    if (has_word("wait", &number)) {
        waits_for_track = number == 0;
        wait_until = now + (number == 0 ? 2 * POLL : number * 1000);
    } else if (has_word("port", &number)) {
        port_of_line = number == 1;
        has_second_port |= number == 1;
    } else if (has_word("draw", &number)) {
        drawn = (uint16_t)number;
    } else {
        return false;
    }
    place = len;
    return true;
}

static bool is_waiting(void) {
    return is_before(now, wait_until) || (waits_for_track && programming_track.has_power);
}

/* Reads the next byte of a serial line. Returns false if no byte has come. */
static bool take_byte(char *c) {
    if (!has_begun || is_waiting()) return false;
    waits_for_track = false;
    while (place == len && !is_over) {
        read_line();
        if (take_order() || is_over) return false;
    }
    if (place == len) return false;
    *c = line[place++];
    return true;
}

/* The interrupts of the serial lines since the last call. */
static void end_bytes(void) {
    static uint32_t due;
    char c;
    while (!is_before(now, due) && take_byte(&c)) {
        due += BYTE;
        on_byte(port_of_line, c);
    }
    if (is_before(due, now)) due = now;
}

/* (a board with a UART has functions of its own for the serial lines) */
__attribute__((weak)) void begin_serial(void) {
    has_begun = true;
}

__attribute__((weak)) bool has_room(uint8_t port) {
    return port == 0 || has_second_port;
}

__attribute__((weak)) void give_byte(uint8_t port, char c) {
    static intptr_t output = -1;
    answer *of = &answers[port];
    if (output < 0) output = host_stream(HOST_OUTPUT);
    of->bytes[of->len++] = c;
    if (c != '\n' && of->len < sizeof of->bytes) return;
    if (port > 0) host_write(output, "1 ", 2);
    host_write(output, of->bytes, of->len);
    of->len = 0;
}

bool draws_current(void) {
    return draws;
}

void set_power(bool is_on) {
    main_track.has_power = is_on;
}

uint16_t main_current(void) {
    return main_track.has_power ? drawn : 0;
}

void notify_overload(void) {
    if (has_begun) show("overload\n");
}

static void write_out(track *of) {
    if (of->len > 0 && of->file >= 0) host_write(of->file, of->bytes, of->len);
    of->len = 0;
}

/* Writes the half-bit that ends now. A half-bit before which the track had no power is longer. */
static void end_half(track *of) {
    char digits[10];
    uint32_t us = now - of->last, count = 0;
    of->last = now;
    if (us == 0) return; /* the first edge */
    if (of->len + sizeof digits + 1 > sizeof of->bytes) write_out(of);
    do {
        digits[count++] = (char)('0' + us % 10);
        us /= 10;
    } while (us > 0);
    while (count > 0) of->bytes[of->len++] = digits[--count];
    of->bytes[of->len++] = '\n';
}

static void open_files(void) {
    static bool is_open;
    if (is_open) return;
    is_open = true;
    main_track.file = open_word(1, HOST_WRITES);
    if (main_track.file < 0) main_track.file = host_stream(HOST_ERROR);
    programming_track.file = open_word(2, HOST_WRITES);
    current = open_word(3, HOST_READS);
}

static void main_edge(void) {
    if (main_track.has_power) end_half(&main_track);
    main_track.due = now + on_timer();
}

/* The decoder answers each half-bit. */
static void programming_edge(void) {
    uint16_t us;
    if (programming_track.has_power) {
        char answer = '0';
        end_half(&programming_track);
        write_out(&programming_track);
        if (current >= 0) host_read(current, &answer, 1);
        draws = answer == '1';
    }
    us = on_programming_timer();
    programming_track.has_power = us > 0;
    programming_track.due = now + (us > 0 ? us : POLL);
}

bool wait_for_interrupt(void) {
    open_files();
    if (is_over && place == len && !is_waiting()) {
        write_out(&main_track);
        return false;
    }
    now = is_before(programming_track.due, main_track.due) ? programming_track.due : main_track.due;
    if (now == main_track.due) {
        main_edge();
    } else {
        programming_edge();
    }
    end_bytes();
    return true;
}
