/* SPDX-License-Identifier: MIT OR Apache-2.0
 *
 * A command line over the library for C, for computers without the proved program: Windows, macOS, a Raspberry Pi. Its
 * commands `show`, `lost` and `encode` do the same as those of the proved program (docs/FORMATS.md). The functions of
 * the library are proved. The code of this file is tested, not proved.
 *
 *   cc -O2 -Iinclude -o dcc examples/c/dcc.c c/dcc.c
 */
#include "dcc.h"
#include <errno.h>
#include <stdarg.h>
#include <stdio.h>
#include <stdlib.h>
#include <string.h>
#ifdef _WIN32
#include <fcntl.h>
#include <io.h>
#define read _read
#define write _write
#else
#include <unistd.h>
#endif

enum { INPUT_BYTES = 67108864, CAPTURE_HALVES = 16777216, LINE_BYTES = 512, BUFFER = 4096 };
enum { STATUS_USAGE = 2, STATUS_ERROR = 3 };

/* ---- output ---- */

static char out[BUFFER];
static unsigned out_len;

/* Ends the program with a line on standard error. */
static void end_with(int status, const char *format, ...) {
    va_list values;
    va_start(values, format);
    vfprintf(stderr, format, values);
    va_end(values);
    fputs("\n", stderr);
    exit(status);
}

/* Writes all buffered bytes. */
static void flush(void) {
    unsigned done = 0;
    while (done < out_len) {
        int n = (int)write(1, out + done, out_len - done);
        if (n < 0 && errno == EINTR) continue;
        if (n <= 0) end_with(STATUS_ERROR, "dcc: U5 write failed");
        done += (unsigned)n;
    }
    out_len = 0;
}

static void put_bytes(const char *bytes, size_t len) {
    for (size_t i = 0; i < len; i++) {
        if (out_len == BUFFER) flush();
        out[out_len++] = bytes[i];
    }
}

static void put(const char *text) { put_bytes(text, strlen(text)); }

static void put_number(unsigned long number) {
    char digits[24];
    put_bytes(digits, (size_t)sprintf(digits, "%lu", number));
}

/* Writes `before`, a number, and `after`. */
static void put_between(const char *before, unsigned long number, const char *after) {
    put(before);
    put_number(number);
    put(after);
}

static void put_hex(const dcc_frame *frame) {
    static const char digits[] = "0123456789abcdef";
    for (int i = 0; i < frame->len; i++) {
        char byte[2] = {digits[frame->bytes[i] >> 4], digits[frame->bytes[i] & 15]};
        put_bytes(byte, 2);
    }
}

/* Writes the line that is left to write when the input ends, also if it ends with an error. */
static void (*write_last_line)(void);

/* Writes the lines before an error of the input, and ends the program with the text of the error. */
static void refuse(const char *format, unsigned long line, unsigned code) {
    if (write_last_line) write_last_line();
    flush();
    end_with(STATUS_ERROR, format, line, code);
}

/* ---- input ---- */

/* Returns the next byte of standard input, or EOF at its end. Writes the finished lines before each read. */
static int next_byte(void) {
    static unsigned char in[BUFFER];
    static unsigned at, len;
    static unsigned long bytes;
    while (at == len) {
        flush();
        int n = (int)read(0, in, BUFFER);
        if (n == 0) return EOF;
        if (n < 0 && errno != EINTR) refuse("dcc: U4 read failed", 0, 0);
        at = 0;
        len = n < 0 ? 0 : (unsigned)n;
    }
    if (++bytes > INPUT_BYTES) refuse("dcc: U7 input too long", 0, 0);
    return in[at++];
}

/* ---- captures ---- */

/* Returns the next byte outside of comments. */
static int next_capture_byte(void) {
    int c = next_byte();
    if (c == '#') while (c != '\n' && c != EOF) c = next_byte();
    return c;
}

static bool is_blank(int c) { return c == ' ' || c == '\t' || c == '\r'; }

/* Reads a number of 1 to `most` digits that begins with the byte *c, and writes the byte after the number to *c.
 * Returns false if there is no such number. */
static bool read_number(int *c, int most, uint64_t *number) {
    int digits = 0;
    for (*number = 0; *c >= '0' && *c <= '9'; *c = next_capture_byte()) {
        if (digits++ < most) *number = 10 * *number + (uint64_t)(*c - '0');
    }
    return digits >= 1 && digits <= most;
}

/* Reads the next run of half-bits. Returns false at the end of the capture. */
static bool read_run(uint16_t *us, uint32_t *n) {
    static int c = ' '; /* the byte after the last word */
    static unsigned long line = 1;
    static uint32_t halves;
    uint64_t duration, count = 1;
    for (; is_blank(c) || c == '\n'; c = next_capture_byte()) line += c == '\n';
    if (c == EOF) return false;
    bool is_run = read_number(&c, 10, &duration);
    if (c == '*') {
        c = next_capture_byte();
        is_run = read_number(&c, 8, &count) && is_run;
    }
    for (; !is_blank(c) && c != '\n' && c != EOF; c = next_capture_byte()) is_run = false;
    if (!is_run || count < 1 || count > CAPTURE_HALVES) refuse("dcc: U2 line %lu: bad number", line, 0);
    if (count > CAPTURE_HALVES - halves) refuse("dcc: U7 input too long", 0, 0);
    halves += (uint32_t)count;
    *us = duration > 65535 ? 65535 : (uint16_t)duration;
    *n = (uint32_t)count;
    return true;
}

/* ---- listings ---- */

/* How packets are written: in hex, as packet lines, or in plain words. */
typedef enum { HEX, LINES, PLAIN } writing;

static void put_packet(const dcc_frame *frame, writing how) {
    char text[DCC_PLAIN];
    if (how == PLAIN && dcc_plain(frame->bytes, frame->len, text) == 0) {
        put(text);
    } else if (how == LINES && dcc_line(frame->bytes, frame->len, text) == 0) {
        put(text);
    } else {
        put_hex(frame);
    }
}

static void put_outcome(const dcc_outcome *outcome, writing how) {
    if (outcome->refusal == 0) {
        put_packet(&outcome->frame, how);
        return;
    }
    put("refused H");
    put_number(outcome->refusal);
    if (outcome->frame.len > 0) put(" ");
    put_hex(&outcome->frame);
}

/* `dcc show` */
static void show(writing how) {
    static dcc_framer framer;
    dcc_outcome outcome;
    unsigned long before = 0; /* the number of half-bits before the run */
    uint16_t us;
    uint32_t n;
    for (; read_run(&us, &n); before += n) {
        if (!dcc_push_run(&framer, us, n, &outcome)) continue;
        put_number(before + outcome.at);
        put(" ");
        put_outcome(&outcome, how);
        put("\n");
    }
}

/* ---- lost packets ---- */

static void put_off_limits(const char *before, const char *name, const dcc_off_limits *off) {
    unsigned long numbers[] = {off->count, off->least, off->most};
    const char *const words[] = {" ", " from ", " to "};
    if (off->count == 0) return;
    put(before);
    put(name);
    for (int i = 0; i < 3; i++) {
        put(words[i]);
        put_number(numbers[i]);
    }
}

/* Writes the line of a lost packet whose last half-bit has the number `half`, with its causes and the number of its
 * spikes. */
static void put_lost(unsigned long half, const dcc_lost_packet *lost, unsigned long spikes, writing how) {
    const dcc_short_preamble *preamble = &lost->preamble;
    put_between("", half, " lost ");
    put_packet(&lost->frame, how);
    put(": ");
    if (preamble->is_short) {
        put("preamble ");
        put_number(preamble->ones);
    }
    if (preamble->is_short && preamble->after_refusal) {
        put(" after ");
        put_number(half - preamble->since_refusal);
    }
    put_off_limits(preamble->is_short ? ", " : "", "ones", &lost->ones);
    bool has_cause = preamble->is_short || lost->ones.count > 0;
    put_off_limits(has_cause ? ", " : "", "zeros", &lost->zeros);
    has_cause = has_cause || lost->zeros.count > 0;
    if (spikes > 0) put_between(has_cause ? ", spikes " : "spikes ", spikes, "");
    put("\n");
}

/* `dcc lost` without --spikes */
static void list_lost(writing how) {
    static dcc_lost finder;
    dcc_lost_packet lost;
    unsigned long half = 0; /* the number of half-bits so far */
    uint16_t us;
    uint32_t n;
    while (read_run(&us, &n)) {
        /* a run can have more than one lost packet */
        for (uint32_t taken; n > 0; n -= taken) {
            uint32_t at = dcc_lost_push_run(&finder, us, n, &lost);
            taken = at ? at : n;
            half += taken;
            if (at) put_lost(half, &lost, 0, how);
        }
    }
}

/* ---- packets with spikes ---- */

/* The half-bits of the longest body, and 20 half-bits of ones before it. */
enum { BODY_AND_ONES = 18 * 6 + 2 + 20 };

/* A half-bit, joined with the spikes next to it. */
typedef struct {
    uint16_t us;     /* the sum of its half-bits, at most 65535 */
    uint16_t spikes; /* the number of its spikes, at most 65535 */
    uint8_t unused;  /* the half-bits directly before it that no outcome uses, at most 20 */
    bool has_packet; /* true if a decoder hears a packet that ends with one of its half-bits */
} joined_half;

/* What `dcc lost --spikes` stores of a capture. */
static struct {
    writing how;
    uint16_t limit;      /* each half-bit shorter than this number of microseconds is a spike */
    unsigned long half;  /* the number of half-bits */
    dcc_framer framer;   /* hears the half-bits of the capture */
    uint8_t unused;      /* the half-bits after the last outcome, and the two of its end bit; at most 20 */
    bool is_refused;     /* true if the last outcome is a refusal */
    uint8_t since;       /* the half-bits after the last outcome, at most 255 */
    dcc_lost finder;     /* finds packets in the nearest classes of the closed joined half-bits */
    joined_half newest;  /* the last joined half-bit, which the next half-bit can still extend */
    bool takes_next;     /* true if `newest` takes in the next half-bit, for example after a spike */
    joined_half closed[BODY_AND_ONES]; /* the closed joined half-bits; number n is in the place n % BODY_AND_ONES */
    unsigned long count; /* the number of closed joined half-bits */
} spiked;

/* Returns the closed joined half-bit that is `n` before the next one. The joined half-bits before the first one are
 * zeros. */
static const joined_half *closed_before(unsigned n) {
    static const joined_half none;
    return n > spiked.count ? &none : &spiked.closed[(spiked.count - n) % BODY_AND_ONES];
}

static bool is_between(uint16_t us, unsigned least, unsigned most) { return us >= least && us <= most; }

static bool is_nearest_one(uint16_t us) { return is_between(us, 26, 76); }
static bool is_off_one(uint16_t us) { return is_between(us, 26, 51) || is_between(us, 65, 76); }
static bool is_off_zero(uint16_t us) { return is_between(us, 77, 89) || is_between(us, 10001, 20000); }

/* Hears a half-bit of the capture. Returns true if it completes a packet. */
static bool hear(uint16_t us) {
    dcc_outcome outcome;
    spiked.half++;
    if (!dcc_push(&spiked.framer, us, &outcome)) {
        spiked.unused += spiked.unused < 20;
        spiked.since += spiked.since < 255;
        return false;
    }
    spiked.is_refused = outcome.refusal > 0;
    spiked.since = 0;
    /* the end bit of a packet, of H3 and of H5 can begin the next preamble */
    bool has_end_bit = outcome.refusal == 0 || outcome.refusal == DCC_H3_TOO_SHORT
        || outcome.refusal == DCC_H5_ERROR_BYTE;
    spiked.unused = has_end_bit ? 2 : 0;
    return outcome.refusal == 0;
}

/* Returns true if no body is unfinished. A half-bit of 0 microseconds is a refusal in each unfinished body, so a copy
 * of the framer takes such a half-bit. */
static bool is_between_bodies(void) {
    dcc_framer copy = spiked.framer;
    dcc_outcome outcome;
    return !dcc_push(&copy, 0, &outcome);
}

/* Counts the joined half-bits outside the limits of a decoder among the last `n` closed ones. */
static dcc_off_limits count_off(unsigned n, bool (*is_off)(uint16_t)) {
    dcc_off_limits off = {0, 0, 0};
    for (; n > 0; n--) {
        uint16_t us = closed_before(n)->us;
        if (!is_off(us)) continue;
        if (off.count == 0 || us < off.least) off.least = us;
        if (us > off.most) off.most = us;
        off.count++;
    }
    return off;
}

/* Writes the line of the packet with this frame, whose body is the end of the closed joined half-bits. Writes nothing
 * if a decoder hears a packet that ends in this body. */
static void put_spiked(const dcc_frame *frame) {
    unsigned body = 18u * frame->len + 2, ones = 0;
    dcc_lost_packet lost = {0};
    unsigned long spikes = 0;
    for (unsigned n = 1; n <= body; n++) {
        if (closed_before(n)->has_packet) return;
    }
    while (ones < 20 && is_nearest_one(closed_before(body + ones + 1)->us)) ones++;
    for (unsigned n = 1; n <= body + ones; n++) spikes += closed_before(n)->spikes;
    uint8_t unused = closed_before(body)->unused;
    lost.frame = *frame;
    lost.ones = count_off(body + ones, is_off_one);
    lost.zeros = count_off(body + ones, is_off_zero);
    lost.preamble.is_short = ones < 20 || unused < 20;
    lost.preamble.ones = (uint8_t)(unused < ones ? unused : ones);
    lost.preamble.after_refusal = unused < ones && spiked.is_refused && spiked.since < 255;
    lost.preamble.since_refusal = spiked.since;
    put_lost(spiked.half, &lost, spikes, spiked.how);
}

/* Closes the last joined half-bit, and begins an empty one. Writes the line of the packet that ends with the closed
 * one. */
static void close_joined(void) {
    uint16_t us = spiked.newest.us;
    bool is_free = is_between_bodies();
    dcc_lost_packet found;
    spiked.closed[spiked.count++ % BODY_AND_ONES] = spiked.newest;
    spiked.newest = (joined_half){0, 0, is_free ? spiked.unused : 0, false};
    /* A decoder hears no half-bit of 70, 85 or 0 microseconds. So the finder finds each frame whose body is the end of
     * the joined half-bits in their nearest classes, after at least 8 half-bits of ones. */
    uint16_t nearest = is_nearest_one(us) ? 70 : is_between(us, 77, 20000) ? 85 : 0;
    if (!dcc_lost_push(&spiked.finder, nearest, &found)) return;
    bool ends_with_refusal = spiked.is_refused && spiked.since == 0;
    if (is_free && !ends_with_refusal) put_spiked(&found.frame);
}

/* Takes a half-bit of the capture. A spike, and the half-bit directly after a spike, extend the last joined half-bit.
 * If this next half-bit is a spike too, the half-bit after it is not joined for its sake. */
static void join(uint16_t us) {
    bool is_spike = us < spiked.limit;
    if (!is_spike && !spiked.takes_next) close_joined();
    joined_half *newest = &spiked.newest;
    newest->has_packet |= hear(us);
    newest->us = us > 65535 - newest->us ? 65535 : (uint16_t)(newest->us + us);
    newest->spikes += is_spike && newest->spikes < 65535;
    spiked.takes_next = is_spike && !spiked.takes_next;
}

/* `dcc lost --spikes LIMIT` */
static void list_lost_with_spikes(writing how, uint8_t limit) {
    uint16_t us;
    uint32_t n;
    spiked.how = how;
    spiked.limit = limit;
    spiked.takes_next = true; /* the first half-bit has no half-bit before it */
    write_last_line = close_joined;
    while (read_run(&us, &n)) {
        for (; n > 0; n--) join(us);
    }
    close_joined(); /* no half-bit extends the last one */
}

/* ---- packet lines ---- */

/* A line of the input without its line feed. */
typedef struct {
    unsigned long number; /* counted from 1 */
    unsigned len;
    char bytes[LINE_BYTES];
} text_line;

static void refuse_line(const text_line *line, unsigned code) { refuse("dcc: U3 line %lu: P%u", line->number, code); }

/* Reads the next line. Returns false at the end of the input. */
static bool read_line(text_line *line) {
    int c = next_byte();
    line->number++;
    if (c == EOF) return false;
    for (line->len = 0; c != '\n' && c != EOF; c = next_byte()) {
        if (line->len == LINE_BYTES || c > 127) refuse_line(line, DCC_P10_WORD);
        line->bytes[line->len++] = (char)c;
    }
    return true;
}

/* Returns the length of the next word of a line, or 0 if there is no further word. Writes the place of the word to
 * *at. */
static unsigned next_word(const text_line *line, unsigned *at) {
    while (*at < line->len && is_blank(line->bytes[*at])) ++*at;
    unsigned end = *at;
    while (end < line->len && !is_blank(line->bytes[end])) end++;
    return end - *at;
}

/* Returns N if the line is `send N`, or 0 if its first word is not `send`. */
static unsigned packets_to_send(const text_line *line) {
    unsigned at = 0, number = 0, len = next_word(line, &at);
    if (len != 4 || memcmp(line->bytes + at, "send", 4)) return 0;
    at += 4;
    len = next_word(line, &at);
    if (len == 0) refuse_line(line, DCC_P10_WORD);
    if (len > 5) refuse_line(line, DCC_P11_NUMBER);
    for (; len > 0; len--, at++) {
        if (line->bytes[at] < '0' || line->bytes[at] > '9') refuse_line(line, DCC_P11_NUMBER);
        number = 10 * number + (unsigned)(line->bytes[at] - '0');
    }
    if (number < 1 || number > 1000) refuse_line(line, DCC_P11_NUMBER);
    if (next_word(line, &at) > 0) refuse_line(line, DCC_P10_WORD);
    return number;
}

/* The options of `dcc encode`. */
typedef struct {
    bool hex, service, station;
    uint8_t queue, slots, repeats;
} encoding;

static void put_frame(const dcc_frame *frame, const encoding *how) {
    uint16_t halves[DCC_HALVES];
    if (how->hex) {
        put_hex(frame);
    } else {
        int preamble = how->service ? DCC_PROGRAMMING_TRACK : DCC_MAIN_TRACK;
        int count = dcc_halves(frame->bytes, frame->len, (uint8_t)preamble, halves);
        for (int i = 0; i < count; i++) {
            if (i > 0) put(" ");
            put_number(halves[i]);
        }
    }
    put("\n");
}

/* `dcc encode` */
static void encode(const encoding *how) {
    static dcc_station station;
    static text_line line;
    dcc_frame frame;
    if (how->station && dcc_station_new(&station, how->queue, how->slots, how->repeats)) {
        end_with(STATUS_USAGE, "dcc: U1 bad station");
    }
    while (read_line(&line)) {
        unsigned at = 0;
        if (next_word(&line, &at) == 0 || line.bytes[0] == '#') continue;
        unsigned count = how->station ? packets_to_send(&line) : 0;
        for (unsigned i = 0; i < count; i++) {
            dcc_station_next(&station, &frame);
            put_frame(&frame, how);
        }
        if (count > 0) continue;
        uint8_t code = dcc_frame_of_line(line.bytes, line.len, &frame);
        if (code) refuse_line(&line, code);
        if (!how->station) {
            put_frame(&frame, how);
            continue;
        }
        code = dcc_station_command(&station, frame.bytes, frame.len);
        if (code == 0) continue;
        put("# refused C");
        put_number(code);
        put("\n");
    }
}

/* ---- the command line ---- */

static const char *const general_help =
    "Digital Command Control: captures and packets, in C\n\n"
    "Usage: dcc <COMMAND>\n\n"
    "Commands:\n"
    "  show    Lists the packets and the refused packets of a capture\n"
    "  lost    Lists the packets of a capture that a decoder does not hear, with the causes\n"
    "  encode  Writes the half-bits that a station sends for packet lines\n\n"
    "Options:\n"
    "  -h, --help     Print help\n"
    "  -V, --version  Print version\n";

static const char *const show_help =
    "Lists the packets and the refused packets of a capture\n\n"
    "Usage: dcc show [OPTIONS]\n\n"
    "Options:\n"
    "      --words  Write packets as packet lines, not in hex\n"
    "      --plain  Write packets in plain words: speed steps, functions, turnouts\n"
    "  -h, --help   Print help\n\n"
    "It reads a capture from standard input: durations of half-bits in microseconds, or\n"
    "runs such as 58*28, with # before a comment. tools/to-capture makes a capture of a\n"
    "VCD or CSV file.\n\n"
    "  dcc show --words < capture.txt      84 loco s3 speed28 f 20\n"
    "  dcc show --plain < capture.txt      84 locomotive 3: step 17 of 28, forward\n"
    "  echo '58*28 100*2 58*16 100*20 58*18' | dcc show\n\n"
    "A line has the number of the last half-bit, and the packet or its error:\n"
    "  H1  a half-bit of neither a one (52 to 64) nor a zero (90 to 10000)\n"
    "  H2  the two half-bits of a bit differ in their class\n"
    "  H3  an end bit after 1 or 2 bytes\n"
    "  H4  a zero after the sixth byte\n"
    "  H5  the exclusive or of the bytes is not zero\n"
    "The program ends with U2 (a word is no duration; the line follows), U4 (a read failed)\n"
    "or U7 (the input is too long). docs/FORMATS.md has the whole format, docs/CAPTURES.md\n"
    "says how to make a capture of the file of a logic analyser.\n";

static const char *const lost_help =
    "Lists the packets of a capture that a decoder does not hear, with the causes\n\n"
    "Usage: dcc lost [OPTIONS]\n\n"
    "Options:\n"
    "      --words        Write packets as packet lines, not in hex\n"
    "      --spikes <US>  Join half-bits shorter than US microseconds, 1 to 25, with their neighbours\n"
    "  -h, --help         Print help\n\n"
    "It reads a capture from standard input, as `dcc show` does, and writes a line for each\n"
    "packet that a decoder of this toolkit does not hear:\n\n"
    "  dcc lost --words < capture.txt\n"
    "  dcc lost --spikes 5 < capture.txt\n"
    "  echo '58*16 100*14 58*4 100*4 58*4 100*6 58*2 100*6 58*4 100*8 58*4' | dcc lost\n\n"
    "A line has the number of the last half-bit of the packet, the packet, and the causes:\n"
    "  preamble N               only N half-bits of ones before the packet, fewer than 20\n"
    "  preamble N after P       half-bit P ends a refusal, and N are left after it\n"
    "  ones N from A to B       N half-bits of ones outside 52 to 64 microseconds\n"
    "  zeros N from A to B      N half-bits of zeros outside 90 to 10000 microseconds\n"
    "No packet is listed both here and by `dcc show`. A packet with a refusal inside it\n"
    "can be listed here too. With --spikes US, half-bits shorter than US microseconds are\n"
    "joined with their neighbours, and a packet can have one more cause:\n"
    "  spikes N                 N such half-bits in the packet and its preamble\n"
    "The program ends with U2, U4 or U7, as `dcc show` does.\n"
    "docs/FORMATS.md has the whole format.\n";

static const char *const encode_help =
    "Writes the half-bits that a station sends for packet lines\n\n"
    "Usage: dcc encode [OPTIONS]\n\n"
    "Options:\n"
    "      --hex                Write the bytes of each packet, not its half-bits\n"
    "      --service            Use the timing of service mode\n"
    "      --station            Use a station, which sends N packets for each line `send N`\n"
    "      --queue <queue>      Capacity of the queue of commands, 16 by default\n"
    "      --slots <slots>      Number of packets that are refreshed, 32 by default\n"
    "      --repeats <repeats>  Number of copies of a command in a row, 2 by default\n"
    "  -h, --help               Print help\n\n"
    "It reads packet lines from standard input, with one packet on each line:\n\n"
    "  printf 'loco s3 speed28 f 4\\naccessory 12 5 on\\n' | dcc encode | dcc show --words\n"
    "  printf 'loco s3 speed28 f 4\\nsend 3\\n' | dcc encode --hex --station\n\n"
    "At a wrong line the program ends with U3, the number of the line, and its first error:\n"
    "  P1, P2    a short address that is not 1 to 127, a long address above 10239\n"
    "  P3, P4    an accessory decoder above 511, an output above 7\n"
    "  P5        a signal above 2047\n"
    "  P6, P7    a CV that is not 1 to 1024, a bit place above 7\n"
    "  P8, P9    speed bits above 31 or 127, function bits wider than their group\n"
    "  P10       a word that is not allowed, is missing, or is one too many\n"
    "  P11, P12  a word that is no number or too large, hex digits that form no frame\n"
    "  P14       a binary state above 127\n"
    "docs/FORMATS.md has all packet lines.\n";

/* Ends the program at a wrong argument. */
static void refuse_argument(const char *format, const char *a, const char *b) {
    fputs("error: ", stderr);
    fprintf(stderr, format, a, b);
    end_with(STATUS_USAGE, "\n\nFor more information, try '--help'.");
}

static void print_help(const char *text) {
    put(text);
    flush();
    exit(0);
}

/* An option: its name, and where its value is stored. A flag has no number. */
typedef struct {
    const char *name;
    bool *flag;
    uint8_t *number;
    const char *value; /* the name of the number in texts */
    uint8_t least, most;
    bool is_given;
} option;

#define FLAG(name, flag) {name, flag, 0, 0, 0, 0, false}
#define NUMBER(name, number, value, least, most) {name, 0, number, value, least, most, false}
#define NO_OPTION {0, 0, 0, 0, 0, 0, false}

/* Returns the option that `word` names, up to an equals sign. Ends the program if there is no such option. */
static option *option_of(const char *word, option *options) {
    size_t len = strcspn(word, "=");
    for (option *it = options; it->name; it++) {
        if (strlen(it->name) == len && !memcmp(it->name, word, len)) return it;
    }
    if (strncmp(word, "--", 2)) {
        len = word[0] == '-' && word[1] ? 2 : strlen(word);
        while (((unsigned char)word[len] & 0xc0) == 0x80) len++;
    }
    char *name = malloc(len + 1);
    if (!name) end_with(STATUS_ERROR, "dcc: U6 out of memory");
    memcpy(name, word, len);
    name[len] = 0;
    refuse_argument("unexpected argument '%s' found", name, "");
    return 0;
}

/* Ends the program since `word` is no number for an option. */
static void refuse_value(const char *word, const option *it, const char *why) {
    fprintf(stderr, "error: invalid value '%s' for '%s <%s>': %s", word, it->name, it->value, why);
    end_with(STATUS_USAGE, "\n\nFor more information, try '--help'.");
}

/* Returns the number that `word` spells, for an option. */
static uint8_t number_of(const char *word, const option *it) {
    const char *digits = word + (*word == '+' || *word == '-');
    if (!*word) refuse_value(word, it, "cannot parse integer from empty string");
    if (!*digits || digits[strspn(digits, "0123456789")]) refuse_value(word, it, "invalid digit found in string");
    errno = 0;
    long long number = strtoll(word, 0, 10);
    if (errno) {
        refuse_value(word, it, *word == '-' ? "number too small to fit in target type"
            : "number too large to fit in target type");
    }
    if (number < it->least || number > it->most) {
        char why[64];
        snprintf(why, sizeof why, "%lld is not in %d..=%d", number, it->least, it->most);
        refuse_value(word, it, why);
    }
    return (uint8_t)number;
}

/* Uses an option: a flag, or an option with a value. Without an option nothing is used. */
static void use(option *it, const char *value) {
    if (!it) return;
    if (!it->flag && !value) {
        refuse_argument("a value is required for '%s <%s>' but none was supplied", it->name, it->value);
    }
    if (it->is_given && it->flag) refuse_argument("the argument '%s' cannot be used multiple times", it->name, "");
    if (it->is_given) {
        refuse_argument("the argument '%s <%s>' cannot be used multiple times", it->name, it->value);
    }
    it->is_given = true;
    if (it->flag) *it->flag = true;
    else *it->number = number_of(value, it);
}

/* Reads the arguments after a command. No option follows the argument `--`. An option whose value is the next argument
 * is used after the argument that follows them was found to be an option. */
static void read_options(char **words, option *options, const char *help) {
    option *waiting = 0; /* the option that is not used yet, and its value if the value was read */
    const char *waiting_value = 0;
    for (; *words && strcmp(*words, "--"); words++) {
        const char *word = *words, *value = strchr(word, '=');
        if (!strncmp(word, "--help=", 7)) {
            refuse_argument("unexpected value '%s' for '--help' found; no more were expected", value + 1, "");
        }
        if (!strcmp(word, "--help") || !strncmp(word, "-h", 2)) {
            use(waiting, waiting_value);
            print_help(help);
        }
        if ((word[0] != '-' || !word[1]) && waiting && !waiting_value) {
            waiting_value = word;
            continue;
        }
        option *it = option_of(word, options);
        if (it->flag && value) {
            refuse_argument("unexpected value '%s' for '%s' found; no more were expected", value + 1, it->name);
        }
        use(waiting, waiting_value);
        waiting = it->flag || value ? 0 : it;
        waiting_value = 0;
        if (!waiting) use(it, value ? value + 1 : 0);
    }
    if (*words && words[1]) refuse_argument("unexpected argument '%s' found", words[1], "");
    use(waiting, waiting_value);
}

/* Returns true if the bytes of `word` are UTF-8. */
static bool is_utf8(const char *word) {
    const unsigned char *at = (const unsigned char *)word;
    while (*at) {
        int more = *at < 0x80 ? 0 : *at >= 0xc2 && *at < 0xe0 ? 1 : *at >= 0xe0 && *at < 0xf0 ? 2
            : *at >= 0xf0 && *at < 0xf5 ? 3 : -1;
        unsigned least = *at == 0xe0 ? 0xa0 : *at == 0xf0 ? 0x90 : 0x80, most = *at == 0xed ? 0x9f : *at == 0xf4
            ? 0x8f : 0xbf;
        if (more < 0) return false;
        for (at++; more > 0; more--, at++, least = 0x80, most = 0xbf) {
            if (*at < least || *at > most) return false;
        }
    }
    return true;
}

int main(int argc, char **argv) {
    bool words = false, plain = false;
    uint8_t spikes = 0;
    encoding how = {false, false, false, 16, 32, 2};
    option show_options[] = {FLAG("--words", &words), FLAG("--plain", &plain), NO_OPTION};
    option lost_options[] = {FLAG("--words", &words), NUMBER("--spikes", &spikes, "US", 1, 25), NO_OPTION};
    option encode_options[] = {
        FLAG("--hex", &how.hex), FLAG("--service", &how.service), FLAG("--station", &how.station),
        NUMBER("--queue", &how.queue, "queue", 0, 255), NUMBER("--slots", &how.slots, "slots", 0, 255),
        NUMBER("--repeats", &how.repeats, "repeats", 0, 255), NO_OPTION,
    };
    option no_options[] = {NO_OPTION};
#ifdef _WIN32
    for (int stream = 0; stream < 3; stream++) _setmode(stream, _O_BINARY);
#endif
    for (int i = 1; i < argc; i++) {
        if (!is_utf8(argv[i])) end_with(STATUS_USAGE, "dcc: U1 bad command line");
    }
    bool is_end = argc > 1 && !strcmp(argv[1], "--");
    if (is_end && argc > 2) refuse_argument("unexpected argument '%s' found", argv[2], "");
    if (is_end || argc < 2) refuse_argument("'dcc' requires a subcommand but one was not provided", "", "");
    const char *command = argv[1];
    if (!strcmp(command, "--help") || !strcmp(command, "-h")) print_help(general_help);
    if (!strcmp(command, "--version") || !strcmp(command, "-V")) print_help("dcc " DCC_VERSION " in C\n");
    if (!strcmp(command, "show")) {
        read_options(argv + 2, show_options, show_help);
        if (plain && words) refuse_argument("the argument '%s' cannot be used with '%s'", "--plain", "--words");
        show(plain ? PLAIN : words ? LINES : HEX);
    } else if (!strcmp(command, "lost")) {
        read_options(argv + 2, lost_options, lost_help);
        if (spikes > 0) list_lost_with_spikes(words ? LINES : HEX, spikes);
        else list_lost(words ? LINES : HEX);
    } else if (!strcmp(command, "encode")) {
        read_options(argv + 2, encode_options, encode_help);
        encode(&how);
    } else if (command[0] == '-') {
        option_of(command, no_options);
    } else {
        refuse_argument("unrecognized subcommand '%s'", command, "");
    }
    flush();
    return 0;
}
