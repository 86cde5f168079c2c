/* A sniffer of a track. It shows each packet and each refusal, as `dcc show --words` lists them, and each packet that
 * a decoder does not hear, with the causes, as `dcc lost --words` lists them. With -DRUNS the program shows the
 * half-bits in runs, for example 58*28, and `dcc` reads them (docs/FORMATS.md). */
#include "board.h"
#include "dcc.h"
#include <stdatomic.h>

/* Half-bits that the interrupt has written and the main loop has not read. The numbers count modulo 256, so at most 255
 * half-bits wait. A lost packet takes up to 11,000 instructions, and half-bits wait for that long. */
static uint16_t halves[256];
static atomic_uchar written, read;

/* If a half-bit does not fit, the interrupt counts half-bits and writes none, until the main loop has read all. */
static atomic_bool is_full;
static atomic_uint unfit;

/* Called in the interrupt. */
void on_edge(uint32_t now) {
    static uint32_t last;
    uint32_t us = now - last;
    unsigned char place = written;
    last = now;
    if (is_full || (unsigned char)(place - read) == 255) {
        is_full = true;
        atomic_store(&unfit, atomic_load(&unfit) + 1); /* (only the interrupt writes it) */
        return;
    }
    halves[place] = us > UINT16_MAX ? UINT16_MAX : (uint16_t)us;
    written = (unsigned char)(place + 1);
}

/* A line of text. */
enum { LENGTH = 192 };
static char text[LENGTH];
static uint32_t len;

static void put(char c) {
    if (len < LENGTH - 1) text[len++] = c;
}

static void put_number(uint32_t number) {
    if (number >= 10) put_number(number / 10);
    put((char)('0' + number % 10));
}

static void put_out(void) {
    text[len] = 0;
    show(text);
    len = 0;
}

#ifdef RUNS
static uint16_t run_us;
static uint32_t run_length;

/* A run is complete if the next half-bit differs. A long run is shown in parts. */
enum { LONGEST = 1000, WORDS_OF_LINE = 16 };

static void end_run(void) {
    static uint32_t words;
    if (run_length == 0) return;
    put_number(run_us);
    if (run_length > 1) put('*');
    if (run_length > 1) put_number(run_length);
    put(++words % WORDS_OF_LINE == 0 ? '\n' : ' ');
    put_out();
    run_length = 0;
}

static void take_half(uint16_t us) {
    if (us != run_us || run_length == LONGEST) end_run();
    run_us = us;
    run_length++;
}
#else
static dcc_framer framer;
static dcc_lost finder; /* all zeros: new */
static uint32_t half;   /* the half-bits so far */

static void put_text(const char *it) {
    while (*it) put(*it++);
}

static void put_hex(const dcc_frame *frame) {
    for (uint8_t i = 0; i < frame->len; i++) {
        put("0123456789abcdef"[frame->bytes[i] / 16]);
        put("0123456789abcdef"[frame->bytes[i] % 16]);
    }
}

static void put_packet(const dcc_frame *frame) {
    char line[DCC_LINE];
    if (dcc_line(frame->bytes, frame->len, line) == 0) {
        put_text(line);
    } else {
        put_hex(frame);
    }
}

static void show_outcome(const dcc_outcome *outcome) {
    put_number(half);
    put(' ');
    if (outcome->refusal == 0) {
        put_packet(&outcome->frame);
    } else {
        put_text("refused H");
        put_number(outcome->refusal);
        if (outcome->frame.len > 0) put(' ');
        put_hex(&outcome->frame);
    }
    put('\n');
    put_out();
}

/* The half-bits outside the limits. */
static void put_off_limits(const char *name, const dcc_off_limits *off) {
    put_text(name);
    put_number(off->count);
    put_text(" from ");
    put_number(off->least);
    put_text(" to ");
    put_number(off->most);
}

static void show_lost(const dcc_lost_packet *lost) {
    const char *comma = "";
    put_number(half);
    put_text(" lost ");
    put_packet(&lost->frame);
    put_text(": ");
    if (lost->preamble.is_short) {
        put_text("preamble ");
        put_number(lost->preamble.ones);
        if (lost->preamble.after_refusal) {
            put_text(" after ");
            put_number(half - lost->preamble.since_refusal);
        }
        comma = ", ";
    }
    if (lost->ones.count > 0) {
        put_text(comma);
        put_off_limits("ones ", &lost->ones);
        comma = ", ";
    }
    if (lost->zeros.count > 0) {
        put_text(comma);
        put_off_limits("zeros ", &lost->zeros);
    }
    put('\n');
    put_out();
}

static void take_half(uint16_t us) {
    dcc_outcome outcome;
    dcc_lost_packet lost;
    half++;
    if (dcc_push(&framer, us, &outcome)) show_outcome(&outcome);
    if (dcc_lost_push(&finder, us, &lost)) show_lost(&lost);
}
#endif

/* Half-bits that did not fit are taken as half-bits of 65535 microseconds, so the numbers of later half-bits stay
 * right, and no packet has a gap. */
static void take_unfit(void) {
    static uint32_t taken;
    uint32_t until;
    is_full = false; /* the interrupt counts none from now on */
    until = unfit;
    for (; taken != until; taken++) take_half(UINT16_MAX);
}

static void take_halves(void) {
    while (read != written) {
        uint16_t us = halves[read];
        read = (unsigned char)(read + 1);
        take_half(us);
    }
    if (is_full) take_unfit();
}

int main(void) {
#ifndef RUNS
    framer = dcc_framer_new();
#endif
    while (wait_for_interrupt()) take_halves();
    take_halves();
#ifdef RUNS
    end_run();
#endif
    return 0;
}
