/* An accessory decoder that its user programs on a programming track: the number of the board is in CV1 and CV9 (NMRA
 * S-9.2.2). A new decoder has the number 511, and obeys only packets for all accessory decoders. The CVs are in memory
 * that lasts, for example in flash: the functions load_cvs and store_cvs of the board. The board draws the current of
 * the acknowledgement. Your decoder drives its coils and lamps. This program prints the effect. */
#include "board.h"
#include "dcc.h"
#include <stdatomic.h>

static dcc_framer framer;
static dcc_board_decoder decoder;

/* The microseconds of an acknowledgement (NMRA S-9.2.3), and of the time without a packet that ends service mode. */
enum { ACKNOWLEDGEMENT = 6000, SERVICE = 20000 };

/* The packet that was found, and the time of its last edge. The interrupt writes both if no packet waits, and the main
 * loop reads them if one waits. */
static dcc_frame found;
static uint32_t found_at;
static atomic_bool waits;
/* The time of the last edge, in microseconds. */
static _Atomic uint32_t edge;

void on_edge(uint32_t now) {
    uint32_t us = now - edge;
    dcc_outcome outcome;
    edge = now;
    if (dcc_push(&framer, us > UINT16_MAX ? UINT16_MAX : (uint16_t)us, &outcome) && outcome.refusal == 0 && !waits) {
        found = outcome.frame;
        found_at = now;
        waits = true;
    }
}

static void show_with(const char *name, uint32_t number, const char *end) {
    show(name);
    show_number(number);
    show(end);
}

static void store(uint16_t cv) {
    store_cvs(decoder.cvs, DCC_CVS);
    show_with("CV", cv, " is ");
    show_with("", decoder.cvs[cv - 1], "\n");
}

static bool is_drawing;
static uint32_t drawn_since;

static void acknowledge(void) {
    show("acknowledged\n");
    draw_current(true);
    is_drawing = true;
    drawn_since = edge;
}

static void end_acknowledgement(void) {
    if (!is_drawing || edge - drawn_since < ACKNOWLEDGEMENT) return;
    draw_current(false);
    is_drawing = false;
}

/* Prints the number if it changed since the last call. */
static void show_board(void) {
    static uint16_t shown = UINT16_MAX;
    if (decoder.board.number != shown) show_with("board ", decoder.board.number, "\n");
    shown = decoder.board.number;
}

/* Prints the outputs that changed since the last call. */
static void show_outputs(void) {
    static uint8_t shown;
    uint8_t changed = shown ^ decoder.board.outs;
    shown = decoder.board.outs;
    for (uint8_t n = 0; n < 8; n++) {
        if (changed >> n & 1) show_with("output ", n, shown >> n & 1 ? " on\n" : " off\n");
    }
}

static void hear(const dcc_frame *frame) {
    dcc_answer answer;
    if (dcc_board_decoder_hear(&decoder, frame->bytes, frame->len, &answer)) return;
    if (answer.acknowledged) acknowledge();
    if (answer.changed) store(answer.changed);
    show_board();
    show_outputs();
}

/* Service mode ends if no packet of service mode comes for 20 milliseconds. */
static void end_service(uint32_t last) {
    if (!decoder.service.in_service || edge - last <= SERVICE) return;
    dcc_board_decoder_end_service(&decoder);
    show_board();
    show_outputs();
}

int main(void) {
    uint32_t last = 0;
    if (!load_cvs(decoder.cvs, DCC_CVS)) {
        decoder.cvs[0] = 63;
        decoder.cvs[8] = 7;
    }
    dcc_board_decoder_power_up(&decoder);
    show_board();
    while (wait_for_interrupt()) {
        end_service(last);
        end_acknowledgement();
        if (!waits) continue;
        hear(&found);
        last = found_at;
        waits = false;
    }
    return 0;
}
