/* A locomotive decoder that its user programs on a programming track. The decoder hears the main track and the
 * programming track. Its CVs are in memory that lasts, for example in flash: the functions load_cvs and store_cvs of
 * the board. The board draws the current of the acknowledgement. Your decoder drives its motor and its lamps. This
 * program prints the effect. */
#include "board.h"
#include "dcc.h"
#include <stdatomic.h>

static dcc_framer framer;
static dcc_decoder decoder;

/* The microseconds of an acknowledgement (NMRA S-9.2.3), and of the time without a packet that ends service mode. */
enum { ACKNOWLEDGEMENT = 6000, SERVICE = 20000 };

/* The packet that was found, and the time of its last edge. The interrupt writes both if no packet waits, and the main
 * loop reads them if one waits. */
static dcc_frame found;
static uint32_t found_at;
static atomic_bool waits;
/* The time of the last edge, in microseconds. */
static _Atomic uint32_t edge;

void on_edge(uint32_t now) {
    uint32_t us = now - edge;
    dcc_outcome outcome;
    edge = now;
    if (dcc_push(&framer, us > UINT16_MAX ? UINT16_MAX : (uint16_t)us, &outcome) && outcome.refusal == 0 && !waits) {
        found = outcome.frame;
        found_at = now;
        waits = true;
    }
}

static void show_with(const char *name, uint32_t number, const char *end) {
    show(name);
    show_number(number);
    show(end);
}

static void store(uint16_t cv) {
    store_cvs(decoder.loco.cvs, DCC_CVS);
    show_with("CV", cv, " is ");
    show_with("", decoder.loco.cvs[cv - 1], "\n");
}

static bool is_drawing;
static uint32_t drawn_since;

static void acknowledge(void) {
    show("acknowledged\n");
    draw_current(true);
    is_drawing = true;
    drawn_since = edge;
}

static void end_acknowledgement(void) {
    if (!is_drawing || edge - drawn_since < ACKNOWLEDGEMENT) return;
    draw_current(false);
    is_drawing = false;
}

/* Prints the speed and the direction if they changed since the last call. */
static void show_speed(void) {
    static uint8_t mode, step;
    static bool forward = true;
    const dcc_loco *loco = &decoder.loco;
    if (loco->speed_mode == mode && loco->step == step && loco->forward == forward) return;
    mode = loco->speed_mode, step = loco->step, forward = loco->forward;
    if (mode <= 1) {
        show("motor: stop");
    } else {
        show_with("motor: step ", step, " of ");
        show_number(mode);
    }
    show(forward ? ", forward\n" : ", reverse\n");
}

/* Prints the functions if they changed since the last call. */
static void show_functions(void) {
    static uint64_t shown[2];
    const uint64_t *functions = decoder.loco.functions;
    if (functions[0] == shown[0] && functions[1] == shown[1]) return;
    shown[0] = functions[0], shown[1] = functions[1];
    show("functions:");
    for (uint32_t n = 0; n <= 68; n++) {
        if (functions[n / 64] >> (n % 64) & 1) show_with(" F", n, "");
    }
    show("\n");
}

/* Prints the address if it changed since the last call. */
static void show_address(void) {
    static uint16_t shown;
    if (decoder.loco.address != shown) show_with("address ", decoder.loco.address, "\n");
    shown = decoder.loco.address;
}

static void hear(const dcc_frame *frame) {
    dcc_answer answer;
    if (dcc_decoder_hear(&decoder, frame->bytes, frame->len, &answer)) return;
    if (answer.acknowledged) acknowledge();
    if (answer.changed) store(answer.changed);
    show_address();
    show_speed();
    show_functions();
}

/* Service mode ends if no packet of service mode comes for 20 milliseconds. */
static void end_service(uint32_t last) {
    if (!decoder.service.in_service || edge - last <= SERVICE) return;
    dcc_decoder_end_service(&decoder);
    show_address();
    show_speed();
    show_functions();
}

int main(void) {
    uint32_t last = 0;
    if (!load_cvs(decoder.loco.cvs, DCC_CVS)) {
        decoder.loco.cvs[0] = 3;
        decoder.loco.cvs[28] = 2;
    }
    dcc_decoder_power_up(&decoder);
    show_address();
    while (wait_for_interrupt()) {
        end_service(last);
        end_acknowledgement();
        if (!waits) continue;
        hear(&found);
        last = found_at;
        waits = false;
    }
    return 0;
}
