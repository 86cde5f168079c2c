/* A locomotive with the short address 3 and an accessory decoder, board 12, on one chip. For each packet that one of
 * them hears the program calls a function `notify_..`. Your decoder drives its motor, lamps and coils there. This
 * program prints the effect. */
#include "board.h"
#include "dcc.h"
#include <stdatomic.h>

static dcc_framer framer;
static dcc_loco loco;
static dcc_board turnouts;

/* The packet that was found. The interrupt writes it if no packet waits, and the main loop reads it if one waits. */
static dcc_frame found;
static atomic_bool waits;

/* Called in the interrupt. docs/PERFORMANCE.md has the mean and the worst case of dcc_push for each processor. On a
 * slow processor the worst case can last as long as a half-bit, so a timer must keep the time of the next edge.
 * Applying a packet takes longer, so the main loop does it. A packet that is completed while another packet waits is
 * lost, like a packet with a broken half-bit. Stations repeat packets. */
void on_edge(uint32_t now) {
    static uint32_t last;
    uint32_t us = now - last;
    dcc_outcome outcome;
    last = now;
    if (dcc_push(&framer, us > UINT16_MAX ? UINT16_MAX : (uint16_t)us, &outcome) && outcome.refusal == 0 && !waits) {
        found = outcome.frame;
        waits = true;
    }
}

static void show_with(const char *name, uint32_t number, const char *end) {
    show(name);
    show_number(number);
    show(end);
}

static void notify_speed(void) {
    if (loco.speed_mode == 0) {
        show("motor: stop");
    } else if (loco.speed_mode == 1) {
        show("motor: stop at once");
    } else {
        show_with("motor: step ", loco.step, " of ");
        show_number(loco.speed_mode);
    }
    show(loco.forward ? ", forward\n" : ", reverse\n");
}

static void notify_functions(void) {
    show("functions:");
    for (uint32_t n = 0; n <= 68; n++) {
        if (loco.functions[n / 64] >> (n % 64) & 1) show_with(" F", n, "");
    }
    show("\n");
}

static void notify_state(uint8_t state, bool on) {
    show_with("binary state ", state, on ? " on\n" : " off\n");
}

/* The variable may be another one than before: this is where it is put into memory that lasts. */
static void notify_cv(uint16_t cv) {
    show_with("CV", cv, " is ");
    show_with("", loco.cvs[cv - 1], "\n");
}

static void notify_reset(void) {
    show("reset\n");
}

static void notify_output(uint8_t output, bool on) {
    show_with("output ", output, on ? " on" : " off");
    show(turnouts.positions[output / 2] ? ", its turnout on side 1\n" : ", its turnout on side 0\n");
}

static void notify_signal(uint8_t place) {
    show_with("signal ", place, ": aspect ");
    show_with("", turnouts.aspects[place], "\n");
}

static void notify_loco(const dcc_packet *p) {
    switch (p->kind) {
    case DCC_RESET: notify_reset(); break;
    case DCC_SPEED28:
    case DCC_SPEED128: notify_speed(); break;
    case DCC_FUNCTIONS: notify_functions(); break;
    case DCC_STATE: notify_state(p->state, p->on); break;
    case DCC_CV_WRITE:
    case DCC_CV_BIT_WRITE: notify_cv(p->cv); break;
    }
}

/* Board 511 and signal 2047 are all of them, and a reset of all decoders turns the outputs off. */
static void notify_board(const dcc_packet *p) {
    bool is_to_all = p->kind == DCC_SIGNAL && p->address == 2047;
    if (p->kind == DCC_ACCESSORY) notify_output(p->output, p->on);
    if (p->kind == DCC_RESET) show("outputs off\n");
    for (uint8_t place = 0; place < 4 && p->kind == DCC_SIGNAL; place++) {
        if (is_to_all || p->address % 4 == place) notify_signal(place);
    }
}

static void hear(const dcc_frame *frame) {
    dcc_packet packet;
    bool is_for_loco = false, is_for_board = false;
    if (dcc_read(frame->bytes, frame->len, &packet)) return;
    dcc_loco_hears(&loco, frame->bytes, frame->len, &is_for_loco);
    dcc_board_hears(&turnouts, frame->bytes, frame->len, &is_for_board);
    if (is_for_loco && dcc_loco_apply(&loco, frame->bytes, frame->len) == 0) notify_loco(&packet);
    if (is_for_board && dcc_board_apply(&turnouts, frame->bytes, frame->len) == 0) notify_board(&packet);
}

int main(void) {
    static const uint8_t cvs[DCC_CVS] = {[0] = 3, [28] = 2};
    framer = dcc_framer_new();
    dcc_loco_new(&loco, cvs);
    dcc_board_new(&turnouts, 12);
    while (wait_for_interrupt()) {
        if (!waits) continue;
        hear(&found);
        waits = false;
    }
    return 0;
}
