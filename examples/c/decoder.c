/* A locomotive with the short address 3 and board 12 hear a capture on standard input. For each packet that one of
 * them hears the program calls a function notify_.., which writes the packet line to standard error. At the end the
 * program writes the state of both decoders, as `dcc run` does. */
#include "capture.h"
#include "dcc.h"

/* Returns the address of a packet: all, s3, l1000. */
static const char *name_of(const dcc_packet *p) {
    static char name[8];
    if (p->to == DCC_ALL) return "all";
    snprintf(name, sizeof name, "%c%u", p->to == DCC_SHORT ? 's' : 'l', p->address);
    return name;
}

static void notify_reset(const dcc_packet *p) {
    fprintf(stderr, "loco %s reset\n", name_of(p));
}

static void notify_speed(const dcc_packet *p) {
    int steps = p->kind == DCC_SPEED28 ? 28 : 128;
    fprintf(stderr, "loco %s speed%d %c %u\n", name_of(p), steps, p->forward ? 'f' : 'r', p->bits);
}

static void notify_functions(const dcc_packet *p) {
    fprintf(stderr, "loco %s functions %u %u\n", name_of(p), p->group, p->bits);
}

static void notify_state(const dcc_packet *p) {
    fprintf(stderr, "loco %s state %u %s\n", name_of(p), p->state, p->on ? "on" : "off");
}

static void notify_cv(const dcc_packet *p) {
    const char *access = p->kind == DCC_CV_WRITE ? "write" : "verify";
    fprintf(stderr, "loco %s cv %s %u %u\n", name_of(p), access, p->cv, p->value);
}

static void notify_cv_bit(const dcc_packet *p) {
    const char *access = p->kind == DCC_CV_BIT_WRITE ? "bitwrite" : "bitverify";
    fprintf(stderr, "loco %s cv %s %u %u %d\n", name_of(p), access, p->cv, p->place, p->one);
}

static void notify_turnout(const dcc_packet *p) {
    fprintf(stderr, "accessory %u %u %s\n", p->address, p->output, p->on ? "on" : "off");
}

static void notify_signal(const dcc_packet *p) {
    fprintf(stderr, "signal %u %u\n", p->address, p->aspect);
}

static void notify_other(const dcc_frame *frame) {
    fprintf(stderr, "frame ");
    for (int i = 0; i < frame->len; i++) fprintf(stderr, "%02x", frame->bytes[i]);
    fprintf(stderr, "\n");
}

/* The call of a packet's kind. Nobody hears an idle packet. */
static void notify(const dcc_packet *p, const dcc_frame *frame) {
    switch (p->kind) {
    case DCC_RESET: notify_reset(p); break;
    case DCC_SPEED28:
    case DCC_SPEED128: notify_speed(p); break;
    case DCC_FUNCTIONS: notify_functions(p); break;
    case DCC_STATE: notify_state(p); break;
    case DCC_CV_WRITE:
    case DCC_CV_VERIFY: notify_cv(p); break;
    case DCC_CV_BIT_WRITE:
    case DCC_CV_BIT_VERIFY: notify_cv_bit(p); break;
    case DCC_ACCESSORY: notify_turnout(p); break;
    case DCC_SIGNAL: notify_signal(p); break;
    default: notify_other(frame);
    }
}

/* Prints the numbers of the bits that are one. The loop has no n / 64: avr-gcc 5.4 -Os takes it for 0. */
static void print_bits(const char *head, const uint64_t words[2], int count) {
    printf("%s", head);
    for (int word = 0; word < 2; word++) {
        uint64_t bits = words[word];
        for (int n = 64 * word; n < count && bits != 0; n++, bits >>= 1) {
            if (bits & 1) printf(" %d", n);
        }
    }
    printf("\n");
}

static void print_speed(const dcc_loco *loco) {
    if (loco->speed_mode == 0) {
        printf("speed stop");
    } else if (loco->speed_mode == 1) {
        printf("speed emergency");
    } else {
        printf("speed %u %u", loco->speed_mode, loco->step);
    }
    printf(" %c\n", loco->forward ? 'f' : 'r');
}

static void print_loco(const dcc_loco *loco) {
    if (loco->address_kind == DCC_ALL) {
        printf("loco none\n");
    } else {
        printf("loco %c%u\n", loco->address_kind == DCC_SHORT ? 's' : 'l', loco->address);
    }
    print_speed(loco);
    print_bits("on", loco->functions, 69);
    print_bits("states", loco->states, 128);
    printf("pending ");
    if (loco->pending.len == 0) printf("none");
    for (int i = 0; i < loco->pending.len; i++) printf("%02x", loco->pending.bytes[i]);
    printf("\n");
    for (int n = 0; n < DCC_CVS; n++) {
        if (loco->cvs[n]) printf("cv %d %u\n", n + 1, loco->cvs[n]);
    }
}

static void print_board(const dcc_board *board) {
    uint64_t outs[2] = {board->outs, 0};
    printf("board %u\n", board->number);
    print_bits("out", outs, 8);
    printf("position");
    for (int n = 0; n < 4; n++) printf(" %d", board->positions[n]);
    printf("\naspect");
    for (int n = 0; n < 4; n++) printf(" %u", board->aspects[n]);
    printf("\n");
}

static dcc_loco loco;
static dcc_board board;

/* Hands a packet to the decoders, and to the listener where it is for one of them. 1 where the library refuses it. */
static int hear(const dcc_frame *frame) {
    dcc_packet packet;
    bool loco_hears, board_hears;
    if (dcc_loco_hears(&loco, frame->bytes, frame->len, &loco_hears)) return 1;
    if (dcc_board_hears(&board, frame->bytes, frame->len, &board_hears)) return 1;
    if (!loco_hears && !board_hears) return 0;
    if (dcc_read(frame->bytes, frame->len, &packet)) return 1;
    notify(&packet, frame);
    if (loco_hears && dcc_loco_apply(&loco, frame->bytes, frame->len)) return 1;
    return board_hears && dcc_board_apply(&board, frame->bytes, frame->len);
}

int main(void) {
    static const uint8_t cvs[DCC_CVS] = {[0] = 3, [28] = 2};
    dcc_framer framer = dcc_framer_new();
    dcc_outcome outcome;
    uint16_t us;
    uint32_t n;
    dcc_loco_new(&loco, cvs);
    if (dcc_board_new(&board, 12)) return 1;
    while (next_run(&us, &n)) {
        for (; n > 0; n--) {
            if (dcc_push(&framer, us, &outcome) && outcome.refusal == 0 && hear(&outcome.frame)) return 1;
        }
    }
    printf("dcc-decoders 2\n");
    print_loco(&loco);
    print_board(&board);
    printf("end\n");
    return 0;
}
