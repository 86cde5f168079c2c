/* Lists the packets of a capture on standard input that a decoder does not hear, as `dcc lost [--words]` does. */
#include "capture.h"
#include "dcc.h"
#include <string.h>

static void print_packet(const dcc_frame *frame, bool words) {
    char line[DCC_LINE];
    if (words && dcc_line(frame->bytes, frame->len, line) == 0) {
        printf("%s", line);
        return;
    }
    for (int i = 0; i < frame->len; i++) printf("%02x", frame->bytes[i]);
}

/* The half-bits outside the limits, if there are any. */
static void print_off_limits(const char *before, const char *name, const dcc_off_limits *off) {
    if (off->count == 0) return;
    printf("%s%s %lu from %u to %u", before, name, (unsigned long)off->count, off->least, off->most);
}

/* The causes of a packet whose last half-bit has this number. */
static void print_causes(unsigned long half, const dcc_lost_packet *lost) {
    const char *comma = "";
    if (lost->preamble.is_short) {
        printf("preamble %u", lost->preamble.ones);
        if (lost->preamble.after_refusal) printf(" after %lu", half - lost->preamble.since_refusal);
        comma = ", ";
    }
    print_off_limits(comma, "ones", &lost->ones);
    if (lost->ones.count > 0) comma = ", ";
    print_off_limits(comma, "zeros", &lost->zeros);
}

int main(int argc, char **argv) {
    bool words = argc > 1 && !strcmp(argv[1], "--words");
    static dcc_lost finder; /* all zeros: new */
    dcc_lost_packet lost;
    unsigned long half = 0; /* the half-bits so far */
    uint16_t us;
    uint32_t n;
    while (next_run(&us, &n)) {
        /* a run can have more than one lost packet */
        for (uint32_t taken; n > 0; n -= taken) {
            uint32_t at = dcc_lost_push_run(&finder, us, n, &lost);
            taken = at ? at : n;
            half += taken;
            if (at == 0) continue;
            printf("%lu lost ", half);
            print_packet(&lost.frame, words);
            printf(": ");
            print_causes(half, &lost);
            printf("\n");
        }
    }
    return 0;
}
