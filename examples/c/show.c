/* Lists the packets and refusals of a capture on standard input, as `dcc show [--words]` does. */
#include "capture.h"
#include "dcc.h"
#include <string.h>

/* The bytes of a frame in hex. */
static void print_hex(const dcc_frame *frame) {
    for (int i = 0; i < frame->len; i++) printf("%02x", frame->bytes[i]);
}

static void print_packet(const dcc_frame *frame, int words) {
    char line[DCC_LINE];
    if (words && dcc_line(frame->bytes, frame->len, line) == 0) {
        printf("%s", line);
    } else {
        print_hex(frame);
    }
}

static void print_refusal(const dcc_outcome *outcome) {
    printf("refused H%d", outcome->refusal);
    if (outcome->frame.len > 0) {
        printf(" ");
        print_hex(&outcome->frame);
    }
}

int main(int argc, char **argv) {
    int words = argc > 1 && !strcmp(argv[1], "--words");
    dcc_framer framer = dcc_framer_new();
    dcc_outcome outcome;
    unsigned long before = 0; /* how many halves stand before the run */
    uint16_t us;
    uint32_t n;
    while (next_run(&us, &n)) {
        if (dcc_push_run(&framer, us, n, &outcome)) {
            printf("%lu ", before + outcome.at);
            if (outcome.refusal == 0) {
                print_packet(&outcome.frame, words);
            } else {
                print_refusal(&outcome);
            }
            printf("\n");
        }
        before += n;
    }
    return 0;
}
