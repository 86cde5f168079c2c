/* The other functions. `calls encode` writes the half-bits of packet lines. `calls send` writes them too, but asks
 * for the half-bits one by one. `calls lines` writes the packet lines again. `calls readcv CV VALUE` asks a decoder
 * on the programming track nine questions. The outputs are those of `dcc encode`, `dcc show --words` and `dcc
 * readcv`. */
#include "dcc.h"
#include "lines.h"
#include <string.h>

/* The frame of a line of text. A fault ends the program. */
static dcc_frame frame_of(const text_line *line) {
    dcc_frame frame = {0};
    uint8_t fault = dcc_frame_of_line(line->bytes, line->len, &frame);
    if (fault) refuse_line(line, fault);
    return frame;
}

static void encode(const dcc_frame *frame) {
    uint16_t halves[DCC_HALVES];
    int count = dcc_halves(frame->bytes, frame->len, DCC_MAIN_TRACK, halves);
    for (int i = 0; i < count; i++) printf(i ? " %u" : "%u", halves[i]);
    printf("\n");
}

/* The same half-bits, one by one, as an interrupt of a timer asks for them. */
static void send(const dcc_frame *frame) {
    static const dcc_timing main_track = DCC_MAIN_TIMING;
    dcc_sender sender = {0};
    if (dcc_sender_start(&sender, frame->bytes, frame->len, &main_track)) exit(1);
    uint16_t us = dcc_sender_half(&sender);
    for (bool is_first = true; us; is_first = false, us = dcc_sender_half(&sender)) printf(is_first ? "%u" : " %u", us);
    printf("\n");
}

static void write_line(const dcc_frame *frame) {
    char line[DCC_LINE];
    if (dcc_line(frame->bytes, frame->len, line)) exit(1);
    printf("%s\n", line);
}

/* Whether a decoder acknowledges one of five copies of a question behind three resets. */
static bool ask(dcc_service *service, const dcc_frame *question) {
    static const dcc_frame reset = {3, {0}};
    bool any = false;
    for (int i = 0; i < 8; i++) {
        const dcc_frame *frame = i < 3 ? &reset : question;
        bool acknowledged;
        if (dcc_service_apply(service, frame->bytes, frame->len, &acknowledged)) exit(1);
        any |= acknowledged;
    }
    return any;
}

static void write_question(const dcc_frame *question, bool yes) {
    for (int i = 0; i < question->len; i++) printf("%02x", question->bytes[i]);
    printf(" %s\n", yes ? "yes" : "no");
}

/* Reads a CV of a decoder on the programming track that has this value in it. */
static void read_cv(uint16_t cv, uint8_t value) {
    static dcc_service service;
    static uint8_t cvs[DCC_CVS];
    dcc_reader reader;
    dcc_frame question;
    uint8_t found, told = DCC_MORE;
    if (dcc_reader_new(&reader, cv)) exit(2);
    cvs[cv - 1] = value;
    dcc_service_new(&service, cvs);
    while (told == DCC_MORE) {
        if (dcc_reader_question(&reader, &question)) exit(1);
        bool yes = ask(&service, &question);
        write_question(&question, yes);
        told = dcc_reader_answer(&reader, yes, &found);
    }
    if (told == DCC_VALUE) {
        printf("value %u\n", found);
    } else {
        printf("no answer\n");
    }
}

int main(int argc, char **argv) {
    static text_line line;
    if (argc == 4 && !strcmp(argv[1], "readcv")) {
        read_cv((uint16_t)atoi(argv[2]), (uint8_t)atoi(argv[3]));
        return 0;
    }
    while (argc == 2 && next_line(&line)) {
        dcc_frame frame = frame_of(&line);
        if (!strcmp(argv[1], "encode")) {
            encode(&frame);
        } else if (!strcmp(argv[1], "send")) {
            send(&frame);
        } else {
            write_line(&frame);
        }
    }
    return argc == 2 ? 0 : 2;
}
