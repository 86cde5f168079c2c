/* Two programs on one wire. A station takes random commands, stops and forgets locomotives, and sends its packets half
 * by half. Each half-bit is measured with a random error of up to 3 microseconds. A framer takes the half-bits, and a
 * decoder that stays on the main track hears the frames. When nothing waits, each register of the decoder but the
 * pending write must have the value that the accepted commands give. A second decoder hears these commands directly.
 * Half of the rounds begin with noise and one whole packet. tools/test-c and tools/test-mcu run this program.
 *
 *   wire [ROUNDS]
 *
 * It prints what happened. Status 1 if a register differs, if another frame is heard than was sent, or if something
 * happened too seldom for a test. The program must fail if it is built with ERROR=4, with EARLY or with BOTH_TRACKS. */
#include "dcc.h"

#include <stdio.h>
#include <stdlib.h>
#include <string.h>

#ifndef ERROR
#define ERROR 3 /* the greatest error of a measured half-bit, in microseconds */
#endif

static uint32_t state = 2463534242u;
static unsigned long packets, stops, withdrawn, refreshed, writes, noises, wrong;
static dcc_station station;
static dcc_sender sender;
static dcc_framer framer;
static dcc_decoder decoder, wanted;

/* the commands in the queue, with the copies of the first one that were sent, and the copies of a stop to send */
static struct {
    dcc_frame frame;
    bool is_write, can_move;
} waiting[64];
static unsigned count, sent, stop_copies;
static uint8_t repeats;

static uint32_t next(void) {
    state ^= state << 13;
    state ^= state >> 17;
    state ^= state << 5;
    return state >> 3;
}
static uint32_t below(uint32_t n) { return next() % n; }

static void check(bool is_right, const char *name) {
    if (!is_right && wrong++ < 10) printf("wrong: %s, packet %lu\n", name, packets);
}

static void hear(dcc_decoder *by, const dcc_frame *frame) {
    dcc_answer answer;
    check(dcc_decoder_hear(by, frame->bytes, frame->len, &answer) == 0, "a frame");
    writes += by == &wanted && answer.changed;
}

/* A half-bit of us microseconds as it is measured. Returns true if it completes a packet, which is then in *frame. */
static bool measure(uint16_t us, dcc_frame *frame) {
    dcc_outcome outcome;
    uint16_t measured = (uint16_t)(us - ERROR + (int)below(2 * ERROR + 1));
    if (!dcc_push(&framer, measured, &outcome) || outcome.refusal) return false;
    *frame = outcome.frame;
    return true;
}

/* Noise, and then one whole packet. The decoder hears what the framer finds in them. */
static void make_noise(void) {
    static const uint16_t some[] = {58, 58, 58, 100, 100, 116, 30, 70};
    static const uint8_t idle[] = {255, 0, 255};
    uint16_t halves[DCC_HALVES], i, len;
    uint32_t left = below(200), ones = below(3);
    dcc_frame frame;
    noises++;
    for (; left > 0; left--)
        if (measure(ones ? some[below(8)] : (uint16_t)(3 + below(20000)), &frame)) hear(&decoder, &frame);
    if (below(2)) { /* the beginning of a packet */
        len = dcc_halves(idle, 3, DCC_MAIN_TRACK, halves);
        len = (uint16_t)(len - 1 - below(60));
        for (i = 0; i < len; i++) if (measure(halves[i], &frame)) hear(&decoder, &frame);
    }
    len = dcc_halves(idle, 3, DCC_MAIN_TRACK, halves);
    for (i = 0; i < len; i++) if (measure(halves[i], &frame)) hear(&decoder, &frame);
}

/* A random command, to the decoder, to locomotive 124, to another one or to all. */
static dcc_packet some_command(void) {
    static const uint8_t groups[] = {0, 5, 9, 13, 21, 29, 37, 45, 53, 61};
    static const uint16_t cvs[] = {2, 3, 29, 64, 8, 19, 1024};
    dcc_packet packet;
    uint32_t to = below(8);
    memset(&packet, 0, sizeof packet);
    packet.kind = (uint8_t)(DCC_RESET + below(DCC_SIGNAL));
    packet.to = to < 4 ? decoder.loco.address_kind : to < 6 ? DCC_SHORT : to == 6 ? DCC_ALL : DCC_LONG;
    packet.address = (uint16_t)(to < 4 ? decoder.loco.address : to < 6 ? 124 : to == 6 ? 0 : 1 + below(3));
    if (packet.kind == DCC_ACCESSORY || packet.kind == DCC_SIGNAL) packet.address = (uint16_t)below(511);
    if (packet.kind == DCC_RESET && below(2)) packet.to = DCC_ALL, packet.address = 0;
    packet.forward = below(2);
    packet.bits = (uint8_t)below(packet.kind == DCC_SPEED128 ? 128 : packet.kind == DCC_SPEED28 ? 32 : 16);
    if (packet.kind <= DCC_SPEED128 && below(4) == 0) packet.bits = (uint8_t)below(5);
    packet.group = groups[below(10)];
    packet.state = (uint8_t)below(128);
    packet.on = below(2);
    packet.cv = cvs[below(7)];
    packet.value = (uint8_t)next();
    packet.place = (uint8_t)below(8);
    packet.one = below(2);
    packet.output = (uint8_t)below(8);
    packet.aspect = (uint8_t)next();
    return packet;
}

static void give_command(void) {
    dcc_packet packet = some_command();
    dcc_frame frame;
    bool to_all = packet.to == DCC_ALL;
    if (dcc_frame_of_packet(&packet, &frame) || dcc_station_command(&station, frame.bytes, frame.len)) return;
    waiting[count].frame = frame;
    waiting[count].is_write = packet.kind == DCC_CV_WRITE || packet.kind == DCC_CV_BIT_WRITE;
    waiting[count].can_move = (packet.kind == DCC_SPEED28 && packet.bits > 3 && !to_all)
        || (packet.kind == DCC_SPEED128 && packet.bits > 1);
    count++;
}

/* The decoder `wanted` hears the command that is first in the queue: a write twice. */
static void obey_first(void) {
    hear(&wanted, &waiting[0].frame);
    if (waiting[0].is_write) hear(&wanted, &waiting[0].frame);
}

static void give_stop(void) {
    static const dcc_frame stop = {3, {0x00, 0x71, 0x71, 0, 0, 0}};
    unsigned i, left = 0;
    if (stop_copies == 0 && sent > 0 && waiting[0].can_move) obey_first();
    hear(&wanted, &stop);
    for (i = 0; i < count; i++) if (!waiting[i].can_move) waiting[left++] = waiting[i];
    check(dcc_station_stop(&station) == count - left, "the number of withdrawn commands");
    withdrawn += count - left;
    count = left;
    stop_copies = repeats;
    sent = 0;
    stops++;
}

/* What the station sent: a copy of the stop, of the first command, or a refreshed or idle packet. */
static void count_copy(void) {
    unsigned i;
    if (stop_copies > 0) {
        stop_copies--;
    } else if (count == 0) {
        refreshed++;
    } else if (++sent == (unsigned)repeats + waiting[0].is_write) {
        obey_first();
        count--;
        for (i = 0; i < count; i++) waiting[i] = waiting[i + 1];
        sent = 0;
    }
}

static void send_packet(void) {
    dcc_timing timing = {0};
    dcc_frame frame, heard;
    unsigned long found = 0;
    uint16_t us;
    timing.one = (uint16_t)(55 + below(7));
    timing.zero_first = (uint16_t)(below(9) ? 95 + below(30) : 95 + below(9806));
    timing.zero_second = (uint16_t)(95 + below(9) * 200);
    timing.preamble = (uint8_t)(14 + below(27));
    dcc_station_next(&station, &frame);
    check(dcc_sender_start(&sender, frame.bytes, frame.len, &timing) == 0, "a packet that the station sends");
    while ((us = dcc_sender_half(&sender)) != 0) {
        if (!measure(us, &heard)) continue;
        check(heard.len == frame.len && !memcmp(heard.bytes, frame.bytes, frame.len), "the frame that is heard");
        hear(&decoder, &heard);
        found++;
    }
    check(found == 1, "one frame for each packet");
    packets++;
    count_copy();
}

static bool is_same(void) {
    const dcc_loco *a = &decoder.loco, *b = &wanted.loco;
    return a->address_kind == b->address_kind && a->address == b->address && a->speed_mode == b->speed_mode
        && a->step == b->step && a->forward == b->forward && !memcmp(a->functions, b->functions, sizeof a->functions)
        && !memcmp(a->states, b->states, sizeof a->states) && !memcmp(a->cvs, b->cvs, DCC_CVS);
}

static void play_round(void) {
    static uint8_t cvs[DCC_CVS];
    uint32_t i, turns = 2 + below(20);
    memset(cvs, 0, sizeof cvs);
    cvs[0] = (uint8_t)(1 + below(127));
    cvs[16] = 192;
    cvs[17] = 200;
    cvs[28] = (uint8_t)(2 * below(2) + 32 * below(2));
    dcc_decoder_new(&decoder, cvs);
#ifndef BOTH_TRACKS
    dcc_decoder_set_main_only(&decoder, true);
#endif
    memset(&framer, 0, sizeof framer);
    repeats = (uint8_t)(1 + below(4));
    check(dcc_station_new(&station, (uint8_t)(1 + below(16)), (uint8_t)(1 + below(16)), repeats) == 0, "a station");
    count = sent = stop_copies = 0;
    if (below(2)) make_noise();
    wanted = decoder;
    for (; turns > 0; turns--) {
        for (i = below(5); i > 0; i--) give_command();
        if (below(12) == 0) give_stop();
        if (below(12) == 0) dcc_station_forget(&station, decoder.loco.address_kind, decoder.loco.address);
        for (i = below(8); i > 0; i--) send_packet();
        check(dcc_station_waiting(&station) == count, "the number of waiting commands");
    }
#ifndef EARLY
    while (count > 0 || stop_copies > 0) send_packet();
#endif
    check(is_same(), "the registers of the decoder");
}

int main(int argc, char **argv) {
    unsigned long rounds = argc > 1 ? (unsigned long)atoi(argv[1]) : 200, i;
    for (i = 0; i < rounds; i++) play_round();
    printf("%lu rounds: %lu packets, %lu refreshed, %lu stops, %lu withdrawn, %lu CVs changed, %lu with noise, "
        "%lu wrong\n", rounds, packets, refreshed, stops, withdrawn, writes, noises, wrong);
    return wrong || packets < 20 * rounds || refreshed < rounds || stops < rounds / 4 || withdrawn < rounds / 8
        || writes < rounds / 8 || noises < rounds / 4;
}
