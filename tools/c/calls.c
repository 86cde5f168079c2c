/* Calls each function of dcc.h with random arguments, and writes a line for each function: its name, the number of
 * calls, and a checksum of all results and objects. The numbers depend only on the number of rounds, so a library
 * compiled by another compiler or for another machine has to give the same lines.
 *
 *   calls [ROUNDS]
 *
 * Objects come from calls. The fields that a program may change also get random values that no call writes. */
#include "dcc.h"

#include <stdio.h>
#include <stdlib.h>
#include <string.h>

#ifndef ROUNDS
#define ROUNDS 1000
#endif

#define FUNCTIONS(X) \
    X(framer_new) X(push) X(push_run) X(push_many) X(lost_new) X(lost_push) X(lost_push_run) X(lost_push_many) \
    X(meter_new) X(meter_push_run) X(meter_push_many) X(meter_read) X(read) X(line) X(plain) \
    X(frame_of_line) \
    X(frame_of_packet) X(halves) X(sender_start) X(sender_half) X(loco_new) X(loco_apply) X(loco_hears) X(board_new) \
    X(board_apply) X(board_hears) X(service_new) X(service_apply) X(loco_power_up) X(service_power_up) \
    X(small_loco_new) X(small_loco_cv) X(small_loco_apply) X(small_loco_hears) X(small_service_new) \
    X(small_service_cv) X(small_service_apply) X(decoder_new) X(decoder_power_up) X(decoder_hear) \
    X(decoder_end_service) X(decoder_set_main_only) X(board_decoder_new) X(board_decoder_power_up) \
    X(board_decoder_hear) X(board_decoder_end_service) X(board_decoder_set_main_only) X(reader_new) \
    X(reader_question) X(reader_answer) X(writer_new) X(writer_question) X(writer_answer) X(service_frame) \
    X(service_read) X(station_new) X(station_command) X(station_next) X(station_stop) X(station_waiting) \
    X(station_entries) X(station_forget) X(functions_turn) X(functions_is_on)

#define NUMBER(name) F_##name,
enum { FUNCTIONS(NUMBER) COUNT };

static uint32_t calls[COUNT], sums[COUNT], state = 2463534242u;
static int now;

static uint32_t next(void) {
    state ^= state << 13;
    state ^= state >> 17;
    state ^= state << 5;
    return state;
}
static uint16_t below(uint16_t n) { return (uint16_t)((next() >> 8) % n); }
static bool one_of(uint16_t n) { return below(n) == 0; }

/* True in the first round, and then in one of n rounds: so few rounds call each function. */
static bool is_first = true;
static bool first_or_one_of(uint16_t n) { return one_of(n) || is_first; }

static void called(int function) {
    now = function;
    calls[now]++;
}
static void add(uint32_t number) {
#ifdef TRACE
    printf("%d %lu\n", now, (unsigned long)number);
#endif
    sums[now] = ((sums[now] + 2654435769u) ^ number) * 16777619u + (number >> 16);
}
static void add_bytes(const void *from, uint16_t count) {
    const uint8_t *bytes = (const uint8_t *)from;
    uint16_t i;
    for (i = 0; i < count; i++) add(bytes[i]);
}
static void add_frame(const dcc_frame *frame) {
    add(frame->len);
    add_bytes(frame->bytes, 6);
}

/* ---- random arguments ---- */

static dcc_framer framer;
static dcc_lost finder;
static dcc_meter meter;
static dcc_sender sender;
static dcc_loco loco;
static dcc_board board;
static dcc_service service;
static dcc_small_loco small_loco;
static dcc_small_service small_service;
static dcc_decoder decoder;
static dcc_board_decoder board_decoder;
static dcc_reader reader;
static dcc_writer writer;
static dcc_service_packet service_packet;
static dcc_station station;
static dcc_functions functions;
static uint8_t cvs[DCC_CVS], room[8], *frame;
static uint8_t len;

static uint8_t some_byte(void) {
    static const uint8_t edges[] = {0, 1, 3, 63, 64, 96, 127, 128, 144, 160, 191, 192, 223, 231, 232, 254, 255};
    return one_of(3) ? edges[below(sizeof edges)] : (uint8_t)next();
}

/* Makes a frame at the end of its room, so that a sanitizer sees a read after it. */
static void make_frame(void) {
    uint8_t i, sum = 0, bytes[8];
    for (i = 0; i < 8; i++) bytes[i] = some_byte();
    len = one_of(12) ? (uint8_t)below(9) : (uint8_t)(3 + below(4));
    if (one_of(2)) {
        /* a packet for the locomotive or the board */
        uint8_t at = 0;
        if (one_of(3)) {
            /* an output, or the aspect of a signal */
            uint8_t high = (uint8_t)(~board.number >> 2 & 112);
            len = (uint8_t)(3 + below(2));
            bytes[0] = (uint8_t)(128 | (board.number & 63));
            bytes[1] = (uint8_t)(len == 3 ? 128 | high | below(16) : high | below(4) << 1 | 1);
            at = 2;
        } else if (one_of(3)) {
            bytes[0] = 3; /* often, since a station compares packets for one decoder */
        } else if (loco.address > 127) {
            bytes[0] = (uint8_t)(192 | loco.address >> 8);
            bytes[1] = (uint8_t)loco.address;
            at = 1;
        } else {
            bytes[0] = (uint8_t)loco.address;
        }
        if (at < 2) {
            /* a speed or functions; 128 steps; further functions or a state; a CV */
            static const uint8_t first[] = {0x40, 0x3f, 0xd8, 0xe0}, many[] = {128, 1, 8, 32}, sizes[] = {1, 2, 2, 3};
            uint8_t kind = (uint8_t)below(4);
            bytes[at + 1] = (uint8_t)(first[kind] + below(many[kind]));
            len = (uint8_t)(at + 2 + sizes[kind]);
        }
    }
    for (i = 0; i + 1 < len; i++) sum ^= bytes[i];
    if (len && !one_of(12)) bytes[len - 1] = sum;
    frame = room + 8 - len;
    memcpy(frame, bytes, len);
}

static void make_pending(dcc_frame *pending) {
    uint8_t i, sum = 0;
    pending->len = one_of(8) ? some_byte() : (uint8_t)below(8);
    for (i = 0; i < 6; i++) pending->bytes[i] = one_of(3) ? some_byte() : 0;
    if (pending->len > 0 && pending->len <= 6) {
        for (i = 0; i + 1 < pending->len; i++) sum ^= pending->bytes[i];
        pending->bytes[pending->len - 1] = sum;
        for (i = pending->len; i < 6 && !one_of(9); i++) pending->bytes[i] = 0;
    }
    if (one_of(3)) memset(pending, 0, sizeof *pending);
}

static uint64_t some_bits(void) {
    uint64_t bits = next();
    bits = bits << 32 ^ next();
    return one_of(2) ? bits : bits & 31;
}

static void change_loco(void) {
    static const uint16_t addresses[] = {0, 1, 3, 99, 100, 127, 128, 192, 1023, 10239, 10240, 65535};
    static const uint8_t modes[] = {0, 1, 2, 14, 28, 126, 127, 255};
    uint16_t cv = one_of(2) ? below(30) : below(DCC_CVS);
    uint8_t one = (uint8_t)below(2);
    switch (below(9)) {
        case 0: loco.address_kind = (uint8_t)below(5); break;
        case 1: loco.address = one_of(2) ? addresses[below(12)] : (uint16_t)next(); break;
        case 2:
            loco.address = addresses[1 + below(9)];
            loco.address_kind = loco.address > 127 ? DCC_LONG : DCC_SHORT;
            break;
        case 3: loco.speed_mode = modes[below(8)], loco.step = some_byte(); break;
        case 4: loco.speed_mode = modes[3 + below(3)], loco.step = (uint8_t)(1 + below(loco.speed_mode)); break;
        case 5: loco.forward = one_of(2); break;
        case 6: make_pending(&loco.pending); break;
        case 7: loco.functions[one] = some_bits(), loco.states[one] = some_bits(); break;
        default: loco.cvs[cv] = some_byte(); break;
    }
    if (one_of(3)) loco.functions[1] &= 31, loco.states[0] &= ~(uint64_t)1;
    if (one_of(3)) memset(&loco.pending, 0, sizeof loco.pending);
    if (one_of(3)) loco.speed_mode = loco.step = 0;
}

static void change_board(void) {
    uint8_t which = (uint8_t)below(4);
    switch (below(4)) {
        case 0: board.number = one_of(3) ? (uint16_t)next() : below(513); break;
        case 1: board.outs = some_byte(); break;
        case 2: board.positions[which] = one_of(2); break;
        default: board.aspects[which] = some_byte(); break;
    }
    if (one_of(3)) board.number = below(511);
    if (one_of(3)) memset(board.aspects, 0, 4), board.outs = 0;
}

/* ---- the calls ---- */

static void add_loco(void) {
    uint8_t i;
    add(loco.address_kind), add(loco.speed_mode), add(loco.step), add(loco.forward), add(loco.address);
    add_frame(&loco.pending);
    for (i = 0; i < 2; i++) {
        add((uint32_t)loco.functions[i]), add((uint32_t)(loco.functions[i] >> 32));
        add((uint32_t)loco.states[i]), add((uint32_t)(loco.states[i] >> 32));
    }
    add_bytes(loco.cvs, DCC_CVS);
}

static void add_board(void) {
    uint8_t i;
    add(board.number), add(board.outs);
    for (i = 0; i < 4; i++) add(board.positions[i]), add(board.aspects[i]);
}

static void call_framer(uint16_t us, uint32_t n) {
    dcc_outcome outcome;
    memset(&outcome, 7, sizeof outcome);
    if (n == 1) {
        called(F_push);
        add(dcc_push(&framer, us, &outcome));
    } else if (n <= 8) {
        uint16_t halves[8], i;
        uint64_t taken = 9;
        for (i = 0; i < n; i++) halves[i] = us;
        called(F_push_many);
        add(dcc_push_many(&framer, halves, n, &outcome, &taken));
        add((uint32_t)taken);
    } else {
        called(F_push_run);
        add(dcc_push_run(&framer, us, n, &outcome));
    }
    add(outcome.at), add(outcome.refusal), add_frame(&outcome.frame);
    add_bytes(&framer, sizeof framer);
}

static void add_off_limits(const dcc_off_limits *off) {
    add(off->count), add(off->least), add(off->most);
}

/* The time of a run grows with n, so only the first run has more than 300 half-bits. */
static void call_finder(uint16_t us, uint32_t n) {
    dcc_lost_packet lost;
    uint32_t result;
    if (n > 300) n = is_first ? 66000 : n % 300;
    memset(&lost, 1, sizeof lost);
    do {
        if (n > 1 && n <= 8) {
            uint16_t halves[8], i;
            uint64_t taken = 9;
            for (i = 0; i < n; i++) halves[i] = us;
            called(F_lost_push_many);
            result = dcc_lost_push_many(&finder, halves, n, &lost, &taken);
            n -= (uint32_t)taken;
        } else {
            called(n == 1 ? F_lost_push : F_lost_push_run);
            result = n == 1 ? dcc_lost_push(&finder, us, &lost) : dcc_lost_push_run(&finder, us, n, &lost);
            n -= result ? result : n;
        }
        add(result), add_frame(&lost.frame), add_off_limits(&lost.ones), add_off_limits(&lost.zeros);
        add(lost.preamble.is_short), add(lost.preamble.ones);
        add(lost.preamble.after_refusal), add(lost.preamble.since_refusal);
    } while (n > 0);
    if (one_of(100)) add_bytes(&finder, sizeof finder);
}

static void add_long(uint64_t number) { add((uint32_t)number), add((uint32_t)(number >> 32)); }

static void add_tally(const dcc_tally *tally) {
    add_long(tally->count), add_long(tally->sum), add_long(tally->least), add_long(tally->most);
}

static void read_meter(void) {
    dcc_statistics statistics;
    uint8_t i;
    memset(&statistics, 1, sizeof statistics);
    called(F_meter_read);
    dcc_meter_read(&meter, &statistics);
    add_long(statistics.time), add_long(statistics.gap), add_tally(&statistics.below), add_tally(&statistics.ones);
    add_tally(&statistics.between), add_tally(&statistics.zeros), add_tally(&statistics.above);
    add_tally(&statistics.differences), add_tally(&statistics.sums), add(statistics.packets), add(statistics.halves);
    for (i = 0; i < 5; i++) add(statistics.refused[i]);
    add(statistics.lost), add(statistics.preamble), add(statistics.has_preamble), add(statistics.has_gap);
}

/* The meter counts a preamble up to 65,535 half-bits, so its first run has more. */
static void call_meter(uint16_t us, uint32_t n) {
    uint16_t halves[4] = {us, us, us, us};
    if (n > 300) n = is_first ? 66000 : n % 300;
    if (n <= 4 && one_of(3)) {
        called(F_meter_push_many);
        add(dcc_meter_push_many(&meter, halves, n));
    } else {
        called(F_meter_push_run);
        add(dcc_meter_push_run(&meter, us, n));
    }
    /* after a half-bit, a run of 2^32 - 1 half-bits is refused */
    if (n > 0 && one_of(20)) add(dcc_meter_push_run(&meter, us, 4294967295u));
    if (first_or_one_of(100)) read_meter();
}

static void call_packets(void) {
    static char text[DCC_LINE], plain[DCC_PLAIN], at_end[DCC_LINE + 8];
    static uint16_t halves[DCC_HALVES];
    dcc_packet packet;
    dcc_frame back;
    uint8_t count, i, size, slower;
    uint16_t run_us, at;
    uint32_t run;
    bool in_runs;
    memset(&packet, 1, sizeof packet);
    called(F_read);
    add(dcc_read(frame, len, &packet));
    add(packet.kind), add(packet.to), add(packet.address), add(packet.forward), add(packet.bits), add(packet.group);
    add(packet.state), add(packet.on), add(packet.cv), add(packet.value), add(packet.place), add(packet.one);
    add(packet.output), add(packet.aspect);
    called(F_line);
    add(dcc_line(frame, len, text));
    add_bytes(text, sizeof text);
    called(F_plain);
    add(dcc_plain(frame, len, plain));
    add_bytes(plain, sizeof plain);
    size = (uint8_t)strlen(text);
    at = below((uint16_t)(size + 1));
    if (one_of(3)) text[at] = " \t0123459xs\r#lz"[below(15)];
    at = below(DCC_LINE - 1);
    if (one_of(8)) text[at] = (char)some_byte();
    if (one_of(8)) size = (uint8_t)below(DCC_LINE);
    memset(&back, 7, sizeof back);
    memcpy(at_end + sizeof at_end - size, text, size);
    called(F_frame_of_line);
    add(dcc_frame_of_line(at_end + sizeof at_end - size, size, &back));
    add_frame(&back);
    called(F_halves);
    count = dcc_halves(frame, len, (uint8_t)(one_of(4) ? below(50) : 14 + below(27)), halves);
    add(count);
    for (i = 0; i < DCC_HALVES; i++) add(halves[i]);
    in_runs = one_of(3);
    /* some packets are lost: a part of the preamble is left out, or ones are too long */
    slower = (uint8_t)(one_of(8) ? 8 : 0);
    for (i = (uint8_t)(one_of(3) ? below(30) : 0); i < count; i++) {
        uint16_t us = one_of(200) ? (uint16_t)next() : (uint16_t)(halves[i] + below(7) - 3);
        if (halves[i] == 58) us = (uint16_t)(us + slower);
        for (run = 1; in_runs && i + 1 < count && halves[i + 1] == halves[i] && !one_of(90); i++) run++;
        call_framer(us, run);
        call_finder(us, run);
        call_meter(us, run);
    }
    run_us = one_of(4) ? (uint16_t)next() : (uint16_t)(50 + below(70));
    run = below(60);
    if (one_of(2)) run = next() >> run % 32;
    call_framer(run_us, run);
    call_finder(run_us, run);
    call_meter(run_us, run);
    if (first_or_one_of(50)) {
        called(F_meter_new);
        dcc_meter_new(&meter);
    }
    if (first_or_one_of(50)) {
        called(F_lost_new);
        dcc_lost_new(&finder);
        add_bytes(&finder, sizeof finder);
    }
    if (first_or_one_of(50)) {
        called(F_framer_new);
        framer = dcc_framer_new();
        add_bytes(&framer, sizeof framer);
    }
}

static void call_sender(void) {
    dcc_timing timing = DCC_MAIN_TIMING;
    uint8_t i, left = (uint8_t)below(200);
    if (one_of(2)) timing.one = (uint16_t)(53 + below(10));
    if (one_of(2)) timing.zero_first = one_of(2) ? (uint16_t)next() : (uint16_t)(90 + below(12000));
    if (one_of(2)) timing.zero_second = one_of(2) ? (uint16_t)next() : (uint16_t)(90 + below(12000));
    if (one_of(2)) timing.preamble = (uint8_t)below(50);
    called(F_sender_start);
    add(dcc_sender_start(&sender, frame, len, &timing));
    add_bytes(&sender, sizeof sender);
    for (i = 0; i < left; i++) {
        called(F_sender_half);
        add(dcc_sender_half(&sender));
        add_bytes(&sender, sizeof sender);
    }
}

static void call_decoders(void) {
    bool heard = one_of(2);
    uint8_t asked[8];
    uint16_t cv;
    if (first_or_one_of(40)) {
        cv = below(DCC_CVS);
        cvs[cv] = some_byte(), cvs[0] = some_byte(), cvs[16] = some_byte(), cvs[28] = some_byte();
        called(F_loco_new);
        dcc_loco_new(&loco, cvs);
        add_loco();
        called(F_service_new);
        dcc_service_new(&service, cvs);
        add(service.in_service), add_frame(&service.pending), add_bytes(service.cvs, DCC_CVS);
    }
    if (first_or_one_of(20)) {
        called(F_board_new);
        add(dcc_board_new(&board, one_of(8) ? (uint16_t)next() : below(513)));
        add_board();
    }
    if (one_of(2)) change_loco();
    if (one_of(2)) change_board();
    called(F_loco_hears);
    add(dcc_loco_hears(&loco, frame, len, &heard));
    add(heard);
    called(F_loco_apply);
    add(dcc_loco_apply(&loco, frame, len));
    if (one_of(2)) add(dcc_loco_apply(&loco, frame, len));
    add_loco();
    called(F_board_hears);
    add(dcc_board_hears(&board, frame, len, &heard));
    add(heard);
    called(F_board_apply);
    add(dcc_board_apply(&board, frame, len));
    add_board();
    if (one_of(6)) make_pending(&service.pending);
    if (one_of(6)) service.in_service = one_of(2);
    memcpy(asked, frame, len);
    if (one_of(2) && len == 4) asked[0] = (uint8_t)(112 | (asked[0] & 15)), asked[3] = asked[0] ^ asked[1] ^ asked[2];
    called(F_service_apply);
    add(dcc_service_apply(&service, asked, len, &heard));
    if (one_of(2)) add(dcc_service_apply(&service, asked, len, &heard));
    add(heard), add(service.in_service), add_frame(&service.pending), add_bytes(service.cvs, DCC_CVS);
}

static void add_decoder(void) {
    uint8_t i;
    const dcc_loco *in = &decoder.loco;
    add(in->address_kind), add(in->speed_mode), add(in->step), add(in->forward), add(in->address);
    add_frame(&in->pending);
    for (i = 0; i < 2; i++) {
        add((uint32_t)in->functions[i]), add((uint32_t)(in->functions[i] >> 32));
        add((uint32_t)in->states[i]), add((uint32_t)(in->states[i] >> 32));
    }
    add_bytes(in->cvs, DCC_CVS);
    add(decoder.service.in_service), add_frame(&decoder.service.pending), add(decoder.changed), add(decoder.main_only);
}

static void add_board_decoder(void) {
    uint8_t i;
    const dcc_board *in = &board_decoder.board;
    add(in->number), add(in->outs);
    for (i = 0; i < 4; i++) add(in->positions[i]), add(in->aspects[i]);
    add_bytes(board_decoder.cvs, DCC_CVS);
    add(board_decoder.service.in_service), add_frame(&board_decoder.service.pending);
    add(board_decoder.changed), add(board_decoder.main_only);
}

/* Both decoders hear a frame, perhaps twice. */
static void call_hear(const uint8_t *frame, uint8_t len) {
    uint8_t times = (uint8_t)(1 + below(2));
    dcc_answer answer;
    memset(&answer, 1, sizeof answer);
    while (times-- > 0) {
        called(F_decoder_hear);
        add(dcc_decoder_hear(&decoder, frame, len, &answer));
        add(answer.changed), add(answer.acknowledged), add_decoder();
        called(F_board_decoder_hear);
        add(dcc_board_decoder_hear(&board_decoder, frame, len, &answer));
        add(answer.changed), add(answer.acknowledged), add_board_decoder();
    }
}

/* Decoders on both tracks: often in service mode, with service packets for few CVs. */
static void call_track_decoders(void) {
    static const uint8_t reset[3] = {0, 0, 0}, few[] = {0, 0, 6, 8, 16, 28};
    uint8_t asked[8], i, sum = 0;
    bool main_only = one_of(8);
    if (first_or_one_of(40)) {
        called(F_decoder_new);
        dcc_decoder_new(&decoder, cvs);
        add_decoder();
        called(F_board_decoder_new);
        dcc_board_decoder_new(&board_decoder, cvs);
        add_board_decoder();
    }
    if (one_of(20)) {
        i = few[below(6)];
        decoder.loco.cvs[i] = some_byte(), board_decoder.cvs[i] = some_byte();
    }
    if (first_or_one_of(20)) {
        called(F_decoder_power_up);
        dcc_decoder_power_up(&decoder);
        add_decoder();
        called(F_board_decoder_power_up);
        dcc_board_decoder_power_up(&board_decoder);
        add_board_decoder();
    }
    if (first_or_one_of(20)) {
        called(F_decoder_set_main_only);
        dcc_decoder_set_main_only(&decoder, main_only);
        add_decoder();
        called(F_board_decoder_set_main_only);
        dcc_board_decoder_set_main_only(&board_decoder, main_only);
        add_board_decoder();
    }
    if (first_or_one_of(10)) {
        called(F_decoder_end_service);
        dcc_decoder_end_service(&decoder);
        add_decoder();
        called(F_board_decoder_end_service);
        dcc_board_decoder_end_service(&board_decoder);
        add_board_decoder();
    }
    if (one_of(4)) call_hear(reset, 3);
    if (one_of(2)) {
        asked[0] = (uint8_t)(112 | (below(4) << 2));
        asked[1] = few[below(6)], asked[2] = some_byte();
        for (i = 0; i < 3; i++) sum ^= asked[i];
        asked[3] = sum;
        call_hear(asked, 4);
    } else {
        call_hear(frame, len);
    }
}

static void add_small_loco(void) {
    uint8_t i;
    add(small_loco.address_kind), add(small_loco.speed_mode), add(small_loco.step), add(small_loco.forward);
    add(small_loco.address), add(small_loco.cv29), add_frame(&small_loco.pending);
    for (i = 0; i < 2; i++) {
        add((uint32_t)small_loco.functions[i]), add((uint32_t)(small_loco.functions[i] >> 32));
        add((uint32_t)small_loco.states[i]), add((uint32_t)(small_loco.states[i] >> 32));
    }
}

static void copy_loco(void) {
    uint8_t i;
    small_loco.address_kind = loco.address_kind, small_loco.speed_mode = loco.speed_mode, small_loco.step = loco.step;
    small_loco.forward = loco.forward, small_loco.address = loco.address, small_loco.pending = loco.pending;
    for (i = 0; i < 2; i++) small_loco.functions[i] = loco.functions[i], small_loco.states[i] = loco.states[i];
}

/* Decoders whose CVs the program stores: often with the fields of the decoders with CVs. */
static void call_small_decoders(void) {
    bool heard = one_of(2), changed = one_of(2);
    uint8_t asked[8], cvs[4], value = some_byte(), times, i;
    uint16_t cv = 7;
    if (first_or_one_of(30)) {
        called(F_small_loco_new);
        for (i = 0; i < 4; i++) cvs[i] = some_byte();
        dcc_small_loco_new(&small_loco, cvs[0], cvs[1], cvs[2], cvs[3]);
        add_small_loco();
        called(F_small_service_new);
        dcc_small_service_new(&small_service);
        add(small_service.in_service), add_frame(&small_service.pending);
    }
    if (one_of(4)) copy_loco();
    if (one_of(8)) make_pending(&small_loco.pending);
    called(F_small_loco_hears);
    add(dcc_small_loco_hears(&small_loco, frame, len, &heard));
    add(heard);
    for (times = (uint8_t)(1 + below(2)); times > 0; times--) {
        called(F_small_loco_cv);
        add(dcc_small_loco_cv(&small_loco, frame, len, &cv));
        add(cv);
        called(F_small_loco_apply);
        add(dcc_small_loco_apply(&small_loco, frame, len, &value, &changed));
        add(value), add(changed), add_small_loco();
    }
    if (one_of(6)) small_service.pending = service.pending, small_service.in_service = service.in_service;
    if (one_of(8)) make_pending(&small_service.pending);
    memcpy(asked, frame, len);
    if (one_of(2) && len == 4) asked[0] = (uint8_t)(112 | (asked[0] & 15)), asked[3] = asked[0] ^ asked[1] ^ asked[2];
    for (times = (uint8_t)(1 + below(2)); times > 0; times--) {
        called(F_small_service_cv);
        add(dcc_small_service_cv(&small_service, asked, len, &cv));
        add(cv);
        called(F_small_service_apply);
        add(dcc_small_service_apply(&small_service, asked, len, &value, &changed, &heard));
        add(value), add(changed), add(heard), add(small_service.in_service), add_frame(&small_service.pending);
    }
    if (first_or_one_of(40)) {
        called(F_loco_power_up);
        dcc_loco_power_up(&loco);
        add_loco();
        called(F_service_power_up);
        dcc_service_power_up(&service);
        add(service.in_service), add_frame(&service.pending), add_bytes(service.cvs, DCC_CVS);
    }
}

static void call_reader(void) {
    dcc_frame question;
    uint8_t value = 7;
    memset(&question, 7, sizeof question);
    if (first_or_one_of(10)) {
        called(F_reader_new);
        add(dcc_reader_new(&reader, one_of(4) ? (uint16_t)next() : below(1027)));
    }
    if (one_of(8)) reader.cv = one_of(2) ? (uint16_t)next() : below(1027);
    if (one_of(8)) reader.known = one_of(2) ? some_byte() : (uint8_t)below(10);
    if (one_of(8)) reader.value = some_byte();
    called(F_reader_question);
    add(dcc_reader_question(&reader, &question));
    add_frame(&question);
    called(F_reader_answer);
    add(dcc_reader_answer(&reader, one_of(2), &value));
    add(value), add(reader.cv), add(reader.known), add(reader.value);
}

static void call_writer(void) {
    dcc_frame question;
    memset(&question, 7, sizeof question);
    if (first_or_one_of(4)) {
        uint16_t cv = one_of(4) ? (uint16_t)next() : (uint16_t)below(1027);
        called(F_writer_new);
        add(dcc_writer_new(&writer, cv, some_byte()));
    }
    if (one_of(8)) writer.cv = one_of(2) ? (uint16_t)next() : below(1027);
    if (one_of(8)) writer.value = some_byte();
    if (one_of(8)) writer.is_verifying = one_of(2);
    called(F_writer_question);
    add(dcc_writer_question(&writer, &question));
    add_frame(&question);
    called(F_writer_answer);
    add(dcc_writer_answer(&writer, one_of(2)));
    add(writer.cv), add(writer.value), add(writer.is_verifying);
}

/* Often a frame that a service packet has. */
static void call_service_packet(void) {
    uint8_t asked[8];
    dcc_frame made;
    memset(&made, 7, sizeof made);
    memcpy(asked, frame, len);
    if (one_of(2) && len == 4) asked[0] = (uint8_t)(112 | (asked[0] & 15)), asked[3] = asked[0] ^ asked[1] ^ asked[2];
    called(F_service_read);
    add(dcc_service_read(asked, len, &service_packet));
    if (one_of(4)) service_packet.kind = one_of(4) ? some_byte() : (uint8_t)below(12);
    if (one_of(4)) service_packet.cv = one_of(4) ? (uint16_t)next() : below(1027);
    if (one_of(4)) service_packet.value = some_byte();
    if (one_of(4)) service_packet.place = one_of(4) ? some_byte() : (uint8_t)below(9);
    if (one_of(4)) service_packet.one = one_of(2);
    called(F_service_frame);
    add(dcc_service_frame(&service_packet, &made));
    add_frame(&made);
    add(service_packet.cv), add(service_packet.kind), add(service_packet.value), add(service_packet.place);
    add(service_packet.one);
}

/* Often the packet of the frame, and often the frame for a packet of kind 12. */
static void call_packet_fields(void) {
    static const uint8_t groups[] = {0, 5, 9, 13, 21, 29, 37, 45, 53, 61};
    dcc_packet packet;
    dcc_frame made;
    memset(&packet, 0, sizeof packet);
    memset(&made, 7, sizeof made);
    if (dcc_read(frame, len, &packet) || one_of(2)) {
        packet.kind = one_of(6) ? some_byte() : (uint8_t)below(14);
        packet.to = one_of(9) ? some_byte() : (uint8_t)below(3);
        packet.address = one_of(4) ? (uint16_t)next() : one_of(2) ? below(130) : below(10250);
        packet.forward = one_of(2);
        packet.bits = one_of(2) ? some_byte() : (uint8_t)below(34);
        packet.group = one_of(9) ? some_byte() : groups[below(sizeof groups)];
        packet.state = some_byte();
        packet.on = one_of(2);
        packet.cv = one_of(4) ? (uint16_t)next() : below(1027);
        packet.value = some_byte();
        packet.place = one_of(4) ? some_byte() : (uint8_t)below(9);
        packet.one = one_of(2);
        packet.output = one_of(4) ? some_byte() : (uint8_t)below(9);
        packet.aspect = some_byte();
    }
    if (one_of(2)) {
        made.len = one_of(9) ? some_byte() : len;
        memcpy(made.bytes, frame, len < 6 ? len : 6);
    }
    called(F_frame_of_packet);
    add(dcc_frame_of_packet(&packet, &made));
    add_frame(&made);
}

static void call_functions(void) {
    dcc_frame made;
    uint8_t i, to, function;
    uint16_t address;
    bool on;
    memset(&made, 7, sizeof made);
    if (one_of(9)) memset(&functions, 0, sizeof functions);
    if (one_of(9)) for (i = 0; i < 2; i++) functions.on[i] = some_bits();
    to = one_of(9) ? some_byte() : (uint8_t)below(3);
    address = one_of(4) ? (uint16_t)next() : one_of(2) ? below(130) : below(10250);
    function = one_of(9) ? some_byte() : (uint8_t)below(71);
    on = one_of(2);
    called(F_functions_turn);
    add(dcc_functions_turn(&functions, to, address, function, on, &made));
    add_frame(&made);
    add_bytes(&functions, sizeof functions);
    called(F_functions_is_on);
    add(dcc_functions_is_on(&functions, one_of(9) ? some_byte() : (uint8_t)below(71)));
}

static void call_station(void) {
    dcc_frame sent;
    if (first_or_one_of(50)) {
        uint8_t queue = (uint8_t)(one_of(4) ? below(70) : 1 + below(9));
        uint8_t slots = (uint8_t)(one_of(4) ? below(135) : 1 + below(9));
        called(F_station_new);
        add(dcc_station_new(&station, queue, slots, (uint8_t)below(10)));
    }
    called(F_station_command);
    add(dcc_station_command(&station, frame, len));
    do {
        memset(&sent, 7, sizeof sent);
        called(F_station_next);
        dcc_station_next(&station, &sent);
        add_frame(&sent);
    } while (one_of(2));
    if (first_or_one_of(20)) {
        called(F_station_stop);
        add(dcc_station_stop(&station));
    }
    if (first_or_one_of(9)) {
        uint8_t to = one_of(9) ? some_byte() : (uint8_t)below(3);
        uint16_t address = one_of(2) ? 3 : loco.address;
        called(F_station_forget);
        add(dcc_station_forget(&station, to, address));
    }
    called(F_station_waiting);
    add(dcc_station_waiting(&station));
    called(F_station_entries);
    add(dcc_station_entries(&station));
}

int main(int argc, char **argv) {
    unsigned long rounds = argc > 1 ? strtoul(argv[1], NULL, 10) : ROUNDS;
#define SHOW(name) printf("dcc_%s %lu %lu\n", #name, (unsigned long)calls[F_##name], (unsigned long)sums[F_##name]);
    for (; rounds > 0; rounds--) {
        make_frame();
        call_packets();
        call_sender();
        call_decoders();
        call_small_decoders();
        call_track_decoders();
        call_reader();
        call_writer();
        call_service_packet();
        call_station();
        call_packet_fields();
        call_functions();
        is_first = false;
    }
    FUNCTIONS(SHOW)
    return 0;
}
