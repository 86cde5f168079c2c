/* Calls each function with worked packets, whose bytes and numbers are written out here. The program also tests the
 * errors, and that nothing is written then. It prints each line that does not hold, and ends with 1 if there is such
 * a line. */
#include "dcc.h"
#include <stdio.h>
#include <string.h>

#ifdef __AVR__
/* the texts of the conditions would take 25 KB of the 64 KB of memory */
#define HOLDS(condition) holds(condition, "", __LINE__)
#else
#define HOLDS(condition) holds(condition, #condition, __LINE__)
#endif

static int wrong = 0;

static void holds(bool condition, const char *text, int line) {
    if (condition) return;
    printf("line %d: %s\n", line, text);
    wrong = 1;
}

/* loco s3 speed28 f 4 */
static const uint8_t speed[3] = {0x03, 0x62, 0x61};
static const uint8_t wrong_error_byte[3] = {0x03, 0x62, 0x60};
static const uint8_t seven_bytes[7] = {0};

static bool is_frame(const dcc_frame *frame, const uint8_t *bytes, int len) {
    return frame->len == len && !memcmp(frame->bytes, bytes, len);
}

/* The frame of a line. */
static dcc_frame frame_of(const char *line) {
    dcc_frame frame = {0};
    HOLDS(dcc_frame_of_line(line, strlen(line), &frame) == 0);
    return frame;
}

/* The numbers are those of docs/FORMATS.md, and those that the calls return. */
static void names_have_their_numbers(void) {
    HOLDS(DCC_H1_BAD_HALF == 1 && DCC_H2_SPLIT_BIT == 2 && DCC_H3_TOO_SHORT == 3 && DCC_H4_TOO_LONG == 4);
    HOLDS(DCC_H5_ERROR_BYTE == 5 && DCC_H6_ONE == 6 && DCC_H7_ZERO == 7 && DCC_H8_PREAMBLE == 8);
    HOLDS(DCC_L1_LENGTH == 1 && DCC_L2_ERROR_BYTE == 2);
    HOLDS(DCC_P1_SHORT_ADDRESS == 1 && DCC_P2_LONG_ADDRESS == 2 && DCC_P3_BOARD == 3 && DCC_P4_OUTPUT == 4);
    HOLDS(DCC_P5_SIGNAL == 5 && DCC_P6_CV == 6 && DCC_P7_BIT_PLACE == 7 && DCC_P8_SPEED_BITS == 8);
    HOLDS(DCC_P9_FUNCTION_BITS == 9 && DCC_P10_WORD == 10 && DCC_P11_NUMBER == 11 && DCC_P12_FRAME == 12);
    HOLDS(DCC_P13_STATE == 13 && DCC_P14_BINARY_STATE == 14);
    HOLDS(DCC_C1_SIZES == 1 && DCC_C2_MEMORY == 2 && DCC_C3_NO_COMMAND == 3 && DCC_C4_QUEUE_FULL == 4);
    HOLDS(DCC_MAIN_TRACK == 14 && DCC_PROGRAMMING_TRACK == 20);
    HOLDS(DCC_ALL == 0 && DCC_SHORT == 1 && DCC_LONG == 2);
    HOLDS(DCC_MORE == 0 && DCC_VALUE == 1 && DCC_NO_ANSWER == 2 && DCC_DONE == 1 && DCC_FAILED == 2);
    HOLDS(DCC_CV_WRITE == 6 && DCC_CV_VERIFY == 7 && DCC_CV_BIT_WRITE == 8 && DCC_CV_BIT_VERIFY == 9);
}

/* So `static dcc_framer framer;` needs no call before its first half-bit. */
static void a_framer_of_zeros_is_a_new_one(void) {
    static dcc_framer zeros;
    dcc_framer framer = dcc_framer_new();
    HOLDS(!memcmp(&zeros, &framer, sizeof zeros));
}

static void a_packet_is_found_at_its_last_half(void) {
    uint16_t halves[DCC_HALVES];
    dcc_framer framer = dcc_framer_new();
    dcc_outcome outcome = {.at = 7, .refusal = 7};
    HOLDS(dcc_halves(speed, 3, 14, halves) == 84);
    for (int i = 0; i < 83; i++) HOLDS(dcc_push(&framer, halves[i], &outcome) == 0);
    HOLDS(outcome.at == 7 && outcome.refusal == 7);
    HOLDS(dcc_push(&framer, halves[83], &outcome) == 1);
    HOLDS(outcome.at == 1 && outcome.refusal == 0);
    HOLDS(is_frame(&outcome.frame, speed, 3));
}

/* Returns true if 20 ones, a number of half-bits of zeros, and n half-bits of one duration end with a refusal at a
 * given half-bit of these n. */
static bool is_refused(dcc_framer *framer, uint32_t zeros, uint16_t us, uint32_t n, uint8_t refusal, uint32_t at,
                       dcc_outcome *outcome) {
    return dcc_push_run(framer, 58, 40, outcome) == 0 && dcc_push_run(framer, 100, zeros, outcome) == 0
        && dcc_push_run(framer, us, n, outcome) == 1 && outcome->refusal == refusal && outcome->at == at;
}

static void runs_tell_the_half_and_refusals_their_numbers(void) {
    dcc_framer framer = dcc_framer_new();
    dcc_outcome outcome;
    HOLDS(is_refused(&framer, 1, 70, 1, 1, 1, &outcome));
    HOLDS(is_refused(&framer, 1, 58, 1, 2, 1, &outcome));
    /* the byte 00, and its end bit */
    HOLDS(is_refused(&framer, 18, 58, 9, 3, 2, &outcome));
    /* a seventh byte begins with the zero behind 54 bits, whose second half is the 110th of the body */
    HOLDS(is_refused(&framer, 2, 100, 500, 4, 108, &outcome));
    HOLDS(outcome.frame.len == 0);
    /* the bytes 00 00 01: the last bit of the third, and the end bit */
    HOLDS(is_refused(&framer, 52, 58, 9, 5, 4, &outcome));
    HOLDS(is_frame(&outcome.frame, (const uint8_t[]){0, 0, 1}, 3));
}

/* An array with two packets, cut into two parts in a byte of the second packet. */
static void an_array_is_taken_up_to_each_outcome(void) {
    uint16_t halves[2 * DCC_HALVES];
    dcc_framer framer = dcc_framer_new();
    dcc_outcome outcome = {.at = 7, .refusal = 7};
    uint64_t taken = 7;
    HOLDS(dcc_halves(speed, 3, 14, halves) == 84 && dcc_halves(speed, 3, 14, halves + 84) == 84);
    HOLDS(dcc_push_many(&framer, halves, 100, &outcome, &taken) == 1 && taken == 84);
    HOLDS(outcome.at == 1 && outcome.refusal == 0 && is_frame(&outcome.frame, speed, 3));
    outcome.at = 7;
    HOLDS(dcc_push_many(&framer, halves + 84, 50, &outcome, &taken) == 0 && taken == 50 && outcome.at == 7);
    HOLDS(dcc_push_many(&framer, halves + 134, 0, &outcome, &taken) == 0 && taken == 0 && outcome.at == 7);
    HOLDS(dcc_push_many(&framer, halves + 134, 34, &outcome, &taken) == 1 && taken == 34);
    HOLDS(outcome.at == 1 && is_frame(&outcome.frame, speed, 3));
    /* a half-bit of a wrong length in the first byte */
    halves[40] = 70;
    HOLDS(dcc_push_many(&framer, halves, 168, &outcome, &taken) == 1 && taken == 41 && outcome.refusal == 1);
}

/* So `static dcc_lost finder;` needs no call before its first half-bit. */
static void a_finder_of_zeros_is_a_new_one(void) {
    static dcc_lost zeros, finder;
    dcc_lost_new(&finder);
    HOLDS(!memcmp(&zeros, &finder, sizeof zeros));
}

static bool is_off(const dcc_off_limits *off, uint32_t count, uint16_t least, uint16_t most) {
    return off->count == count && off->least == least && off->most == most;
}

static bool is_short(const dcc_short_preamble *preamble, uint8_t ones, bool after_refusal, uint8_t since_refusal) {
    return preamble->is_short && preamble->ones == ones && preamble->after_refusal == after_refusal
        && preamble->since_refusal == since_refusal;
}

/* The body of loco s3 speed28 f 4, half-bit by half-bit; ones and zeros of other durations may stand for 58 and 100.
 * Returns true if the packet is lost at the last half-bit, and no packet is lost before it. */
static bool is_lost_at_its_end(dcc_lost *finder, uint16_t one, uint16_t zero, dcc_lost_packet *lost) {
    uint16_t halves[DCC_HALVES];
    HOLDS(dcc_halves(speed, 3, 14, halves) == 84);
    for (int i = 28; i < 84; i++) {
        uint8_t is_lost = dcc_lost_push(finder, halves[i] == 58 ? one : zero, lost);
        if (is_lost != (i == 83)) return false;
    }
    return is_frame(&lost->frame, speed, 3);
}

static const dcc_lost_packet untouched = {{7, {7}}, {true, 7, true, 7}, {7, 7, 7}, {7, 7, 7}};

static bool is_untouched(const dcc_lost_packet *lost) {
    return lost->frame.len == 7 && lost->frame.bytes[0] == 7 && is_short(&lost->preamble, 7, true, 7)
        && is_off(&lost->ones, 7, 7, 7) && is_off(&lost->zeros, 7, 7, 7);
}

/* One finder for all tests, since static objects fill the memory of an ATmega2560. Zeros are a new finder. */
static dcc_lost finder;

static void a_packet_is_lost_for_each_cause(void) {
    dcc_lost_packet lost = untouched;
    HOLDS(dcc_lost_push_run(&finder, 58, 16, &lost) == 0 && is_untouched(&lost));
    HOLDS(is_lost_at_its_end(&finder, 58, 100, &lost) && is_short(&lost.preamble, 16, false, 0));
    HOLDS(is_off(&lost.ones, 0, 0, 0) && is_off(&lost.zeros, 0, 0, 0));
    /* the ones of the body and twenty before it are too long */
    dcc_lost_new(&finder);
    HOLDS(dcc_lost_push_run(&finder, 66, 28, &lost) == 0 && is_lost_at_its_end(&finder, 67, 100, &lost));
    HOLDS(!lost.preamble.is_short && lost.preamble.ones == 0 && is_off(&lost.ones, 38, 66, 67));
    HOLDS(is_off(&lost.zeros, 0, 0, 0));
    /* the zeros of the body are too short, and the preamble too */
    dcc_lost_new(&finder);
    HOLDS(dcc_lost_push_run(&finder, 58, 19, &lost) == 0 && is_lost_at_its_end(&finder, 58, 85, &lost));
    HOLDS(is_short(&lost.preamble, 19, false, 0) && is_off(&lost.ones, 0, 0, 0) && is_off(&lost.zeros, 38, 85, 85));
    /* H1 ends with a half-bit of 70 microseconds, which is half of a one in the wider limits */
    dcc_lost_new(&finder);
    HOLDS(dcc_lost_push_run(&finder, 58, 20, &lost) == 0 && dcc_lost_push(&finder, 100, &lost) == 0);
    HOLDS(dcc_lost_push(&finder, 70, &lost) == 0 && dcc_lost_push_run(&finder, 58, 11, &lost) == 0);
    HOLDS(is_lost_at_its_end(&finder, 58, 100, &lost) && is_short(&lost.preamble, 11, true, 67));
    HOLDS(is_off(&lost.ones, 1, 70, 70) && is_off(&lost.zeros, 0, 0, 0));
}

static void a_heard_packet_is_not_lost(void) {
    dcc_lost_packet lost = untouched;
    dcc_lost_new(&finder);
    HOLDS(dcc_lost_push_run(&finder, 58, 20, &lost) == 0 && !is_lost_at_its_end(&finder, 58, 100, &lost));
    HOLDS(is_untouched(&lost));
    /* seven half-bits of ones are no preamble */
    dcc_lost_new(&finder);
    HOLDS(dcc_lost_push_run(&finder, 58, 7, &lost) == 0 && !is_lost_at_its_end(&finder, 58, 100, &lost));
    HOLDS(is_untouched(&lost));
}

/* A run ends in the middle of a run of equal half-bits. */
static void a_run_is_taken_up_to_a_lost_packet(void) {
    static const uint16_t runs[9][2] =
        {{100, 14}, {58, 4}, {100, 4}, {58, 4}, {100, 6}, {58, 2}, {100, 6}, {58, 4}, {100, 8}};
    dcc_lost_packet lost = untouched;
    dcc_lost_new(&finder);
    HOLDS(dcc_lost_push_run(&finder, 100, 1000, &lost) == 0 && dcc_lost_push_run(&finder, 58, 0, &lost) == 0);
    HOLDS(dcc_lost_push_run(&finder, 58, 16, &lost) == 0);
    for (int i = 0; i < 9; i++) HOLDS(dcc_lost_push_run(&finder, runs[i][0], runs[i][1], &lost) == 0);
    HOLDS(is_untouched(&lost));
    HOLDS(dcc_lost_push_run(&finder, 58, 40, &lost) == 4 && is_frame(&lost.frame, speed, 3));
    HOLDS(is_short(&lost.preamble, 16, false, 0));
    /* the rest of the run is a preamble that is long enough */
    HOLDS(dcc_lost_push_run(&finder, 58, 36, &lost) == 0 && !is_lost_at_its_end(&finder, 58, 100, &lost));
}

/* An array is taken up to each lost packet, and the rest of it by the next call. */
static void an_array_is_taken_up_to_a_lost_packet(void) {
    uint16_t halves[2 * DCC_HALVES];
    dcc_lost_packet lost = untouched;
    uint64_t taken = 9;
    uint32_t count = dcc_halves(speed, 3, 14, halves);
    dcc_lost_new(&finder);
    HOLDS(count == 84 && dcc_halves(speed, 3, 14, halves + 84) == 84);
    /* from half-bit 12 on there are 16 half-bits of ones; the second packet has 28 of them */
    HOLDS(dcc_lost_push_many(&finder, halves + 12, 0, &lost, &taken) == 0 && taken == 0);
    HOLDS(dcc_lost_push_many(&finder, halves + 12, 71, &lost, &taken) == 0 && taken == 71 && is_untouched(&lost));
    HOLDS(dcc_lost_push_many(&finder, halves + 83, 85, &lost, &taken) == 1 && taken == 1);
    HOLDS(is_frame(&lost.frame, speed, 3) && is_short(&lost.preamble, 16, false, 0));
    lost = untouched;
    HOLDS(dcc_lost_push_many(&finder, halves + 84, 84, &lost, &taken) == 0 && taken == 84 && is_untouched(&lost));
}

static bool is_same(const dcc_packet *a, const dcc_packet *b) {
    return a->kind == b->kind && a->to == b->to && a->address == b->address
        && a->forward == b->forward && a->bits == b->bits
        && a->group == b->group && a->state == b->state && a->on == b->on && a->cv == b->cv && a->value == b->value
        && a->place == b->place && a->one == b->one && a->output == b->output && a->aspect == b->aspect;
}

/* Whether the packet of a line has these numbers. */
static bool says(const char *line, dcc_packet numbers) {
    dcc_frame frame = frame_of(line);
    dcc_packet packet = {.kind = 255, .group = 7};
    return dcc_read(frame.bytes, frame.len, &packet) == 0 && is_same(&packet, &numbers);
}

static bool is_tally(const dcc_tally *tally, uint64_t count, uint64_t sum, uint64_t least, uint64_t most) {
    return tally->count == count && tally->sum == sum && tally->least == least && tally->most == most;
}

/* So `static dcc_meter meter;` needs no call before its first half-bit. */
static void a_meter_of_zeros_is_a_new_one(void) {
    static dcc_meter zeros, meter;
    dcc_meter_new(&meter);
    HOLDS(!memcmp(&zeros, &meter, sizeof zeros));
}

static void a_meter_computes_statistics(void) {
    static dcc_meter meter;
    dcc_statistics s;
    memset(&s, 7, sizeof s);
    dcc_meter_read(&meter, &s);
    HOLDS(s.halves == 0 && s.time == 0 && s.packets == 0 && s.lost == 0);
    HOLDS(!s.has_gap && s.gap == 0 && !s.has_preamble && s.preamble == 0);
    HOLDS(is_tally(&s.below, 0, 0, 0, 0) && is_tally(&s.ones, 0, 0, 0, 0) && is_tally(&s.above, 0, 0, 0, 0));
    /* two packets: 28 half-bits of ones and 56 half-bits, then 30 half-bits of ones and the same 56 */
    uint16_t halves[DCC_HALVES];
    HOLDS(dcc_halves(speed, 3, 14, halves) == 84);
    for (int i = 0; i < 84; i++) HOLDS(dcc_meter_push_run(&meter, halves[i], 1) == 1);
    HOLDS(dcc_meter_push_run(&meter, 57, 30) == 1);
    for (int i = 28; i < 84; i++) HOLDS(dcc_meter_push_run(&meter, halves[i], 1) == 1);
    /* the body of the same packet after 16 half-bits of ones: the packet is lost */
    HOLDS(dcc_meter_push_run(&meter, 58, 14) == 1);
    for (int i = 28; i < 84; i++) HOLDS(dcc_meter_push_run(&meter, halves[i], 1) == 1);
    /* half-bits of each other class, of which the first ends a body with H1 */
    HOLDS(dcc_meter_push_run(&meter, 58, 40) == 1 && dcc_meter_push_run(&meter, 100, 2) == 1);
    HOLDS(dcc_meter_push_run(&meter, 5, 3) == 1 && dcc_meter_push_run(&meter, 70, 2) == 1);
    HOLDS(dcc_meter_push_run(&meter, 20000, 4) == 1);
    dcc_meter_read(&meter, &s);
    /* a body has 38 half-bits of zeros and 18 of ones */
    HOLDS(s.halves == 84 + 30 + 56 + 14 + 56 + 40 + 2 + 3 + 2 + 4);
    HOLDS(is_tally(&s.ones, 28 + 30 + 14 + 40 + 54, 57 * 30 + 58 * 136, 57, 58));
    HOLDS(is_tally(&s.zeros, 3 * 38 + 2, 100 * 116, 100, 100));
    HOLDS(is_tally(&s.below, 3, 15, 5, 5) && is_tally(&s.between, 2, 140, 70, 70));
    HOLDS(is_tally(&s.above, 4, 80000, 20000, 20000));
    HOLDS(s.time == s.ones.sum + s.zeros.sum + s.below.sum + s.between.sum + s.above.sum);
    HOLDS(s.packets == 2 && s.refused[0] == 1 && s.refused[1] == 0 && s.refused[4] == 0 && s.lost == 1);
    /* the bits of the two packets: ten ones of each preamble, 19 zeros and 9 ones of each body */
    HOLDS(is_tally(&s.differences, 2 * 19, 0, 0, 0) && is_tally(&s.sums, 2 * 19, 2 * 19 * 200, 200, 200));
    HOLDS(s.has_gap && s.gap == 57 * 30 + 100 * 38 + 58 * 18);
    HOLDS(s.has_preamble && s.preamble == 16);
    dcc_meter_new(&meter);
    dcc_meter_read(&meter, &s);
    HOLDS(s.halves == 0 && s.time == 0 && s.packets == 0 && !s.has_preamble);
}

static void a_meter_takes_an_array(void) {
    static dcc_meter by_array, one_by_one;
    dcc_statistics s;
    uint16_t halves[DCC_HALVES];
    HOLDS(dcc_halves(speed, 3, 14, halves) == 84);
    HOLDS(dcc_meter_push_many(&by_array, halves, 84) == 1 && dcc_meter_push_many(&by_array, halves, 0) == 1);
    for (int i = 0; i < 84; i++) HOLDS(dcc_meter_push_run(&one_by_one, halves[i], 1) == 1);
    HOLDS(!memcmp(&by_array, &one_by_one, sizeof by_array));
    dcc_meter_read(&by_array, &s);
    HOLDS(s.halves == 84 && s.packets == 1 && s.preamble == 28 && !s.has_gap);
    /* the meter refuses a run that would make it full */
    HOLDS(dcc_meter_push_run(&by_array, 58, 4294967295u - 83) == 0);
    HOLDS(!memcmp(&by_array, &one_by_one, sizeof by_array));
}

static void a_run_for_a_full_meter_is_refused(void) {
    static dcc_meter meter;
    dcc_statistics s;
    HOLDS(dcc_meter_push_run(&meter, 58, 1000) == 1);
    HOLDS(dcc_meter_push_run(&meter, 100, 4294966296u) == 0);
    dcc_meter_read(&meter, &s);
    HOLDS(s.halves == 1000 && s.time == 58000 && s.zeros.count == 0);
    HOLDS(dcc_meter_push_run(&meter, 100, 295) == 1 && dcc_meter_push_run(&meter, 100, 0) == 1);
    HOLDS(dcc_meter_push_run(&meter, 100, 4294966001u) == 0);
    dcc_meter_read(&meter, &s);
    HOLDS(s.halves == 1295 && is_tally(&s.zeros, 295, 29500, 100, 100));
}

static void what_a_packet_says(void) {
    typedef dcc_packet p;
    HOLDS(says("idle", (p){.kind = DCC_IDLE}));
    HOLDS(says("loco s3 reset", (p){.kind = DCC_RESET, .to = DCC_SHORT, .address = 3}));
    HOLDS(says("loco s3 speed28 r 4", (p){.kind = DCC_SPEED28, .to = DCC_SHORT, .address = 3, .bits = 4}));
    HOLDS(says("loco l1000 speed128 f 127",
               (p){.kind = DCC_SPEED128, .to = DCC_LONG, .address = 1000, .forward = true, .bits = 127}));
    HOLDS(says("loco all functions 61 129", (p){.kind = DCC_FUNCTIONS, .group = 61, .bits = 129}));
    HOLDS(says("loco s3 state 127 on",
               (p){.kind = DCC_STATE, .to = DCC_SHORT, .address = 3, .state = 127, .on = true}));
    HOLDS(says("loco s3 cv write 1024 255",
               (p){.kind = DCC_CV_WRITE, .to = DCC_SHORT, .address = 3, .cv = 1024, .value = 255}));
    HOLDS(says("loco s3 cv verify 1 0", (p){.kind = DCC_CV_VERIFY, .to = DCC_SHORT, .address = 3, .cv = 1}));
    dcc_packet bit = {.kind = DCC_CV_BIT_WRITE, .to = DCC_SHORT, .address = 3, .cv = 29, .place = 5, .one = true};
    HOLDS(says("loco s3 cv bitwrite 29 5 1", bit));
    HOLDS(says("loco s3 cv bitverify 29 5 0",
               (p){.kind = DCC_CV_BIT_VERIFY, .to = DCC_SHORT, .address = 3, .cv = 29, .place = 5}));
    HOLDS(says("accessory 12 5 on", (p){.kind = DCC_ACCESSORY, .address = 12, .output = 5, .on = true}));
    HOLDS(says("signal 2047 5", (p){.kind = DCC_SIGNAL, .address = 2047, .aspect = 5}));
    HOLDS(says("frame 7c000a76", (p){.kind = DCC_OTHER}));
}

static void no_frame_is_read(void) {
    dcc_packet packet = {.kind = 255};
    HOLDS(dcc_read(speed, 2, &packet) == 1);
    HOLDS(dcc_read(wrong_error_byte, 3, &packet) == 2);
    HOLDS(packet.kind == 255);
}

static void plain_words(void) {
    char text[DCC_PLAIN];
    const uint8_t stop_of_all[] = {0, 0x71, 0x71}, service[] = {0x7c, 0, 10, 0x76};
    const uint8_t consist[] = {3, 0x12, 10, 0x1b}, zeros[16] = {0};
    memset(text, 7, sizeof text);
    HOLDS(dcc_plain(speed, 2, text) == 1);
    HOLDS(dcc_plain(wrong_error_byte, 3, text) == 2);
    HOLDS(text[0] == 7);
    HOLDS(dcc_plain(speed, 3, text) == 0);
    HOLDS(!strcmp(text, "locomotive 3: step 1 of 28, forward"));
    for (int i = 35; i < DCC_PLAIN; i++) HOLDS(text[i] == 0);
    HOLDS(dcc_plain(stop_of_all, 3, text) == 0);
    HOLDS(!strcmp(text, "all locomotives: emergency stop"));
    HOLDS(dcc_plain(service, 4, text) == 0);
    HOLDS(!strcmp(text, "on a programming track: CV1 := 10"));
    HOLDS(dcc_plain(consist, 4, text) == 0);
    HOLDS(!strcmp(text, "locomotive 3: join consist 10"));
    HOLDS(dcc_plain(zeros, 15, text) == 0);
    HOLDS(!strcmp(text, "frame 000000000000000000000000000000"));
    HOLDS(dcc_plain(zeros, 16, text) == 1);
}

static void lines_and_their_faults(void) {
    char line[DCC_LINE];
    dcc_frame frame = {0};
    memset(line, 7, sizeof line);
    HOLDS(dcc_line(speed, 2, line) == 1);
    HOLDS(dcc_line(wrong_error_byte, 3, line) == 2);
    HOLDS(line[0] == 7);
    HOLDS(dcc_line(speed, 3, line) == 0);
    HOLDS(!strcmp(line, "loco s3 speed28 f 4"));
    for (int i = 19; i < DCC_LINE; i++) HOLDS(line[i] == 0);
    HOLDS(dcc_frame_of_line("loco s0 reset", 13, &frame) == 1);
    HOLDS(dcc_frame_of_line("accessory 12 8 on", 17, &frame) == 4);
    HOLDS(dcc_frame_of_line("\xFF", 1, &frame) == 10);
    HOLDS(dcc_frame_of_line("loco s3 state 128 on", 20, &frame) == 14);
    HOLDS(frame.len == 0);
    /* the length counts neither a zero nor a line feed: either would be part of the last word */
    HOLDS(dcc_frame_of_line("idle", 5, &frame) == 10);
    HOLDS(dcc_frame_of_line("idle\n", 5, &frame) == 10);
    HOLDS(dcc_frame_of_line("loco s3 speed28 f 4", 20, &frame) == 11);
    HOLDS(dcc_frame_of_line("loco s3 speed28 f 4\n", 20, &frame) == 11);
    HOLDS(frame.len == 0);
    HOLDS(dcc_frame_of_line("loco s3 speed28 f 4\r", 20, &frame) == 0);
    HOLDS(dcc_frame_of_line("loco s3 speed28 f 4, and on", 19, &frame) == 0);
    HOLDS(is_frame(&frame, (const uint8_t[]){0x03, 0x62, 0x61, 0, 0, 0}, 3));
}

static void halves_are_sent_behind_14_to_40_ones(void) {
    uint16_t halves[DCC_HALVES] = {0};
    HOLDS(dcc_halves(speed, 3, 13, halves) == 0);
    HOLDS(dcc_halves(speed, 3, 41, halves) == 0);
    HOLDS(dcc_halves(wrong_error_byte, 3, 14, halves) == 0);
    HOLDS(halves[0] == 0);
    HOLDS(dcc_halves((const uint8_t[]){1, 2, 4, 8, 16, 31}, 6, 40, halves) == 190);
    HOLDS(halves[79] == 58 && halves[80] == 100 && halves[189] == 58);
}

static void a_sender_gives_the_halves_one_by_one(void) {
    static const dcc_timing tracks[] = {DCC_MAIN_TIMING, DCC_PROGRAMMING_TIMING};
    static const uint8_t six[6] = {1, 2, 4, 8, 16, 31};
    uint16_t halves[DCC_HALVES];
    dcc_sender sender = {0}, at_end;
    for (int i = 0; i < 2; i++) {
        int count = dcc_halves(six, 6, tracks[i].preamble, halves);
        HOLDS(dcc_sender_start(&sender, six, 6, &tracks[i]) == 0);
        for (int k = 0; k < count; k++) HOLDS(dcc_sender_half(&sender) == halves[k]);
        for (int k = 0; k < 3; k++) {
            memcpy(&at_end, &sender, sizeof at_end);
            HOLDS(dcc_sender_half(&sender) == 0);
            HOLDS(!memcmp(&sender, &at_end, sizeof sender));
        }
    }
}

static void a_sender_has_the_timing_of_its_caller(void) {
    static const dcc_timing timing = {55, 9900, 2100, 40};
    dcc_sender sender = {0};
    HOLDS(dcc_sender_start(&sender, speed, 3, &timing) == 0);
    for (int k = 0; k < 80; k++) HOLDS(dcc_sender_half(&sender) == 55);
    HOLDS(dcc_sender_half(&sender) == 9900);
    HOLDS(dcc_sender_half(&sender) == 2100);
}

/* The first fault is answered: that of the timing, in the order of its numbers, and then that of the frame. */
static void a_sender_that_is_refused_is_left(void) {
    static const struct {
        dcc_timing timing;
        const uint8_t *frame;
        size_t len;
        uint8_t refusal;
    } rows[] = {
        {{54, 94, 100, 13}, speed, 2, DCC_H6_ONE},
        {{62, 100, 100, 14}, speed, 3, DCC_H6_ONE},
        {{58, 94, 100, 13}, speed, 2, DCC_H7_ZERO},
        {{58, 100, 94, 14}, speed, 3, DCC_H7_ZERO},
        {{58, 9901, 100, 14}, speed, 3, DCC_H7_ZERO},
        {{58, 9900, 2101, 14}, speed, 3, DCC_H7_ZERO},
        {{58, 100, 100, 13}, speed, 2, DCC_H8_PREAMBLE},
        {{58, 100, 100, 41}, wrong_error_byte, 3, DCC_H8_PREAMBLE},
        {DCC_MAIN_TIMING, speed, 2, DCC_L1_LENGTH},
        {DCC_MAIN_TIMING, wrong_error_byte, 3, DCC_L2_ERROR_BYTE},
        {DCC_MAIN_TIMING, seven_bytes, 7, DCC_L1_LENGTH},
    };
    static const dcc_timing main_track = DCC_MAIN_TIMING;
    for (size_t i = 0; i < sizeof rows / sizeof *rows; i++) {
        dcc_sender sender = {0}, before;
        HOLDS(dcc_sender_start(&sender, speed, 3, &main_track) == 0);
        for (size_t k = 0; k < 8 * i; k++) HOLDS(dcc_sender_half(&sender) > 0);
        memcpy(&before, &sender, sizeof before);
        HOLDS(dcc_sender_start(&sender, rows[i].frame, rows[i].len, &rows[i].timing) == rows[i].refusal);
        HOLDS(!memcmp(&sender, &before, sizeof sender));
    }
}

/* A sender of zeros has no half-bit left. */
static void a_sender_of_zeros_gives_nothing(void) {
    static const dcc_sender zeros;
    dcc_sender sender = zeros;
    for (int k = 0; k < 3; k++) HOLDS(dcc_sender_half(&sender) == 0);
    HOLDS(!memcmp(&sender, &zeros, sizeof sender));
}

/* A copy goes on where the sender was when it was copied. */
static void a_copy_of_a_sender_goes_on_by_itself(void) {
    static const dcc_timing timing = DCC_MAIN_TIMING;
    uint16_t halves[DCC_HALVES];
    int count = dcc_halves(speed, 3, DCC_MAIN_TRACK, halves);
    dcc_sender sender = {0};
    HOLDS(dcc_sender_start(&sender, speed, 3, &timing) == 0);
    for (int k = 0; k < count; k++) {
        dcc_sender copy = sender;
        for (int left = k; left < count; left++) HOLDS(dcc_sender_half(&copy) == halves[left]);
        HOLDS(dcc_sender_half(&copy) == 0);
        HOLDS(dcc_sender_half(&sender) == halves[k]);
    }
}

static uint8_t hear(dcc_loco *loco, const char *line) {
    dcc_frame frame = frame_of(line);
    return dcc_loco_apply(loco, frame.bytes, frame.len);
}

/* A locomotive with short address 3 that reads speeds in 28 steps. */
static void make(dcc_loco *loco) {
    static const uint8_t cvs[DCC_CVS] = {[0] = 3, [28] = 2};
    memset(loco, 1, sizeof *loco);
    dcc_loco_new(loco, cvs);
}

static void a_loco_runs(void) {
    static dcc_loco loco;
    make(&loco);
    HOLDS(loco.address_kind == DCC_SHORT && loco.address == 3);
    HOLDS(loco.speed_mode == 0 && loco.forward);
    HOLDS(loco.functions[0] == 0 && loco.states[1] == 0);
    HOLDS(hear(&loco, "loco s3 speed28 r 4") == 0);
    HOLDS(loco.speed_mode == 28 && loco.step == 1 && !loco.forward);
    HOLDS(hear(&loco, "loco s3 functions 0 16") == 0);
    HOLDS(hear(&loco, "loco s3 functions 61 128") == 0);
    HOLDS(loco.functions[0] == 1 && loco.functions[1] == 16);
    HOLDS(hear(&loco, "loco s3 state 1 on") == 0);
    HOLDS(hear(&loco, "loco s3 state 127 on") == 0);
    HOLDS(loco.states[0] == 2 && loco.states[1] == UINT64_C(1) << 63);
    HOLDS(hear(&loco, "loco s4 speed28 f 31") == 0);
    HOLDS(loco.step == 1);
}

static void a_loco_writes_at_the_second_copy(void) {
    static dcc_loco loco;
    make(&loco);
    HOLDS(hear(&loco, "loco s3 cv write 1024 200") == 0);
    HOLDS(loco.pending.len == 5 && loco.cvs[1023] == 0);
    HOLDS(hear(&loco, "loco s3 cv write 1024 200") == 0);
    HOLDS(loco.cvs[1023] == 200);
    HOLDS(hear(&loco, "loco s3 reset") == 0);
    HOLDS(loco.pending.len == 0);
}

static void a_loco_is_left_where_it_is_refused(void) {
    static dcc_loco loco;
    make(&loco);
    HOLDS(dcc_loco_apply(&loco, speed, 0) == 1);
    HOLDS(dcc_loco_apply(&loco, wrong_error_byte, 3) == 2);
    HOLDS(loco.speed_mode == 0);
    loco.speed_mode = 28;
    loco.step = 29;
    HOLDS(dcc_loco_apply(&loco, speed, 3) == 13);
    HOLDS(loco.step == 29);
}

/* No decoder can have a pending frame whose length is not 0 or 3 to 6, whatever its bytes are. */
static void a_pending_frame_has_3_to_6_bytes(void) {
    static const uint8_t lens[] = {1, 2, 7, 8, 128, 255}, reset[3] = {0};
    static dcc_loco loco;
    static dcc_service service;
    make(&loco);
    dcc_service_new(&service, loco.cvs);
    dcc_frame write = frame_of("loco s3 cv write 1024 200");
    HOLDS(dcc_loco_apply(&loco, write.bytes, write.len) == 0);
    for (size_t i = 0; i < sizeof lens; i++) {
        loco.pending.len = service.pending.len = lens[i];
        bool yes = true;
        HOLDS(dcc_loco_apply(&loco, write.bytes, write.len) == DCC_P13_STATE);
        HOLDS(loco.pending.len == lens[i] && loco.cvs[1023] == 0);
        HOLDS(dcc_service_apply(&service, reset, 3, &yes) == DCC_P13_STATE);
        HOLDS(service.pending.len == lens[i] && yes);
    }
}

/* A locomotive whose CVs the program stores is powered up by four of them, and needs one for a write. */
static void a_small_loco_needs_one_cv(void) {
    static dcc_small_loco loco;
    dcc_frame write = frame_of("loco s3 cv write 1024 200"), mode = frame_of("loco s3 cv write 29 0");
    uint16_t cv = 7;
    uint8_t value = 100;
    bool changed = true, told = false;
    memset(&loco, 1, sizeof loco);
    dcc_small_loco_new(&loco, 3, 0, 0, 2);
    HOLDS(loco.address_kind == DCC_SHORT && loco.address == 3 && loco.cv29 == 2);
    HOLDS(loco.speed_mode == 0 && loco.forward && loco.pending.len == 0);
    HOLDS(dcc_small_loco_hears(&loco, write.bytes, write.len, &told) == 0 && told);
    HOLDS(dcc_small_loco_cv(&loco, write.bytes, write.len, &cv) == 0 && cv == 0);
    HOLDS(dcc_small_loco_apply(&loco, write.bytes, write.len, &value, &changed) == 0);
    HOLDS(!changed && value == 100 && loco.pending.len == 5);
    HOLDS(dcc_small_loco_cv(&loco, write.bytes, write.len, &cv) == 0 && cv == 1024);
    HOLDS(dcc_small_loco_apply(&loco, write.bytes, write.len, &value, &changed) == 0);
    HOLDS(changed && value == 200);
    HOLDS(dcc_small_loco_apply(&loco, write.bytes, write.len, &value, &changed) == 0);
    HOLDS(!changed && value == 200);
    value = 2;
    HOLDS(dcc_small_loco_apply(&loco, mode.bytes, mode.len, &value, &changed) == 0 && loco.cv29 == 2);
    HOLDS(dcc_small_loco_cv(&loco, mode.bytes, mode.len, &cv) == 0 && cv == 29);
    HOLDS(dcc_small_loco_apply(&loco, mode.bytes, mode.len, &value, &changed) == 0);
    HOLDS(changed && value == 0 && loco.cv29 == 0);
    HOLDS(dcc_small_loco_apply(&loco, speed, 3, &value, &changed) == 0);
    HOLDS(loco.speed_mode == 14 && !changed && value == 0);
    cv = 7, changed = true;
    HOLDS(dcc_small_loco_cv(&loco, speed, 2, &cv) == DCC_L1_LENGTH && cv == 7);
    HOLDS(dcc_small_loco_apply(&loco, wrong_error_byte, 3, &value, &changed) == DCC_L2_ERROR_BYTE);
    loco.step = 15;
    HOLDS(dcc_small_loco_cv(&loco, speed, 3, &cv) == DCC_P13_STATE && cv == 7);
    HOLDS(dcc_small_loco_apply(&loco, speed, 3, &value, &changed) == DCC_P13_STATE);
    HOLDS(changed && value == 0 && loco.step == 15);
}

/* CVs that stand in a decoder already need no second array. */
static void a_decoder_is_powered_up_with_its_cvs(void) {
    static dcc_loco loco;
    static dcc_service service;
    memset(&loco, 7, sizeof loco);
    loco.cvs[0] = 5, loco.cvs[16] = 195, loco.cvs[17] = 232, loco.cvs[28] = 34;
    dcc_loco_power_up(&loco);
    HOLDS(loco.address_kind == DCC_LONG && loco.address == 1000);
    HOLDS(loco.speed_mode == 0 && loco.step == 0 && loco.forward && loco.pending.len == 0);
    HOLDS(loco.functions[0] == 0 && loco.functions[1] == 0 && loco.states[0] == 0 && loco.states[1] == 0);
    HOLDS(loco.cvs[0] == 5 && loco.cvs[17] == 232 && loco.cvs[1023] == 7);
    service.in_service = true, service.pending.len = 9, service.cvs[6] = 8;
    dcc_service_power_up(&service);
    HOLDS(!service.in_service && service.pending.len == 0 && service.cvs[6] == 8);
}

static void a_board_turns_its_outputs(void) {
    dcc_board board = {.outs = 7, .positions = {true, true, true, true}, .aspects = {7, 7, 7, 7}};
    dcc_frame on = frame_of("accessory 12 5 on"), aspect = frame_of("signal 51 9");
    HOLDS(dcc_board_new(&board, 511) == 3);
    HOLDS(board.outs == 7);
    HOLDS(dcc_board_new(&board, 12) == 0);
    HOLDS(board.number == 12 && board.outs == 0 && !board.positions[2] && board.aspects[3] == 0);
    HOLDS(dcc_board_apply(&board, on.bytes, on.len) == 0);
    HOLDS(board.outs == 32 && board.positions[2]);
    HOLDS(dcc_board_apply(&board, aspect.bytes, aspect.len) == 0);
    HOLDS(board.aspects[3] == 9);
    HOLDS(dcc_board_apply(&board, (const uint8_t[7]){0}, 7) == 1);
    board.number = 511;
    HOLDS(dcc_board_apply(&board, on.bytes, on.len) == 13);
    HOLDS(board.outs == 32);
}

static bool loco_hears(const dcc_loco *loco, const char *line) {
    dcc_frame frame = frame_of(line);
    bool heard = false;
    HOLDS(dcc_loco_hears(loco, frame.bytes, frame.len, &heard) == 0);
    return heard;
}

static bool board_hears(const dcc_board *board, const char *line) {
    dcc_frame frame = frame_of(line);
    bool heard = false;
    HOLDS(dcc_board_hears(board, frame.bytes, frame.len, &heard) == 0);
    return heard;
}

static void who_hears_what(void) {
    static const struct {
        const char *line;
        bool short_3, long_3, none, board_12;
    } rows[] = {
        {"idle", false, false, false, false},
        {"loco s3 reset", true, false, false, false},
        {"loco s4 speed28 f 4", false, false, false, false},
        {"loco l3 speed28 f 4", false, true, false, false},
        {"loco all speed28 f 0", true, true, true, false},
        {"loco all reset", true, true, true, true},
        {"accessory 12 5 on", false, false, false, true},
        {"accessory 11 5 on", false, false, false, false},
        {"accessory 511 5 on", false, false, false, true},
        {"signal 47 1", false, false, false, false},
        {"signal 48 1", false, false, false, true},
        {"signal 51 1", false, false, false, true},
        {"signal 52 1", false, false, false, false},
        {"signal 2044 1", false, false, false, false},
        {"signal 2047 1", false, false, false, true},
        {"frame 03010200", true, false, false, false},
        {"frame 00010203", true, true, true, false},
        {"frame 7c000a76", false, false, false, false},
    };
    static dcc_loco short_3, long_3, none;
    static dcc_board board_12;
    make(&short_3);
    long_3 = none = short_3;
    long_3.address_kind = DCC_LONG;
    none.address_kind = none.address = 0;
    HOLDS(dcc_board_new(&board_12, 12) == 0);
    for (size_t i = 0; i < sizeof rows / sizeof *rows; i++) {
        HOLDS(loco_hears(&short_3, rows[i].line) == rows[i].short_3);
        HOLDS(loco_hears(&long_3, rows[i].line) == rows[i].long_3);
        HOLDS(loco_hears(&none, rows[i].line) == rows[i].none);
        HOLDS(board_hears(&board_12, rows[i].line) == rows[i].board_12);
    }
}

static void nothing_is_told_where_hearing_is_refused(void) {
    static const struct {
        uint8_t kind;
        uint16_t address;
        const uint8_t *frame;
        size_t len;
        uint8_t refusal;
    } rows[] = {
        {DCC_SHORT, 3, speed, 2, DCC_L1_LENGTH},
        {DCC_SHORT, 3, wrong_error_byte, 3, DCC_L2_ERROR_BYTE},
        {DCC_SHORT, 0, speed, 2, DCC_L1_LENGTH},
        {DCC_SHORT, 0, speed, 3, DCC_P13_STATE},
        {DCC_SHORT, 128, speed, 3, DCC_P13_STATE},
        {DCC_SHORT, 259, speed, 3, DCC_P13_STATE},
        {DCC_LONG, 10240, speed, 3, DCC_P13_STATE},
        {0, 3, speed, 3, DCC_P13_STATE},
        {3, 3, speed, 3, DCC_P13_STATE},
    };
    static dcc_loco loco;
    make(&loco);
    for (size_t i = 0; i < sizeof rows / sizeof *rows; i++) {
        for (int heard = 0; heard < 2; heard++) {
            bool told = heard;
            loco.address_kind = rows[i].kind;
            loco.address = rows[i].address;
            HOLDS(dcc_loco_hears(&loco, rows[i].frame, rows[i].len, &told) == rows[i].refusal);
            HOLDS(told == heard);
        }
    }
    const dcc_board all_boards = {.number = 511};
    HOLDS(board_hears(&all_boards, "accessory 511 2 on") && board_hears(&all_boards, "loco all reset"));
    HOLDS(!board_hears(&all_boards, "accessory 510 2 on"));
    dcc_board board = {.number = 512};
    bool told = true;
    HOLDS(dcc_board_hears(&board, speed, 2, &told) == DCC_L1_LENGTH);
    HOLDS(dcc_board_hears(&board, wrong_error_byte, 3, &told) == DCC_L2_ERROR_BYTE);
    HOLDS(dcc_board_hears(&board, speed, 3, &told) == DCC_P13_STATE);
    HOLDS(told);
}

static void a_decoder_in_service_acknowledges(void) {
    static dcc_service service = {.in_service = true};
    static const uint8_t cvs[DCC_CVS] = {10}, reset[3] = {0}, verify[4] = {0x74, 0x00, 0x0A, 0x7E};
    bool yes = true;
    dcc_service_new(&service, cvs);
    HOLDS(!service.in_service && service.cvs[0] == 10);
    HOLDS(dcc_service_apply(&service, reset, 3, &yes) == 0);
    HOLDS(service.in_service && !yes);
    HOLDS(dcc_service_apply(&service, verify, 4, &yes) == 0);
    HOLDS(service.pending.len == 4 && !yes);
    HOLDS(dcc_service_apply(&service, verify, 4, &yes) == 0);
    HOLDS(yes);
    HOLDS(dcc_service_apply(&service, (const uint8_t[]){0x74, 0, 0, 0}, 4, &yes) == 2);
    HOLDS(yes);
    service.pending.len = 5;
    HOLDS(dcc_service_apply(&service, verify, 4, &yes) == 13);
    HOLDS(yes && service.pending.len == 5);
}

static void a_small_decoder_in_service_needs_one_cv(void) {
    static const uint8_t reset[3] = {0}, write[4] = {0x7C, 0x08, 0x03, 0x77}, verify[4] = {0x74, 0x08, 0x03, 0x7F};
    dcc_small_service service = {.in_service = true, .pending = {.len = 9}};
    uint16_t cv = 7;
    uint8_t value = 1;
    bool changed = true, yes = true;
    dcc_small_service_new(&service);
    HOLDS(!service.in_service && service.pending.len == 0);
    HOLDS(dcc_small_service_apply(&service, reset, 3, &value, &changed, &yes) == 0);
    HOLDS(service.in_service && !yes && !changed);
    HOLDS(dcc_small_service_apply(&service, write, 4, &value, &changed, &yes) == 0);
    HOLDS(!yes && !changed && value == 1);
    HOLDS(dcc_small_service_cv(&service, write, 4, &cv) == 0 && cv == 9);
    HOLDS(dcc_small_service_apply(&service, write, 4, &value, &changed, &yes) == 0);
    HOLDS(yes && changed && value == 3);
    HOLDS(dcc_small_service_cv(&service, verify, 4, &cv) == 0 && cv == 0);
    HOLDS(dcc_small_service_apply(&service, verify, 4, &value, &changed, &yes) == 0 && !yes);
    HOLDS(dcc_small_service_cv(&service, verify, 4, &cv) == 0 && cv == 9);
    HOLDS(dcc_small_service_apply(&service, verify, 4, &value, &changed, &yes) == 0);
    HOLDS(yes && !changed && value == 3);
    HOLDS(dcc_small_service_cv(&service, speed, 2, &cv) == DCC_L1_LENGTH && cv == 9);
    HOLDS(dcc_small_service_apply(&service, wrong_error_byte, 3, &value, &changed, &yes) == DCC_L2_ERROR_BYTE);
    service.pending.len = 5;
    HOLDS(dcc_small_service_cv(&service, verify, 4, &cv) == DCC_P13_STATE && cv == 9);
    HOLDS(dcc_small_service_apply(&service, verify, 4, &value, &changed, &yes) == DCC_P13_STATE);
    HOLDS(yes && !changed && value == 3 && service.pending.len == 5);
}

/* The frame of a service packet that writes a value to a CV, CV1 to CV256. */
static dcc_frame service_write(uint16_t cv, uint8_t value) {
    uint8_t place = (uint8_t)(cv - 1);
    return (dcc_frame){4, {0x7C, place, value, (uint8_t)(0x7C ^ place ^ value)}};
}

static const uint8_t reset[3] = {0x00, 0x00, 0x00}, idle[3] = {0xFF, 0x00, 0xFF};

/* The decoders on both tracks of the rows below. Each row begins with decoders of zeros. */
static dcc_decoder decoder;
static dcc_board_decoder board;

/* Makes both decoders zeros, and returns the CVs of a new decoder. */
static const uint8_t *begun_with(uint8_t cv1, uint8_t cv9, uint8_t cv29) {
    static uint8_t cvs[DCC_CVS];
    memset(&decoder, 0, sizeof decoder);
    memset(&board, 0, sizeof board);
    cvs[0] = cv1, cvs[8] = cv9, cvs[28] = cv29;
    return cvs;
}

/* Returns true if the decoder takes the frame, acknowledges it or not, and says that this CV changed. */
static bool hears(const uint8_t *frame, uint8_t len, bool acknowledged, uint16_t changed) {
    dcc_answer answer = {7, !acknowledged};
    return dcc_decoder_hear(&decoder, frame, len, &answer) == 0 && answer.acknowledged == acknowledged
        && answer.changed == changed;
}

static bool board_takes(const uint8_t *frame, uint8_t len, bool acknowledged, uint16_t changed) {
    dcc_answer answer = {7, !acknowledged};
    return dcc_board_decoder_hear(&board, frame, len, &answer) == 0 && answer.acknowledged == acknowledged
        && answer.changed == changed;
}

/* A decoder is programmed on the programming track, and then drives under its new address. */
static void a_decoder_changes_between_the_tracks(void) {
    static const uint8_t to_7[3] = {0x07, 0x62, 0x65};
    const uint8_t *cvs = begun_with(3, 0, 2);
    dcc_frame write = service_write(1, 7);
    bool heard = false;
    dcc_decoder_new(&decoder, cvs);
    HOLDS(decoder.loco.address_kind == DCC_SHORT && decoder.loco.address == 3);
    HOLDS(!memcmp(decoder.loco.cvs, cvs, DCC_CVS));
    HOLDS(decoder.loco.forward && !decoder.service.in_service && !decoder.changed && !decoder.main_only);
    HOLDS(hears(speed, 3, false, 0));
    HOLDS(decoder.loco.speed_mode == 28 && decoder.loco.step == 1 && !decoder.service.in_service);
    HOLDS(hears(write.bytes, 4, false, 0) && hears(write.bytes, 4, false, 0));
    HOLDS(decoder.loco.cvs[0] == 3 && decoder.loco.step == 1);
    HOLDS(hears(reset, 3, false, 0));
    HOLDS(decoder.service.in_service && decoder.loco.speed_mode == 0);
    HOLDS(hears(write.bytes, 4, false, 0) && decoder.service.pending.len == 4 && !decoder.changed);
    HOLDS(hears(write.bytes, 4, true, 1) && decoder.loco.cvs[0] == 7 && decoder.changed);
    HOLDS(hears(write.bytes, 4, true, 0) && decoder.changed);
    HOLDS(hears(reset, 3, false, 0) && decoder.changed && decoder.loco.address == 3);
    HOLDS(hears(idle, 3, false, 0));
    HOLDS(!decoder.service.in_service && !decoder.changed && decoder.loco.address == 7);
    HOLDS(hears(speed, 3, false, 0) && decoder.loco.step == 0);
    HOLDS(hears(to_7, 3, false, 0) && decoder.loco.step == 1);
    HOLDS(dcc_loco_hears(&decoder.loco, to_7, 3, &heard) == 0 && heard);
}

static void a_decoder_of_zeros_powers_up_with_stored_cvs(void) {
    begun_with(0, 0, 0);
    dcc_frame write = service_write(17, 199);
    HOLDS(hears(speed, 3, false, 0) && decoder.loco.address_kind == 0 && decoder.loco.speed_mode == 0);
    HOLDS(hears(reset, 3, false, 0) && hears(write.bytes, 4, false, 0));
    HOLDS(hears(write.bytes, 4, true, 17) && decoder.loco.cvs[16] == 199);
    decoder.loco.cvs[17] = 208, decoder.loco.cvs[28] = 34;
    dcc_decoder_power_up(&decoder);
    HOLDS(decoder.loco.address_kind == DCC_LONG && decoder.loco.address == 2000 && decoder.loco.cvs[16] == 199);
    HOLDS(!decoder.service.in_service && decoder.service.pending.len == 0 && !decoder.changed && !decoder.main_only);
    dcc_frame on = frame_of("accessory 0 3 on");
    HOLDS(board_takes(on.bytes, on.len, false, 0) && board.board.outs == 8 && board.board.positions[1]);
    board.cvs[0] = 63, board.cvs[8] = 7;
    dcc_board_decoder_power_up(&board);
    HOLDS(board.board.number == 511 && board.board.outs == 0 && board.board.positions[1] && board.cvs[8] == 7);
}

/* A CV that was written on the main track gives the decoder no new address before the next power-up. */
static void only_a_service_packet_moves_the_address(void) {
    static const uint8_t on_main[5] = {0x03, 0xEC, 0x00, 0x09, 0xE6};
    dcc_frame write = service_write(3, 20);
    dcc_decoder_new(&decoder, begun_with(3, 0, 2));
    HOLDS(hears(on_main, 5, false, 0) && hears(on_main, 5, false, 1) && decoder.loco.cvs[0] == 9);
    HOLDS(hears(reset, 3, false, 0));
    dcc_decoder_end_service(&decoder);
    HOLDS(!decoder.service.in_service && decoder.loco.address == 3);
    HOLDS(hears(reset, 3, false, 0) && hears(write.bytes, 4, false, 0));
    HOLDS(hears(write.bytes, 4, true, 3) && decoder.loco.address == 3);
    dcc_decoder_end_service(&decoder);
    HOLDS(!decoder.service.in_service && !decoder.changed && decoder.loco.address == 9);
}

/* On the main track, 7c3f85c6 is a speed packet for address 124. */
static void a_decoder_stays_on_the_main_track(void) {
    static const uint8_t both[4] = {0x7C, 0x3F, 0x85, 0xC6};
    dcc_decoder_new(&decoder, begun_with(124, 0, 2));
    HOLDS(hears(reset, 3, false, 0) && decoder.service.in_service);
    dcc_decoder_set_main_only(&decoder, true);
    HOLDS(decoder.main_only && !decoder.service.in_service);
    HOLDS(hears(reset, 3, false, 0) && !decoder.service.in_service);
    HOLDS(hears(both, 4, false, 0) && hears(both, 4, false, 0) && decoder.loco.cvs[63] == 0);
    HOLDS(decoder.loco.speed_mode == 126 && decoder.loco.step == 4);
    dcc_decoder_set_main_only(&decoder, false);
    HOLDS(!decoder.main_only && hears(reset, 3, false, 0) && decoder.service.in_service);
    HOLDS(hears(both, 4, false, 0) && hears(both, 4, true, 64) && decoder.loco.cvs[63] == 0x85);
    dcc_board_decoder_set_main_only(&board, true);
    HOLDS(board_takes(reset, 3, false, 0) && !board.service.in_service && board.main_only);
    HOLDS(board_takes(both, 4, false, 0) && board_takes(both, 4, false, 0) && board.cvs[63] == 0);
    dcc_board_decoder_set_main_only(&board, false);
    HOLDS(!board.main_only && board_takes(reset, 3, false, 0) && board.service.in_service);
}

static void a_board_changes_between_the_tracks(void) {
    const uint8_t *cvs = begun_with(12, 1, 0);
    dcc_frame on = frame_of("accessory 76 5 on"), write = service_write(9, 0), on_12 = frame_of("accessory 12 0 on");
    dcc_board_decoder_new(&board, cvs);
    HOLDS(board.board.number == 76 && board.board.outs == 0 && !board.board.positions[2] && !board.main_only);
    HOLDS(!memcmp(board.cvs, cvs, DCC_CVS) && !board.service.in_service && !board.changed);
    HOLDS(board_takes(on.bytes, on.len, false, 0) && board.board.outs == 32 && board.board.positions[2]);
    HOLDS(board_takes(reset, 3, false, 0) && board.service.in_service && board.board.outs == 0);
    HOLDS(board_takes(write.bytes, 4, false, 0) && board_takes(write.bytes, 4, true, 9));
    HOLDS(board.cvs[8] == 0 && board.changed && board.board.number == 76);
    HOLDS(board_takes(on_12.bytes, on_12.len, false, 0) && board.board.number == 12 && board.board.outs == 1);
    HOLDS(board.board.positions[2] && !board.service.in_service && !board.changed);
    HOLDS(board_takes(reset, 3, false, 0) && board.service.in_service);
    write = service_write(1, 13);
    HOLDS(board_takes(write.bytes, 4, false, 0) && board_takes(write.bytes, 4, true, 1));
    dcc_board_decoder_end_service(&board);
    HOLDS(board.board.number == 13 && !board.service.in_service && !board.changed);
}

static void a_decoder_is_left_where_the_frame_is_none(void) {
    static dcc_decoder before;
    static dcc_board_decoder board_before;
    dcc_answer answer = {7, true};
    begun_with(0, 0, 0);
    HOLDS(hears(reset, 3, false, 0) && board_takes(reset, 3, false, 0));
    before = decoder, board_before = board;
    HOLDS(dcc_decoder_hear(&decoder, speed, 2, &answer) == DCC_L1_LENGTH);
    HOLDS(dcc_decoder_hear(&decoder, seven_bytes, 7, &answer) == DCC_L1_LENGTH);
    HOLDS(dcc_decoder_hear(&decoder, wrong_error_byte, 3, &answer) == DCC_L2_ERROR_BYTE);
    HOLDS(dcc_board_decoder_hear(&board, speed, 2, &answer) == DCC_L1_LENGTH);
    HOLDS(dcc_board_decoder_hear(&board, wrong_error_byte, 3, &answer) == DCC_L2_ERROR_BYTE);
    HOLDS(answer.changed == 7 && answer.acknowledged);
    HOLDS(!memcmp(&decoder, &before, sizeof before) && !memcmp(&board, &board_before, sizeof board_before));
}

static void a_cv_is_read_by_nine_questions(void) {
    /* CV1024 has 0xA5; a verify of a bit, and of the byte */
    static const uint8_t first[4] = {0x7B, 0xFF, 0xE8, 0x6C}, ninth[4] = {0x77, 0xFF, 0xA5, 0x2D};
    dcc_reader reader;
    dcc_frame question;
    uint8_t value = 7;
    HOLDS(dcc_reader_new(&reader, 1024) == 0);
    HOLDS(dcc_reader_question(&reader, &question) == 0 && is_frame(&question, first, 4));
    for (int place = 0; place < 8; place++) {
        HOLDS(reader.known == place);
        HOLDS(dcc_reader_answer(&reader, 0xA5 >> place & 1, &value) == DCC_MORE);
    }
    HOLDS(value == 7 && reader.cv == 1024 && reader.known == 8 && reader.value == 0xA5);
    HOLDS(dcc_reader_question(&reader, &question) == 0 && is_frame(&question, ninth, 4));
    HOLDS(dcc_reader_answer(&reader, false, &value) == DCC_NO_ANSWER);
    HOLDS(value == 7 && reader.known == 8 && reader.value == 0xA5);
    HOLDS(dcc_reader_answer(&reader, true, &value) == DCC_VALUE);
    HOLDS(value == 0xA5 && reader.known == 8 && reader.value == 0xA5);
}

static void a_reading_of_no_cv_is_refused(void) {
    static const dcc_reader rows[] = {{0, 0, 0}, {1025, 0, 0}, {1, 9, 0}, {1, 0, 1}, {1, 3, 8}, {1, 7, 128}};
    dcc_reader reader = {7, 7, 7};
    HOLDS(dcc_reader_new(&reader, 0) == DCC_P6_CV);
    HOLDS(dcc_reader_new(&reader, 1025) == DCC_P6_CV);
    HOLDS(reader.cv == 7 && reader.known == 7 && reader.value == 7);
    for (size_t i = 0; i < sizeof rows / sizeof *rows; i++) {
        dcc_frame question = {.len = 99};
        uint8_t value = 99;
        reader = rows[i];
        HOLDS(dcc_reader_question(&reader, &question) == DCC_P13_STATE && question.len == 99);
        HOLDS(dcc_reader_answer(&reader, true, &value) == DCC_P13_STATE && value == 99);
        HOLDS(!memcmp(&reader, &rows[i], sizeof reader));
    }
}

static void a_cv_is_written_by_two_questions(void) {
    /* CV1024 gets 0xA5; a write and a verify of the byte */
    static const uint8_t first[4] = {0x7F, 0xFF, 0xA5, 0x25}, second[4] = {0x77, 0xFF, 0xA5, 0x2D};
    for (int yes = 0; yes < 2; yes++) {
        dcc_writer writer;
        dcc_frame question;
        HOLDS(dcc_writer_new(&writer, 1024, 0xA5) == 0);
        HOLDS(writer.cv == 1024 && writer.value == 0xA5 && !writer.is_verifying);
        HOLDS(dcc_writer_question(&writer, &question) == 0 && is_frame(&question, first, 4));
        HOLDS(dcc_writer_answer(&writer, yes) == DCC_MORE);
        HOLDS(writer.cv == 1024 && writer.value == 0xA5 && writer.is_verifying);
        HOLDS(dcc_writer_question(&writer, &question) == 0 && is_frame(&question, second, 4));
        HOLDS(dcc_writer_answer(&writer, false) == DCC_FAILED && writer.is_verifying);
        HOLDS(dcc_writer_answer(&writer, true) == DCC_DONE);
        HOLDS(writer.cv == 1024 && writer.value == 0xA5 && writer.is_verifying);
    }
}

static void a_writing_of_no_cv_is_refused(void) {
    static const dcc_writer rows[] = {{0, 9, false}, {0, 9, true}, {1025, 9, false}, {65535, 9, true}};
    dcc_writer writer = {7, 7, true};
    HOLDS(dcc_writer_new(&writer, 0, 9) == DCC_P6_CV);
    HOLDS(dcc_writer_new(&writer, 1025, 9) == DCC_P6_CV);
    HOLDS(writer.cv == 7 && writer.value == 7 && writer.is_verifying);
    for (size_t i = 0; i < sizeof rows / sizeof *rows; i++) {
        dcc_frame question = {.len = 99};
        writer = rows[i];
        HOLDS(dcc_writer_question(&writer, &question) == DCC_P13_STATE && question.len == 99);
        HOLDS(dcc_writer_answer(&writer, true) == DCC_P13_STATE);
        HOLDS(!memcmp(&writer, &rows[i], sizeof writer));
    }
}

static void service_packets_have_their_frames(void) {
    static const struct {
        dcc_service_packet packet;
        uint8_t frame[4];
    } rows[] = {
        {{1, DCC_CV_WRITE, 10, 0, false}, {0x7C, 0x00, 0x0A, 0x76}},
        {{1, DCC_CV_VERIFY, 10, 0, false}, {0x74, 0x00, 0x0A, 0x7E}},
        {{1024, DCC_CV_BIT_WRITE, 0, 5, true}, {0x7B, 0xFF, 0xFD, 0x79}},
        {{1024, DCC_CV_BIT_VERIFY, 0, 5, false}, {0x7B, 0xFF, 0xE5, 0x61}},
    };
    for (size_t i = 0; i < sizeof rows / sizeof *rows; i++) {
        dcc_service_packet packet;
        dcc_frame frame;
        memset(&packet, 7, sizeof packet);
        HOLDS(dcc_service_frame(&rows[i].packet, &frame) == 0 && is_frame(&frame, rows[i].frame, 4));
        HOLDS(dcc_service_read(rows[i].frame, 4, &packet) == 0);
        HOLDS(!memcmp(&packet, &rows[i].packet, sizeof packet));
    }
    /* a write of a byte has no place and no bit */
    dcc_frame frame;
    HOLDS(dcc_service_frame(&(dcc_service_packet){1, DCC_CV_WRITE, 10, 8, true}, &frame) == 0);
    HOLDS(is_frame(&frame, rows[0].frame, 4));
}

static void service_packets_and_their_faults(void) {
    static const struct {
        dcc_service_packet packet;
        uint8_t fault;
    } rows[] = {
        {{0, DCC_STATE, 0, 8, false}, DCC_P10_WORD},
        {{1, DCC_ACCESSORY, 0, 0, false}, DCC_P10_WORD},
        {{1, 255, 0, 0, false}, DCC_P10_WORD},
        {{0, DCC_CV_WRITE, 0, 0, false}, DCC_P6_CV},
        {{1025, DCC_CV_VERIFY, 0, 0, false}, DCC_P6_CV},
        {{0, DCC_CV_BIT_WRITE, 0, 8, false}, DCC_P6_CV},
        {{1, DCC_CV_BIT_WRITE, 0, 8, false}, DCC_P7_BIT_PLACE},
        {{1, DCC_CV_BIT_VERIFY, 0, 255, true}, DCC_P7_BIT_PLACE},
    };
    for (size_t i = 0; i < sizeof rows / sizeof *rows; i++) {
        dcc_frame frame = {.len = 99};
        HOLDS(dcc_service_frame(&rows[i].packet, &frame) == rows[i].fault && frame.len == 99);
    }
    /* a bit access has 1111DBBB or 1110DBBB */
    static const uint8_t no_access[4] = {0x78, 0x00, 0xD8, 0xA0}, kept[6] = {7, 7, 7, 7, 7, 1};
    dcc_service_packet packet;
    memcpy(&packet, kept, sizeof packet);
    HOLDS(dcc_service_read(no_access, 4, &packet) == DCC_P10_WORD);
    HOLDS(dcc_service_read(speed, 3, &packet) == DCC_P10_WORD);
    HOLDS(dcc_service_read(speed, 2, &packet) == DCC_L1_LENGTH);
    HOLDS(dcc_service_read(wrong_error_byte, 3, &packet) == DCC_L2_ERROR_BYTE);
    HOLDS(!memcmp(&packet, kept, sizeof packet));
}

/* Whether the next packet of a station is that of a line. */
static bool sends(dcc_station *station, const char *line) {
    dcc_frame expected = frame_of(line), frame = {0};
    dcc_station_next(station, &frame);
    return is_frame(&frame, expected.bytes, expected.len);
}

/* What a station answers to the command of a line. */
static uint8_t commanded(dcc_station *station, const char *line) {
    dcc_frame frame = frame_of(line);
    return dcc_station_command(station, frame.bytes, frame.len);
}

static dcc_station station, before;

static void a_station_sends_and_refreshes(void) {
    dcc_station *s = &station;
    /* one of zeros has no room, and sends idle packets */
    HOLDS(commanded(s, "loco s3 speed28 f 4") == 4 && sends(s, "idle") && dcc_station_waiting(s) == 0);
    static const uint8_t past[6][3] = {{0, 4, 1}, {65, 4, 1}, {4, 0, 1}, {4, 129, 1}, {4, 4, 0}, {4, 4, 9}};
    for (int i = 0; i < 6; i++) HOLDS(dcc_station_new(s, past[i][0], past[i][1], past[i][2]) == 1);
    HOLDS(!memcmp(s, &before, sizeof before));
    HOLDS(dcc_station_new(s, 64, 128, 8) == 0 && dcc_station_new(s, 1, 1, 1) == 0 && dcc_station_new(s, 2, 4, 2) == 0);
    HOLDS(sends(s, "idle") && dcc_station_waiting(s) == 0 && dcc_station_entries(s) == 0);
    HOLDS(commanded(s, "loco s3 speed28 f 4") == 0 && commanded(s, "loco s3 cv write 29 2") == 0);
    before = station;
    HOLDS(commanded(s, "loco s4 reset") == 4 && commanded(s, "idle") == 3 && commanded(s, "frame 7c000a76") == 3);
    HOLDS(commanded(s, "loco all cv write 29 2") == 3 && commanded(s, "loco all cv verify 29 2") == 3);
    HOLDS(dcc_station_command(s, speed, 2) == 1 && dcc_station_command(s, wrong_error_byte, 3) == 2);
    HOLDS(!memcmp(s, &before, sizeof before));
    HOLDS(dcc_station_waiting(s) == 2 && dcc_station_entries(s) == 0);
    /* each twice, the write once more; it ends the refreshing of its address */
    HOLDS(sends(s, "loco s3 speed28 f 4") && dcc_station_waiting(s) == 2 && dcc_station_entries(s) == 1);
    HOLDS(sends(s, "loco s3 speed28 f 4") && dcc_station_waiting(s) == 1);
    for (int i = 0; i < 3; i++) HOLDS(sends(s, "loco s3 cv write 29 2"));
    HOLDS(sends(s, "idle") && dcc_station_waiting(s) == 0 && dcc_station_entries(s) == 0);
    HOLDS(commanded(s, "loco s3 speed28 f 4") == 0 && commanded(s, "loco l1000 functions 0 16") == 0);
    for (int i = 0; i < 4; i++) HOLDS(sends(s, i < 2 ? "loco s3 speed28 f 4" : "loco l1000 functions 0 16"));
    for (int i = 0; i < 300; i++) HOLDS(sends(s, i % 2 ? "loco l1000 functions 0 16" : "loco s3 speed28 f 4"));
    HOLDS(dcc_station_entries(s) == 2);
}

static dcc_station one_station;

static void a_station_stops_all(void) {
    dcc_station *s = &one_station;
    static const char *const stop = "loco all speed28 f 3";
    HOLDS(dcc_station_new(s, 5, 4, 2) == 0);
    HOLDS(commanded(s, "loco s3 speed28 f 20") == 0 && commanded(s, "loco s4 functions 0 16") == 0);
    for (int i = 0; i < 4; i++) HOLDS(sends(s, i < 2 ? "loco s3 speed28 f 20" : "loco s4 functions 0 16"));
    HOLDS(dcc_station_waiting(s) == 0 && dcc_station_entries(s) == 2);
    /* commands that set a step are withdrawn; the write is partly sent, and is sent again after the stop */
    HOLDS(commanded(s, "loco s3 cv write 29 2") == 0 && commanded(s, "loco s3 speed128 r 2") == 0);
    HOLDS(commanded(s, "loco s5 speed28 f 4") == 0 && commanded(s, "loco s5 speed28 r 3") == 0);
    HOLDS(commanded(s, "loco s6 speed128 f 1") == 0 && commanded(s, "loco s6 reset") == 4);
    HOLDS(sends(s, "loco s3 cv write 29 2") && dcc_station_waiting(s) == 5);
    HOLDS(dcc_station_stop(s) == 2 && dcc_station_waiting(s) == 3 && dcc_station_entries(s) == 1);
    HOLDS(sends(s, stop) && sends(s, stop) && dcc_station_waiting(s) == 3 && dcc_station_entries(s) == 1);
    for (int i = 0; i < 3; i++) HOLDS(sends(s, "loco s3 cv write 29 2"));
    for (int i = 0; i < 4; i++) HOLDS(sends(s, i < 2 ? "loco s5 speed28 r 3" : "loco s6 speed128 f 1"));
    HOLDS(dcc_station_waiting(s) == 0 && dcc_station_entries(s) == 3);
    for (int i = 0; i < 2; i++) {
        HOLDS(sends(s, "loco s4 functions 0 16") && sends(s, "loco s5 speed28 r 3"));
        HOLDS(sends(s, "loco s6 speed128 f 1"));
    }
    /* a stop is accepted with a full queue, and a second one starts the copies again */
    for (int i = 0; i < 5; i++) HOLDS(commanded(s, "loco s7 reset") == 0);
    HOLDS(commanded(s, "loco s7 reset") == 4 && dcc_station_stop(s) == 0 && dcc_station_waiting(s) == 5);
    HOLDS(sends(s, stop) && dcc_station_stop(s) == 0 && sends(s, stop) && sends(s, stop));
    HOLDS(sends(s, "loco s7 reset") && dcc_station_waiting(s) == 5 && sends(s, "loco s7 reset"));
    HOLDS(dcc_station_waiting(s) == 4 && dcc_station_new(s, 5, 4, 2) == 0 && sends(s, "idle"));
    /* a new station does not stop */
    HOLDS(dcc_station_stop(s) == 0 && dcc_station_new(s, 5, 4, 2) == 0 && sends(s, "idle"));
}

/* Reads the packet of a line, and returns true if the fields give the frame of the line. */
static bool is_back(const char *line, dcc_packet *packet) {
    dcc_frame expected = frame_of(line), frame = {0};
    HOLDS(dcc_read(expected.bytes, expected.len, packet) == 0);
    if (packet->kind == DCC_OTHER) frame = expected;
    return dcc_frame_of_packet(packet, &frame) == 0 && !memcmp(&frame, &expected, sizeof frame);
}

static void fields_of_a_packet_have_its_frame(void) {
    static const char *lines[] = {
        "idle", "loco all reset", "loco s127 reset", "loco l0 reset", "loco s3 speed28 f 31",
        "loco l10239 speed128 r 127", "loco s3 functions 0 31", "loco s3 functions 5 15", "loco s3 functions 9 8",
        "loco s3 functions 13 255", "loco s3 functions 21 1", "loco s3 functions 29 2", "loco s3 functions 37 4",
        "loco s3 functions 45 8", "loco s3 functions 53 16", "loco s3 functions 61 128", "loco s3 state 127 on",
        "loco all state 0 off", "loco s3 cv write 1024 255", "loco l1000 cv verify 1 7", "loco s3 cv bitwrite 29 7 1",
        "loco s3 cv bitverify 1 0 0", "accessory 511 7 on", "accessory 0 0 off", "signal 2047 255", "signal 0 0",
        "frame 7c000a76",
    };
    for (size_t i = 0; i < sizeof lines / sizeof *lines; i++) {
        dcc_packet packet, again;
        dcc_frame frame;
        HOLDS(is_back(lines[i], &packet));
        if (packet.kind == DCC_OTHER) continue;
        /* fields that the kind does not use do not matter */
        memset(&again, 1, sizeof again);
        again.kind = packet.kind, again.to = packet.to;
        if (packet.to || packet.kind >= DCC_ACCESSORY) again.address = packet.address;
        if (packet.kind == DCC_SPEED28 || packet.kind == DCC_SPEED128) again.forward = packet.forward;
        if (packet.kind >= DCC_SPEED28 && packet.kind <= DCC_FUNCTIONS) again.bits = packet.bits;
        if (packet.kind == DCC_FUNCTIONS) again.group = packet.group;
        if (packet.kind == DCC_STATE) again.state = packet.state;
        if (packet.kind == DCC_STATE || packet.kind == DCC_ACCESSORY) again.on = packet.on;
        if (packet.kind >= DCC_CV_WRITE && packet.kind <= DCC_CV_BIT_VERIFY) again.cv = packet.cv;
        if (packet.kind == DCC_CV_WRITE || packet.kind == DCC_CV_VERIFY) again.value = packet.value;
        if (packet.kind == DCC_CV_BIT_WRITE || packet.kind == DCC_CV_BIT_VERIFY) again.place = packet.place;
        if (packet.kind == DCC_CV_BIT_WRITE || packet.kind == DCC_CV_BIT_VERIFY) again.one = packet.one;
        if (packet.kind == DCC_ACCESSORY) again.output = packet.output;
        if (packet.kind == DCC_SIGNAL) again.aspect = packet.aspect;
        dcc_frame expected = frame_of(lines[i]);
        memset(&frame, 7, sizeof frame);
        HOLDS(dcc_frame_of_packet(&again, &frame) == 0 && !memcmp(&frame, &expected, sizeof frame));
    }
    /* the bytes of a worked packet, and zeros after them */
    static const dcc_frame worked = {3, {0x03, 0x62, 0x61, 0, 0, 0}};
    dcc_packet packet = {.kind = DCC_SPEED28, .to = DCC_SHORT, .address = 3, .forward = true, .bits = 4};
    dcc_frame frame;
    memset(&frame, 7, sizeof frame);
    HOLDS(dcc_frame_of_packet(&packet, &frame) == 0 && !memcmp(&frame, &worked, sizeof frame));
    packet = (dcc_packet){.kind = DCC_OTHER};
    frame = (dcc_frame){4, {0x7C, 0x00, 0x0A, 0x76, 8, 9}};
    HOLDS(dcc_frame_of_packet(&packet, &frame) == 0 && frame.len == 4);
    HOLDS(!memcmp(frame.bytes, (const uint8_t[]){0x7C, 0x00, 0x0A, 0x76, 0, 0}, 6));
}

static void fields_of_a_packet_and_their_faults(void) {
    static const struct {
        dcc_packet packet;
        uint8_t fault;
    } rows[] = {
        {{.kind = 13}, DCC_P10_WORD},
        {{.kind = 255, .to = 3, .address = 65535}, DCC_P10_WORD},
        {{.kind = DCC_RESET, .to = 3}, DCC_P10_WORD},
        {{.kind = DCC_RESET, .to = DCC_SHORT}, DCC_P1_SHORT_ADDRESS},
        {{.kind = DCC_RESET, .to = DCC_SHORT, .address = 128}, DCC_P1_SHORT_ADDRESS},
        {{.kind = DCC_RESET, .to = DCC_SHORT, .address = 259}, DCC_P1_SHORT_ADDRESS},
        {{.kind = DCC_RESET, .to = DCC_LONG, .address = 10240}, DCC_P2_LONG_ADDRESS},
        /* an error of the address comes first */
        {{.kind = DCC_SPEED28, .to = DCC_SHORT, .bits = 32}, DCC_P1_SHORT_ADDRESS},
        {{.kind = DCC_FUNCTIONS, .to = 255, .group = 1, .bits = 255}, DCC_P10_WORD},
        {{.kind = DCC_SPEED28, .to = DCC_SHORT, .address = 3, .bits = 32}, DCC_P8_SPEED_BITS},
        {{.kind = DCC_SPEED128, .bits = 128}, DCC_P8_SPEED_BITS},
        {{.kind = DCC_FUNCTIONS, .group = 4, .bits = 255}, DCC_P10_WORD},
        {{.kind = DCC_FUNCTIONS, .group = 0, .bits = 32}, DCC_P9_FUNCTION_BITS},
        {{.kind = DCC_FUNCTIONS, .group = 5, .bits = 16}, DCC_P9_FUNCTION_BITS},
        {{.kind = DCC_FUNCTIONS, .group = 9, .bits = 16}, DCC_P9_FUNCTION_BITS},
        {{.kind = DCC_STATE, .state = 128}, DCC_P14_BINARY_STATE},
        {{.kind = DCC_CV_WRITE}, DCC_P6_CV},
        {{.kind = DCC_CV_VERIFY, .cv = 1025}, DCC_P6_CV},
        {{.kind = DCC_CV_BIT_WRITE, .place = 8}, DCC_P6_CV},
        {{.kind = DCC_CV_BIT_VERIFY, .cv = 1, .place = 8}, DCC_P7_BIT_PLACE},
        {{.kind = DCC_ACCESSORY, .address = 512, .output = 8}, DCC_P3_BOARD},
        {{.kind = DCC_ACCESSORY, .address = 511, .output = 8}, DCC_P4_OUTPUT},
        {{.kind = DCC_SIGNAL, .address = 2048}, DCC_P5_SIGNAL},
    };
    static const dcc_frame others[] = {
        {0, {0}}, {2, {0x7C, 0x7C}}, {4, {0x7C, 0x00, 0x0A, 0x77}}, {7, {0x7C, 0x00, 0x0A, 0x76}}, {255, {0}},
        {3, {0x03, 0x62, 0x61}}, {3, {0xFF, 0x00, 0xFF}}, {3, {0, 0, 0}},
    };
    for (size_t i = 0; i < sizeof rows / sizeof *rows; i++) {
        dcc_frame frame = {.len = 99};
        HOLDS(dcc_frame_of_packet(&rows[i].packet, &frame) == rows[i].fault && frame.len == 99);
    }
    for (size_t i = 0; i < sizeof others / sizeof *others; i++) {
        dcc_frame frame = others[i];
        HOLDS(dcc_frame_of_packet(&(dcc_packet){.kind = DCC_OTHER}, &frame) == DCC_P12_FRAME);
        HOLDS(!memcmp(&frame, &others[i], sizeof frame));
    }
}

static void a_station_forgets_one_address(void) {
    dcc_station *s = &one_station;
    HOLDS(dcc_station_new(s, 4, 8, 1) == 0);
    HOLDS(commanded(s, "loco s3 speed28 f 4") == 0 && sends(s, "loco s3 speed28 f 4"));
    HOLDS(commanded(s, "loco l3 speed28 f 5") == 0 && sends(s, "loco l3 speed28 f 5"));
    HOLDS(commanded(s, "loco s3 functions 0 16") == 0 && sends(s, "loco s3 functions 0 16"));
    HOLDS(commanded(s, "loco s3 speed28 r 6") == 0 && dcc_station_entries(s) == 3);
    before = *s;
    HOLDS(dcc_station_forget(s, 3, 3) == DCC_P10_WORD && dcc_station_forget(s, 255, 0) == DCC_P10_WORD);
    HOLDS(dcc_station_forget(s, DCC_SHORT, 0) == DCC_P1_SHORT_ADDRESS);
    HOLDS(dcc_station_forget(s, DCC_SHORT, 259) == DCC_P1_SHORT_ADDRESS);
    HOLDS(dcc_station_forget(s, DCC_LONG, 10240) == DCC_P2_LONG_ADDRESS);
    HOLDS(!memcmp(s, &before, sizeof before));
    HOLDS(dcc_station_forget(s, DCC_ALL, 9) == 0 && dcc_station_forget(s, DCC_SHORT, 4) == 0);
    HOLDS(dcc_station_entries(s) == 3);
    HOLDS(dcc_station_forget(s, DCC_SHORT, 3) == 0);
    HOLDS(dcc_station_entries(s) == 1 && dcc_station_waiting(s) == 1);
    /* the waiting command stays, and becomes an entry */
    HOLDS(sends(s, "loco s3 speed28 r 6") && dcc_station_entries(s) == 2);
    HOLDS(sends(s, "loco l3 speed28 f 5") && sends(s, "loco s3 speed28 r 6"));
    HOLDS(dcc_station_forget(s, DCC_LONG, 3) == 0 && dcc_station_forget(s, DCC_SHORT, 3) == 0);
    HOLDS(dcc_station_entries(s) == 0 && sends(s, "idle"));
}

/* Turns a function, and returns true if the frame is that of the line. */
static bool turns(dcc_functions *functions, uint8_t function, bool on, const char *line) {
    dcc_frame expected = frame_of(line), frame = {0};
    HOLDS(dcc_functions_turn(functions, DCC_SHORT, 3, function, on, &frame) == 0);
    HOLDS(dcc_functions_is_on(functions, function) == on);
    return !memcmp(&frame, &expected, sizeof frame);
}

static void one_function_is_turned(void) {
    static const struct {
        uint8_t function;
        bool on;
        const char *line;
    } rows[] = {
        {0, true, "loco s3 functions 0 16"}, {1, true, "loco s3 functions 0 17"}, {4, true, "loco s3 functions 0 25"},
        {0, false, "loco s3 functions 0 9"}, {5, true, "loco s3 functions 5 1"}, {8, true, "loco s3 functions 5 9"},
        {9, true, "loco s3 functions 9 1"}, {12, true, "loco s3 functions 9 9"}, {13, true, "loco s3 functions 13 1"},
        {20, true, "loco s3 functions 13 129"}, {13, false, "loco s3 functions 13 128"},
        {21, true, "loco s3 functions 21 1"}, {28, true, "loco s3 functions 21 129"},
        {29, true, "loco s3 functions 29 1"}, {36, true, "loco s3 functions 29 129"},
        {37, true, "loco s3 functions 37 1"}, {44, true, "loco s3 functions 37 129"},
        {45, true, "loco s3 functions 45 1"}, {52, true, "loco s3 functions 45 129"},
        {53, true, "loco s3 functions 53 1"}, {60, true, "loco s3 functions 53 129"},
        {61, true, "loco s3 functions 61 1"}, {68, true, "loco s3 functions 61 129"},
        {64, true, "loco s3 functions 61 137"}, {68, true, "loco s3 functions 61 137"},
        {63, false, "loco s3 functions 61 137"}, {61, false, "loco s3 functions 61 136"},
    };
    dcc_functions functions = {{0, 0}};
    dcc_small_loco loco;
    uint8_t value = 0;
    bool changed;
    dcc_small_loco_new(&loco, 3, 0, 0, 2);
    for (size_t i = 0; i < sizeof rows / sizeof *rows; i++) {
        dcc_frame frame = frame_of(rows[i].line);
        HOLDS(turns(&functions, rows[i].function, rows[i].on, rows[i].line));
        /* a decoder that hears the frame has the same functions */
        HOLDS(dcc_small_loco_apply(&loco, frame.bytes, frame.len, &value, &changed) == 0);
        HOLDS(!memcmp(functions.on, loco.functions, sizeof loco.functions));
    }
    for (int function = 0; function < 256; function++)
        HOLDS(dcc_functions_is_on(&functions, (uint8_t)function)
              == (function <= 68 ? loco.functions[function / 64] >> function % 64 & 1 : 0));
    /* a long address, and all locomotives */
    dcc_frame frame, to_1000 = frame_of("loco l1000 functions 5 11"), to_all = frame_of("loco all functions 5 9");
    HOLDS(dcc_functions_turn(&functions, DCC_LONG, 1000, 6, true, &frame) == 0 && !memcmp(&frame, &to_1000, 7));
    HOLDS(dcc_functions_turn(&functions, DCC_ALL, 9, 6, false, &frame) == 0 && !memcmp(&frame, &to_all, 7));
}

static void a_turn_that_is_refused_changes_nothing(void) {
    static const struct {
        uint8_t to;
        uint16_t address;
        uint8_t function, fault;
    } rows[] = {
        {3, 3, 0, DCC_P10_WORD}, {255, 3, 69, DCC_P10_WORD}, {DCC_SHORT, 0, 0, DCC_P1_SHORT_ADDRESS},
        {DCC_SHORT, 259, 69, DCC_P1_SHORT_ADDRESS}, {DCC_LONG, 10240, 69, DCC_P2_LONG_ADDRESS},
        {DCC_SHORT, 3, 69, DCC_P13_STATE}, {DCC_ALL, 0, 255, DCC_P13_STATE},
    };
    /* bits above 68 are unused, and stay */
    dcc_functions functions = {{0, ~0ull}}, before = functions;
    for (size_t i = 0; i < sizeof rows / sizeof *rows; i++) {
        dcc_frame frame = {.len = 99};
        HOLDS(dcc_functions_turn(&functions, rows[i].to, rows[i].address, rows[i].function, true, &frame)
              == rows[i].fault);
        HOLDS(frame.len == 99 && !memcmp(&functions, &before, sizeof before));
    }
    HOLDS(!dcc_functions_is_on(&functions, 69) && !dcc_functions_is_on(&functions, 127));
    HOLDS(dcc_functions_is_on(&functions, 68) == 1);
    HOLDS(turns(&functions, 64, false, "loco s3 functions 61 240") && functions.on[0] == 0 && functions.on[1] == ~1ull);
}

int main(void) {
    names_have_their_numbers();
    a_framer_of_zeros_is_a_new_one();
    a_packet_is_found_at_its_last_half();
    runs_tell_the_half_and_refusals_their_numbers();
    an_array_is_taken_up_to_each_outcome();
    a_finder_of_zeros_is_a_new_one();
    a_packet_is_lost_for_each_cause();
    a_heard_packet_is_not_lost();
    a_run_is_taken_up_to_a_lost_packet();
    an_array_is_taken_up_to_a_lost_packet();
    a_meter_of_zeros_is_a_new_one();
    a_meter_computes_statistics();
    a_meter_takes_an_array();
    a_run_for_a_full_meter_is_refused();
    what_a_packet_says();
    no_frame_is_read();
    plain_words();
    lines_and_their_faults();
    halves_are_sent_behind_14_to_40_ones();
    a_sender_gives_the_halves_one_by_one();
    a_sender_has_the_timing_of_its_caller();
    a_sender_that_is_refused_is_left();
    a_sender_of_zeros_gives_nothing();
    a_copy_of_a_sender_goes_on_by_itself();
    a_loco_runs();
    a_loco_writes_at_the_second_copy();
    a_loco_is_left_where_it_is_refused();
    a_pending_frame_has_3_to_6_bytes();
    a_board_turns_its_outputs();
    who_hears_what();
    nothing_is_told_where_hearing_is_refused();
    a_decoder_in_service_acknowledges();
    a_small_loco_needs_one_cv();
    a_decoder_is_powered_up_with_its_cvs();
    a_small_decoder_in_service_needs_one_cv();
    a_decoder_changes_between_the_tracks();
    a_decoder_of_zeros_powers_up_with_stored_cvs();
    only_a_service_packet_moves_the_address();
    a_decoder_stays_on_the_main_track();
    a_board_changes_between_the_tracks();
    a_decoder_is_left_where_the_frame_is_none();
    a_cv_is_read_by_nine_questions();
    a_reading_of_no_cv_is_refused();
    a_cv_is_written_by_two_questions();
    a_writing_of_no_cv_is_refused();
    service_packets_have_their_frames();
    service_packets_and_their_faults();
    a_station_sends_and_refreshes();
    a_station_stops_all();
    a_station_forgets_one_address();
    fields_of_a_packet_have_its_frame();
    fields_of_a_packet_and_their_faults();
    one_function_is_turned();
    a_turn_that_is_refused_changes_nothing();
    return wrong;
}
