/* Measures each function on a microcontroller, over the packets of a capture on standard input. For each function
 * the program prints the instructions of a call, in the mean and at most, and the bytes of stack. tools/mcu/measure
 * runs the program under qemu, where an instruction takes a nanosecond. */
#include "dcc.h"
#include <stdio.h>
#include <stdlib.h>
#include <string.h>

static uint16_t halves[1300000];
static dcc_frame frames[12000];
static char lines[12000][DCC_LINE];
static uint32_t half_count, frame_count;

/* which of them the next call is given, and what it writes */
static uint32_t at;
static dcc_framer framer;
static dcc_outcome outcome;
static uint64_t taken;
static dcc_lost finder;
static dcc_lost_packet lost;
static dcc_meter meter;
static dcc_statistics statistics;
static dcc_packet packet;
static char line[DCC_LINE], text[DCC_PLAIN];
static uint16_t sent[DCC_HALVES];
static dcc_frame frame;
static const dcc_timing timing = DCC_MAIN_TIMING;
static dcc_sender sender;
static dcc_loco loco;
static dcc_board board;
static dcc_service service;
static dcc_small_loco small_loco;
static dcc_small_service small_service;
static dcc_decoder decoder;
static dcc_board_decoder board_decoder __attribute__((aligned(8)));
static dcc_answer answer;
static uint16_t needed;
static bool changed;
static dcc_reader reader;
static dcc_writer writer;
static dcc_service_packet service_packet;
static dcc_station station;
static dcc_functions functions;
static bool yes;
static uint8_t value;
static uint8_t cvs[DCC_CVS] = {[0] = 3, [28] = 2};

#define GIVEN frames[at].bytes, frames[at].len

static void nothing(void) {}
static void push(void) { dcc_push(&framer, halves[at], &outcome); }
static void push_run(void) { dcc_push_run(&framer, halves[at], 1, &outcome); }
static void push_many(void) { dcc_push_many(&framer, &halves[at], 1, &outcome, &taken); }
static void new_finder(void) { dcc_lost_new(&finder); }
static void push_lost(void) { dcc_lost_push(&finder, halves[at], &lost); }
static void push_lost_run(void) { dcc_lost_push_run(&finder, halves[at], 1, &lost); }
static void push_lost_many(void) { dcc_lost_push_many(&finder, &halves[at], 1, &lost, &taken); }
/* The last half-bit of a packet that is lost, since its preamble has 16 half-bits of ones. */
static void make_end(void) {
    uint32_t count = dcc_halves(GIVEN, 14, sent);
    dcc_lost_new(&finder);
    for (uint32_t i = 12; i + 1 < count; i++) dcc_lost_push(&finder, sent[i], &lost);
}
static void push_end(void) {
    if (!dcc_lost_push(&finder, 58, &lost)) exit(6);
}
static void new_meter(void) { dcc_meter_new(&meter); }
static void push_meter(void) { dcc_meter_push_run(&meter, halves[at], 1); }
static void push_meter_many(void) { dcc_meter_push_many(&meter, &halves[at], 1); }
static void read_meter(void) { dcc_meter_read(&meter, &statistics); }
static void read_frame(void) { dcc_read(GIVEN, &packet); }
static void make_packet(void) {
    dcc_read(GIVEN, &packet);
    frame = frames[at];
}
static void frame_packet(void) { dcc_frame_of_packet(&packet, &frame); }
static void write_line(void) { dcc_line(GIVEN, line); }
static void write_words(void) { dcc_plain(GIVEN, text); }
static void send(void) { dcc_halves(GIVEN, 16, sent); }
static void start_sender(void) { dcc_sender_start(&sender, GIVEN, &timing); }
/* the 84 half-bits of a packet of three bytes, one after the other */
static dcc_sender begun;
static void begin_sending(void) {
    static const uint8_t speed[3] = {0x03, 0x62, 0x61};
    if (dcc_sender_start(&begun, speed, sizeof speed, &timing)) exit(5);
}
static void keep_sending(void) {
    if (at % 84 == 0) sender = begun;
}
static void send_half(void) { dcc_sender_half(&sender); }
static void new_loco(void) { dcc_loco_new(&loco, cvs); }
static void apply_loco(void) { dcc_loco_apply(&loco, GIVEN); }
static void loco_hears(void) { dcc_loco_hears(&loco, GIVEN, &yes); }
static void new_board(void) { dcc_board_new(&board, 12); }
static void apply_board(void) { dcc_board_apply(&board, GIVEN); }
static void board_hears(void) { dcc_board_hears(&board, GIVEN, &yes); }
static void new_service(void) { dcc_service_new(&service, cvs); }
static void apply_service(void) { dcc_service_apply(&service, GIVEN, &yes); }
static void power_up_loco(void) { dcc_loco_power_up(&loco); }
static void power_up_service(void) { dcc_service_power_up(&service); }
static void new_small_loco(void) { dcc_small_loco_new(&small_loco, 3, 0, 0, 2); }
static void small_loco_cv(void) { dcc_small_loco_cv(&small_loco, GIVEN, &needed); }
static void apply_small_loco(void) { dcc_small_loco_apply(&small_loco, GIVEN, &value, &changed); }
static void small_loco_hears(void) { dcc_small_loco_hears(&small_loco, GIVEN, &yes); }
static void new_small_service(void) { dcc_small_service_new(&small_service); }
static void small_service_cv(void) { dcc_small_service_cv(&small_service, GIVEN, &needed); }
static void apply_small_service(void) { dcc_small_service_apply(&small_service, GIVEN, &value, &changed, &yes); }
static void new_decoder(void) { dcc_decoder_new(&decoder, cvs); }
static void power_up_decoder(void) { dcc_decoder_power_up(&decoder); }
static void hear_decoder(void) { dcc_decoder_hear(&decoder, GIVEN, &answer); }
static void end_decoder(void) { dcc_decoder_end_service(&decoder); }
static void keep_decoder(void) { dcc_decoder_set_main_only(&decoder, true); }
static void new_board_decoder(void) { dcc_board_decoder_new(&board_decoder, cvs); }
static void power_up_board_decoder(void) { dcc_board_decoder_power_up(&board_decoder); }
static void hear_board_decoder(void) { dcc_board_decoder_hear(&board_decoder, GIVEN, &answer); }
static void end_board_decoder(void) { dcc_board_decoder_end_service(&board_decoder); }
static void keep_board_decoder(void) { dcc_board_decoder_set_main_only(&board_decoder, true); }
static void new_reader(void) { dcc_reader_new(&reader, (uint16_t)(at + 1)); }
static void ask_reader(void) {
    reader.known = (uint8_t)(at % 8);
    dcc_reader_question(&reader, &frame);
}
static void answer_reader(void) {
    reader = (dcc_reader){.cv = 29, .known = (uint8_t)(at % 9)};
    dcc_reader_answer(&reader, true, &value);
}
static void new_writer(void) { dcc_writer_new(&writer, (uint16_t)(at + 1), (uint8_t)at); }
static void ask_writer(void) {
    writer.is_verifying = at % 2;
    dcc_writer_question(&writer, &frame);
}
static void answer_writer(void) {
    writer = (dcc_writer){.cv = 29, .is_verifying = at % 2};
    dcc_writer_answer(&writer, true);
}
static void frame_service_packet(void) {
    service_packet = (dcc_service_packet){
        .cv = (uint16_t)(at + 1), .kind = (uint8_t)(DCC_CV_WRITE + at % 4), .value = (uint8_t)at,
        .place = (uint8_t)(at % 8), .one = at % 3};
    dcc_service_frame(&service_packet, &frame);
}
static void read_service_packet(void) { dcc_service_read(GIVEN, &service_packet); }
static void new_station(void) { dcc_station_new(&station, 64, 128, 1); }
static void command_station(void) { dcc_station_command(&station, GIVEN); }
static void next_packet(void) { dcc_station_next(&station, &frame); }
static void tell_waiting(void) { value = dcc_station_waiting(&station); }
static void tell_entries(void) { value = dcc_station_entries(&station); }
static void turn_function(void) {
    dcc_functions_turn(&functions, DCC_LONG, 1000, (uint8_t)(at % 69), at % 2, &frame);
}
static void tell_function(void) { value = dcc_functions_is_on(&functions, (uint8_t)(at % 70)); }
static void make_room(void) {
    if (dcc_station_waiting(&station) == 64) new_station();
}
static void stop_station(void) { value = dcc_station_stop(&station); }

/* The most instructions of a first copy: a station has 128 entries, which it compares one after the other, and gets
 * a command of each kind, to all locomotives or to the locomotive of the last entry. The entries are of one kind,
 * each to a different locomotive, or of all kinds that one locomotive can have. */
static const struct { uint8_t len, bytes[3]; } kinds[] = {
    {1, {0x60}}, {1, {0x61}}, {1, {0x45}}, {2, {0x3F, 0x80}}, {2, {0x3F, 0x81}}, {2, {0x3F, 0x05}}, /* speeds */
    /* functions */
    {1, {0x80}}, {1, {0x9F}}, {1, {0xB0}}, {1, {0xBF}}, {1, {0xA0}}, {1, {0xAF}}, {2, {0xDE, 0}}, {2, {0xDE, 0xFF}},
    {2, {0xDF, 0}}, {2, {0xDF, 0xFF}}, {2, {0xD8, 0}}, {2, {0xD8, 0xFF}}, {2, {0xD9, 0}}, {2, {0xDA, 0}},
    {2, {0xDB, 0}}, {2, {0xDC, 0}}, {2, {0xDC, 0xFF}},
    /* a reset, states, CVs */
    {1, {0}}, {2, {0xDD, 0x81}}, {2, {0xDD, 0}}, {3, {0xEC, 28, 6}}, {3, {0xEC, 0, 3}}, {3, {0xE8, 28, 0xF8}},
};
/* those of one locomotive */
static const uint8_t one_of_each[] = {0, 3, 6, 8, 10, 12, 14, 16, 18, 19, 20, 21};
enum { KINDS = sizeof kinds / sizeof *kinds, ENTRY_KINDS = 23, EACH = sizeof one_of_each };
static dcc_station full;

/* a command to a long address, or to all where there is none */
static void command_kind(int kind, int address) {
    uint8_t bytes[6], len = 0, sum = 0;
    if (address < 0) bytes[len++] = 0;
    if (address >= 0) bytes[len++] = (uint8_t)(0xC0 + address / 256), bytes[len++] = (uint8_t)address;
    for (int i = 0; i < kinds[kind].len; i++) bytes[len++] = kinds[kind].bytes[i];
    for (int i = 0; i < len; i++) sum ^= bytes[i];
    bytes[len++] = sum;
    if (dcc_station_command(&station, bytes, len) > 3) exit(3);
}
static bool is_to_all;
static void make_full(void) {
    uint32_t kind = at / KINDS;
    if (at % KINDS == 0) {
        new_station();
        for (int i = 0; i < 128; i++) {
            if (kind < ENTRY_KINDS) command_kind((int)kind, 1000 + i);
            if (kind == ENTRY_KINDS) command_kind(one_of_each[i % EACH], 1000 + i / EACH);
            next_packet();
        }
        full = station;
        if (dcc_station_entries(&full) != 128) exit(4);
    }
    station = full;
    command_kind((int)(at % KINDS), is_to_all ? -1 : kind < ENTRY_KINDS ? 1127 : 1009);
}

/* Stations with 128 entries: each to a different locomotive, or of all kinds that one locomotive can have. */
static dcc_station fulls[2];
static void fill_stations(void) {
    for (int i = 0; i < 128; i++) {
        station = fulls[0];
        if (i == 0) new_station();
        command_kind(3, 1000 + i);
        next_packet();
        fulls[0] = station;
        station = fulls[1];
        if (i == 0) new_station();
        command_kind(one_of_each[i % EACH], 1000 + i / EACH);
        next_packet();
        fulls[1] = station;
    }
    if (dcc_station_entries(&fulls[0]) != 128 || dcc_station_entries(&fulls[1]) != 128) exit(7);
}
static void take_full(void) { station = fulls[at]; }
static void forget_address(void) { dcc_station_forget(&station, DCC_LONG, 1000); }
/* The most instructions of a stop: 64 commands wait, and the stop withdraws none of them. */
enum { SPEEDS = 6 };
static void make_wait(void) {
    new_station();
    for (int i = 0; i < 64; i++) command_kind(SPEEDS + i % (KINDS - SPEEDS), 1000 + i);
    full = station;
}
static void wait_again(void) { station = full; }

static void read_line(void) { dcc_frame_of_line(lines[at], strlen(lines[at]), &frame); }

/* ---- the clock ---- */

/* now() is a place in time, and since(now()) how many instructions were done from there on */
#ifdef __riscv
static void start_clock(void) {}
static uint32_t now(void) {
    uint32_t count;
    __asm__ volatile(".option push\n.option arch, +zicsr\nrdinstret %0\n.option pop" : "=r"(count));
    return count;
}
static uint32_t since(uint32_t then) { return now() - then; }
#else
/* SysTick counts down 24 bits, on these boards at 25 MHz: a step for 40 instructions */
#define SYSTICK ((volatile uint32_t *)0xE000E010)
static void start_clock(void) {
    SYSTICK[1] = 0xffffff;
    SYSTICK[2] = 0;
    SYSTICK[0] = 5;
}
static uint32_t now(void) { return SYSTICK[2]; }
static uint32_t since(uint32_t then) { return ((then - now()) & 0xffffff) * 40; }
#endif

/* ---- the calls ---- */

/* the stack is painted below where it stands, and looked at afterwards */
extern uint32_t stack_top[];
enum { STACK = 32768 / 4, PAINT = 0x5a5a5a5a };

static inline volatile uint32_t *stack_pointer(void) {
    volatile uint32_t *at;
#ifdef __riscv
    __asm__ volatile("mv %0, sp" : "=r"(at));
#else
    __asm__ volatile("mov %0, sp" : "=r"(at));
#endif
    return at;
}

/* so many calls, what is done before each of them left out */
static void measure_behind(const char *name, void (*before)(void), void (*call)(void), uint32_t count) {
    static uint32_t own;
    volatile uint32_t *top = stack_pointer(), *word = stack_top - STACK;
    uint64_t sum = 0;
    uint32_t most = 0;
    while (word < top) *word++ = PAINT;
    for (at = 0; at < count; at++) {
        before();
        uint32_t then = now();
        call();
        uint32_t took = since(then);
        sum += took;
        if (took > most) most = took;
    }
    for (word = stack_top - STACK; *word == PAINT;) word++;
    uint32_t mean = (uint32_t)(sum / count);
    if (call == nothing) {
        own = mean;
    } else {
        unsigned stack = (unsigned)((uintptr_t)top - (uintptr_t)word);
        printf("%s %u %u %u\n", name, (unsigned)(mean - own), (unsigned)(most - own), stack);
    }
}

static void measure(const char *name, void (*call)(void), uint32_t count) {
    measure_behind(name, nothing, call, count);
}

static void take_capture(void) {
    uint32_t us = 0;
    framer = dcc_framer_new();
    for (int c = getchar(), before = ' '; c != EOF; before = c, c = getchar()) {
        bool is_digit = c >= '0' && c <= '9';
        if (is_digit) us = us * 10 + (uint32_t)(c - '0');
        if (is_digit || before < '0' || before > '9') continue;
        if (half_count == sizeof halves / sizeof *halves || frame_count == sizeof frames / sizeof *frames) exit(2);
        halves[half_count++] = (uint16_t)us;
        if (dcc_push(&framer, (uint16_t)us, &outcome) && outcome.refusal == 0) frames[frame_count++] = outcome.frame;
        us = 0;
    }
}

/* a programming track in place of the frames of the capture: each question of some CVs and a write, five times, with
 * three resets before each */
static void add_five(const dcc_frame *it) {
    static const dcc_frame reset = {3, {0}};
    for (int i = 0; i < 3; i++) frames[frame_count++] = reset;
    for (int i = 0; i < 5; i++) frames[frame_count++] = *it;
}
static void take_programming_track(void) {
    frame_count = 0;
    for (uint16_t cv = 1; cv <= 100; cv++) {
        for (uint8_t known = 0; known < 9; known++) {
            reader = (dcc_reader){.cv = cv, .known = known};
            dcc_reader_question(&reader, &frame);
            add_five(&frame);
        }
        uint8_t place = (uint8_t)(cv - 1), byte = (uint8_t)(cv * 3);
        add_five(&(dcc_frame){4, {0x7c, place, byte, 0x7c ^ place ^ byte}});
    }
}

int main(void) {
    take_capture();
    start_clock();
    for (at = 0; at < frame_count; at++) dcc_line(GIVEN, lines[at]);
    measure("", nothing, frame_count);
    measure("dcc_push", push, half_count);
    measure("dcc_push_run", push_run, half_count);
    measure("dcc_push_many", push_many, half_count);
    measure("dcc_lost_new", new_finder, 100);
    measure("dcc_lost_push", push_lost, half_count);
    measure("dcc_lost_push_run", push_lost_run, half_count);
    measure("dcc_lost_push_many", push_lost_many, half_count);
    measure_behind("dcc_lost_push:lost", make_end, push_end, frame_count);
    measure("dcc_meter_new", new_meter, 100);
    measure("dcc_meter_push_run", push_meter, half_count);
    measure("dcc_meter_push_many", push_meter_many, half_count);
    measure("dcc_meter_read", read_meter, 100);
    measure("dcc_read", read_frame, frame_count);
    measure("dcc_line", write_line, frame_count);
    measure("dcc_plain", write_words, frame_count);
    measure("dcc_frame_of_line", read_line, frame_count);
    measure_behind("dcc_frame_of_packet", make_packet, frame_packet, frame_count);
    measure("dcc_halves", send, frame_count);
    measure("dcc_sender_start", start_sender, frame_count);
    begin_sending();
    measure_behind("dcc_sender_half", keep_sending, send_half, 84 * 100);
    measure("dcc_loco_new", new_loco, 100);
    measure("dcc_loco_apply", apply_loco, frame_count);
    measure("dcc_loco_hears", loco_hears, frame_count);
    measure("dcc_loco_power_up", power_up_loco, 100);
    measure("dcc_small_loco_new", new_small_loco, 100);
    measure("dcc_small_loco_cv", small_loco_cv, frame_count);
    measure("dcc_small_loco_apply", apply_small_loco, frame_count);
    measure("dcc_small_loco_hears", small_loco_hears, frame_count);
    measure("dcc_board_new", new_board, 100);
    measure("dcc_board_apply", apply_board, frame_count);
    measure("dcc_board_hears", board_hears, frame_count);
    measure("dcc_station_new", new_station, 100);
    measure_behind("dcc_station_command", make_room, command_station, frame_count);
    new_station();
    measure_behind("dcc_station_next:first", command_station, next_packet, frame_count);
    while (dcc_station_waiting(&station) > 0) next_packet();
    measure("dcc_station_next", next_packet, 1000);
    measure_behind("dcc_station_next:one", make_full, next_packet, KINDS * (ENTRY_KINDS + 1));
    is_to_all = true;
    measure_behind("dcc_station_next:all", make_full, next_packet, KINDS * (ENTRY_KINDS + 1));
    make_wait();
    measure_behind("dcc_station_stop", wait_again, stop_station, 100);
    measure("dcc_station_waiting", tell_waiting, 100);
    measure("dcc_station_entries", tell_entries, 100);
    fill_stations();
    measure_behind("dcc_station_forget", take_full, forget_address, 2);
    measure("dcc_functions_turn", turn_function, 1000);
    measure("dcc_functions_is_on", tell_function, 1000);
    measure("dcc_service_new", new_service, 100);
    measure("dcc_service_apply", apply_service, frame_count);
    measure("dcc_service_power_up", power_up_service, 100);
    measure("dcc_small_service_new", new_small_service, 100);
    measure("dcc_small_service_cv", small_service_cv, frame_count);
    measure("dcc_small_service_apply", apply_small_service, frame_count);
    measure("dcc_decoder_new", new_decoder, 100);
    measure("dcc_decoder_power_up", power_up_decoder, 100);
    measure("dcc_decoder_hear", hear_decoder, frame_count);
    measure("dcc_decoder_end_service", end_decoder, 100);
    measure("dcc_decoder_set_main_only", keep_decoder, 100);
    measure("dcc_board_decoder_new", new_board_decoder, 100);
    measure("dcc_board_decoder_power_up", power_up_board_decoder, 100);
    measure("dcc_board_decoder_hear", hear_board_decoder, frame_count);
    measure("dcc_board_decoder_end_service", end_board_decoder, 100);
    measure("dcc_board_decoder_set_main_only", keep_board_decoder, 100);
    measure("dcc_reader_new", new_reader, 1000);
    measure("dcc_reader_question", ask_reader, 1000);
    measure("dcc_reader_answer", answer_reader, 1000);
    measure("dcc_writer_new", new_writer, 1000);
    measure("dcc_writer_question", ask_writer, 1000);
    measure("dcc_writer_answer", answer_writer, 1000);
    measure("dcc_service_frame", frame_service_packet, 1000);
    take_programming_track();
    new_service();
    measure("dcc_service_apply:inside", apply_service, frame_count);
    new_small_service();
    measure("dcc_small_service_apply:inside", apply_small_service, frame_count);
    new_decoder();
    measure("dcc_decoder_hear:inside", hear_decoder, frame_count);
    new_board_decoder();
    measure("dcc_board_decoder_hear:inside", hear_board_decoder, frame_count);
    measure("dcc_service_read", read_service_packet, frame_count);
    return 0;
}
