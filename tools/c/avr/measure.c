/* Calls the functions of dcc.h with the packets of a capture on standard input. run.c counts the cycles of each call
 * between its marks. tools/c/avr/measure names the calls by these numbers. */
#include "dcc.h"
#include <avr/io.h>
#include <stdio.h>
#include <string.h>

static dcc_framer framer;
static dcc_outcome outcome;
static dcc_packet packet;
static char line[DCC_LINE];
static uint16_t sent[DCC_HALVES];
static dcc_frame frame;
static dcc_timing timing = DCC_MAIN_TIMING;
static dcc_sender sender;
static dcc_loco loco;
static dcc_board board;
static dcc_service service;
static dcc_small_loco small_loco;
static dcc_small_service small_service;
static uint16_t cv;
static uint8_t value;
static bool is_changed;
static dcc_station station;
static bool is_heard;
static uint8_t cvs[DCC_CVS];

#define MARK(number, call) (GPIOR0 = number, call, GPIOR0 = 0)
#define BYTES frame.bytes, frame.len

static void call_all(uint16_t n) {
    uint16_t i;
    MARK(2, dcc_read(BYTES, &packet));
    MARK(3, dcc_line(BYTES, line));
    MARK(4, dcc_frame_of_line(line, strlen(line), &frame));
    MARK(5, dcc_loco_hears(&loco, BYTES, &is_heard));
    MARK(6, dcc_loco_apply(&loco, BYTES));
    MARK(7, dcc_board_hears(&board, BYTES, &is_heard));
    MARK(8, dcc_board_apply(&board, BYTES));
    MARK(9, dcc_service_apply(&service, BYTES, &is_heard));
    MARK(10, dcc_station_command(&station, BYTES));
    MARK(15, dcc_small_loco_cv(&small_loco, BYTES, &cv));
    MARK(16, dcc_small_loco_apply(&small_loco, BYTES, &value, &is_changed));
    MARK(17, dcc_small_service_cv(&small_service, BYTES, &cv));
    MARK(18, dcc_small_service_apply(&small_service, BYTES, &value, &is_changed, &is_heard));
    if (n % 8 == 0) {
        MARK(12, dcc_halves(BYTES, DCC_MAIN_TRACK, sent));
        MARK(13, dcc_sender_start(&sender, BYTES, &timing));
        for (i = 0; i < 100; i++) MARK(14, dcc_sender_half(&sender));
    }
    MARK(11, dcc_station_next(&station, &frame));
    if (dcc_station_waiting(&station) == 64) dcc_station_new(&station, 64, 128, 1);
}

int main(int argc, char **argv) {
    uint16_t us = 0, n = 0;
    int c, before = ' ';
    uint8_t is_outcome;
    (void)argc, (void)argv;
    cvs[0] = 3, cvs[28] = 2;
    dcc_loco_new(&loco, cvs);
    dcc_service_new(&service, cvs);
    dcc_small_loco_new(&small_loco, 3, 0, 0, 2);
    dcc_small_service_new(&small_service);
    dcc_board_new(&board, 12);
    dcc_station_new(&station, 64, 128, 1);
    for (; (c = getchar()) != EOF; before = c) {
        bool is_digit = c >= '0' && c <= '9';
        if (is_digit) us = us * 10 + (uint16_t)(c - '0');
        if (is_digit || before < '0' || before > '9') continue;
        MARK(1, is_outcome = dcc_push(&framer, us, &outcome));
        if (is_outcome && outcome.refusal == 0) {
            frame = outcome.frame;
            call_all(n++);
        }
        us = 0;
    }
    return 0;
}
