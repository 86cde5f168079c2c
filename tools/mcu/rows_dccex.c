/* Rows about the interrupts of the command station of examples/firmware/command_station, which a serial line does not
 * show.
 *
 *     rows_dccex late       the main loop is late: the half-bits of the main track, from the first interrupt on
 *     rows_dccex pause      1 if a current that began before a pause of the power counts as an answer after it
 *     rows_dccex round      the answers of two rounds of the main loop, for which three commands wait
 *     rows_dccex board0     the answers of a station that counts turnouts from board 0
 *     rows_dccex joined LATE TRACK      the half-bits of the main track (0) or of the programming track (1) of joined
 *                           tracks, whose main loop runs after each LATE half-bits
 *     rows_dccex alone      the half-bits of the main track of joined tracks after <!>, if the programming track has no
 *                           interrupts
 *     rows_dccex turns      the answer to a command of port 1 after two rounds, while commands of port 0 wait
 *     rows_dccex overload   1 if the power is on after an overload and the commands that waited, among them <1>
 *     rows_dccex stale      the half-bits of the programming track of joined tracks after a command for this track: <!>
 *                           came while the command ran, and a speed waited for the track before
 */
#include "dccex.h"
#include <stdio.h>
#include <stdlib.h>
#include <string.h>

static dccex station;

static void take(const char *bytes) {
    for (; *bytes; bytes++) dccex_take(&station, 0, *bytes);
}

/* Two packets without a main loop, then one round of it, and then four packets without it. */
static void late(void) {
    for (int i = 0; i < 2 * 84; i++) printf("%u\n", dccex_half(&station));
    take("<t 3 10 1>");
    dccex_process(&station);
    for (int i = 0; i < 102 + 3 * 84; i++) printf("%u\n", dccex_half(&station));
}

/* Draws the current for some microseconds of the programming track. */
static void draw(uint32_t us, bool draws) {
    for (uint32_t time = 0; time < us;) time += dccex_programming_half(&station, draws);
}

static void pause(void) {
    take("<R 8>");
    dccex_process(&station);
    draw(3000, true);
    take("<0>");
    dccex_process(&station);
    dccex_programming_half(&station, true);
    take("<R 8>");
    dccex_process(&station);
    draw(3000, true);
    draw(1000, false);
    printf("%d\n", station.programming.has_answer);
}

static void show_answers(void) {
    char c;
    while (dccex_give(&station, 0, &c)) putchar(c);
}

/* Three commands wait for two rounds. */
static void round_by_round(void) {
    take("<x><1><s>");
    for (int rounds = 0; rounds < 2; rounds++) dccex_process(&station);
    show_answers();
}

static void from_board_0(void) {
    station.counts_from_board_0 = true;
    take("<T 1 DCC 1><T><T 1 DCC 2040><T>");
    for (int rounds = 0; rounds < 4; rounds++) dccex_process(&station);
    show_answers();
}

static void turns(void) {
    char c;
    take("<x><x><x><x>");
    for (const char *bytes = "<t 3>"; *bytes; bytes++) dccex_take(&station, 1, *bytes);
    for (int rounds = 0; rounds < 2; rounds++) dccex_process(&station);
    while (dccex_give(&station, 1, &c)) putchar(c);
}

/* Commands come faster than the station executes them, until the power goes off. */
static void overload(void) {
    station.most_current = 100;
    take("<1>");
    dccex_process(&station);
    do {
        take("<1><1>");
        for (int halves = 0; halves < 200; halves++) dccex_half(&station);
        dccex_process(&station);
    } while (!dccex_measure(&station, 200));
    for (int rounds = 0; rounds < 100; rounds++) dccex_process(&station);
    printf("%d\n", station.is_on);
}

/* The next half-bits of both tracks, in the order of their times. */
static void both(int shown) {
    static uint32_t times[2];
    int at = times[1] < times[0];
    uint16_t us = at == 0 ? dccex_half(&station) : dccex_programming_half(&station, false);
    times[at] += us > 0 ? us : 1000;
    if (at == shown && us > 0) printf("%u\n", us);
}

static void joined(int late, int shown) {
    take("<1 JOIN>");
    dccex_process(&station);
    for (int i = 0; i < 400; i++) {
        char command[20];
        snprintf(command, sizeof command, "<t %d %d 1>", 1 + i % 9, i % 127);
        if (i % 4 == 0) take(command);
        for (int halves = 0; halves < 200; halves++) {
            both(shown);
            if (halves % late == 0) dccex_process(&station);
        }
    }
}

static void alone(void) {
    take("<1 JOIN>");
    for (int halves = 0; halves < 2000; halves++) {
        if (halves == 500) take("<!>");
        uint16_t us = dccex_half(&station);
        if (halves > 500) printf("%u\n", us);
        dccex_process(&station);
    }
}

/* Both tracks run until a condition of the station holds. */
#define UNTIL(condition, shown) \
    for (int halves = 0; halves < 100000 && !(condition); halves++) { \
        both(shown); \
        dccex_process(&station); \
    }

static void stale(void) {
    take("<1 JOIN>");
    UNTIL(station.programming.is_joined && !station.programming.is_ready, -1);
    take("<t 3 40 1>");
    dccex_process(&station);
    UNTIL(station.programming.is_ready, -1);
    dccex_process(&station);
    take("<W 8 3><!>");
    dccex_process(&station);
    UNTIL(station.task.kind == 0, -1);
    for (int halves = 0; halves < 4000; halves++) {
        both(1);
        dccex_process(&station);
    }
}

int main(int argc, char **argv) {
    if (argc < 2) return 2;
    dccex_begin(&station);
    if (strcmp(argv[1], "late") == 0) late();
    else if (strcmp(argv[1], "pause") == 0) pause();
    else if (strcmp(argv[1], "board0") == 0) from_board_0();
    else if (strcmp(argv[1], "joined") == 0 && argc == 4) joined(atoi(argv[2]), atoi(argv[3]));
    else if (strcmp(argv[1], "stale") == 0) stale();
    else if (strcmp(argv[1], "alone") == 0) alone();
    else if (strcmp(argv[1], "turns") == 0) turns();
    else if (strcmp(argv[1], "overload") == 0) overload();
    else round_by_round();
    return 0;
}
