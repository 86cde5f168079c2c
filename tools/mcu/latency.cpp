/* A board of the command station in virtual time: how long a command needs from the serial line to the track. Without
 * words of the compiler the board is a micro:bit with the firmware command_station. With -DMEGA it is a Mega with the
 * sketch CommandStation. The two serial ports have 115,200 baud in both directions.
 *
 *     latency END ROUND < LINES        the microseconds of the session, and of the main loop's computing in a round
 *
 * A line `TIME TEXT` has the bytes that come to port 0 from this microsecond on, one after the other, and a line
 * `TIME 1 TEXT` those that come to port 1. From a line `TIME draw MA` on the main track draws so many milliamperes. The
 * program writes a line for each command (`command TIME TEXT`), each packet of the main track (`packet TIME BYTES`),
 * each change of its power (`power TIME 0`) and each answer (`answer TIME TEXT` of port 0, `answer1 TIME TEXT` of port
 * 1), and at the end `lost COUNT`, the bytes for which the board had no room, and `round TIME`, the longest round of
 * the main loop. */
#include <algorithm>
#include <cstdint>
#include <cstdio>
#include <cstdlib>
#include <cstring>
#include <deque>
#include <string>
#include <vector>
extern "C" {
#define _Noreturn [[noreturn]]
#include "board.h"
#include "dcc.h"
}
#ifdef MEGA
#include "Arduino.h"
uint16_t turn();
uint16_t turnProgramming();
#endif

namespace {

struct Byte {
    double at; /* the time at which the byte is complete */
    char c;
};

const double BYTE = 1e6 / 115200 * 10;
enum { PORTS = 2 };

/* A serial port: the bytes that come, and the answers. */
struct Line {
    std::vector<Byte> coming;
    size_t came = 0;
    std::deque<char> buffer; /* of Arduino's core */
    double sent_until = 0;
    std::string answered, typed;
    bool is_over() const { return came == coming.size(); }
    double next() const { return coming[came].at; }
};

/* A current of the main track. */
struct Current {
    double from;
    unsigned milliamperes;
};

Line lines[PORTS];
std::vector<Current> currents;
unsigned long lost;
double now, end, computing, main_due, programming_due, last_edge, last_round, longest;
dcc_framer framer;
bool power;

#ifdef MEGA
enum { BUFFER = 63 }; /* of Arduino's core, in each direction */
uint16_t main_half() { return turn(); }
uint16_t programming_half() { return turnProgramming(); }
void take(uint8_t port, char c) {
    if (lines[port].buffer.size() < BUFFER) lines[port].buffer.push_back(c);
    else lost++;
}
#else
enum { BUFFER = 0 };
uint16_t main_half() { return on_timer(); }
uint16_t programming_half() {
    uint16_t us = on_programming_timer();
    return us > 0 ? us : 1000;
}
void take(uint8_t port, char c) { on_byte(port, c); }
#endif

/* The next byte of a port comes. */
void come(uint8_t port) {
    Line &of = lines[port];
    Byte byte = of.coming[of.came++];
    if (byte.c == '<') of.typed.clear();
    of.typed += byte.c;
    if (byte.c == '>') printf("command %.0f %s\n", byte.at, of.typed.c_str());
    take(port, byte.c);
}

unsigned current() {
    unsigned last = 0;
    for (const Current &it : currents) {
        if (it.from <= now && power) last = it.milliamperes;
    }
    return last;
}

void end_half(double at) {
    dcc_outcome outcome;
    if (dcc_push(&framer, (uint16_t)(at - last_edge + 0.5), &outcome)) {
        printf("packet %.0f ", at);
        if (outcome.refusal) printf("refused");
        for (int i = 0; i < outcome.frame.len; i++) printf("%02x", outcome.frame.bytes[i]);
        printf("\n");
    }
    last_edge = at;
}

/* All interrupts up to a time. */
void pass(double until) {
    for (;;) {
        uint8_t port = 0;
        for (uint8_t i = 1; i < PORTS; i++) {
            if (!lines[i].is_over() && (lines[port].is_over() || lines[i].next() < lines[port].next())) port = i;
        }
        double byte = lines[port].is_over() ? until + 1 : lines[port].next();
        double next = std::min(byte, std::min(main_due, programming_due));
        if (next > until) break;
        now = next;
        if (next == byte) {
            come(port);
        } else if (next == main_due) {
            end_half(main_due);
            main_due += main_half();
        } else {
            programming_due += programming_half();
        }
    }
    now = until;
}

bool has_room_now(uint8_t port) { return port < PORTS && lines[port].sent_until - now <= BUFFER * BYTE; }

void give(uint8_t port, char c) {
    Line &of = lines[port];
    of.sent_until = std::max(of.sent_until, now) + BYTE;
    if (c == '\n') {
        printf("%s %.0f %s\n", port == 0 ? "answer" : "answer1", now, of.answered.c_str());
        of.answered.clear();
    } else {
        of.answered += c;
    }
}

/* The main loop calls it once in each round. */
void switch_power(bool is_on) {
    longest = std::max(longest, now - last_round);
    last_round = now;
    if (is_on != power) printf("power %.0f %d\n", now, is_on);
    power = is_on;
}

/* The main loop has computed, and waits for an interrupt. Returns false at the end of the session. */
bool wait() {
    double next = std::min(main_due, programming_due);
    for (const Line &of : lines) {
        if (!of.is_over()) next = std::min(next, of.next());
        if (of.sent_until > now) next = std::min(next, of.sent_until);
    }
    pass(std::max(now + computing, next));
    return now < end;
}

void read_lines() {
    char line[20000];
    while (fgets(line, sizeof line, stdin)) {
        char *text;
        double at = strtod(line, &text);
        if (strncmp(text, " draw ", 6) == 0) {
            currents.push_back({at, (unsigned)atoi(text + 6)});
            continue;
        }
        bool is_second = strncmp(text, " 1 ", 3) == 0;
        std::vector<Byte> &coming = lines[is_second].coming;
        if (!coming.empty()) at = std::max(at, coming.back().at);
        for (text += is_second ? 3 : 1; *text && *text != '\n'; text++) coming.push_back({at += BYTE, *text});
    }
}

}

#ifdef MEGA
Port Serial, Serial1;
static uint8_t number_of(const Port *port) { return port == &Serial1; }
int Port::available() { return (int)lines[number_of(this)].buffer.size(); }
int Port::read() {
    std::deque<char> &buffer = lines[number_of(this)].buffer;
    char c = buffer.front();
    buffer.pop_front();
    return c;
}
int Port::availableForWrite() { return has_room_now(number_of(this)); }
void Port::write(char c) {
    uint8_t port = number_of(this);
    if (!has_room_now(port)) pass(lines[port].sent_until - BUFFER * BYTE); /* as Arduino's core does */
    give(port, c);
}
int analogRead(uint8_t pin) { return pin == A0 ? (int)(current() * 1023 / 3000) : 0; }
void pinMode(uint8_t, uint8_t) {}
int digitalRead(uint8_t) { return LOW; }
void digitalWrite(uint8_t pin, uint8_t level) {
    if (pin == 3) switch_power(level == HIGH);
}
void startTimer(uint16_t us) { main_due = now + us; }
void startProgrammingTimer(uint16_t us) { programming_due = now + us; }
#else
extern "C" {
int __real_main();
void begin_serial() {}
bool has_room(uint8_t port) { return has_room_now(port); }
void give_byte(uint8_t port, char c) { give(port, c); }
uint16_t main_current() { return (uint16_t)current(); }
void notify_overload() { printf("overload %.0f\n", now); }
void set_power(bool is_on) { switch_power(is_on); }
bool draws_current() { return false; }
bool wait_for_interrupt() { return wait(); }
}
#endif

int run(int argc, char **argv) {
    if (argc != 3) return 2;
    end = atof(argv[1]);
    computing = atof(argv[2]);
    read_lines();
#ifdef MEGA
    setup();
    do loop();
    while (wait());
#else
    __real_main();
#endif
    printf("lost %lu\nround %.0f\n", lost, longest);
    return 0;
}

#ifdef MEGA
int main(int argc, char **argv) { return run(argc, argv); }
#else
extern "C" int __wrap_main(int argc, char **argv) { return run(argc, argv); }
#endif
