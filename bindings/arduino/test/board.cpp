/* A board for the sketches, over that of examples/firmware: text goes to standard output. A sketch of a decoder also
 * writes a line for each value of a pin. */
#include "Arduino.h"
extern "C" {
#define _Noreturn
#include "board.h"
}

Port Serial;
static uint32_t now;
static void (*edge)();
static int edges;
static bool isOutput[256];
static uint8_t level;

/* True if the sketch has switched interrupts off, or if an interrupt runs. */
static bool areOff;
void interrupts() { areOff = false; }
void noInterrupts() { areOff = true; }

/* The sketches take the time to begin anew. An interrupt between the time and the begin would spoil what it begins. */
uint32_t micros() {
    if (edge && !areOff) show("# the time, while an interrupt may come\n");
    return now;
}
unsigned long millis() { return now / 1000; }
void pinMode(uint8_t pin, uint8_t mode) { isOutput[pin] = mode == OUTPUT; }

void digitalWrite(uint8_t pin, uint8_t to) {
    if (!isOutput[pin]) return;
    level = to;
#ifndef STATION
    analogWrite(pin, to);
#endif
}

void analogWrite(uint8_t pin, int value) {
    Serial.print("pin ");
    Serial.print(pin);
    Serial.print(" is ");
    Serial.println(value);
}


void attachInterrupt(uint8_t, void (*call)(), int mode) {
    edge = call;
    edges = mode;
}

void Port::print(const char *text) { show(text); }

void Port::print(char c) {
    char text[2] = {c, 0};
    show(text);
}

void Port::print(unsigned long number, int base) {
    char digits[12], *first = digits + 11;
    *first = 0;
    do {
        *--first = "0123456789abcdef"[number % base];
        number /= base;
    } while (number > 0);
    show(first);
}

#ifdef STATION
/* Lines come as they are typed, and each half-bit is written when the timer asks for it. The board keeps LINE
 * bytes of a line; the bytes of a longer line after these come as x. */
static char line[LINE];
static uint32_t len, place;
static bool isTyped;
static uint16_t after;

#ifdef ARDUINO_ARCH_RP2040
#include <pico/time.h>
static alarm_callback_t alarm;

alarm_id_t add_alarm_in_us(uint64_t us, alarm_callback_t call, void *, bool) {
    alarm = call;
    after = us;
    return 1;
}

/* The SDK counts a negative answer from the time of the alarm. It counts a positive answer from the end of the call,
 * which is a microsecond later here. */
static uint16_t turned() {
    int64_t answer = alarm(1, nullptr);
    return answer < 0 ? -answer : answer + 1;
}
#else
uint16_t turn();
static uint16_t turned() { return turn(); }
void startTimer(uint16_t us) { after = us; }
#endif

extern "C" uint16_t on_timer() {
    uint16_t us = after;
    uint8_t before = level;
    after = turned();
    if (level == before) show("# the level stays\n");
    return us;
}

int Port::available() {
    if (!isTyped && next_line(line, &len)) {
        isTyped = true;
        place = 0;
    }
    return isTyped ? (int)(len - place) + 1 : 0;
}

int Port::read() {
    uint32_t at = place++;
    isTyped = at < len;
    return at == len ? '\n' : at < LINE ? line[at] : 'x';
}
#else
/* The bytes that are typed before the first half-bit. */
#ifndef TYPED
#define TYPED ""
#endif
static const char *typed = TYPED;
int Port::available() { return *typed != 0; }
int Port::read() { return *typed != 0 ? *typed++ : -1; }

extern "C" void on_edge(uint32_t at) {
    static bool isRising;
    now = at;
    isRising = !isRising;
    const bool wereOff = areOff;
    areOff = true;
    if (edge && (edges == CHANGE || isRising == (edges == RISING))) edge();
    areOff = wereOff;
}
#endif

/* With LATE the main loop runs only once in so many interrupts, and to its end after the last. */
#ifndef LATE
#define LATE 1
#endif

int main() {
    int turns = 0;
    setup();
    do {
        if (turns++ % LATE == 0) loop();
    } while (wait_for_interrupt());
    for (; LATE > 1 && turns > 0; turns--) loop();
    return 0;
}
