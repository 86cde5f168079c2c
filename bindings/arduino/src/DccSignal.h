/* Makes the signal of a track on a pin. One file of the sketch includes it and defines nextHalfBit:
 *
 *     uint16_t nextHalfBit() { return station.half(); }
 *
 * On a board with an AVR a timer changes the level of the pin, so each half-bit is exact to half a microsecond: pin
 * 9 of an Uno, Nano or Leonardo, pin 46 of a Mega. On an RP2040 alarms change the level of pin 5. On any other board
 * write startTimer(us) for a timer of the board: it calls turn() after us microseconds, and then each time after the
 * microseconds that turn() returned. */
#ifndef DCC_SIGNAL_H
#define DCC_SIGNAL_H

#include <Arduino.h>

#include "DccInRam.h"

/* The sketch defines it. An interrupt calls it for each half-bit. It returns the duration in microseconds. */
DCC_IN_RAM uint16_t nextHalfBit();

#ifdef __AVR__

#if defined(__AVR_ATmega1280__) || defined(__AVR_ATmega2560__)
enum { DCC_SIGNAL_PIN = 46 };
#define DCC_SIGNAL_MODE TCCR5A
#define DCC_SIGNAL_CONTROL TCCR5B
#define DCC_SIGNAL_COUNT TCNT5
#define DCC_SIGNAL_NEXT OCR5A
#define DCC_SIGNAL_FLAGS TIFR5
#define DCC_SIGNAL_MASK TIMSK5
#define DCC_SIGNAL_TURNED TIMER5_COMPA_vect
#elif !defined(TIMER1_COMPA_vect) || defined(__AVR_ATtiny84__) || defined(__AVR_ATtiny85__) || F_CPU != 16000000L
#error "DccSignal.h knows no timer of this chip at this frequency."
#else
#if defined(__AVR_ATmega1284P__) || defined(__AVR_ATmega1284__) || defined(__AVR_ATmega644P__)
enum { DCC_SIGNAL_PIN = 13 }; /* PD5, as MightyCore counts the pins */
#else
enum { DCC_SIGNAL_PIN = 9 };
#endif
#define DCC_SIGNAL_MODE TCCR1A
#define DCC_SIGNAL_CONTROL TCCR1B
#define DCC_SIGNAL_COUNT TCNT1
#define DCC_SIGNAL_NEXT OCR1A
#define DCC_SIGNAL_FLAGS TIFR1
#define DCC_SIGNAL_MASK TIMSK1
#define DCC_SIGNAL_TURNED TIMER1_COMPA_vect
#endif

/* These bits are equal for both timers: 6 turns the pin (mode), 1 is the clock divided by 8 (control), 1 the comparison
 * (flags and mask). The timer counts half microseconds. */
enum { DCC_SIGNAL_TURN = 1 << 6, DCC_SIGNAL_CLOCK = 1 << 1, DCC_SIGNAL_COMPARE = 1 << 1 };

ISR(DCC_SIGNAL_TURNED) { DCC_SIGNAL_NEXT += 2 * nextHalfBit(); }

/* Begins to send. */
inline void beginSignal() {
    pinMode(DCC_SIGNAL_PIN, OUTPUT);
    noInterrupts();
    DCC_SIGNAL_MODE = DCC_SIGNAL_TURN;
    DCC_SIGNAL_CONTROL = DCC_SIGNAL_CLOCK;
    DCC_SIGNAL_NEXT = DCC_SIGNAL_COUNT + 2 * nextHalfBit();
    DCC_SIGNAL_FLAGS = DCC_SIGNAL_COMPARE;
    DCC_SIGNAL_MASK = DCC_SIGNAL_COMPARE;
    interrupts();
}

#else

enum { DCC_SIGNAL_PIN = 5 };

/* Changes the level of the track, and returns the microseconds until the next change. */
DCC_IN_RAM uint16_t turn() {
    static bool level;
    level = !level;
    digitalWrite(DCC_SIGNAL_PIN, level ? HIGH : LOW);
    return nextHalfBit();
}

void startTimer(uint16_t us);

#if defined(ARDUINO_ARCH_RP2040) && !defined(ARDUINO_ARCH_MBED)
#include <pico/time.h>
/* A negative result counts from the alarm before, so no delay adds up. */
static int64_t dccOnAlarm(alarm_id_t, void *) { return -(int64_t)turn(); }
void startTimer(uint16_t us) { add_alarm_in_us(us, dccOnAlarm, nullptr, true); }
#endif

/* Begins to send. */
inline void beginSignal() {
    pinMode(DCC_SIGNAL_PIN, OUTPUT);
    startTimer(nextHalfBit());
}

#endif

#endif
