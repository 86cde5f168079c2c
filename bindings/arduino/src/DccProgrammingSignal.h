/* Makes the signal of a programming track on a second pin, beside DccSignal.h. One file of the sketch includes it and
 * defines nextProgrammingHalfBit:
 *
 *     uint16_t nextProgrammingHalfBit() { return dccex_programming_half(&station, digitalRead(CURRENT_PIN)); }
 *
 * On a Mega a timer changes the level of pin 6, so each half-bit is exact to half a microsecond. On any other board
 * write startProgrammingTimer(us) for a timer of the board: it calls turnProgramming() after us microseconds, and then
 * each time after the microseconds that turnProgramming() returned. */
#ifndef DCC_PROGRAMMING_SIGNAL_H
#define DCC_PROGRAMMING_SIGNAL_H

#include <Arduino.h>

#include "DccInRam.h"

/* The sketch defines it. An interrupt calls it for each half-bit. It returns the duration in microseconds, or 0 if the
 * track has no power. The interrupt then calls it again after a millisecond. */
DCC_IN_RAM uint16_t nextProgrammingHalfBit();

enum { DCC_WITHOUT_POWER = 1000 };

#if defined(__AVR_ATmega1280__) || defined(__AVR_ATmega2560__)

enum { DCC_PROGRAMMING_PIN = 6 };

/* Bit 6 of TCCR4A turns the pin at the comparison. Bit 1 of TCCR4B is the clock divided by 8, so the timer counts half
 * microseconds. Without power the pin is low. If the time of the next turn has passed, the pin turns after 4 more
 * microseconds, and not after a round of the timer. */
inline void dccTurnProgramming() {
    uint16_t us = nextProgrammingHalfBit();
    TCCR4A = us > 0 ? 1 << COM4A0 : 0;
    noInterrupts();
    OCR4A += 2 * (us > 0 ? us : (uint16_t)DCC_WITHOUT_POWER);
    if ((int16_t)(OCR4A - TCNT4) < 8) OCR4A = TCNT4 + 8;
    interrupts();
}

/* The interrupt of the main track can interrupt this one, so the main track keeps its time. */
ISR(TIMER4_COMPA_vect, ISR_NOBLOCK) { dccTurnProgramming(); }

/* Begins to send. */
inline void beginProgrammingSignal() {
    pinMode(DCC_PROGRAMMING_PIN, OUTPUT);
    noInterrupts();
    TCCR4B = 1 << CS41;
    OCR4A = TCNT4;
    dccTurnProgramming();
    TIFR4 = 1 << OCF4A;
    TIMSK4 = 1 << OCIE4A;
    interrupts();
}

#else

enum { DCC_PROGRAMMING_PIN = 6 };

/* Changes the level of the track, and returns the microseconds until the next change. */
DCC_IN_RAM uint16_t turnProgramming() {
    static bool level;
    uint16_t us = nextProgrammingHalfBit();
    level = us > 0 && !level;
    digitalWrite(DCC_PROGRAMMING_PIN, level ? HIGH : LOW);
    return us > 0 ? us : (uint16_t)DCC_WITHOUT_POWER;
}

void startProgrammingTimer(uint16_t us);

/* Begins to send. */
inline void beginProgrammingSignal() {
    pinMode(DCC_PROGRAMMING_PIN, OUTPUT);
    startProgrammingTimer(turnProgramming());
}

#endif

#endif
