/* Measures the half-bits of a track on a pin. One file of the sketch includes it and defines onHalfBit:
 *
 *     void onHalfBit(uint16_t us) { track.halfBit(us); }
 *
 * On a board with an AVR a timer measures each half-bit to half a microsecond, even if another interrupt delays the
 * call of onHalfBit. The signal comes to DCC_EDGE_PIN: pin 8 of an Uno or Nano, pin 49 of a Mega, pin 4 of a
 * Leonardo. On any other board the signal comes to pin 2, each edge calls an interrupt, and micros() measures.
 *
 * For boards that are made for NmraDcc, a sketch for an AVR can define DCC_EDGES_ON_PIN_2 before it includes this file.
 * Then the signal comes to pin 2, each edge calls an interrupt, and micros() measures, so all timers are free. If the
 * sketch defines DCC_EDGES_BY_TIMER_2 too, timer 2 measures to half a microsecond. A sketch with the library Servo
 * needs it, since the interrupts of servos delay the call. */
#ifndef DCC_EDGES_H
#define DCC_EDGES_H

#include <Arduino.h>

#include "DccInRam.h"

/* The sketch defines it. An interrupt calls it at the end of each half-bit with its duration in microseconds, at most
 * 65535. */
DCC_IN_RAM void onHalfBit(uint16_t us);

#if defined(__AVR__) && !defined(DCC_EDGES_ON_PIN_2)

#if defined(__AVR_ATmega1280__) || defined(__AVR_ATmega2560__)
enum { DCC_EDGE_PIN = 49 };
#define DCC_EDGE_CONTROL TCCR4B
#define DCC_EDGE_TIME ICR4
#define DCC_EDGE_FLAGS TIFR4
#define DCC_EDGE_MASK TIMSK4
#define DCC_EDGE_MODE TCCR4A
#define DCC_EDGE_CAPTURED TIMER4_CAPT_vect
#define DCC_EDGE_OVERFLOWN TIMER4_OVF_vect
#elif !defined(TIMER1_CAPT_vect) || defined(__AVR_ATtiny84__) || F_CPU != 16000000L
#error "DccEdges.h knows no timer of this chip at this frequency. Define DCC_EDGES_ON_PIN_2 and use pin 2."
#else
#ifdef __AVR_ATmega32U4__
enum { DCC_EDGE_PIN = 4 };
#elif defined(__AVR_ATmega1284P__) || defined(__AVR_ATmega1284__) || defined(__AVR_ATmega644P__)
enum { DCC_EDGE_PIN = 14 }; /* PD6, as MightyCore counts the pins */
#else
enum { DCC_EDGE_PIN = 8 };
#endif
#define DCC_EDGE_CONTROL TCCR1B
#define DCC_EDGE_TIME ICR1
#define DCC_EDGE_FLAGS TIFR1
#define DCC_EDGE_MASK TIMSK1
#define DCC_EDGE_MODE TCCR1A
#define DCC_EDGE_CAPTURED TIMER1_CAPT_vect
#define DCC_EDGE_OVERFLOWN TIMER1_OVF_vect
#endif

/* The timer counts half microseconds. The overflows since the last edge, at most 3, and the count at the last edge. */
static volatile uint8_t dccOverflows;
static uint16_t dccLastEdge;

/* These bits are equal for all the timers: 6 is the kind of the next edge and 1 the clock divided by 8 (control), 5 a
 * captured edge and 0 an overflow (flags and mask). */
enum { DCC_EDGE_RISING = 1 << 6, DCC_EDGE_CLOCK = 1 << 1, DCC_EDGE_CAPTURE = 1 << 5, DCC_EDGE_OVERFLOW = 1 << 0 };

ISR(DCC_EDGE_OVERFLOWN) {
    if (dccOverflows < 3) dccOverflows++;
}

ISR(DCC_EDGE_CAPTURED) {
    uint16_t now = DCC_EDGE_TIME;
    uint8_t overflows = dccOverflows, later = 0;
    DCC_EDGE_CONTROL ^= DCC_EDGE_RISING;
    uint8_t flags = DCC_EDGE_FLAGS;
    if (flags & DCC_EDGE_CAPTURE) DCC_EDGE_FLAGS = DCC_EDGE_CAPTURE; /* the new kind of edge can set it */
    if (flags & DCC_EDGE_OVERFLOW) {                                 /* the interrupt of an overflow waits */
        DCC_EDGE_FLAGS = DCC_EDGE_OVERFLOW;
        if (now < 0x8000) overflows++;
        else later = 1; /* it came after the edge */
    }
    dccOverflows = later;
    /* how often 65536 half microseconds have passed, and the rest */
    uint8_t whole = overflows - (now < dccLastEdge ? 1 : 0);
    uint16_t us = (uint16_t)(now - dccLastEdge) / 2;
    dccLastEdge = now;
    onHalfBit(whole == 0 ? us : whole == 1 ? us | 0x8000 : 0xffff);
}

/* Begins to measure. */
inline void beginEdges() {
    pinMode(DCC_EDGE_PIN, INPUT);
    noInterrupts();
    DCC_EDGE_MODE = 0; /* no pulses, the timer counts to 65535 */
    DCC_EDGE_CONTROL = DCC_EDGE_CLOCK | (digitalRead(DCC_EDGE_PIN) ? 0 : DCC_EDGE_RISING);
    DCC_EDGE_FLAGS = DCC_EDGE_CAPTURE | DCC_EDGE_OVERFLOW;
    DCC_EDGE_MASK = DCC_EDGE_CAPTURE | DCC_EDGE_OVERFLOW;
    dccOverflows = 3;
    interrupts();
}

#else

enum { DCC_EDGE_PIN = 2 };

static uint32_t dccLastEdge;

#ifdef __AVR__
/* micros() of an AVR has steps of 4 microseconds. Another interrupt delays the call, for example that of a byte of the
 * serial port by 7 microseconds, and that of servos by 19. So a duration that no half-bit has counts as the nearest one
 * of a half-bit, as if the edges are at most 20 microseconds late: a one of 58 microseconds has 38 to 78 then. */
static uint16_t dccNearest(uint16_t us) {
    if (us >= 38 && us < 52) return 52;
    if (us > 64 && us <= 78) return 64;
    if (us > 78 && us < 90) return 90;
    return us;
}
#else
static DCC_IN_RAM uint16_t dccNearest(uint16_t us) { return us; }
#endif

#ifdef DCC_EDGES_BY_TIMER_2
#if !defined(__AVR__) || !defined(TCNT2) || F_CPU != 16000000L
#error "DccEdges.h knows no timer 2 of this chip at this frequency."
#endif
static uint8_t dccLastCount;

/* Begins to count half microseconds, from 0 to 255 again and again. */
static void dccBeginCount() {
    TIMSK2 = 0;
    TCCR2A = 0;
    TCCR2B = 1 << CS21;
}

/* Returns the duration since the last edge. It differs by less than 64 microseconds from `us`, which micros() gave. */
static uint32_t dccExact(uint32_t us, uint8_t count) {
    int8_t more = (int8_t)(uint8_t)(count - dccLastCount - (uint8_t)(2 * us));
    dccLastCount = count;
    return us + more / 2;
}
#define DCC_EDGE_COUNT TCNT2
#else
static void dccBeginCount() {}
static DCC_IN_RAM uint32_t dccExact(uint32_t us, uint8_t) { return us; }
#define DCC_EDGE_COUNT 0
#endif

static DCC_IN_RAM void dccOnEdge() {
    uint8_t count = DCC_EDGE_COUNT;
    uint32_t now = micros(), us = dccExact(now - dccLastEdge, count);
    dccLastEdge = now;
    onHalfBit(dccNearest(us > 65535 ? 65535 : (uint16_t)us));
}

/* Begins to measure. */
inline void beginEdges() {
    dccBeginCount();
    dccLastEdge = micros();
    attachInterrupt(digitalPinToInterrupt(DCC_EDGE_PIN), dccOnEdge, CHANGE);
}

#endif

#endif
