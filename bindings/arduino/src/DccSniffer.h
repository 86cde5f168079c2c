/* Lists what comes over a track: packets and refusals as `dcc show --words` lists them, packets that a decoder does not
 * hear as `dcc lost --words` lists them, or half-bits in runs, which `dcc` reads. */
#ifndef DCC_SNIFFER_H
#define DCC_SNIFFER_H

#include <dcc.h>

#include "DccInRam.h"

/* An Uno lists no lost packets. A dcc_lost takes 808 bytes and dcc_lost_push another 800 bytes of stack, which an Uno
 * does not have. `dcc lost` finds the lost packets in the runs. */
#ifdef __AVR__
#include <avr/io.h>
#if RAMEND < 0x1000
#define DCC_NO_LOST
#endif
#endif

class DccSniffer {
public:
    enum { LINE = 168, RUN = 12 };

    /* Begins to listen. now is micros(). */
    void begin(uint32_t now);

    /* Call it in an interrupt at the end of each half-bit, with its microseconds (DccEdges.h). */
    DCC_IN_RAM void halfBit(uint16_t us);

    /* Or call it in the interrupt of the pin at each change of the level. now is micros(). */
    DCC_IN_RAM void edge(uint32_t now);

    /* Call it in loop(). Writes the next packet, refusal or lost packet as a line of text:
     *
     *     84 loco s3 speed28 f 4
     *     252 refused H5 036260
     *     336 lost loco s3 functions 0 16: preamble 11, ones 22 from 65 to 66
     *
     * The number is that of the last half-bit, from 1. Returns false if all half-bits are read. */
    bool nextLine(char line[LINE]);

    /* Or call it in loop(). Writes the next run of half-bits as a word of docs/FORMATS.md: "58*28", or "100" for one
     * half-bit. Returns false if no run is complete. A run of LONGEST half-bits is complete. */
    bool nextRun(char word[RUN]);
    enum { LONGEST = 1000 };

    /* Returns the number of half-bits that did not fit, because loop() was late. They count as half-bits of 65535
     * microseconds. */
    uint32_t unfit() const { return taken; }

private:
    bool take(uint16_t *us);
    bool writesLost(char *line);
    dcc_framer framer;
    /* The half-bits that can wait for loop(), and the finder of lost packets. */
#ifdef DCC_NO_LOST
    enum { PLACES = 128 };
#else
    enum { PLACES = 1024 };
    dcc_lost finder;
#endif
    uint32_t last, halves;
    uint32_t until, taken; /* of missed: the half-bits that loop() has to take, and that it took */
    uint16_t waiting[PLACES], current, length; /* current: the half-bit of the line or of the run */
    bool isOpen;                               /* the finder has not read the current half-bit */
    /* The numbers of half-bits that the interrupt wrote and loop() read, modulo 65536. If a half-bit does not fit, the
     * interrupt counts half-bits and writes none, until loop() has read all. */
    volatile uint16_t written, read;
    volatile bool isFull;
    volatile uint32_t missed;
};

#endif
