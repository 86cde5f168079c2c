/* Finds the packets in the signal of a track, from the edges of one pin. */
#ifndef DCC_TRACK_H
#define DCC_TRACK_H

#include <dcc.h>

#include "DccInRam.h"

class DccTrack {
public:
    enum { LINE = DCC_LINE + 16 };

    /* Begins to listen. now is micros(). */
    void begin(uint32_t now);

    /* Call it in an interrupt at the end of each half-bit, with its microseconds (DccEdges.h). */
    DCC_IN_RAM void halfBit(uint16_t us);

    /* Or call it in the interrupt of the pin at each change of the level. now is micros(). */
    DCC_IN_RAM void edge(uint32_t now);

    /* Call it in loop(). Writes the next packet or refusal that was found, with the number of its last half-bit, from
     * 1. At most four can wait, and further ones are lost. Stations repeat their packets. */
    bool next(uint32_t *half, dcc_outcome *seen);

    /* Writes the next one as a line of text: "84 loco s3 speed28 f 4" or "252 refused H5 036260". */
    bool nextLine(char line[LINE]);

private:
    struct Found {
        uint32_t half;
        dcc_outcome seen;
    };
    dcc_framer framer;
    uint32_t last, halves;
    Found found[4];
    /* The numbers of outcomes that the interrupt wrote and loop() read, modulo 256. A processor of 8 bits reads and
     * writes each at once, so an interrupt never sees half of a change. */
    volatile uint8_t written, read;
};

#endif
