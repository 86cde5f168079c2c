/* A command station. It takes commands as packet lines and gives half-bits to a timer interrupt. */
#ifndef DCC_STATION_H
#define DCC_STATION_H

#include <dcc.h>

#include "DccInRam.h"

/* The reason why a command is refused: P1 to P14, C3 or C4 (docs/FORMATS.md). The letter is 0 if it is accepted. */
struct DccRefusal {
    char letter;
    uint8_t number;
};

class DccStation {
public:
    /* Begins with no command. queue is the most waiting commands, 1 to 64, slots the most entries, 1 to 128, and
     * repeats the copies of a command in a row, 1 to 8. Returns false for other sizes. */
    bool begin(uint8_t queue = 16, uint8_t slots = 32, uint8_t repeats = 2);

    /* Adds the command of a packet line, for example "loco s3 speed28 f 4". The line ends at its first NUL. */
    DccRefusal command(const char *line);

    /* Adds the command of a line of len bytes. A NUL or line feed among them is part of a word: P10 or P11. */
    DccRefusal command(const char *line, uint32_t len);

    /* Call it in loop(). Prepares the next packet, which may take milliseconds on a small chip. */
    void process();

    /* Call it in the interrupt of the timer that changes the level of the track (DccSignal.h). Returns the duration of
     * the next half-bit in microseconds. If loop() is late, the station sends an idle packet, so the track always has
     * a signal. */
    DCC_IN_RAM uint16_t half();

private:
    dcc_station station;
    dcc_sender sender, idle, next; /* the packet that is sent, an idle packet, and the next packet if isReady */
    volatile bool isReady;
};

#endif
