/* An accessory decoder. It applies its own packets and calls the callbacks below, which are named as in NmraDcc. It
 * needs no CVs, so it fits an Uno. */
#ifndef DCC_ACCESSORY_H
#define DCC_ACCESSORY_H

#include "DccPacketTimer.h"
#include "DccTrack.h"

class DccAccessory {
public:
    /* Begins as the board of this number, 0 to 510. Returns false for any other number; the decoder then hears
     * nothing. */
    bool begin(uint16_t number, uint32_t now);

    /* Call one of them in an interrupt: at the end of each half-bit, or at each change of the pin with micros(). */
    DCC_IN_RAM void halfBit(uint16_t us) { track.halfBit(us); }
    DCC_IN_RAM void edge(uint32_t now) { track.edge(now); }

    /* Call it in loop(). Applies the packets that were found, and calls the callbacks. */
    void process();

    /* Returns the milliseconds since the last packet of the track, or since begin. A packet for another decoder counts
     * too. After 49 days without a packet, the milliseconds begin again at 0. */
    uint32_t packetAge() const { return packets.age(); }

    /* The state of the decoder (dcc.h). */
    dcc_board board;

private:
    DccTrack track;
    DccPacketTimer packets;
    bool hasBoard;
};

/* Applies a packet to a board, and calls the callbacks. */
void dccHearBoard(dcc_board &board, const dcc_frame &frame, const dcc_packet &packet);

/* Callbacks: write those that you want. A callback that you do not write does nothing. Each is called in loop(), after
 * a packet for the board. */

/* A packet is on the track, for this decoder or for another. Each decoder calls it before it hears the packet. The
 * callback can read the packet with dcc_read. */
void notifyDccMsg(const dcc_frame &frame);

/* A packet named this output of the board, also if the output keeps its state, or has changed it. The arguments are
 * the pair, 0 to 3, the output of the pair, and whether it is on. */
void notifyDccAccTurnoutBoard(uint16_t board, uint8_t pair, uint8_t direction, uint8_t power);

/* Comes with each notifyDccAccTurnoutBoard. The address is the number of the turnout, counted from board 1, as
 * dccTurnout(board, 2 * pair + direction) returns it: 1 to 2040, and 0 for board 0. */
void notifyDccAccTurnoutOutput(uint16_t address, uint8_t direction, uint8_t power);

/* An output of the board, 0 to 7, has changed. A packet that repeats the state of an output causes no call, so the
 * sketch can toggle something here. NmraDcc has no such callback. */
void notifyDccAccOutputChange(uint16_t board, uint8_t output, bool on);

/* A packet named this signal of the board, also if the signal keeps its aspect. */
void notifyDccSigOutputState(uint16_t address, uint8_t aspect);

#endif
