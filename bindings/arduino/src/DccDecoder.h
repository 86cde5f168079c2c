/* A decoder of a locomotive, of an accessory board, or of both on one chip. A station can program the locomotive on the
 * main track and on the programming track. The decoder applies its own packets and calls the callbacks below, which are
 * named as in NmraDcc. A DccDecoder must be a global or static variable, so that its bytes are 0 at the start. */
#ifndef DCC_DECODER_H
#define DCC_DECODER_H

#include "DccAccessory.h"
#include "DccFactoryReset.h"

class DccDecoder {
public:
    enum : uint16_t { NO_BOARD = 0xffff };

    /* Begins as a locomotive with these CVs, CV1 first, and as the board of this number, 0 to 510, or NO_BOARD. The
     * decoder copies the CVs, is outside service mode, and can hear both tracks. now is micros(). */
    void begin(const uint8_t cvs[DCC_CVS], uint32_t now, uint16_t boardNumber = NO_BOARD);

    /* Begins with the CVs that the sketch wrote to state.loco.cvs before. So the sketch needs no second array. */
    void powerUp(uint32_t now, uint16_t boardNumber = NO_BOARD);

    /* Keeps the locomotive on the main track if mainOnly is true. Otherwise the locomotive can hear both tracks. On the
     * main track, packets for the short addresses 116 to 127 look like packets of service mode (dcc.h). If the
     * locomotive is in service mode, service mode ends first. */
    void setMainOnly(bool mainOnly);

    /* Call one of them in an interrupt: at the end of each half-bit, or at each change of the pin with micros(). */
    DCC_IN_RAM void halfBit(uint16_t us) { track.halfBit(us); }
    DCC_IN_RAM void edge(uint32_t now) { track.edge(now); }

    /* Call it in loop(). Applies the packets that were found, and calls the callbacks. Ends service mode if no packet
     * of service mode came for 20 milliseconds. If a CV changed in service mode, the locomotive powers up when service
     * mode ends. */
    void process();

    /* Returns the milliseconds since the last packet of the track, or since begin (DccAccessory.h). */
    uint32_t packetAge() const { return packets.age(); }

    /* The state of the decoders (dcc.h). Of the fields of state, the sketch may write only state.loco.cvs. */
    dcc_decoder state;
    dcc_board board;

private:
    void listen(uint32_t now, uint16_t boardNumber);
    void hearLoco(const dcc_frame &frame, const dcc_packet &packet);
    DccTrack track;
    DccPacketTimer timer, packets;
    DccFactoryReset factory;
    bool hasBoard;
};

/* Callbacks, beside those for outputs and signals in DccAccessory.h: write those that you want. A callback that you do
 * not write does nothing. Each is called in loop(), after a packet for this decoder. */

/* The speed or the direction has changed. The step is 1 to the number of steps: 14, 28 or 126. Step 0 is a stop. It is
 * an emergency stop if the number of steps is 1, and an ordinary stop if it is 0. */
void notifyDccSpeed(uint8_t step, uint8_t of, bool forward);

/* A function has changed, F0 to F68. */
void notifyDccFunc(uint8_t function, bool on);

/* A binary state has changed, 1 to 127. */
void notifyDccState(uint8_t state, bool on);

/* A packet of either track changed a CV of a DccDecoder. Write the CV into permanent memory here. */
void notifyCVChange(uint16_t cv, uint8_t value);

/* A second packet in a row wrote 8 to CV8, on the main track or in direct mode on the programming track: the station
 * asks for the first values of all CVs. CV8 keeps its value, and the decoder does not acknowledge the packet. */
void notifyCVResetFactoryDefault();

/* A reset packet came. */
void notifyDccReset();

/* The decoder acknowledges a packet of the programming track: draw 60 mA from the track for 6 milliseconds. */
void notifyCVAck();

/* Service mode begins or ends. */
void notifyServiceMode(bool isInService);

#endif
