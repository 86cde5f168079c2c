/* A decoder of a locomotive whose CVs the sketch stores, for example in EEPROM. The decoder fits an Uno. A station can
 * program the decoder on the main track and on the programming track. The decoder calls the callbacks below, which are
 * named as in NmraDcc, and those of DccDecoder.h except notifyCVChange. */
#ifndef DCC_SMALL_DECODER_H
#define DCC_SMALL_DECODER_H

#include "DccDecoder.h"

class DccSmallDecoder {
public:
    /* Begins as the locomotive of the stored CVs, outside service mode. */
    void begin(uint32_t now);

    /* Call one of them in an interrupt: at the end of each half-bit, or at each change of the pin with micros(). */
    DCC_IN_RAM void halfBit(uint16_t us) { track.halfBit(us); }
    DCC_IN_RAM void edge(uint32_t now) { track.edge(now); }

    /* Call it in loop(). Applies the packets that were found, and calls the callbacks. In service mode, the locomotive
     * hears only the reset. Ends service mode if no packet of service mode came for 20 milliseconds. If a CV changed in
     * service mode, the locomotive powers up when service mode ends. */
    void process();

    /* Returns the milliseconds since the last packet of the track, or since begin (DccAccessory.h). */
    uint32_t packetAge() const { return packets.age(); }

    /* The state of the decoders (dcc.h). */
    dcc_small_loco loco;
    dcc_small_service service;

private:
    void powerUp();
    void hearService(const dcc_frame &frame, const dcc_packet &packet);
    void hearFactoryReset(const dcc_frame &frame, const dcc_packet &packet);
    void hearLoco(const dcc_frame &frame, const dcc_packet &packet);
    DccTrack track;
    DccPacketTimer timer, packets;
    DccFactoryReset factory;
    bool isProgrammed;
};

/* The sketch must write the callbacks notifyCVRead and notifyCVWrite. If it does not, each CV has the value 0. */

/* Returns the stored value of a CV, 1 to 1024. */
uint8_t notifyCVRead(uint16_t cv);

/* A packet changed a CV. The callback stores the value. The decoder ignores the value that the callback returns. */
uint8_t notifyCVWrite(uint16_t cv, uint8_t value);

#endif
