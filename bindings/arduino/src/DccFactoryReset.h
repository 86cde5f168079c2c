/* Finds the packets that write 8 to CV8, with which a station asks a decoder for its first values (NMRA S-9.2.2). */
#ifndef DCC_FACTORY_RESET_H
#define DCC_FACTORY_RESET_H

#include <dcc.h>

class DccFactoryReset {
public:
    /* Hears a packet of direct mode if isInService is true, else a packet of the main track for the decoder. Returns
     * true at the second of two packets in a row that write 8 to CV8. Further copies in a row return false. */
    bool isSecond(const dcc_frame &frame, const dcc_packet &packet, bool isInService);

private:
    uint8_t copies = 0;
};

#endif
