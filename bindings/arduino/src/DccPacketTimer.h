/* The time since the last packet. The decoders end service mode by one, and measure the time without packets by
 * another. */
#ifndef DCC_PACKET_TIMER_H
#define DCC_PACKET_TIMER_H

#include <stdint.h>

class DccPacketTimer {
public:
    /* A packet came now. */
    void restart();

    /* Returns the milliseconds since the last packet. millis() has steps of a millisecond, so 20 can be 19.1
     * milliseconds. */
    uint32_t age() const;

private:
    uint32_t last;
};

#endif
