/* A board for the firmware sniffer whose main loop is late. Twice 300 edges come before the main loop reads, and after
 * each time a single edge comes. */
#include "board.h"

bool wait_for_interrupt(void) {
    static uint32_t now, calls;
    const bool is_single = calls % 2 == 1;
    if (calls++ == 4) return false;
    for (uint32_t n = 0; n < (is_single ? 1u : 300u); n++) on_edge(now += is_single ? 100 : 58);
    return true;
}
