/* The board of a decoder or a sniffer under qemu, without interrupts: the main loop calls on_edge. The track is a
 * capture on standard input. The boards of the folder track have interrupts. */
#include "board.h"
#include "qemu.h"

/* The edge that ends the next half-bit is all that comes here. */
bool wait_for_interrupt(void) {
    static uint32_t now;
    uint32_t us;
    if (!next_half(&us)) return false;
    now += us;
    on_edge(now);
    return true;
}
