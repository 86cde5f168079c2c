/* Edges from a timer of 16 bits. The timer counts microseconds and copies its count at each edge of the track. A wrap
 * from 65535 to 0 is an interrupt too. */
#ifndef CAPTURE16_H
#define CAPTURE16_H

#include <stdbool.h>
#include <stdint.h>

/* Call it in the interrupt of the wrap. */
void on_wrap(void);

/* Call it in the interrupt of the edge, with the copied count. wrap_is_pending is true if the timer has wrapped and
 * on_wrap has not been called for this wrap. Calls on_edge (board.h).
 *
 * Neither interrupt may interrupt the other. Both interrupts must begin within 32 milliseconds. If both interrupts are
 * pending, the interrupt of the edge must come first: it has the lower number on a Cortex-M. */
void on_capture(uint16_t count, bool wrap_is_pending);

#endif
