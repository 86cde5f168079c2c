/* Extends the counts of a timer of 16 bits to 32 bits. */
#include "capture16.h"
#include "board.h"

static uint16_t wraps;

void on_wrap(void) {
    wraps++;
}

/* A pending wrap came before the edge if the count is small, and after the edge if the count is large. */
void on_capture(uint16_t count, bool wrap_is_pending) {
    uint16_t high = wraps;
    if (wrap_is_pending && count < 0x8000) high++;
    on_edge((uint32_t)high << 16 | count);
}
