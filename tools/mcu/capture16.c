/* Tests examples/firmware/capture16.c on a computer. Random edges and the wraps of a timer of 16 bits raise interrupts,
 * which begin late. on_edge must get the time of each edge. Prints the first error, and then returns 1. */
#include "capture16.h"
#include "board.h"
#include <stdio.h>
#include <stdlib.h>

static uint32_t seen;

void on_edge(uint32_t now) {
    seen = now;
}

static uint32_t at_most(uint32_t most) {
    return (uint32_t)rand() % (most + 1);
}

int main(void) {
    uint32_t free_at = 0, next_wrap = 65536, pending = 0;
    srand(1);
    for (int n = 0; n < 1000000; n++) {
        const uint32_t gap = n % 100 == 0 ? at_most(300000) : at_most(300), edge = free_at + gap;
        /* before the edge: each wrap has its interrupt, if this interrupt can begin before the edge */
        for (; (int32_t)(edge - next_wrap) > 0; next_wrap += 65536) {
            if (edge - next_wrap > at_most(n % 2 == 0 ? 30000 : 30)) on_wrap();
            else pending++;
        }
        /* the interrupt of the edge begins, after another wrap or not, and then the interrupt of the wrap */
        free_at = edge + (n % 3 == 0 ? at_most(30000) : at_most(30));
        for (; (int32_t)(free_at - next_wrap) >= 0; next_wrap += 65536) pending++;
        on_capture((uint16_t)edge, pending > 0);
        for (; pending > 0; pending--) on_wrap();
        if (seen == edge) continue;
        printf("edge %d at %u has the time %u\n", n, (unsigned)edge, (unsigned)seen);
        return 1;
    }
    return 0;
}
