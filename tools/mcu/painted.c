/* Measures the stack of a firmware of examples/firmware. It is linked with -Wl,--wrap=main: before main, all free
 * memory gets a pattern. After main, the last line of the output has the bytes of the stack that were written. */
#include "board.h"

extern uint32_t bss_end[], stack_top[];
int __real_main(void);
int __wrap_main(void);

enum { PATTERN = 0x5a17c0de, SPARE = 32 };

int __wrap_main(void) {
    volatile uint32_t *here = __builtin_frame_address(0), *at;
    int status;
    for (at = bss_end; at < here - SPARE; at++) *at = PATTERN;
    status = __real_main();
    for (at = bss_end; *at == PATTERN; at++) {}
    show_number((uint32_t)((uintptr_t)stack_top - (uintptr_t)at));
    show("\n");
    return status;
}
