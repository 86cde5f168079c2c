/* The signal of boards/microbit.c under qemu, which has no GPIOTE and no PPI. The track is a capture on standard input.
 * At the end of each half-bit, in the interrupt of TIMER0, this file copies the count of TIMER1 as the PPI does, and
 * makes the interrupt of the GPIOTE pending. */
#include "board.h"
#include "interrupts.h"
#include "qemu.h"

#define REGISTER(address) (*(volatile uint32_t *)(address))
#define TIMER0_START REGISTER(0x40008000)
#define TIMER0_EXPIRED REGISTER(0x40008140)
#define TIMER0_INTENSET REGISTER(0x40008304)
#define TIMER0_BITMODE REGISTER(0x40008508)
#define TIMER0_PRESCALER REGISTER(0x40008510)
#define TIMER0_NEXT REGISTER(0x40008540)
#define TIMER1_CAPTURE REGISTER(0x40009040)
#define NVIC_ENABLE REGISTER(0xe000e100)
#define NVIC_PEND REGISTER(0xe000e200)

enum { GPIOTE_IRQ = 6, TIMER0_IRQ = 8, AFTER_THE_END = 100000 };

static uint32_t next; /* the half-bit after the one that ends next */
static bool has_next, is_over;

/* The program of a board has no end. This one ends some time after the last edge. */
void on_irq8(void) {
    TIMER0_EXPIRED = 0;
    if (is_over) stop(0);
    TIMER1_CAPTURE = 1;
    TIMER0_NEXT = (TIMER0_NEXT + (has_next ? next : AFTER_THE_END)) & 0xffffff;
    NVIC_PEND = 1 << GPIOTE_IRQ;
    is_over = !has_next;
    has_next = next_half(&next);
}

/* The linker calls this function in place of main (-Wl,--wrap=main). The first edge comes after a millisecond. */
int __real_main(void);
int __wrap_main(void);
int __wrap_main(void) {
    has_next = next_half(&next);
    TIMER0_BITMODE = 2;   /* 24 bits */
    TIMER0_PRESCALER = 4; /* 16 MHz / 2^4 */
    TIMER0_NEXT = 1000;
    TIMER0_INTENSET = 1 << 16;
    NVIC_ENABLE = 1 << TIMER0_IRQ;
    TIMER0_START = 1;
    return __real_main();
}
