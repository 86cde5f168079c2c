/* The edges of a track on a BBC micro:bit (nRF51822), with interrupts. The signal comes through an optocoupler to the
 * large contact 0 (P0.03). At each edge the GPIOTE sends an event. The PPI makes TIMER1 copy its count at this event,
 * so the time is exact, however late the interrupt begins. TIMER1 has 16 bits and counts microseconds. */
#include "board.h"
#include "capture16.h"
#include "interrupts.h"

enum { PIN = 3, GPIOTE_IRQ = 6, TIMER1_IRQ = 9 };

#define REGISTER(address) (*(volatile uint32_t *)(address))
#define HFCLKSTART REGISTER(0x40000000)
#define HFCLKSTARTED REGISTER(0x40000100)
#define GPIOTE_IN REGISTER(0x40006100)
#define GPIOTE_INTENSET REGISTER(0x40006304)
#define GPIOTE_CONFIG REGISTER(0x40006510)
#define TIMER1_START REGISTER(0x40009000)
#define TIMER1_CAPTURE REGISTER(0x40009040) /* copies the count to CC[0] */
#define TIMER1_WRAPPED REGISTER(0x40009144) /* the count has reached CC[1], which is 0 */
#define TIMER1_INTENSET REGISTER(0x40009304)
#define TIMER1_BITMODE REGISTER(0x40009508)
#define TIMER1_PRESCALER REGISTER(0x40009510)
#define TIMER1_EDGE REGISTER(0x40009540) /* CC[0] */
#define TIMER1_WRAP REGISTER(0x40009544) /* CC[1] */
#define PPI_CHENSET REGISTER(0x4001f504)
#define PPI_EVENT REGISTER(0x4001f510)
#define PPI_TASK REGISTER(0x4001f514)
#define NVIC_ENABLE REGISTER(0xe000e100)

static volatile bool has_come; /* an interrupt came after the last return of wait_for_interrupt */

/* An edge. */
void on_irq6(void) {
    GPIOTE_IN = 0;
    on_capture((uint16_t)TIMER1_EDGE, TIMER1_WRAPPED != 0);
    has_come = true;
}

/* TIMER1 has wrapped. */
void on_irq9(void) {
    TIMER1_WRAPPED = 0;
    on_wrap();
}

static void begin_edges(void) {
    HFCLKSTART = 1; /* the crystal: the oscillator after a reset is off by some percent */
    while (HFCLKSTARTED == 0) {}
    TIMER1_BITMODE = 0;   /* 16 bits */
    TIMER1_PRESCALER = 4; /* 16 MHz / 2^4 */
    TIMER1_WRAP = 0;
    TIMER1_WRAPPED = 0;
    TIMER1_INTENSET = 1 << 17; /* at CC[1] */
    PPI_EVENT = (uint32_t)(uintptr_t)&GPIOTE_IN;
    PPI_TASK = (uint32_t)(uintptr_t)&TIMER1_CAPTURE;
    PPI_CHENSET = 1;
    GPIOTE_CONFIG = 1 | PIN << 8 | 3 << 16; /* an event at each change of the pin */
    GPIOTE_INTENSET = 1;
    NVIC_ENABLE = 1 << GPIOTE_IRQ | 1 << TIMER1_IRQ;
    TIMER1_START = 1;
}

/* An interrupt that comes between the test and `wfi` ends `wfi`, since interrupts are disabled there. */
bool wait_for_interrupt(void) {
    static bool has_begun;
    if (!has_begun) begin_edges();
    has_begun = true;
    disable_interrupts();
    while (!has_come) {
        sleep();
        enable_interrupts();
        disable_interrupts();
    }
    has_come = false;
    enable_interrupts();
    return true;
}
