/* The handlers of interrupts, and the instructions that interrupts need. Define a function with the name of a handler,
 * and the interrupt calls this function. An interrupt without a handler stops the program with the status
 * STOP_NO_HANDLER plus the number of the interrupt. */
#ifndef INTERRUPTS_H
#define INTERRUPTS_H

#include <stdint.h>

/* How a processor ends the program (stop): after a fault, and after an interrupt that has no handler. */
enum { STOP_FAULT = 3, STOP_NO_HANDLER = 64 };

#if defined __riscv || defined __arm__
/* Sleeps until an interrupt is pending. Interrupts may be disabled. With -DSPINS the function returns at once: the
 * clock of qemu can run ahead while a processor sleeps. */
static inline void sleep(void) {
#ifndef SPINS
    __asm__ volatile("wfi" ::: "memory");
#endif
}
#endif

#ifdef __riscv
/* The interrupts of SiFive FE310 and of qemu's machine `virt`. Their numbers are 3, 7 and 11. on_external claims and
 * completes its source at the interrupt controller of the board. */
void on_software(void);
void on_machine_timer(void);
void on_external(void);

/* An instruction for a control register, which not every assembler takes as one of rv32imac. */
#define CSR(instruction) ".option push\n.option arch, +zicsr\n" instruction "\n.option pop"

static inline void disable_interrupts(void) {
    __asm__ volatile(CSR("csrci mstatus, 8") ::: "memory");
}

static inline void enable_interrupts(void) {
    __asm__ volatile(CSR("csrsi mstatus, 8") ::: "memory");
}
#elif defined __arm__
/* The exceptions of a Cortex-M that are no faults. Their numbers are 2, 11, 12, 14 and 15. */
void on_nmi(void);
void on_svcall(void);
void on_debug(void);
void on_pendsv(void);
void on_systick(void);

/* The interrupts 0 to 31. They have the numbers 16 to 47. The nRF51822 and the MPS2 images AN385 and AN386 have
 * no further interrupt. If your chip has more interrupts, add their numbers to EACH_IRQ and to IRQS. */
#define EACH_IRQ(it) \
    it(0) it(1) it(2) it(3) it(4) it(5) it(6) it(7) it(8) it(9) it(10) it(11) it(12) it(13) it(14) it(15) it(16) \
    it(17) it(18) it(19) it(20) it(21) it(22) it(23) it(24) it(25) it(26) it(27) it(28) it(29) it(30) it(31)
enum { IRQS = 32 };
#define DECLARED_HANDLER(n) void on_irq##n(void);
EACH_IRQ(DECLARED_HANDLER)

static inline void disable_interrupts(void) {
    __asm__ volatile("cpsid i" ::: "memory");
}

/* A pending interrupt is taken before the next instruction after this function. */
static inline void enable_interrupts(void) {
    __asm__ volatile("cpsie i\nisb" ::: "memory");
}
#endif

#endif
