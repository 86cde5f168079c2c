/* From reset to main, on a Cortex-M and on RISC-V, and the vectors of the interrupts (interrupts.h). */
#include "board.h"
#include "interrupts.h"

/* Places that firmware.ld names. */
extern uint32_t stack_top[], data_values[], data_begin[], data_end[], bss_begin[], bss_end[];

int main(void);
_Noreturn void begin(void);

/* Variables with a value get it, the others zeros. */
_Noreturn void begin(void) {
    const uint32_t *value = data_values;
    for (uint32_t *at = data_begin; at < data_end; at++) *at = *value++;
    for (uint32_t *at = bss_begin; at < bss_end; at++) *at = 0;
    stop(main());
}

__attribute__((used)) _Noreturn static void fault(void) {
    stop(STOP_FAULT);
}

#ifdef __riscv
/* Stops with the number of an interrupt that has no handler: the cause, which is 3, 7 or 11. */
__attribute__((used)) static void no_handler(void) {
    uint32_t cause;
    __asm__ volatile(CSR("csrr %0, mcause") : "=r"(cause));
    stop(STOP_NO_HANDLER + (int)(cause & 0x7f));
}

#define WEAK __attribute__((weak, alias("no_handler")))
WEAK void on_software(void);
WEAK void on_machine_timer(void);
WEAK void on_external(void);

/* The only vector. The compiler saves and restores the registers, and all but an interrupt is a fault. */
__attribute__((interrupt, aligned(4), used)) static void trap(void) {
    uint32_t cause;
    __asm__ volatile(CSR("csrr %0, mcause") : "=r"(cause));
    switch (cause) {
    case 0x80000003: on_software(); break;
    case 0x80000007: on_machine_timer(); break;
    case 0x8000000b: on_external(); break;
    default: fault();
    }
}

/* The first instruction of the firmware. */
__attribute__((naked, section(".start"), used)) void start(void) {
    __asm__("la sp, stack_top\nla t0, trap\n" CSR("csrw mtvec, t0") "\nj begin");
}
#else
/* Stops with the number of an exception that has no handler: 2 is NMI, 15 SysTick, and 16 the first interrupt. */
__attribute__((used)) static void no_handler(void) {
    uint32_t number;
    __asm__ volatile("mrs %0, ipsr" : "=r"(number));
    stop(STOP_NO_HANDLER + (int)number);
}

#define WEAK __attribute__((weak, alias("no_handler")))
WEAK void on_nmi(void);
WEAK void on_svcall(void);
WEAK void on_debug(void);
WEAK void on_pendsv(void);
WEAK void on_systick(void);
#define DECLARED(n) WEAK void on_irq##n(void);
EACH_IRQ(DECLARED)

/* The first words of the firmware: where the stack begins, the reset, the exceptions 2 to 15 and the interrupts. A
 * Cortex-M0 never takes the exceptions 4 to 6 and 12. */
#define ENTRY(n) on_irq##n,
__attribute__((section(".start"), used))
static void (*const vectors[16 + IRQS])(void) = {
    (void (*)(void))stack_top, begin, on_nmi, fault, /* a hard fault, and the faults of memory, bus and usage */
    fault, fault, fault, fault, fault, fault, fault, /* (the numbers 7 to 10 and 13 have no meaning) */
    on_svcall, on_debug, fault, on_pendsv, on_systick, EACH_IRQ(ENTRY)
};
#endif
