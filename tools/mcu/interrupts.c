/* Tests the vectors of examples/firmware/start.c. The argument selects what happens:
 *
 *   handled     interrupts with handlers, which -DHANDLED defines: the program returns 0 if each calls its own
 *   fault       an instruction that no processor has
 *   NUMBER      the interrupt of this number, which has no handler */
#include "interrupts.h"
#include <stdbool.h>
#include <stdlib.h>
#include <string.h>

#define REGISTER(address) (*(volatile uint32_t *)(address))

#ifdef HANDLED
static volatile uint32_t handled; /* how many interrupts came, or the number of the last interrupt */
#endif

#ifdef __riscv
#define MSIP REGISTER(0x02000000)
#define MTIMECMP REGISTER(0x02004000)
#define MTIMECMP_HIGH REGISTER(0x02004004)
#define VIRT_UART REGISTER(0x10000000)
#define PLIC_PRIORITY REGISTER(0x0c000028)
#define PLIC_ENABLE REGISTER(0x0c002000)

static void enable(uint32_t number) {
    __asm__ volatile(CSR("csrs mie, %0") : : "r"(1 << number));
    enable_interrupts();
}

#ifdef HANDLED
void on_software(void) {
    MSIP = 0;
    handled++;
}

static bool are_handled(void) {
    enable(3);
    for (uint32_t n = 0; n < 100; n++) {
        MSIP = 1;
        while (handled == n) {}
    }
    return handled == 100;
}
#endif

/* (The external interrupt is that of the serial port of `virt`, source 10: its transmitter is empty.) */
static void raise(uint32_t number) {
    if (number == 3) MSIP = 1;
    if (number == 7) MTIMECMP = MTIMECMP_HIGH = 0;
    if (number == 11) {
        PLIC_PRIORITY = 1;
        PLIC_ENABLE = 1 << 10;
        ((volatile uint8_t *)&VIRT_UART)[1] = 2;
    }
    enable(number);
}

static void be_faulty(void) {
    __asm__ volatile("unimp");
}
#else
#define ICSR REGISTER(0xe000ed04)
#define NVIC_ENABLE REGISTER(0xe000e100)
#define NVIC_PEND REGISTER(0xe000e200)

static void raise(uint32_t number) {
    if (number == 2) ICSR = 1u << 31;
    if (number == 11) __asm__ volatile("svc 0");
    if (number == 14) ICSR = 1 << 28;
    if (number == 15) ICSR = 1 << 26;
    if (number >= 16) {
        NVIC_ENABLE = 1u << (number - 16);
        NVIC_PEND = 1u << (number - 16);
    }
    __asm__ volatile("isb");
}

#ifdef HANDLED
void on_nmi(void) {
    handled = 2;
}

void on_svcall(void) {
    handled = 11;
}

void on_pendsv(void) {
    handled = 14;
}

void on_systick(void) {
    handled = 15;
}

#define HANDLER(n) \
    void on_irq##n(void) { \
        handled = 16 + n; \
    }
EACH_IRQ(HANDLER)

static bool are_handled(void) {
    static const uint8_t first[] = {2, 11, 14, 15};
    for (uint32_t n = 0; n < sizeof first; n++) {
        raise(first[n]);
        if (handled != first[n]) return false;
    }
    for (uint32_t number = 16; number < 48; number++) {
        raise(number);
        if (handled != number) return false;
    }
    return true;
}
#endif

static void be_faulty(void) {
    __asm__ volatile("udf 0");
}
#endif

int main(int argc, char **argv) {
    const char *word = argc > 1 ? argv[1] : "";
#ifdef HANDLED
    if (!strcmp(word, "handled")) return are_handled() ? 0 : 1;
#endif
    if (!strcmp(word, "fault")) {
        be_faulty();
    } else {
        raise((uint32_t)atoi(word));
    }
    return 2;
}
