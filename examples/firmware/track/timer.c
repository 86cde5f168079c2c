/* The board of a decoder or a sniffer under qemu, with interrupts. The track is a capture on standard input. The timer
 * of the processor ends each half-bit while the main loop runs: SysTick of a Cortex-M, or the machine timer of
 * RISC-V. */
#include "board.h"
#include "interrupts.h"
#include "qemu.h"

#define REGISTER(address) (*(volatile uint32_t *)(address))
#ifdef __riscv
#define MTIMECMP REGISTER(0x02004000)
#define MTIMECMP_HIGH REGISTER(0x02004004)
#define MTIME REGISTER(0x0200bff8)

/* The timer counts 10 ticks in a microsecond on qemu's machines. Its high word stays 0 for 7 minutes, which is longer
 * than a test. */
static void start_timer(uint32_t us) {
    MTIMECMP = MTIME + us * 10;
    MTIMECMP_HIGH = 0;
}

static void stop_timer(void) {
    MTIMECMP_HIGH = UINT32_MAX;
}

static void begin_timer(void) {
    start_timer(0);
    __asm__ volatile(CSR("csrs mie, %0") : : "r"(1 << 7));
    enable_interrupts();
}
#else
#define SYSTICK_CONTROL REGISTER(0xe000e010)
#define SYSTICK_RELOAD REGISTER(0xe000e014)
#define SYSTICK_COUNT REGISTER(0xe000e018)

/* SysTick counts 24 bits at 25 MHz on the MPS2. A half-bit of more than 600 milliseconds ends early. */
static void start_timer(uint32_t us) {
    SYSTICK_RELOAD = (us < 600000 ? us : 600000) * 25;
    SYSTICK_COUNT = 0;
    SYSTICK_CONTROL = 7; /* enabled, with an interrupt, on the clock of the processor */
}

static void stop_timer(void) {
    SYSTICK_CONTROL = 0;
}

static void begin_timer(void) {
    start_timer(1);
}
#endif

static volatile bool has_come; /* an interrupt came after the last return of wait_for_interrupt */
static volatile bool is_over;

/* A half-bit of the track ends. on_edge counts with the durations of the capture, and not with those of the timer. */
static void on_timer_of_processor(void) {
    static uint32_t now, us;
    now += us;
    if (us > 0) on_edge(now);
    has_come = true;
    if (next_half(&us)) {
        start_timer(us);
    } else {
        stop_timer();
        is_over = true;
    }
}

#ifdef __riscv
void on_machine_timer(void) {
    on_timer_of_processor();
}
#else
void on_systick(void) {
    on_timer_of_processor();
}
#endif

/* An interrupt that comes between the test and `wfi` ends `wfi`, since interrupts are disabled there. */
bool wait_for_interrupt(void) {
    static bool has_begun;
    if (!has_begun) begin_timer();
    has_begun = true;
    disable_interrupts();
    while (!has_come && !is_over) {
        sleep();
        enable_interrupts();
        disable_interrupts();
    }
    bool is_running = has_come;
    has_come = false;
    enable_interrupts();
    return is_running;
}
