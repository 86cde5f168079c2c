/* Runs a program for AVR under simavr.
 *
 *   run MCU PROGRAM.elf < INPUT > OUTPUT
 *
 * The program uses three registers that have no other purpose. board.c has the functions for it.
 * - GPIOR1 = 1 asks for a byte of input. GPIOR2 gets the byte, and GPIOR1 0, or 1 at the end of the input.
 * - GPIOR1 = 2 writes the byte of GPIOR2 to standard output, and 3 to standard error.
 * - GPIOR1 = 4 ends the program with the status in GPIOR2.
 * - GPIOR0 = N marks the begin of the measured call N, and GPIOR0 = 0 its end. At the end of the program, standard
 *   error gets a line for each N: the number of its calls, the mean of their cycles, the most, and the stack.
 * RAM reaches to the end of the addresses, as if a chip of RAM stood beside the controller. */
#include <simavr/sim_avr.h>
#include <simavr/sim_elf.h>
#include <simavr/sim_io.h>
#include <stdio.h>
#include <string.h>
#include <unistd.h>

enum { REGISTER_0 = 0x3E, REGISTER_1 = 0x4A, REGISTER_2 = 0x4B, MARKS = 256 };
static struct {
    unsigned long count, most;
    unsigned long long sum;
    unsigned stack;
} taken[MARKS];
static unsigned current, first_sp, least_sp;
static unsigned long long begin;
static int is_done, status;

static unsigned sp_of(avr_t *avr) { return avr->data[R_SPL] | avr->data[R_SPH] << 8; }

static void on_mark(avr_t *avr, avr_io_addr_t at, uint8_t value, void *param) {
    (void)param;
    avr->data[at] = value;
    if (value) {
        begin = avr->cycle;
        first_sp = least_sp = sp_of(avr);
    } else if (current) {
        unsigned long cycles = (unsigned long)(avr->cycle - begin);
        taken[current].count++;
        taken[current].sum += cycles;
        if (cycles > taken[current].most) taken[current].most = cycles;
        if (first_sp - least_sp > taken[current].stack) taken[current].stack = first_sp - least_sp;
    }
    current = value;
}

static void on_request(avr_t *avr, avr_io_addr_t at, uint8_t value, void *param) {
    (void)param;
    avr->data[at] = 0;
    if (value == 1) {
        int c = getchar();
        avr->data[at] = c < 0;
        avr->data[REGISTER_2] = (uint8_t)c;
    }
    if (value == 2) putchar(avr->data[REGISTER_2]);
    if (value == 3) fputc(avr->data[REGISTER_2], stderr);
    if (value == 4) {
        is_done = 1;
        status = avr->data[REGISTER_2];
    }
}

int main(int argc, char **argv) {
    elf_firmware_t firmware;
    avr_t *avr;
    int output = dup(1);
    memset(&firmware, 0, sizeof firmware);
    dup2(2, 1); /* simavr writes its own messages to standard output */
    if (argc < 3 || elf_read_firmware(argv[2], &firmware)) return 99;
    avr = avr_make_mcu_by_name(argv[1]);
    if (!avr) return 98;
    avr->ramend = 0xFFFF;
    avr_init(avr);
    firmware.frequency = 16000000;
    avr_load_firmware(avr, &firmware);
    avr_register_io_write(avr, REGISTER_0, on_mark, NULL);
    avr_register_io_write(avr, REGISTER_1, on_request, NULL);
    fflush(stdout);
    dup2(output, 1);
    while (!is_done) {
        int state = avr_run(avr);
        if (sp_of(avr) < least_sp) least_sp = sp_of(avr);
        if (state == cpu_Done || state == cpu_Crashed) {
            fprintf(stderr, "run: the program crashed at %x\n", avr->pc);
            return 97;
        }
    }
    fflush(stdout);
    for (int i = 1; i < MARKS; i++)
        if (taken[i].count)
            fprintf(stderr, "@ %d %lu %.0f %lu %u\n", i, taken[i].count, (double)taken[i].sum / (double)taken[i].count,
                    taken[i].most, taken[i].stack);
    return status;
}
