/* Plays a sketch for AVR under simavr, in real time of the chip at 16 MHz.
 *
 *   play MCU PROGRAM.elf MILLISECONDS [OPTION ARGUMENT]..        what the sketch writes on its serial port goes to
 *                                                                standard output
 *   -t PIN=FILE     a track: the durations of FILE in microseconds, from 50 ms on, are the levels of the pin
 *   -s PIN=FILE     writes the durations between the changes of the pin to FILE, each on a line
 *   -l FILE         lines for the serial port, from 50 ms on. A line `wait N` waits N milliseconds instead
 *   -m FILE         such lines for the second serial port (Serial1)
 *   -o FILE         writes what the sketch writes on the second serial port to FILE
 *   -e FILE         the EEPROM: read at the start if the file exists, and written at the end
 *
 * PIN is the letter of a port and the number of a bit, for example B0. A track that is shorter than the given
 * milliseconds ends the run 300 ms after its last edge. The status is 1 if the program crashes or a file fails. */
#include <simavr/avr_eeprom.h>
#include <simavr/avr_ioport.h>
#include <simavr/avr_timer.h>
#include <simavr/avr_uart.h>
#include <simavr/sim_avr.h>
#include <simavr/sim_cycle_timers.h>
#include <simavr/sim_elf.h>
#include <stdio.h>
#include <stdlib.h>
#include <string.h>
#include <unistd.h>

/* cycles of a microsecond, of a byte at 115,200 baud with a little rest, and of four ticks of the timer of edges */
enum { PER_US = 16, BYTE = 1400, TICKS = 32 };
static avr_t *avr;
static FILE *track, *sent, *second;
static const char *eeprom;
static avr_irq_t *track_pin;

/* Lines that come to a serial port. */
typedef struct {
    FILE *file;
    avr_irq_t *port;
    char line[256];
    size_t at;
} typist;
static typist typists[2];
static unsigned long long end, exact, last_change;
static int level, changes;
static uint32_t sent_level;
static const char *sent_pin, *played_pin;

static void die(const char *text) {
    fprintf(stderr, "play: %s\n", text);
    exit(1);
}

/* Moves the first edge one cycle behind a tick of the timer that notes the edges of pin B0 or L0. The first tick
 * depends on the program. The simulator notes an edge after the instruction that runs, up to 4 cycles late. So early in
 * a tick such a delay changes no time that the timer notes. If all durations are even, as in the tracks of the tests,
 * some edges come one cycle after an overflow of the timer. */
static void move_to_tick(void) {
    char name = !strncmp(played_pin, "B0", 2) ? '1' : !strncmp(played_pin, "L0", 2) ? '4' : 0;
    for (avr_io_t *io = avr->io_port; io; io = io->next) {
        avr_timer_t *timer = (avr_timer_t *)io;
        int is_timer = io->kind && !strcmp(io->kind, "timer") && timer->name == name;
        if (is_timer) exact += (timer->tov_base - exact) % TICKS + 1;
    }
}

/* Changes the level of the track, and waits for the next duration. The sum of durations gives each time, so no rounding
 * adds up. */
static avr_cycle_count_t on_edge(avr_t *of, avr_cycle_count_t when, void *param) {
    static int begun;
    unsigned long us;
    (void)of, (void)param;
    if (!begun++) move_to_tick();
    if (when >= exact) {
        level = !level;
        avr_raise_irq(track_pin, level);
        if (fscanf(track, "%lu", &us) != 1) {
            unsigned long long rest = exact + 300000ull * PER_US;
            if (rest < end) end = rest;
            return 0;
        }
        exact += us * PER_US;
    }
    return exact;
}

static avr_cycle_count_t on_type(avr_t *of, avr_cycle_count_t when, void *param) {
    typist *it = param;
    unsigned long wait;
    (void)of;
    if (!it->line[it->at]) {
        it->at = 0;
        if (!fgets(it->line, sizeof it->line, it->file)) return 0;
        if (sscanf(it->line, "wait %lu", &wait) == 1) {
            it->line[0] = 0;
            return when + wait * 1000 * PER_US;
        }
    }
    avr_raise_irq(it->port, (uint8_t)it->line[it->at++]);
    return when + BYTE;
}

static void on_change(avr_irq_t *irq, uint32_t value, void *param) {
    avr_ioport_state_t state;
    (void)irq, (void)param;
    avr_ioctl(avr, AVR_IOCTL_IOPORT_GETSTATE(sent_pin[0]), &state);
    if (!(state.ddr >> (sent_pin[1] - '0') & 1)) return; /* the pin is no output */
    if ((value & 1) == sent_level) return; /* the other bits say who wrote the level */
    sent_level = value & 1;
    if (changes++) fprintf(sent, "%llu\n", (avr->cycle - last_change + PER_US / 2) / PER_US);
    last_change = avr->cycle;
}

/* The parameter is the number of the serial port. */
static void on_byte(avr_irq_t *irq, uint32_t value, void *param) {
    FILE *file = (intptr_t)param == 0 ? stdout : second;
    (void)irq;
    if (file && value != '\r') putc((int)value, file);
}

/* Begins a serial port, '0' or '1', if the chip has it. */
static void begin_port(char name) {
    typist *it = &typists[name - '0'];
    uint32_t flags = 0;
    if (avr_ioctl(avr, AVR_IOCTL_UART_GET_FLAGS(name), &flags) < 0) return;
    flags &= ~(uint32_t)(AVR_UART_FLAG_STDIO | AVR_UART_FLAG_POLL_SLEEP);
    avr_ioctl(avr, AVR_IOCTL_UART_SET_FLAGS(name), &flags);
    avr_irq_register_notify(avr_io_getirq(avr, AVR_IOCTL_UART_GETIRQ(name), UART_IRQ_OUTPUT), on_byte,
                            (void *)(intptr_t)(name - '0'));
    it->port = avr_io_getirq(avr, AVR_IOCTL_UART_GETIRQ(name), UART_IRQ_INPUT);
    if (it->file) avr_cycle_timer_register(avr, exact, on_type, it);
}

static avr_irq_t *pin_of(const char *text) {
    return avr_io_getirq(avr, AVR_IOCTL_IOPORT_GETIRQ(text[0]), text[1] - '0');
}

static void with_eeprom(int is_end) {
    static uint8_t cells[1024];
    avr_eeprom_desc_t all = {cells, 0, sizeof cells};
    FILE *file = fopen(eeprom, is_end ? "wb" : "rb");
    if (!file && !is_end) return;
    if (!file) die("the EEPROM cannot be written");
    if (is_end) {
        avr_ioctl(avr, AVR_IOCTL_EEPROM_GET, &all);
        fwrite(cells, 1, sizeof cells, file);
    } else if (fread(cells, 1, sizeof cells, file) == sizeof cells) {
        avr_ioctl(avr, AVR_IOCTL_EEPROM_SET, &all);
    }
    fclose(file);
}

int main(int argc, char **argv) {
    elf_firmware_t firmware;
    int output = dup(1);
    if (argc < 4) die("play MCU PROGRAM.elf MILLISECONDS [OPTION ARGUMENT]..");
    memset(&firmware, 0, sizeof firmware);
    dup2(2, 1); /* simavr writes its own messages to standard output */
    if (elf_read_firmware(argv[2], &firmware)) die("no program");
    avr = avr_make_mcu_by_name(argv[1]);
    if (!avr) die("no such MCU");
    avr_init(avr);
    firmware.frequency = 1000000 * PER_US;
    avr_load_firmware(avr, &firmware);
    end = strtoull(argv[3], 0, 10) * 1000 * PER_US;
    exact = 50000 * PER_US;
    for (int i = 4; i + 1 < argc; i += 2) {
        const char *word = argv[i + 1];
        switch (argv[i][1]) {
        case 't':
            played_pin = word;
            track_pin = pin_of(word);
            if (!(track = fopen(word + 3, "r"))) die("no track");
            avr_raise_irq(track_pin, 0);
            avr_cycle_timer_register(avr, exact, on_edge, 0);
            break;
        case 's':
            if (!(sent = fopen(word + 3, "w"))) die("no file for the signal");
            sent_pin = word;
            avr_irq_register_notify(pin_of(word), on_change, 0);
            break;
        case 'l':
        case 'm':
            if (!(typists[argv[i][1] == 'm'].file = fopen(word, "r"))) die("no lines");
            break;
        case 'o':
            if (!(second = fopen(word, "w"))) die("no file for the second port");
            break;
        case 'e': eeprom = word; break;
        default: die("no such option");
        }
    }
    if (eeprom) with_eeprom(0);
    begin_port('0');
    begin_port('1');
    fflush(stdout);
    dup2(output, 1);
    while (avr->cycle < end) {
        int state = avr_run(avr);
        if (state == cpu_Done || state == cpu_Crashed) die("the program crashed");
    }
    if (eeprom) with_eeprom(1);
    if (sent && fclose(sent)) die("the signal cannot be written");
    if (second && fclose(second)) die("the second port cannot be written");
    return fflush(stdout) ? 1 : 0;
}
