/* A load on a programming track in place of a decoder. It draws a current for PULSE microseconds, each time after
 * PAUSE microseconds.
 *
 *     pulses PULSE PAUSE CURRENT < HALF-BITS        the bytes for command_station/qemu.c go to the file CURRENT */
#include <stdio.h>
#include <stdlib.h>

int main(int argc, char **argv) {
    FILE *current = argc == 4 ? fopen(argv[3], "w") : NULL;
    unsigned long us, time = 0;
    if (!current) return 1;
    unsigned long pulse = strtoul(argv[1], NULL, 10), pause = strtoul(argv[2], NULL, 10);
    while (scanf("%lu", &us) == 1) {
        time += us;
        fputc(time % (pulse + pause) >= pause ? '1' : '0', current);
        fflush(current);
    }
    return 0;
}
