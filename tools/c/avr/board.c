/* The standard streams of a program for AVR under run.c. The linker gives the program's main the name __real_main
 * (-Wl,--wrap=main). ARGUMENTS are the words of its command line, each followed by a comma. */
#include <avr/io.h>
#include <stdio.h>
#include <stdlib.h>

static int get(FILE *file) {
    (void)file;
    GPIOR1 = 1;
    if (GPIOR1) return _FDEV_EOF;
    return GPIOR2;
}
static int put(char c, FILE *file) {
    (void)file;
    GPIOR2 = (uint8_t)c;
    GPIOR1 = 2;
    return 0;
}
static int put_error(char c, FILE *file) {
    (void)file;
    GPIOR2 = (uint8_t)c;
    GPIOR1 = 3;
    return 0;
}
static FILE in = FDEV_SETUP_STREAM(NULL, get, _FDEV_SETUP_READ);
static FILE out = FDEV_SETUP_STREAM(put, NULL, _FDEV_SETUP_WRITE);
static FILE error = FDEV_SETUP_STREAM(put_error, NULL, _FDEV_SETUP_WRITE);

void _exit(int status) {
    GPIOR2 = (uint8_t)status;
    GPIOR1 = 4;
    for (;;) {}
}
void exit(int status) { _exit(status); }

static char *words[] = {(char *)"program", ARGUMENTS 0};
int __real_main(int argc, char **argv);
int __wrap_main(void) {
    stdin = &in;
    stdout = &out;
    stderr = &error;
    _exit(__real_main(sizeof words / sizeof *words - 1, words));
    return 0;
}
