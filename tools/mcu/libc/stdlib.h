/* libc.c: as much of the C library as the programs of examples/c ask for. */
#ifndef STDLIB_H
#define STDLIB_H

_Noreturn void exit(int status);
int atoi(const char *text);
unsigned long long strtoull(const char *text, char **end, int base);

#endif
