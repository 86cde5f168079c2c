/* libc.c: as much of the C library as the programs of examples/c ask for. */
#ifndef STDIO_H
#define STDIO_H

#include <stddef.h>

typedef struct stream FILE;
extern FILE *const stdin, *const stdout, *const stderr;
enum { EOF = -1 };

int getchar(void);
char *fgets(char *line, int room, FILE *file);
int printf(const char *format, ...) __attribute__((format(printf, 1, 2)));
int fprintf(FILE *file, const char *format, ...) __attribute__((format(printf, 2, 3)));
int snprintf(char *text, size_t room, const char *format, ...) __attribute__((format(printf, 3, 4)));

#endif
