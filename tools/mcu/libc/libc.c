/* The part of the C library that the programs of examples/c use, over semihosting. So the programs run on a
 * microcontroller unchanged, with only libdcc_c.a. */
#include "semihosting.h"
#include <stdarg.h>
#include <stdbool.h>
#include <stdio.h>
#include <stdlib.h>
#include <string.h>

struct stream {
    intptr_t which, host;
    uint32_t len, place; /* of input: how many bytes there are, and how many were read */
    char bytes[512];
};

static struct stream input = {.which = HOST_INPUT, .host = -1};
static struct stream output = {.which = HOST_OUTPUT, .host = -1}, error = {.which = HOST_ERROR, .host = -1};
FILE *const stdin = &input, *const stdout = &output, *const stderr = &error;

static intptr_t host_of(FILE *file) {
    if (file->host < 0) file->host = host_stream(file->which);
    return file->host;
}

static void flush(FILE *file) {
    if (file->len > 0) host_write(host_of(file), file->bytes, file->len);
    file->len = 0;
}

_Noreturn void exit(int status) {
    flush(stdout);
    flush(stderr);
    host_exit(status);
}

/* What start.c calls at a fault of the processor. */
_Noreturn void stop(int status) {
    exit(status);
}

/* What a library calls that looks at its places (tools/mcu/aligned.py), with what is left over. */
void dcc_aligned(unsigned rest);
void dcc_aligned(unsigned rest) {
    if (rest > 0) exit(5);
}

static int get(FILE *file) {
    if (file->place == file->len) {
        file->len = host_read(host_of(file), file->bytes, sizeof file->bytes);
        file->place = 0;
    }
    return file->place < file->len ? (unsigned char)file->bytes[file->place++] : EOF;
}

int getchar(void) {
    return get(stdin);
}

char *fgets(char *line, int room, FILE *file) {
    int len = 0, c = 0;
    while (len < room - 1 && c != '\n' && (c = get(file)) != EOF) line[len++] = (char)c;
    line[len] = 0;
    return len > 0 ? line : NULL;
}

/* ---- printf: %c, %s, and numbers by %d, %u, %lu, %x, with zeros before them as in %02x ---- */

/* Where text goes: into a stream, or so many bytes of memory. */
typedef struct {
    FILE *file;
    char *text;
    size_t room, len;
} sink;

static void put(sink *to, char c) {
    if (to->file) {
        if (to->file->len == sizeof to->file->bytes) flush(to->file);
        to->file->bytes[to->file->len++] = c;
    } else if (to->len + 1 < to->room) {
        to->text[to->len] = c;
    }
    to->len++;
}

static void put_text(sink *to, const char *text) {
    while (*text) put(to, *text++);
}

static void put_number(sink *to, unsigned long number, unsigned base, int width) {
    char digits[12], *first = digits + 11;
    *first = 0;
    do {
        *--first = "0123456789abcdef"[number % base];
        number /= base;
        width--;
    } while (number > 0 || width > 0);
    put_text(to, first);
}

static void put_int(sink *to, int number) {
    if (number < 0) put(to, '-');
    put_number(to, number < 0 ? 0ul - (unsigned long)number : (unsigned long)number, 10, 0);
}

static void put_all(sink *to, const char *format, va_list values) {
    for (; *format; format++) {
        int width = 0;
        if (*format != '%') {
            put(to, *format);
            continue;
        }
        for (format++; *format >= '0' && *format <= '9'; format++) width = width * 10 + *format - '0';
        bool is_long = *format == 'l';
        format += is_long;
        switch (*format) {
        case 'c': put(to, (char)va_arg(values, int)); break;
        case 's': put_text(to, va_arg(values, const char *)); break;
        case 'd': put_int(to, va_arg(values, int)); break;
        case 'u':
        case 'x': {
            unsigned long number = is_long ? va_arg(values, unsigned long) : va_arg(values, unsigned);
            put_number(to, number, *format == 'x' ? 16 : 10, width);
            break;
        }
        default: host_exit(4);
        }
    }
}

int fprintf(FILE *file, const char *format, ...) {
    sink to = {.file = file};
    va_list values;
    va_start(values, format);
    put_all(&to, format, values);
    va_end(values);
    return (int)to.len;
}

int printf(const char *format, ...) {
    sink to = {.file = stdout};
    va_list values;
    va_start(values, format);
    put_all(&to, format, values);
    va_end(values);
    return (int)to.len;
}

int snprintf(char *text, size_t room, const char *format, ...) {
    sink to = {.text = text, .room = room};
    va_list values;
    va_start(values, format);
    put_all(&to, format, values);
    va_end(values);
    if (room > 0) text[to.len < room ? to.len : room - 1] = 0;
    return (int)to.len;
}

/* ---- texts and numbers ---- */

int memcmp(const void *a, const void *b, size_t len) {
    const unsigned char *one = a, *other = b;
    for (size_t i = 0; i < len; i++) {
        if (one[i] != other[i]) return one[i] - other[i];
    }
    return 0;
}

size_t strlen(const char *text) {
    size_t len = 0;
    while (text[len]) len++;
    return len;
}

int strncmp(const char *a, const char *b, size_t len) {
    for (size_t i = 0; i < len; i++) {
        if (a[i] != b[i] || !a[i]) return (unsigned char)a[i] - (unsigned char)b[i];
    }
    return 0;
}

int strcmp(const char *a, const char *b) {
    return strncmp(a, b, SIZE_MAX);
}

char *strchr(const char *text, int c) {
    while (*text && *text != (char)c) text++;
    return *text == (char)c ? (char *)text : NULL;
}

size_t strcspn(const char *text, const char *none_of) {
    size_t len = 0;
    while (text[len] && !strchr(none_of, text[len])) len++;
    return len;
}

unsigned long long strtoull(const char *text, char **end, int base) {
    unsigned long long number = 0;
    for (; *text >= '0' && *text <= '9'; text++) number = number * (unsigned)base + (unsigned)(*text - '0');
    if (end) *end = (char *)text;
    return number;
}

int atoi(const char *text) {
    return (int)strtoull(text, NULL, 10);
}

/* ---- the program ---- */

/* The program's main, and the one that start.c calls in its place, as they are named under --wrap=main. */
int __real_main(int argc, char **argv);
int __wrap_main(void);

/* The words that qemu was given by arg=.. */
int __wrap_main(void) {
    static char line[256], *words[16];
    int count = 0;
    semihosting(SEMIHOSTING_COMMAND_LINE, (const intptr_t[]){(intptr_t)line, sizeof line});
    for (char *at = line; *at && count < 15;) {
        words[count++] = at;
        at += strcspn(at, " ");
        if (*at) *at++ = 0;
    }
    exit(__real_main(count, words));
}
