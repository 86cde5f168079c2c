/* Semihosting: a processor asks its debugger, or qemu, to read and write for it. The numbers are those of Arm, which
 * RISC-V uses too. */
#ifndef SEMIHOSTING_H
#define SEMIHOSTING_H

#include <stdint.h>

enum {
    SEMIHOSTING_OPEN = 0x01, SEMIHOSTING_CLOSE = 0x02, SEMIHOSTING_WRITE = 0x05, SEMIHOSTING_READ = 0x06,
    SEMIHOSTING_COMMAND_LINE = 0x15, SEMIHOSTING_EXIT = 0x20
};

/* How a file is opened: to read, and to write from its beginning. */
enum { HOST_READS = 1, HOST_WRITES = 5 };

/* Standard input, output or error of the program that hosts: ":tt" to read, to write and to append. */
enum { HOST_INPUT = 0, HOST_OUTPUT = 4, HOST_ERROR = 8 };

#if defined __riscv || defined __arm__
/* One call, with its words. */
static inline intptr_t semihosting(intptr_t call, const void *words) {
#ifdef __riscv
    register intptr_t answer __asm__("a0") = call;
    register const void *given __asm__("a1") = words;
    /* (these three instructions, of 4 bytes each and on one page) */
    __asm__ volatile(".option push\n.option norvc\n.balign 16\n"
                     "slli zero, zero, 0x1f\nebreak\nsrai zero, zero, 7\n.option pop"
                     : "+r"(answer) : "r"(given) : "memory");
#else
    register intptr_t answer __asm__("r0") = call;
    register const void *given __asm__("r1") = words;
    __asm__ volatile("bkpt 0xab" : "+r"(answer) : "r"(given) : "memory");
#endif
    return answer;
}

/* -1 where there is no such stream. */
static inline intptr_t host_stream(intptr_t which) {
    return semihosting(SEMIHOSTING_OPEN, (const intptr_t[]){(intptr_t)":tt", which, 3});
}

/* -1 where the file cannot be opened. */
static inline intptr_t host_open(const char *name, intptr_t mode) {
    intptr_t len = 0;
    while (name[len]) len++;
    return semihosting(SEMIHOSTING_OPEN, (const intptr_t[]){(intptr_t)name, mode, len});
}

static inline void host_close(intptr_t stream) {
    semihosting(SEMIHOSTING_CLOSE, (const intptr_t[]){stream});
}

/* The words of the command line, with blanks between them and a zero at the end. */
static inline void host_words(char *words, uint32_t room) {
    words[0] = 0;
    semihosting(SEMIHOSTING_COMMAND_LINE, (const intptr_t[]){(intptr_t)words, (intptr_t)room});
}

/* How many bytes were read, 0 at the end. */
static inline uint32_t host_read(intptr_t stream, void *bytes, uint32_t len) {
    return len - (uint32_t)semihosting(SEMIHOSTING_READ, (const intptr_t[]){stream, (intptr_t)bytes, (intptr_t)len});
}

static inline void host_write(intptr_t stream, const void *bytes, uint32_t len) {
    semihosting(SEMIHOSTING_WRITE, (const intptr_t[]){stream, (intptr_t)bytes, (intptr_t)len});
}

static inline _Noreturn void host_exit(int status) {
    for (;;) semihosting(SEMIHOSTING_EXIT, (const intptr_t[]){0x20026, status});
}

#else
/* On a computer a firmware runs as a program, which tools/test-mcu holds the others against. */
#include <fcntl.h>
#include <stdlib.h>
#include <unistd.h>

static inline intptr_t host_stream(intptr_t which) {
    return which / 4;
}

static inline intptr_t host_open(const char *name, intptr_t mode) {
    return open(name, mode == HOST_READS ? O_RDONLY : O_WRONLY | O_CREAT | O_TRUNC, 0666);
}

static inline void host_close(intptr_t stream) {
    close((int)stream);
}

static inline void host_words(char *words, uint32_t room) {
    int file = open("/proc/self/cmdline", O_RDONLY);
    ssize_t len = file < 0 ? 0 : read(file, words, room - 1);
    words[len < 1 ? 0 : len - 1] = 0;
    for (ssize_t i = 0; i < len - 1; i++) {
        if (words[i] == 0) words[i] = ' ';
    }
    if (file >= 0) close(file);
}

static inline uint32_t host_read(intptr_t stream, void *bytes, uint32_t len) {
    ssize_t count = read((int)stream, bytes, len);
    return count > 0 ? (uint32_t)count : 0;
}

static inline void host_write(intptr_t stream, const void *bytes, uint32_t len) {
    if (write((int)stream, bytes, len) < 0) abort();
}

static inline _Noreturn void host_exit(int status) {
    exit(status);
}
#endif

#endif
