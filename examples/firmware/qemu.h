/* The track of a board under qemu: a capture on standard input. */
#ifndef QEMU_H
#define QEMU_H

#include <stdbool.h>
#include <stdint.h>

/* Reads the next half-bit of the capture: microseconds, with comments after #. Returns false at the end. */
bool next_half(uint32_t *us);

/* Opens the file that a word of the command line names, with a mode of semihosting.h. Word 0 is the program. Returns -1
 * if there is no such word or file. */
intptr_t open_word(uint32_t number, intptr_t mode);

#endif
