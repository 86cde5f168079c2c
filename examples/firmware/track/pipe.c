/* The board of a decoder under qemu on a track that a command station drives through a pipe. Standard input has the
 * half-bits of the track. The words of the command line name files:
 *
 *     DECODER [CVS [CURRENT]]
 *
 * CVS is the memory that lasts, with a byte for each CV. After each half-bit the board writes a byte to CURRENT: 1 if
 * the decoder draws the current of an acknowledgement, and 0 if not. command_station/qemu.c reads these bytes. */
#include "board.h"
#include "qemu.h"
#include "semihosting.h"

static bool draws;

void draw_current(bool is_on) {
    draws = is_on;
}

bool load_cvs(uint8_t *cvs, uint32_t count) {
    intptr_t file = open_word(1, HOST_READS);
    uint32_t len;
    if (file < 0) return false;
    len = host_read(file, cvs, count);
    host_close(file);
    return len == count;
}

void store_cvs(const uint8_t *cvs, uint32_t count) {
    intptr_t file = open_word(1, HOST_WRITES);
    if (file < 0) return;
    host_write(file, cvs, count);
    host_close(file);
}

/* The main loop has handled the half-bit before. */
bool wait_for_interrupt(void) {
    static intptr_t current = -1;
    static bool has_begun;
    static uint32_t now;
    uint32_t us;
    if (!has_begun) current = open_word(2, HOST_WRITES);
    if (has_begun && current >= 0) host_write(current, draws ? "1" : "0", 1);
    has_begun = true;
    if (!next_half(&us)) return false;
    now += us;
    on_edge(now);
    return true;
}
