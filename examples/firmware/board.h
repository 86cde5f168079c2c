/* The functions between a board and a firmware of this folder. The files qemu.c implement them under emulation. Your
 * own board has a timer that captures or makes the edges of the track's signal, and pins in place of text. */
#ifndef BOARD_H
#define BOARD_H

#include <stdbool.h>
#include <stdint.h>

/* Written by a decoder and called in an interrupt: the track's signal changed. now counts microseconds and wraps. */
void on_edge(uint32_t now);

/* Written by a station and called in an interrupt: the track's level turns now. Returns the microseconds to the next
 * turn. */
uint16_t on_timer(void);

/* Sleeps until an interrupt has come. Returns false if no interrupt will come, which happens only under emulation. */
bool wait_for_interrupt(void);

/* A line that somebody has typed, its end left out. Returns false if there is no line. len is the length of the
 * line. A longer line than LINE has only its first LINE bytes here. */
enum { LINE = 80 };
bool next_line(char line[LINE], uint32_t *len);

/* Returns the next byte of the board's input, -1 at its end. */
int read_byte(void);

/* Begins to take the bytes of the serial lines. A serial line is a port, with a number from 0 on. */
void begin_serial(void);

/* Written by a station and called in the interrupt of a port: a byte has come. */
void on_byte(uint8_t port, char c);

/* Returns true if a port takes a byte now, without a wait. Returns false if the board has no such port. */
bool has_room(uint8_t port);

/* Writes a byte to a port, after has_room has returned true. */
void give_byte(uint8_t port, char c);

/* Written by a station with a programming track and called in an interrupt: the level of the programming track turns
 * now. Returns the microseconds to the next turn, or 0 if the track has no power. The board then asks again after a
 * millisecond. */
uint16_t on_programming_timer(void);

/* Turns the power of the main track on or off. */
void set_power(bool is_on);

/* Returns the current of the main track in milliamperes, 0 if the board does not measure it. */
uint16_t main_current(void);

/* Written by a station: the most current of the main track in milliamperes. */
extern const uint16_t most_current;

/* The station has turned the power off, because the main track drew too much current. */
void notify_overload(void);

/* Returns true if the decoder on the programming track draws at least 60 mA more than at rest. */
bool draws_current(void);

/* Of a decoder: draws the current of an acknowledgement, or ends it. */
void draw_current(bool is_on);

/* Of a decoder: reads the CVs from memory that lasts, for example flash. Returns false if the memory is empty. */
bool load_cvs(uint8_t *cvs, uint32_t count);

/* Of a decoder: writes the CVs to memory that lasts. */
void store_cvs(const uint8_t *cvs, uint32_t count);

/* Shows text, or a number, to whoever looks at the board. */
void show(const char *text);
void show_number(uint32_t number);

/* Ends the program, after main has returned or the processor has met a fault. */
_Noreturn void stop(int status);

#endif
