/* The names that the examples of docs/C.md leave to the reader. Each block of C compiles as the body of a function. */
#include "dcc.h"
#include <stdatomic.h>

extern uint16_t us;
extern dcc_station station;
extern dcc_small_service service;
extern dcc_frame question;
extern bool has_left;
#ifdef FRAME_IS_BYTES
extern const uint8_t *frame;
extern uint64_t len;
#else
extern dcc_frame frame;
#endif
void report_preamble(unsigned ones), report_ones(unsigned count, unsigned least, unsigned most);
void report_zeros(unsigned count, unsigned least, unsigned most);
bool is_acknowledged(const dcc_frame *of);
unsigned place_of(unsigned cv);
uint8_t eeprom_read_byte(unsigned place);
void eeprom_write_byte(unsigned place, uint8_t byte);
void draw_current(void), drive(unsigned mode, unsigned step, bool forward);
