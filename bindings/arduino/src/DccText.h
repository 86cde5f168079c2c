/* Writes text, numbers, frames and outcomes into a line. Each function returns the place after the text that it wrote.
 * This place has a zero. */
#ifndef DCC_TEXT_H
#define DCC_TEXT_H

#include <dcc.h>

char *dccAppend(char *at, const char *text);
char *dccAppendNumber(char *at, uint32_t number);

/* Writes the bytes of a frame in hex. */
char *dccAppendHex(char *at, const dcc_frame &frame);

/* Writes the packet line of a frame, for example "loco s3 speed28 f 4". A frame without a packet line is written in
 * hex. */
char *dccAppendPacket(char *at, const dcc_frame &frame);

/* Writes an outcome whose last half-bit has this number, as `dcc show --words` lists it: "84 loco s3 speed28 f 4" or
 * "252 refused H5 036260". */
char *dccAppendOutcome(char *at, uint32_t half, const dcc_outcome &seen);

#endif
