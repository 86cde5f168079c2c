/* The numbers of turnouts. A pair of outputs drives one turnout. Turnouts are counted from board 1 (NMRA), or from
 * board 0, as some makers count them. Board 511 stands for all boards and has no number. */
#ifndef DCC_TURNOUTS_H
#define DCC_TURNOUTS_H

#include <dcc.h>

/* Returns the number of the turnout of an output: 1 to 2040 if turnouts are counted from board 1, and 1 to 2044 if they
 * are counted from board 0. Returns 0 if the board is not firstBoard to 510, or if the output is not 0 to 7. In
 * notifyDccAccTurnoutBoard the output is 2 * pair + direction. */
uint16_t dccTurnout(uint16_t board, uint8_t output, uint8_t firstBoard = 1);

/* Writes the board and the pair, 0 to 3, of a turnout. Returns false and writes nothing if no turnout has this
 * number. */
bool dccTurnoutPair(uint16_t number, uint16_t &board, uint8_t &pair, uint8_t firstBoard = 1);

#endif
