#include "DccTurnouts.h"

uint16_t dccTurnout(uint16_t board, uint8_t output, uint8_t firstBoard) {
    if (firstBoard > 1 || board < firstBoard || board > 510 || output > 7) return 0;
    return 4 * (board - firstBoard) + output / 2 + 1;
}

bool dccTurnoutPair(uint16_t number, uint16_t &board, uint8_t &pair, uint8_t firstBoard) {
    if (firstBoard > 1 || number < 1 || number > 4u * (511u - firstBoard)) return false;
    board = (number - 1) / 4 + firstBoard;
    pair = (number - 1) % 4;
    return true;
}
