#include "DccAccessory.h"

#include "DccTurnouts.h"

__attribute__((weak)) void notifyDccMsg(const dcc_frame &) {}
__attribute__((weak)) void notifyDccAccTurnoutBoard(uint16_t, uint8_t, uint8_t, uint8_t) {}
__attribute__((weak)) void notifyDccAccTurnoutOutput(uint16_t, uint8_t, uint8_t) {}
__attribute__((weak)) void notifyDccAccOutputChange(uint16_t, uint8_t, bool) {}
__attribute__((weak)) void notifyDccSigOutputState(uint16_t, uint8_t) {}

bool DccAccessory::begin(uint16_t number, uint32_t now) {
    hasBoard = dcc_board_new(&board, number) == 0;
    track.begin(now);
    packets.restart();
    return hasBoard;
}

void DccAccessory::process() {
    uint32_t half;
    dcc_outcome seen;
    dcc_packet packet;
    while (track.next(&half, &seen)) {
        if (seen.refusal != 0 || dcc_read(seen.frame.bytes, seen.frame.len, &packet) != 0) continue;
        packets.restart();
        notifyDccMsg(seen.frame);
        if (!hasBoard) continue;
        dccHearBoard(board, seen.frame, packet);
    }
}

void dccHearBoard(dcc_board &board, const dcc_frame &frame, const dcc_packet &packet) {
    bool heard = false;
    if (dcc_board_hears(&board, frame.bytes, frame.len, &heard) != 0 || !heard) return;
    dcc_board before = board;
    if (dcc_board_apply(&board, frame.bytes, frame.len) != 0) return;
    for (uint8_t n = 0; n < 8; n++) {
        const bool isOn = board.outs >> n & 1, isChanged = isOn != (before.outs >> n & 1);
        const bool isNamed = packet.kind == DCC_ACCESSORY && packet.output == n;
        if (!isNamed && !isChanged) continue;
        notifyDccAccTurnoutBoard(board.number, n / 2, n % 2, isOn);
        notifyDccAccTurnoutOutput(dccTurnout(board.number, n), n % 2, isOn);
        if (isChanged) notifyDccAccOutputChange(board.number, n, isOn);
    }
    for (uint8_t n = 0; n < 4 && packet.kind == DCC_SIGNAL; n++) {
        const bool is_named = packet.address == 2047 || packet.address % 4 == n;
        if (is_named) notifyDccSigOutputState(board.number * 4 + n, board.aspects[n]);
    }
}
