#include "DccDecoder.h"

#include "DccLocoValues.h"

__attribute__((weak)) void notifyDccSpeed(uint8_t, uint8_t, bool) {}
__attribute__((weak)) void notifyDccFunc(uint8_t, bool) {}
__attribute__((weak)) void notifyDccState(uint8_t, bool) {}
__attribute__((weak)) void notifyCVChange(uint16_t, uint8_t) {}
__attribute__((weak)) void notifyCVResetFactoryDefault() {}
__attribute__((weak)) void notifyDccReset() {}
__attribute__((weak)) void notifyCVAck() {}
__attribute__((weak)) void notifyServiceMode(bool) {}

/* Each target is little-endian, so bit n is in byte n / 8. An AVR would shift a word of 64 bits bit by bit. */
static bool isOne(const uint64_t words[2], uint8_t n) {
    return ((const uint8_t *)words)[n / 8] >> (n % 8) & 1;
}

/* Calls notify for each bit that differs from the bit before. */
static void notifyTurned(const uint64_t before[2], const uint64_t now[2], void (*notify)(uint8_t, bool)) {
    if (before[0] == now[0] && before[1] == now[1]) return; /* most packets change no bit */
    for (uint8_t n = 0; n < 128; n++) {
        if (isOne(before, n) != isOne(now, n)) notify(n, isOne(now, n));
    }
}

void DccLocoValues::notifyChanges(const DccLocoValues &before) const {
    const bool isChanged = before.mode != mode || before.step != step || before.forward != forward;
    if (isChanged) notifyDccSpeed(step, mode, forward);
    notifyTurned(before.functions, functions, notifyDccFunc);
    notifyTurned(before.states, states, notifyDccState);
}

void DccDecoder::begin(const uint8_t cvs[DCC_CVS], uint32_t now, uint16_t boardNumber) {
    dcc_decoder_new(&state, cvs);
    listen(now, boardNumber);
}

void DccDecoder::powerUp(uint32_t now, uint16_t boardNumber) {
    dcc_decoder_power_up(&state);
    listen(now, boardNumber);
}

void DccDecoder::listen(uint32_t now, uint16_t boardNumber) {
    hasBoard = dcc_board_new(&board, boardNumber) == 0;
    track.begin(now);
    packets.restart();
}

void DccDecoder::setMainOnly(bool mainOnly) {
    const bool wasInService = state.service.in_service;
    dcc_decoder_set_main_only(&state, mainOnly);
    if (wasInService && mainOnly) notifyServiceMode(false);
}

void DccDecoder::process() {
    uint32_t half;
    dcc_outcome seen;
    dcc_packet packet;
    while (track.next(&half, &seen)) {
        if (seen.refusal != 0 || dcc_read(seen.frame.bytes, seen.frame.len, &packet) != 0) continue;
        packets.restart();
        notifyDccMsg(seen.frame);
        hearLoco(seen.frame, packet);
        if (hasBoard) dccHearBoard(board, seen.frame, packet);
    }
    if (!state.service.in_service || timer.age() <= 20) return;
    dcc_decoder_end_service(&state); /* the locomotive has stopped since the reset, so no value changes */
    notifyServiceMode(false);
}

/* The packet can end service mode and so change the address. So the locomotive hears it before its address is compared
 * with that of a reset. */
void DccDecoder::hearLoco(const dcc_frame &frame, const dcc_packet &packet) {
    const DccLocoValues before(state.loco);
    const bool wasInService = state.service.in_service;
    bool isForLoco = false;
    dcc_answer answer;
    if (dcc_decoder_hear(&state, frame.bytes, frame.len, &answer) != 0) return;
    if (wasInService != state.service.in_service) notifyServiceMode(state.service.in_service);
    if (state.service.in_service) timer.restart();
    if (answer.acknowledged) notifyCVAck();
    dcc_loco_hears(&state.loco, frame.bytes, frame.len, &isForLoco);
    if (isForLoco && packet.kind == DCC_RESET) notifyDccReset();
    const bool isHeard = state.service.in_service || isForLoco;
    if (isHeard && factory.isSecond(frame, packet, state.service.in_service)) notifyCVResetFactoryDefault();
    DccLocoValues(state.loco).notifyChanges(before);
    if (answer.changed != 0) notifyCVChange(answer.changed, state.loco.cvs[answer.changed - 1]);
}
