#include "DccTrack.h"

#include "DccText.h"

void DccTrack::begin(uint32_t now) {
    framer = dcc_framer_new();
    last = now;
    halves = written = read = 0;
}

void DccTrack::edge(uint32_t now) {
    uint32_t us = now - last;
    last = now;
    halfBit(us > UINT16_MAX ? UINT16_MAX : (uint16_t)us);
}

void DccTrack::halfBit(uint16_t us) {
    dcc_outcome seen;
    halves++;
    if (dcc_push(&framer, us, &seen) && (uint8_t)(written - read) < 4) {
        found[written % 4] = {halves, seen};
        __atomic_signal_fence(__ATOMIC_SEQ_CST); /* loop() finds it complete */
        written = written + 1;
    }
}

bool DccTrack::nextLine(char line[LINE]) {
    uint32_t half;
    dcc_outcome seen;
    if (!next(&half, &seen)) return false;
    dccAppendOutcome(line, half, seen);
    return true;
}

bool DccTrack::next(uint32_t *half, dcc_outcome *seen) {
    if (read == written) return false;
    __atomic_signal_fence(__ATOMIC_SEQ_CST);
    *half = found[read % 4].half;
    *seen = found[read % 4].seen;
    __atomic_signal_fence(__ATOMIC_SEQ_CST); /* the interrupt may write to its place now */
    read = read + 1;
    return true;
}
