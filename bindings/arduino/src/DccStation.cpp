#include "DccStation.h"

static const dcc_timing timing = DCC_MAIN_TIMING;

bool DccStation::begin(uint8_t queue, uint8_t slots, uint8_t repeats) {
    static const dcc_station none = {};
    static const dcc_sender nothing = {};
    static const uint8_t bytes[3] = {0xff, 0x00, 0xff};
    station = none;
    sender = idle = next = nothing;
    isReady = false;
    dcc_sender_start(&idle, bytes, sizeof bytes, &timing);
    return dcc_station_new(&station, queue, slots, repeats) == 0;
}

DccRefusal DccStation::command(const char *line) {
    uint32_t len = 0;
    while (line[len] != 0) len++;
    return command(line, len);
}

DccRefusal DccStation::command(const char *line, uint32_t len) {
    dcc_frame frame;
    uint8_t fault = dcc_frame_of_line(line, len, &frame);
    if (fault != 0) return {'P', fault};
    fault = dcc_station_command(&station, frame.bytes, frame.len);
    if (fault != 0) return {'C', fault};
    return {0, 0};
}

void DccStation::process() {
    dcc_frame frame;
    if (isReady) return;
    dcc_station_next(&station, &frame);
    dcc_sender_start(&next, frame.bytes, frame.len, &timing);
    __atomic_signal_fence(__ATOMIC_SEQ_CST); /* the interrupt finds it complete */
    isReady = true;
}

uint16_t DccStation::half() {
    uint16_t us = dcc_sender_half(&sender);
    if (us > 0) return us;
    /* a packet begins, which was made ready in loop(): this takes a few instructions more than any other half-bit */
    sender = isReady ? next : idle;
    __atomic_signal_fence(__ATOMIC_SEQ_CST); /* loop() may write to it now */
    isReady = false;
    return dcc_sender_half(&sender);
}
