// Sends packets that never change, for tests of decoders and boosters: locomotive 3 goes forward with its light on.
// The signal comes from pin 9 of an Uno or Nano, pin 46 of a Mega, pin 5 of an RP2040 (DccSignal.h). It goes to a
// booster, and never to the rails.
#include <DccSignal.h>
#include <dcc.h>

const char *const LINES[] = {"loco s3 speed28 f 9", "loco s3 functions 0 16", "idle"};
enum { COUNT = sizeof LINES / sizeof *LINES };

const dcc_timing TIMING = DCC_MAIN_TIMING;
dcc_sender packets[COUNT], sender;

uint16_t nextHalfBit() {
    static uint8_t next;
    uint16_t us = dcc_sender_half(&sender);
    if (us > 0) return us;
    sender = packets[next];
    next = next + 1 < COUNT ? next + 1 : 0;
    return dcc_sender_half(&sender);
}

void setup() {
    Serial.begin(115200);
    for (uint8_t i = 0; i < COUNT; i++) {
        dcc_frame frame;
        uint8_t fault = dcc_frame_of_line(LINES[i], strlen(LINES[i]), &frame);
        if (fault == 0) fault = dcc_sender_start(&packets[i], frame.bytes, frame.len, &TIMING);
        if (fault == 0) continue;
        Serial.print("a wrong line: ");
        Serial.println(LINES[i]);
        return;
    }
    beginSignal();
}

void loop() {}
