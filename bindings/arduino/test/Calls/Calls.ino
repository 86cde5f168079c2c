// Each packet on the track, and below it each call of three decoders that hear it.
#include <DccDecoder.h>
#include <DccEdges.h>

DccTrack track;
DccDecoder decoders[3];
uint8_t which;

void onHalfBit(uint16_t us) {
    track.halfBit(us);
    for (DccDecoder &it : decoders) it.halfBit(us);
}

// A line of a decoder, a to c: a word and numbers.
void tell(const char *word, int first, int second = -1, int third = -1, int fourth = -1) {
    const int numbers[4] = {first, second, third, fourth};
    Serial.print("  ");
    Serial.print((char)('a' + which));
    Serial.print(" ");
    Serial.print(word);
    for (int it : numbers) {
        if (it < 0) continue;
        Serial.print(" ");
        Serial.print(it);
    }
    Serial.println();
}

void notifyDccSpeed(uint8_t step, uint8_t of, bool forward) { tell(forward ? "forward" : "reverse", step, of); }
void notifyDccFunc(uint8_t function, bool on) { tell(on ? "function on" : "function off", function); }
void notifyDccState(uint8_t state, bool on) { tell(on ? "state on" : "state off", state); }
void notifyCVChange(uint16_t cv, uint8_t value) { tell("cv", cv, value); }
void notifyDccReset() { tell("reset", -1); }
void notifyCVAck() { tell("acknowledged", -1); }
void notifyServiceMode(bool isInService) { tell(isInService ? "service mode" : "main track", -1); }
void notifyDccAccTurnoutBoard(uint16_t board, uint8_t pair, uint8_t direction, uint8_t power) {
    tell("turnout", board, pair, direction, power);
}
void notifyDccAccTurnoutOutput(uint16_t address, uint8_t direction, uint8_t power) {
    tell("output", address, direction, power);
}
void notifyDccAccOutputChange(uint16_t board, uint8_t output, bool on) {
    tell(on ? "changed on" : "changed off", board, output);
}
void notifyDccSigOutputState(uint16_t address, uint8_t aspect) { tell("signal", address, aspect); }

void setup() {
    static uint8_t cvs[3][DCC_CVS];
    cvs[0][0] = 3;  // the short address 3, 28 steps, board 12
    cvs[0][28] = 2;
    cvs[1][16] = 0xc3;  // the long address 1000, 28 steps, board 510
    cvs[1][17] = 0xe8;
    cvs[1][28] = 0x22;
    cvs[2][0] = 3;  // the short address 3, 14 steps, no board
    Serial.begin(115200);
    track.begin(micros());
    decoders[0].begin(cvs[0], micros(), 12);
    decoders[1].begin(cvs[1], micros(), 510);
    decoders[2].begin(cvs[2], micros());
    beginEdges();
}

void loop() {
    char line[DccTrack::LINE];
    while (track.nextLine(line)) {
        const char *packet = line;
        while (*packet++ != ' ') continue;
        Serial.println(packet);
    }
    for (which = 0; which < 3; which++) decoders[which].process();
}
