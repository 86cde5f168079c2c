// An accessory decoder with eight outputs, for an Uno: output n is at OUTPUTS[n]. The signal of the track comes
// through an optocoupler to pin 8 of an Uno or Nano, pin 49 of a Mega, pin 2 of other boards (DccEdges.h). The
// number of the board is in EEPROM, as CV1 (its low 6 bits, at address 0) and CV9 (its high 3 bits, at address 8).
// New EEPROM has no number of a board, and then the sketch writes 1. A line `board 12` over the serial port changes
// the number.
#include <DccAccessory.h>
#include <DccEdges.h>
#include <EEPROM.h>

const uint8_t OUTPUTS[8] = {3, 4, 5, 6, 7, 9, 10, 11};
DccAccessory decoder;

void onHalfBit(uint16_t us) { decoder.halfBit(us); }

void notifyDccAccTurnoutBoard(uint16_t board, uint8_t pair, uint8_t direction, uint8_t power) {
    digitalWrite(OUTPUTS[2 * pair + direction], power ? HIGH : LOW);
    Serial.print("board ");
    Serial.print(board);
    Serial.print(", turnout ");
    Serial.print(pair);
    Serial.print(direction ? " to side 1" : " to side 0");
    Serial.println(power ? ", on" : ", off");
}

void notifyDccSigOutputState(uint16_t address, uint8_t aspect) {
    Serial.print("signal ");
    Serial.print(address);
    Serial.print(" shows ");
    Serial.println(aspect);
}

void beginBoard(uint16_t number) {
    EEPROM.update(0, number % 64);
    EEPROM.update(8, number / 64);
    noInterrupts();
    decoder.begin(number, micros());
    interrupts();
    Serial.print("board ");
    Serial.println(number);
}

// A line over the serial port: "board", a blank, and a number up to 510.
void command(const char *line) {
    uint16_t number = 0;
    uint8_t at = 6;
    for (uint8_t i = 0; i < at; i++) {
        if (line[i] != "board "[i]) return;
    }
    for (; line[at] >= '0' && line[at] <= '9' && number <= 510; at++) number = 10 * number + (line[at] - '0');
    if (line[at] == 0 && at > 6 && number <= 510) beginBoard(number);
}

void setup() {
    Serial.begin(115200);
    for (uint8_t pin : OUTPUTS) pinMode(pin, OUTPUT);
    uint16_t number = EEPROM.read(8) % 8 * 64 + EEPROM.read(0) % 64;
    beginBoard(number <= 510 ? number : 1);
    beginEdges();
}

void loop() {
    static char line[16];
    static uint8_t len;
    while (Serial.available() > 0) {
        char c = Serial.read();
        if (c == '\n') {
            line[len] = 0;
            command(line);
            len = 0;
        } else if (len < sizeof line - 1) {
            line[len++] = c;
        }
    }
    decoder.process();
}
