// An accessory decoder that a station programs on its programming track, for an Uno. Output n is at OUTPUTS[n]. The
// signal of the track comes through an optocoupler to pin 8 of an Uno or Nano, pin 49 of a Mega, and pin 2 of other
// boards (DccEdges.h). At an acknowledgement, ACK_PIN is high for 6 milliseconds, and a transistor draws 60 mA from the
// track. The CVs are in EEPROM, CV1 at address 0. The number of the board is CV9 % 8 * 64 + CV1 % 64 (NMRA S-9.2.2).
// New EEPROM has number 511. No board has this number, so the decoder obeys no packet until it is programmed.
#include <DccAccessory.h>
#include <DccEdges.h>
#include <EEPROM.h>

const uint8_t OUTPUTS[8] = {3, 4, 5, 6, 7, 9, 10, 11};
const uint8_t ACK_PIN = 12;
DccTrack track;
dcc_small_service service;
dcc_board board;
bool hasBoard;
bool isProgrammed; // a CV has changed since the board was powered up

void onHalfBit(uint16_t us) { track.halfBit(us); }

void notifyDccAccTurnoutBoard(uint16_t number, uint8_t pair, uint8_t direction, uint8_t power) {
    digitalWrite(OUTPUTS[2 * pair + direction], power ? HIGH : LOW);
    Serial.print("board ");
    Serial.print(number);
    Serial.print(", turnout ");
    Serial.print(pair);
    Serial.print(direction ? " to side 1" : " to side 0");
    Serial.println(power ? ", on" : ", off");
}

// Begins as the board whose number is in EEPROM. The outputs keep their levels.
void powerUp() {
    uint16_t number = EEPROM.read(8) % 8 * 64 + EEPROM.read(0) % 64;
    hasBoard = dcc_board_new(&board, number) == 0;
    isProgrammed = false;
    Serial.print("board ");
    Serial.println(number);
}

// Takes a frame of the programming track. dcc_small_service_cv writes the number of the accessed CV, or 0.
void program(const dcc_frame &frame) {
    uint16_t cv;
    uint8_t value = 0;
    bool isChanged, isAcknowledged;
    if (dcc_small_service_cv(&service, frame.bytes, frame.len, &cv) != 0) return;
    if (cv > 0) value = EEPROM.read(cv - 1);
    if (dcc_small_service_apply(&service, frame.bytes, frame.len, &value, &isChanged, &isAcknowledged) != 0) return;
    if (isAcknowledged) {
        digitalWrite(ACK_PIN, HIGH);
        delay(6);
        digitalWrite(ACK_PIN, LOW);
    }
    if (!isChanged) return;
    EEPROM.update(cv - 1, value);
    isProgrammed = true;
    Serial.print("CV");
    Serial.print(cv);
    Serial.print(" is ");
    Serial.println(value);
}

void setup() {
    Serial.begin(115200);
    for (uint8_t pin : OUTPUTS) pinMode(pin, OUTPUT);
    pinMode(ACK_PIN, OUTPUT);
    dcc_small_service_new(&service);
    powerUp();
    track.begin(micros());
    beginEdges();
}

void loop() {
    uint32_t half;
    dcc_outcome seen;
    dcc_packet packet;
    while (track.next(&half, &seen)) {
        if (seen.refusal != 0 || dcc_read(seen.frame.bytes, seen.frame.len, &packet) != 0) continue;
        program(seen.frame);
        // in service mode, the board hears only the reset
        bool isReset = packet.kind == DCC_RESET && packet.to == DCC_ALL;
        if (service.in_service && !isReset) continue;
        if (!service.in_service && isProgrammed) powerUp();
        if (hasBoard) dccHearBoard(board, seen.frame, packet);
    }
}
