// A command station for throttles and programs that speak the commands of DCC-EX, for a Mega. The commands come over
// the USB port and over Serial1 (pins 18 and 19). They are in dccex.h. The signal of the main track comes from pin 46
// (DccSignal.h), and the signal of the programming track from pin 6 (DccProgrammingSignal.h), each through a booster.
// POWER_PIN is high while the booster of the main track is on. At CURRENT_PIN, a comparator makes the level high
// while the programming track draws at least 60 mA more than at rest. If MOST_CURRENT is not 0, MAIN_CURRENT_PIN has
// the current of the main track.
#include <DccProgrammingSignal.h>
#include <DccSignal.h>
#include <dccex.h>

#ifndef MOST_CURRENT
#define MOST_CURRENT 0 // the most current of the main track in mA, or 0 if nothing measures it
#endif

const uint8_t POWER_PIN = 3, CURRENT_PIN = 7, MAIN_CURRENT_PIN = A0;
const uint16_t CURRENT_OF_5_V = 3000; // in mA
const bool FIRST_BOARD_IS_0 = false;  // true if turnout 1 is on board 0, false if it is on board 1
dccex station;

uint16_t nextHalfBit() { return dccex_half(&station); }
uint16_t nextProgrammingHalfBit() { return dccex_programming_half(&station, digitalRead(CURRENT_PIN) == HIGH); }

// The main track has lost its power, because its current exceeded MOST_CURRENT. Write what your station does then.
void notifyOverload() {}

// The current of the main track in mA
uint16_t mainCurrent() { return (uint32_t)analogRead(MAIN_CURRENT_PIN) * CURRENT_OF_5_V / 1023; }

void takeBytes(uint8_t number, HardwareSerial &port) {
    while (port.available() > 0) dccex_take(&station, number, (char)port.read());
}

void giveAnswers(uint8_t number, HardwareSerial &port) {
    char c;
    while (port.availableForWrite() > 0 && dccex_give(&station, number, &c)) port.write(c);
}

void setup() {
    Serial.begin(115200);
    Serial1.begin(115200);
    pinMode(POWER_PIN, OUTPUT);
    dccex_begin(&station);
    station.most_current = MOST_CURRENT;
    station.counts_from_board_0 = FIRST_BOARD_IS_0;
    dccex_process(&station);
    beginSignal();
    beginProgrammingSignal();
}

void loop() {
    takeBytes(0, Serial);
    takeBytes(1, Serial1);
    dccex_process(&station);
    if (MOST_CURRENT > 0 && dccex_measure(&station, mainCurrent())) notifyOverload();
    digitalWrite(POWER_PIN, station.is_on ? HIGH : LOW);
    giveAnswers(0, Serial);
    giveAnswers(1, Serial1);
}
