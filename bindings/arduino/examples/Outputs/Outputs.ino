// A decoder with 17 outputs for the functions F0 to F16, for an Uno or Nano. CV30 to CV46 have the effects of the
// outputs: 0 is on and off, and 1 blinks. The signal of the track comes through an optocoupler to pin 2, as on boards
// that are made for NmraDcc. The CVs are in EEPROM, CV1 at address 0. A write of 8 to CV8 gives them their first
// values. At an acknowledgement, the output of F13 is on for 6 milliseconds.
#define DCC_EDGES_ON_PIN_2
#include <DccEdges.h>
#include <DccSmallDecoder.h>
#include <EEPROM.h>

const uint8_t PINS[] = {3, 4, 5, 6, 7, 8, 9, 10, 11, 12, 13, 14, 15, 16, 17, 18, 19};
const uint8_t COUNT = sizeof PINS, ACK_PIN = PINS[13], FIRST_EFFECT = 30;
const uint8_t HOME_MADE = 13; // of NMRA's list of manufacturers

DccSmallDecoder decoder;
bool isOn[COUNT];

void onHalfBit(uint16_t us) { decoder.halfBit(us); }

uint8_t notifyCVRead(uint16_t cv) { return EEPROM.read(cv - 1); }

uint8_t notifyCVWrite(uint16_t cv, uint8_t value) {
    EEPROM.update(cv - 1, value);
    return value;
}

void notifyCVResetFactoryDefault() {
    notifyCVWrite(1, 24); // the short address
    notifyCVWrite(8, HOME_MADE);
    notifyCVWrite(29, 2); // 28 steps
    for (uint8_t i = 0; i < COUNT; i++) notifyCVWrite(FIRST_EFFECT + i, 0);
}

void notifyDccFunc(uint8_t function, bool on) {
    if (function < COUNT) isOn[function] = on;
}

void notifyCVAck() {
    digitalWrite(ACK_PIN, HIGH);
    delay(6);
    digitalWrite(ACK_PIN, LOW);
}

void setup() {
    for (uint8_t pin : PINS) pinMode(pin, OUTPUT);
    if (notifyCVRead(8) != HOME_MADE) notifyCVResetFactoryDefault();
    decoder.begin(micros());
    beginEdges();
}

void loop() {
    decoder.process();
    const bool isBright = millis() / 256 % 2 == 0;
    for (uint8_t i = 0; i < COUNT; i++) {
        const bool blinks = notifyCVRead(FIRST_EFFECT + i) == 1;
        digitalWrite(PINS[i], isOn[i] && (isBright || !blinks) ? HIGH : LOW);
    }
}
