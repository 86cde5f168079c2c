// An accessory decoder that turns four servos, for an Uno or Nano: the servo of turnout n is at PINS[n]. The signal of
// the track comes through an optocoupler to pin 2, since Arduino's library Servo takes timer 1. A servo turns by one
// degree in 20 milliseconds, and has no pulses while its turnout rests. EEPROM keeps the side of each turnout, from
// address 16 on. A turnout without a side in EEPROM is at side 0.
#define DCC_EDGES_ON_PIN_2
#define DCC_EDGES_BY_TIMER_2
#include <DccAccessory.h>
#include <DccEdges.h>
#include <EEPROM.h>
#include <Servo.h>

const uint16_t BOARD = 1;
const uint8_t COUNT = 4, PINS[COUNT] = {5, 6, 9, 10};
const uint8_t DEGREES[2] = {60, 120};      // of side 0 and side 1
const uint8_t STEP = 20, REST = 10;        // milliseconds of a step, and the steps with pulses after a turn
const uint8_t FIRST_SIDE = 16;             // in EEPROM

struct Turnout {
    Servo servo;
    uint8_t side, degrees, rest;
};

DccAccessory decoder;
Turnout turnouts[COUNT];

void onHalfBit(uint16_t us) { decoder.halfBit(us); }

void notifyDccAccTurnoutBoard(uint16_t, uint8_t pair, uint8_t direction, uint8_t power) {
    if (!power) return;
    turnouts[pair].side = direction;
    EEPROM.update(FIRST_SIDE + pair, direction);
    Serial.print("turnout ");
    Serial.print(pair);
    Serial.println(direction ? " to side 1" : " to side 0");
}

void turn(Turnout &it, uint8_t pin) {
    const uint8_t wanted = DEGREES[it.side];
    if (it.degrees != wanted) {
        it.degrees += it.degrees < wanted ? 1 : -1;
        it.servo.write(it.degrees);
        if (!it.servo.attached()) it.servo.attach(pin);
        it.rest = REST;
    } else if (it.rest > 0 && --it.rest == 0) {
        it.servo.detach();
    }
}

void setup() {
    Serial.begin(115200);
    for (uint8_t i = 0; i < COUNT; i++) {
        turnouts[i].side = EEPROM.read(FIRST_SIDE + i) == 1;
        turnouts[i].degrees = DEGREES[turnouts[i].side];
    }
    decoder.begin(BOARD, micros());
    beginEdges();
}

void loop() {
    static uint32_t last;
    decoder.process();
    if (millis() - last < STEP) return;
    last += STEP;
    for (uint8_t i = 0; i < COUNT; i++) turn(turnouts[i], PINS[i]);
}
