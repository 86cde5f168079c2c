// A locomotive decoder with the short address 3, and board 12. A station programs the locomotive on the main track and
// on the programming track.
//
// The signal of the track comes through an optocoupler to pin 49 of a Mega, pin 2 of other boards (DccEdges.h). A motor
// is at pin 3 and a lamp at pin 13. At an acknowledgement, ACK_PIN is high for 6 milliseconds, and a transistor draws
// 60 mA from the track. The CVs take a kilobyte of memory, so the sketch needs more than an Uno has.
#include <DccDecoder.h>
#include <DccEdges.h>

const uint8_t MOTOR = 3, LAMP = 13, ACK_PIN = 12;
DccDecoder decoder;

void onHalfBit(uint16_t us) { decoder.halfBit(us); }

void notifyDccSpeed(uint8_t step, uint8_t of, bool forward) {
    analogWrite(MOTOR, step == 0 ? 0 : 255 * step / of);
    Serial.print(forward ? "forward, step " : "reverse, step ");
    Serial.println(step);
}

void notifyDccFunc(uint8_t function, bool on) {
    if (function == 0) digitalWrite(LAMP, on ? HIGH : LOW);
    Serial.print("F");
    Serial.print(function);
    Serial.println(on ? " on" : " off");
}

// Your decoder writes the CV into EEPROM or flash here.
void notifyCVChange(uint16_t cv, uint8_t value) {
    Serial.print("CV");
    Serial.print(cv);
    Serial.print(" is ");
    Serial.println(value);
}

void notifyCVAck() {
    digitalWrite(ACK_PIN, HIGH);
    delay(6);
    digitalWrite(ACK_PIN, LOW);
}

void notifyServiceMode(bool isInService) { Serial.println(isInService ? "service mode" : "main track"); }

void notifyDccAccTurnoutBoard(uint16_t board, uint8_t pair, uint8_t direction, uint8_t power) {
    Serial.print("board ");
    Serial.print(board);
    Serial.print(", turnout ");
    Serial.print(pair);
    Serial.print(direction ? " to side 1" : " to side 0");
    Serial.println(power ? ", on" : ", off");
}

void setup() {
    Serial.begin(115200);
    pinMode(LAMP, OUTPUT);
    pinMode(ACK_PIN, OUTPUT);
    decoder.state.loco.cvs[0] = 3;   // CV1: the short address
    decoder.state.loco.cvs[28] = 2;  // CV29: 28 steps
    decoder.powerUp(micros(), 12);
    beginEdges();
}

void loop() { decoder.process(); }
