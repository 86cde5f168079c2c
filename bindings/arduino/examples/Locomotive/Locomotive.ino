// A locomotive decoder for an Uno, which a station programs on the main track and on the programming track.
//
// The signal of the track comes through an optocoupler to pin 8 of an Uno or Nano, pin 49 of a Mega, and pin 2 of other
// boards (DccEdges.h). A motor is at pin 3 and a lamp at pin 13. At an acknowledgement, ACK_PIN is high for 6
// milliseconds, and a transistor draws 60 mA from the track. The CVs are in EEPROM, CV1 at address 0. If CV8 does not
// have the number of home-made decoders, the EEPROM is new, and the sketch writes its first values.
#include <DccEdges.h>
#include <DccSmallDecoder.h>
#include <EEPROM.h>

const uint8_t MOTOR = 3, LAMP = 13, ACK_PIN = 12;
const uint8_t HOME_MADE = 13; // of NMRA's list of manufacturers
DccSmallDecoder decoder;

void onHalfBit(uint16_t us) { decoder.halfBit(us); }

void notifyDccSpeed(uint8_t step, uint8_t of, bool forward) {
    analogWrite(MOTOR, step == 0 ? 0 : 255 * step / of);
    Serial.print(forward ? "forward, step " : "reverse, step ");
    Serial.println(step);
}

void notifyDccFunc(uint8_t function, bool on) {
    if (function == 0) digitalWrite(LAMP, on ? HIGH : LOW);
    Serial.print("F");
    Serial.print(function);
    Serial.println(on ? " on" : " off");
}

uint8_t notifyCVRead(uint16_t cv) { return EEPROM.read(cv - 1); }

uint8_t notifyCVWrite(uint16_t cv, uint8_t value) {
    EEPROM.update(cv - 1, value);
    Serial.print("CV");
    Serial.print(cv);
    Serial.print(" is ");
    Serial.println(value);
    return value;
}

void notifyCVAck() {
    digitalWrite(ACK_PIN, HIGH);
    delay(6);
    digitalWrite(ACK_PIN, LOW);
}

void notifyServiceMode(bool isInService) { Serial.println(isInService ? "service mode" : "main track"); }

void setup() {
    Serial.begin(115200);
    pinMode(LAMP, OUTPUT);
    pinMode(ACK_PIN, OUTPUT);
    if (notifyCVRead(8) != HOME_MADE) {
        notifyCVWrite(1, 3); // the short address
        notifyCVWrite(7, 1); // the version
        notifyCVWrite(8, HOME_MADE);
        notifyCVWrite(29, 2); // 28 steps
    }
    decoder.begin(micros());
    beginEdges();
}

void loop() { decoder.process(); }
