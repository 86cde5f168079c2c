// A locomotive decoder with a motor and two lamps, for an Uno. CV2 is the voltage of the first step and CV5 that of the
// last step, in 256ths. The signal of the track comes through an optocoupler to pin 2, as on boards that are made for
// NmraDcc. The CVs are in EEPROM, CV1 at address 0. A write of 8 to CV8 gives them their first values. The motor stops
// if no packet comes for a second. It also draws the current of an acknowledgement, for 6 milliseconds.
#define DCC_EDGES_ON_PIN_2
#include <DccEdges.h>
#include <DccSmallDecoder.h>
#include <EEPROM.h>

const uint8_t FORWARD_LAMP = 5, REVERSE_LAMP = 6, MOTOR_DIRECTION = 12, MOTOR = 3;
const uint8_t OUTPUTS[] = {FORWARD_LAMP, REVERSE_LAMP, MOTOR_DIRECTION, MOTOR};
const uint8_t HOME_MADE = 13; // of NMRA's list of manufacturers
const struct {
    uint8_t cv, value;
} FIRST_VALUES[] = {{1, 3}, {2, 120}, {5, 255}, {7, 10}, {8, HOME_MADE}, {17, 192}, {18, 3}, {29, 2}};

DccSmallDecoder decoder;
uint8_t voltage; // of the motor
bool isForward = true, isLit;

void onHalfBit(uint16_t us) { decoder.halfBit(us); }

uint8_t notifyCVRead(uint16_t cv) { return EEPROM.read(cv - 1); }

uint8_t notifyCVWrite(uint16_t cv, uint8_t value) {
    EEPROM.update(cv - 1, value);
    return value;
}

void notifyCVResetFactoryDefault() {
    for (const auto &it : FIRST_VALUES) notifyCVWrite(it.cv, it.value);
    Serial.println("first values");
}

void notifyDccSpeed(uint8_t step, uint8_t of, bool forward) {
    const uint8_t least = notifyCVRead(2), most = notifyCVRead(5);
    voltage = step == 0 ? 0 : of < 2 || most < least ? least : least + (uint16_t)(most - least) * (step - 1) / (of - 1);
    isForward = forward;
    Serial.print(forward ? "forward, voltage " : "reverse, voltage ");
    Serial.println(voltage);
}

void notifyDccFunc(uint8_t function, bool on) {
    if (function == 0) isLit = on;
}

void notifyCVAck() {
    analogWrite(MOTOR, 255);
    delay(6);
    analogWrite(MOTOR, 0);
}

void setup() {
    Serial.begin(115200);
    for (uint8_t pin : OUTPUTS) pinMode(pin, OUTPUT);
    if (notifyCVRead(8) != HOME_MADE) notifyCVResetFactoryDefault();
    decoder.begin(micros());
    beginEdges();
}

void loop() {
    decoder.process();
    const bool isSilent = decoder.packetAge() > 1000;
    digitalWrite(MOTOR_DIRECTION, isForward ? HIGH : LOW);
    analogWrite(MOTOR, isSilent ? 0 : voltage);
    digitalWrite(FORWARD_LAMP, isLit && isForward ? HIGH : LOW);
    digitalWrite(REVERSE_LAMP, isLit && !isForward ? HIGH : LOW);
}
