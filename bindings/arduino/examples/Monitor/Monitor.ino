// Lists the packets of a track in hexadecimal digits, and the turnouts and signals that they name, for an Uno. The
// signal of the track comes through an optocoupler to pin 2, as on boards that are made for NmraDcc. Turnouts are
// counted from board 1. Without a packet for a second, the sketch writes a line.
#define DCC_EDGES_ON_PIN_2
#include <DccAccessory.h>
#include <DccEdges.h>
#include <DccTurnouts.h>

DccAccessory decoder;
bool isSilent;

void onHalfBit(uint16_t us) { decoder.halfBit(us); }

void tell(const char *name, uint16_t number) {
    Serial.print(name);
    Serial.print(number);
}

void notifyDccMsg(const dcc_frame &frame) {
    dcc_packet packet;
    for (uint8_t i = 0; i < frame.len; i++) {
        if (frame.bytes[i] < 16) Serial.print("0");
        Serial.print(frame.bytes[i], HEX);
    }
    if (dcc_read(frame.bytes, frame.len, &packet) != 0) packet.kind = DCC_OTHER;
    if (packet.kind == DCC_ACCESSORY) {
        tell(" turnout ", dccTurnout(packet.address, packet.output));
        tell(" to side ", packet.output % 2);
        Serial.print(packet.on ? ", on" : ", off");
    }
    if (packet.kind == DCC_SIGNAL) {
        tell(" signal ", packet.address);
        tell(" shows ", packet.aspect);
    }
    Serial.println();
}

void setup() {
    Serial.begin(115200);
    decoder.begin(1, micros()); // a board without outputs
    beginEdges();
}

void loop() {
    decoder.process();
    const bool wasSilent = isSilent;
    isSilent = decoder.packetAge() > 1000;
    if (isSilent && !wasSilent) Serial.println("no packets");
}
