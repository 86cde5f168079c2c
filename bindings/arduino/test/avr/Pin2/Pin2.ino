// The sketch Show with the track at pin 2, as on boards that are made for NmraDcc.
#define DCC_EDGES_ON_PIN_2
#include <DccEdges.h>
#include <DccTrack.h>

DccTrack track;

void onHalfBit(uint16_t us) { track.halfBit(us); }

void setup() {
    Serial.begin(115200);
    track.begin(micros());
    beginEdges();
}

void loop() {
    char line[DccTrack::LINE];
    while (track.nextLine(line)) Serial.println(line);
}
