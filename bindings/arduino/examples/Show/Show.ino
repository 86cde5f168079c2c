// Lists the packets and refusals on a track, as `dcc show --words` does. The signal of the track comes through an
// optocoupler to pin 8 of an Uno or Nano, pin 49 of a Mega, pin 2 of other boards (DccEdges.h).
#include <DccEdges.h>
#include <DccTrack.h>

DccTrack track;

void onHalfBit(uint16_t us) { track.halfBit(us); }

void setup() {
    Serial.begin(115200);
    track.begin(micros());
    beginEdges();
}

void loop() {
    char line[DccTrack::LINE];
    while (track.nextLine(line)) Serial.println(line);
}
