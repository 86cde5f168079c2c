// A command station. Lines such as `loco s3 speed28 f 4` come over the serial port. The signal for the booster comes
// from pin 46 of a Mega, pin 9 of other boards with an AVR, pin 5 of an RP2040 (DccSignal.h). A station takes 1.8
// kilobytes of memory, so the sketch needs more than an Uno has.
#include <DccSignal.h>
#include <DccStation.h>

DccStation station;

uint16_t nextHalfBit() { return station.half(); }

// The longest line that is kept. A packet line has 40 bytes at most, without the blanks that you add.
enum { LINE = 80 };

// A line that is complete, of len bytes. A longer line than LINE is refused whole, as `dcc` refuses a line that is
// too long.
void command(const char *line, uint32_t len) {
    DccRefusal refusal = {'P', 10};
    if (len <= LINE) refusal = station.command(line, len);
    if (refusal.letter == 0) return;
    Serial.print("# refused ");
    Serial.print(refusal.letter);
    Serial.println(refusal.number);
}

void setup() {
    Serial.begin(115200);
    station.begin();
    station.process();
    beginSignal();
}

void loop() {
    static char line[LINE];
    static uint8_t len;
    while (Serial.available() > 0) {
        char c = Serial.read();
        if (c == '\n') {
            command(line, len);
            len = 0;
        } else if (len < LINE) {
            line[len++] = c;
        } else {
            len = LINE + 1;
        }
    }
    station.process();
}
