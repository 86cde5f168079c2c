// Lists what comes over a track: packets and refusals as `dcc show --words` does, and packets that a decoder does not
// hear, with their causes, as `dcc lost --words` does. An Uno has too little memory for lost packets. The signal of the
// track comes through an optocoupler to pin 8 of an Uno or Nano, pin 49 of a Mega, pin 2 of other boards (DccEdges.h).
//
// The letter r over the serial port begins anew and lists the half-bits in runs, for example 58*28, which `dcc` reads.
// The letter w begins anew with packets. If loop() is late, half-bits do not fit, and a comment has their number.
#include <DccEdges.h>
#include <DccSniffer.h>

DccSniffer sniffer;
bool listsRuns;

void onHalfBit(uint16_t us) { sniffer.halfBit(us); }

// A line of runs has 16 words.
void listRun() {
    static uint8_t words;
    char word[DccSniffer::RUN];
    if (!sniffer.nextRun(word)) return;
    Serial.print(word);
    Serial.print(++words % 16 == 0 ? '\n' : ' ');
}

void listLine() {
    char line[DccSniffer::LINE];
    if (sniffer.nextLine(line)) Serial.println(line);
}

// A comment after `#`, which `dcc` does not read.
void listUnfit() {
    static uint32_t listed;
    const uint32_t unfit = sniffer.unfit();
    if (unfit == listed) return;
    listed = unfit;
    if (unfit == 0) return;
    Serial.print("# half-bits that did not fit: ");
    Serial.println(unfit);
}

void begin(bool asRuns) {
    listsRuns = asRuns;
    noInterrupts();
    sniffer.begin(micros());
    interrupts();
    Serial.println();
}

void setup() {
    Serial.begin(1000000);
    sniffer.begin(micros());
    beginEdges();
}

void loop() {
    const char letter = Serial.available() > 0 ? Serial.read() : 0;
    if (letter == 'r' || letter == 'w') begin(letter == 'r');
    listUnfit();
    if (listsRuns) {
        listRun();
    } else {
        listLine();
    }
}
