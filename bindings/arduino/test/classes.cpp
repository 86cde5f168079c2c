/* What no sketch shows of the classes: each line that does not hold is told, and the program ends with 1 if there
 * is one. `classes station` reads packet lines and `send N` and writes what a station sends, as `dcc encode
 * --station`. */
#include "DccAccessory.h"
#include "DccDecoder.h"
#include "DccProgrammingSignal.h"
#include "DccSmallDecoder.h"
#include "DccSniffer.h"
#include "DccStation.h"
#include "DccTurnouts.h"
#include <stdio.h>
#include <stdlib.h>
#include <string.h>

#define HOLDS(condition) holds(condition, #condition, __LINE__)

/* The milliseconds of the clock. */
static unsigned long clockMs;
unsigned long millis() { return clockMs; }

static int wrong = 0;

static void holds(bool condition, const char *text, int line) {
    if (condition) return;
    printf("line %d: %s\n", line, text);
    wrong = 1;
}

/* Gives the half-bits of a packet line to a track or a decoder, without the first ones. Returns their number. */
static uint32_t now;
template <typename T> static uint32_t play(T &to, const char *line, uint32_t first = 0) {
    dcc_frame frame;
    uint16_t halves[DCC_HALVES];
    HOLDS(dcc_frame_of_line(line, strlen(line), &frame) == 0);
    uint32_t count = dcc_halves(frame.bytes, frame.len, DCC_MAIN_TRACK, halves);
    for (uint32_t i = first; i < count; i++) to.edge(now += halves[i]);
    return count - first;
}

static bool isNext(DccTrack &track, const char *wanted) {
    char line[DccTrack::LINE];
    memset(line, 7, sizeof line);
    if (track.nextLine(line) && !strcmp(line, wanted)) return true;
    printf("a line %s in place of %s\n", line, wanted);
    return false;
}

static void fourPacketsWait() {
    static DccTrack track;
    char line[DccTrack::LINE], wanted[64];
    uint32_t halves[6], count = 0;
    track.begin(now);
    HOLDS(!track.nextLine(line));
    /* the count of packets passes 256 */
    for (int turn = 0; turn < 70; turn++) {
        for (int n = 0; n < 6; n++) {
            snprintf(wanted, sizeof wanted, "loco s%d speed28 f %d", n + 1, turn % 28 + 4);
            halves[n] = count += play(track, wanted);
        }
        for (int n = 0; n < 4; n++) {
            snprintf(wanted, sizeof wanted, "%u loco s%d speed28 f %d", halves[n], n + 1, turn % 28 + 4);
            HOLDS(isNext(track, wanted));
        }
        HOLDS(!track.nextLine(line));
    }
    for (int n = 0; n < 9; n++) {
        count += play(track, "idle");
        snprintf(wanted, sizeof wanted, "%u idle", count);
        HOLDS(isNext(track, wanted) && !track.nextLine(line));
    }
}

static bool isRun(DccSniffer &sniffer, const char *wanted) {
    char word[DccSniffer::RUN];
    memset(word, 7, sizeof word);
    if (sniffer.nextRun(word) && !strcmp(word, wanted)) return true;
    printf("a run %s in place of %s\n", word, wanted);
    return false;
}

/* At most 1024 half-bits wait. Further half-bits are counted, until those that wait are read. */
static void halfBitsDoNotFit() {
    static DccSniffer sniffer;
    char word[DccSniffer::RUN], line[DccSniffer::LINE];
    sniffer.begin(now);
    HOLDS(!sniffer.nextRun(word) && !sniffer.nextLine(line));
    for (int turn = 1; turn <= 3; turn++) {
        for (int i = 0; i < 1100; i++) sniffer.halfBit(58);
        HOLDS(isRun(sniffer, "58*1000") && isRun(sniffer, "58*24"));
        HOLDS(!sniffer.nextRun(word) && sniffer.unfit() == 76);
        sniffer.halfBit(100);
        HOLDS(isRun(sniffer, "65535*76"));
        sniffer.halfBit(58);
        HOLDS(isRun(sniffer, "100"));
        sniffer.halfBit(65535);
        sniffer.halfBit(7);
        HOLDS(isRun(sniffer, "58") && isRun(sniffer, "65535"));
        sniffer.halfBit(0);
        HOLDS(isRun(sniffer, "7") && !sniffer.nextRun(word));
        sniffer.begin(now);
        HOLDS(sniffer.unfit() == 0 && !sniffer.nextRun(word));
        if (turn == 1) continue;
        /* the numbers of packets count the half-bits that did not fit */
        for (int i = 0; i < 1100; i++) sniffer.halfBit(58);
        while (sniffer.nextLine(line)) {}
        play(sniffer, "idle");
        HOLDS(sniffer.nextLine(line) && !strcmp(line, "1184 idle") && !sniffer.nextLine(line));
        sniffer.begin(now);
    }
}

/* A half of a lost packet before the begin counts no longer. */
static void aSnifferIsBegunAnew() {
    static DccSniffer sniffer;
    dcc_frame frame;
    uint16_t halves[DCC_HALVES];
    char line[DccSniffer::LINE];
    HOLDS(dcc_frame_of_line("idle", 4, &frame) == 0);
    const uint32_t count = dcc_halves(frame.bytes, frame.len, DCC_MAIN_TRACK, halves);
    for (int turn = 0; turn < 4; turn++) {
        const bool isBegun = turn % 2 == 1;
        sniffer.begin(now);
        /* with a preamble of 16 half-bits the packet is lost */
        for (uint32_t i = 12; i < count; i++) {
            if (isBegun && i == 40) {
                HOLDS(!sniffer.nextLine(line));
                sniffer.begin(now);
            }
            sniffer.halfBit(halves[i]);
        }
        HOLDS(sniffer.nextLine(line) == !isBegun);
        if (!isBegun) HOLDS(!strcmp(line, "72 lost idle: preamble 16"));
    }
}

/* The programming track of a board without an AVR: half-bits turn the pin. Without power the pin is low, and the timer
 * asks again after a millisecond. */
static const uint16_t *nextHalf;
static int levelOfPin = -1, modeOfPin = -1;
static uint16_t firstHalf;
uint16_t nextProgrammingHalfBit() { return *nextHalf++; }
void pinMode(uint8_t pin, uint8_t mode) { modeOfPin = pin == DCC_PROGRAMMING_PIN ? mode : -1; }
void digitalWrite(uint8_t pin, uint8_t level) { levelOfPin = pin == DCC_PROGRAMMING_PIN ? level : -1; }
void startProgrammingTimer(uint16_t us) { firstHalf = us; }

static void aTrackWithoutPowerIsAskedAgain() {
    static const uint16_t halves[] = {58, 58, 100, 0, 0, 100, 58, 0};
    static const struct {
        uint16_t us;
        int level;
    } rows[] = {{58, 0}, {100, 1}, {1000, 0}, {1000, 0}, {100, 1}, {58, 0}, {1000, 0}};
    nextHalf = halves;
    beginProgrammingSignal();
    HOLDS(modeOfPin == OUTPUT && firstHalf == 58 && levelOfPin == 1);
    for (const auto &row : rows) HOLDS(turnProgramming() == row.us && levelOfPin == row.level);
}

static void aRunIsLong() {
    static DccSniffer sniffer;
    char word[DccSniffer::RUN];
    sniffer.begin(now);
    for (int i = 0; i < 2100; i++) {
        sniffer.halfBit(10000);
        if (i % 1000 != 0 || i == 0) HOLDS(!sniffer.nextRun(word));
        else HOLDS(isRun(sniffer, "10000*1000"));
    }
    now += 1000000;
    sniffer.edge(now);
    HOLDS(isRun(sniffer, "10000*100"));
}

/* The longest line, and a zero. */
static void aLostPacketHasRoom() {
    HOLDS(DccSniffer::LINE > strlen("4294967295 lost : preamble 255 after 4294967295, "
                                    "ones 4294967295 from 65535 to 65535, "
                                    "zeros 4294967295 from 65535 to 65535") +
                                 DCC_LINE - 1);
}

/* A line has the number of a half-bit, ten digits at most, a blank and a packet line with its zero. */
static void aLineHasRoom() { HOLDS(DccTrack::LINE >= 10 + 1 + DCC_LINE); }

static void aTrackIsBegunAnew() {
    static DccTrack track;
    char line[DccTrack::LINE];
    track.begin(now);
    play(track, "idle");
    for (int i = 0; i < 40; i++) track.edge(now += 58);
    now += 1000000;
    track.begin(now);
    HOLDS(!track.nextLine(line));
    HOLDS(play(track, "loco s3 speed28 f 4") == 84 && isNext(track, "84 loco s3 speed28 f 4"));
    /* the time before it is no half-bit: the first one counts among the 20 of a preamble */
    now += 1000000;
    track.begin(now);
    HOLDS(play(track, "loco s3 speed28 f 4", 8) == 76 && isNext(track, "76 loco s3 speed28 f 4"));
    /* nor do the ones before it count */
    for (int i = 0; i < 40; i++) track.edge(now += 58);
    track.begin(now);
    play(track, "loco s3 speed28 f 4", 28);
    HOLDS(!track.nextLine(line));
    /* micros() wraps after 71 minutes */
    now = UINT32_MAX - 3000;
    track.begin(now);
    HOLDS(play(track, "idle") == 84 && isNext(track, "84 idle"));
    HOLDS(now < 10000);
    play(track, "idle");
    HOLDS(isNext(track, "168 idle"));
}

/* A long half-bit after a start bit is a refusal, whatever its last 16 bits are. */
static void longHalfBitsAreLong() {
    static DccTrack track;
    static const uint32_t lengths[] = {10001, 65535, 65536, 65536 + 58, 65536 + 100, 5 * 65536 + 100, UINT32_MAX - 10};
    char wanted[32];
    track.begin(now);
    for (uint32_t n = 0; n < 7; n++) {
        for (int i = 0; i < 40; i++) track.edge(now += 58);
        track.edge(now += 100);
        track.edge(now += lengths[n]);
        snprintf(wanted, sizeof wanted, "%u refused H1", (n + 1) * 42);
        HOLDS(isNext(track, wanted));
    }
    for (int i = 0; i < 40; i++) track.edge(now += 58);
    for (int i = 0; i < 52; i++) track.edge(now += 100);
    for (int i = 0; i < 4; i++) track.edge(now += 58);
    HOLDS(isNext(track, "390 refused H5 000001"));
    for (int i = 0; i < 40; i++) track.edge(now += 58);
    for (int i = 0; i < 110; i++) track.edge(now += 100);
    HOLDS(isNext(track, "540 refused H4"));
}

/* The calls of a decoder that are counted here, and the last address of an output. */
static int resets, turnouts, signals, outputs, outputChanges, acks, begun, ended, messages, factoryResets;
static uint16_t lastAddress;
static dcc_frame lastMessage;
void notifyDccMsg(const dcc_frame &frame) { messages++, lastMessage = frame; }
void notifyDccReset() { resets++; }
void notifyDccAccTurnoutBoard(uint16_t, uint8_t, uint8_t, uint8_t) { turnouts++; }
void notifyDccAccTurnoutOutput(uint16_t address, uint8_t, uint8_t) { outputs++, lastAddress = address; }
void notifyDccAccOutputChange(uint16_t, uint8_t, bool) { outputChanges++; }
void notifyDccSigOutputState(uint16_t, uint8_t) { signals++; }
void notifyCVAck() { acks++; }
void notifyServiceMode(bool isInService) { isInService ? begun++ : ended++; }

/* The store of a DccSmallDecoder. */
static uint8_t stored[DCC_CVS];
uint8_t notifyCVRead(uint16_t cv) { return stored[cv - 1]; }
uint8_t notifyCVWrite(uint16_t cv, uint8_t value) { return stored[cv - 1] = value; }

/* Gives a packet line to a decoder. */
template <typename T> static void hear(T &decoder, const char *line) {
    play(decoder, line);
    decoder.process();
}

static void aBoardIsOneOf0To510() {
    static DccDecoder decoder;
    static const uint8_t cvs[DCC_CVS] = {3};
    static const struct {
        uint16_t number;
        int turnouts, signals;
    } rows[] = {{510, 7, 5}, {511, 0, 0}, {DccDecoder::NO_BOARD, 0, 0}, {0, 6, 4}, {1000, 0, 0}};
    for (const auto &row : rows) {
        resets = turnouts = signals = 0;
        decoder.begin(cvs, now, row.number);
        const dcc_loco &loco = decoder.state.loco;
        HOLDS(loco.address_kind == DCC_SHORT && loco.address == 3 && loco.speed_mode == 0);
        const char *lines[] = {"accessory 511 0 on", "accessory 510 0 on", "accessory 511 2 on",
                               "accessory 511 5 on", "signal 2047 5",      "signal 2041 5"};
        for (const char *line : lines) {
            play(decoder, line);
            decoder.process();
        }
        play(decoder, "loco all reset");
        decoder.process();
        HOLDS(resets == 1);
        HOLDS(signals == row.signals);
        if (turnouts != row.turnouts) printf("turnouts %d of board %u\n", turnouts, row.number);
        HOLDS(turnouts == row.turnouts);
        if (row.turnouts == 0) continue;
        HOLDS(decoder.board.number == row.number && decoder.board.outs == 0 && decoder.board.aspects[3] == 5);
    }
    /* begun anew, it is powered up */
    play(decoder, "loco s3 functions 0 1");
    decoder.process();
    HOLDS(decoder.state.loco.functions[0] == 2);
    decoder.begin(cvs, now);
    HOLDS(decoder.state.loco.functions[0] == 0);
}

/* A repeated packet is named again, but changes no output. */
static void anOutputChangesOnce() {
    static DccAccessory decoder;
    const struct {
        uint16_t board, address;
        const char *line;
    } rows[] = {{1, 1, "accessory 1 0 on"},     {1, 4, "accessory 1 7 on"},       {0, 0, "accessory 0 7 on"},
                {40, 158, "accessory 40 2 on"}, {510, 2040, "accessory 510 6 on"}, {510, 2037, "accessory 511 0 on"}};
    for (const auto &row : rows) {
        turnouts = outputs = outputChanges = 0;
        HOLDS(decoder.begin(row.board, now));
        for (int copy = 0; copy < 3; copy++) hear(decoder, row.line);
        HOLDS(turnouts == 3 && outputs == 3 && outputChanges == 1 && lastAddress == row.address);
        hear(decoder, "loco all reset");
        HOLDS(turnouts == 4 && outputs == 4 && outputChanges == 2);
        hear(decoder, "loco all reset");
        HOLDS(turnouts == 4 && outputs == 4 && outputChanges == 2);
    }
}

static uint16_t addressOf(const DccDecoder &decoder) { return decoder.state.loco.address; }
static uint16_t addressOf(const DccSmallDecoder &decoder) { return decoder.loco.address; }
static bool isInService(const DccDecoder &decoder) { return decoder.state.service.in_service; }
static bool isInService(const DccSmallDecoder &decoder) { return decoder.service.in_service; }

/* A decoder with the address 3 leaves service mode if no packet of service mode comes for 20 milliseconds. It then has
 * the address 5. */
template <typename T> static void serviceModeEnds(T &decoder) {
    begun = ended = acks = 0;
    clockMs = UINT32_MAX - 40; /* millis() wraps after 49 days */
    decoder.process();
    HOLDS(begun == 0 && ended == 0 && addressOf(decoder) == 3);
    hear(decoder, "loco all reset");
    HOLDS(begun == 1 && isInService(decoder));
    for (int copy = 1; copy <= 4; copy++) {
        clockMs = (uint32_t)(clockMs + 20);
        decoder.process();
        HOLDS(ended == 0 && isInService(decoder));
        hear(decoder, "frame 7c000579");
        HOLDS(acks == copy / 2);
        if (copy == 2) hear(decoder, "loco all reset");
    }
    HOLDS(begun == 1 && addressOf(decoder) == 3);
    /* a refused frame is no packet */
    clockMs += 15;
    for (int i = 0; i < 40; i++) decoder.halfBit(58);
    for (int i = 0; i < 52; i++) decoder.halfBit(100);
    for (int i = 0; i < 4; i++) decoder.halfBit(58);
    decoder.process();
    clockMs += 5;
    decoder.process();
    HOLDS(ended == 0 && isInService(decoder));
    clockMs += 1;
    decoder.process();
    HOLDS(begun == 1 && ended == 1 && !isInService(decoder) && addressOf(decoder) == 5);
    clockMs += 100;
    decoder.process();
    HOLDS(begun == 1 && ended == 1);
    /* the packets of service mode do not count now, and each later reset begins service mode again */
    hear(decoder, "frame 7c00037f");
    hear(decoder, "frame 7c00037f");
    HOLDS(acks == 2 && addressOf(decoder) == 5);
    hear(decoder, "loco all reset");
    HOLDS(begun == 2 && isInService(decoder));
    /* packets that wait count when they are heard */
    clockMs += 500;
    hear(decoder, "loco all reset");
    HOLDS(begun == 2 && ended == 1 && isInService(decoder));
    /* without a change of a CV, the decoder keeps its values */
    clockMs += 21;
    decoder.process();
    HOLDS(ended == 2 && addressOf(decoder) == 5);
}

static void serviceModeEndsAfter20Milliseconds() {
    static DccDecoder decoder;
    static DccSmallDecoder small;
    static const uint8_t cvs[DCC_CVS] = {3};
    decoder.begin(cvs, now);
    serviceModeEnds(decoder);
    memcpy(stored, cvs, sizeof stored);
    small.begin(now);
    serviceModeEnds(small);
    HOLDS(stored[0] == 5 && decoder.state.loco.cvs[0] == 5);
}

/* A station asks for the first values. The short address of the store becomes 9. */
void notifyCVResetFactoryDefault() { factoryResets++, stored[0] = 9; }

/* Each decoder hears of each packet of the track, and of no refusal, and measures the time since the last packet. */
template <typename T> static void eachPacketIsNotified(T &decoder) {
    const char *lines[] = {"idle", "loco s77 speed28 f 4", "accessory 300 1 on", "loco s3 functions 0 16",
                           "frame a00000a0"};
    clockMs = UINT32_MAX - 1;
    messages = 0;
    decoder.process();
    clockMs = (uint32_t)(clockMs + 700);
    for (const char *line : lines) {
        HOLDS(decoder.packetAge() == 700);
        hear(decoder, line);
        dcc_frame frame;
        HOLDS(dcc_frame_of_line(line, strlen(line), &frame) == 0 && lastMessage.len == frame.len &&
              !memcmp(lastMessage.bytes, frame.bytes, frame.len));
        HOLDS(decoder.packetAge() == 0);
        clockMs += 700;
    }
    HOLDS(messages == 5);
    /* a wrong error byte */
    for (int i = 0; i < 40; i++) decoder.halfBit(58);
    for (int i = 0; i < 52; i++) decoder.halfBit(100);
    for (int i = 0; i < 4; i++) decoder.halfBit(58);
    decoder.process();
    HOLDS(messages == 5 && decoder.packetAge() == 700);
}

static void eachDecoderHearsOfEachPacket() {
    static DccDecoder decoder;
    static DccSmallDecoder small;
    static DccAccessory accessory, none;
    static const uint8_t cvs[DCC_CVS] = {3};
    clockMs = UINT32_MAX - 1;
    decoder.begin(cvs, now);
    eachPacketIsNotified(decoder);
    memcpy(stored, cvs, sizeof stored);
    clockMs = UINT32_MAX - 1;
    small.begin(now);
    eachPacketIsNotified(small);
    clockMs = UINT32_MAX - 1;
    HOLDS(accessory.begin(12, now));
    eachPacketIsNotified(accessory);
    /* also a decoder without a board */
    clockMs = UINT32_MAX - 1;
    HOLDS(!none.begin(511, now));
    eachPacketIsNotified(none);
}

/* The second of two writes of 8 to CV8 in a row asks for the first values. */
template <typename T> static void factoryResetsOf(T &decoder) {
    const struct {
        const char *line;
        int count;
    } rows[] = {
        {"loco s3 cv write 8 8", 0}, {"loco s3 cv write 8 7", 0}, {"loco s3 cv write 8 8", 0},
        {"loco s4 cv write 8 8", 0}, {"idle", 0}, {"loco s3 cv write 8 8", 1},
        {"loco s3 cv write 8 8", 1}, {"loco s3 cv write 7 8", 1}, {"loco s3 cv write 7 8", 1},
        {"loco s3 cv verify 8 8", 1}, {"loco s3 cv verify 8 8", 1}, {"loco s4 cv write 8 8", 1},
        {"loco s4 cv write 8 8", 1}};
    factoryResets = acks = 0;
    for (const auto &row : rows) {
        hear(decoder, row.line);
        if (factoryResets != row.count) printf("%d after %s\n", factoryResets, row.line);
        HOLDS(factoryResets == row.count);
    }
    /* in direct mode on the programming track: CV8 := 8, CV8 := 7, CV8 = 8, CV7 := 8 */
    const struct {
        const char *line;
        int count;
    } direct[] = {{"7c070873", 0}, {"7c07077c", 0}, {"7c070873", 0}, {"7c070873", 1}, {"7c070873", 1}, {"7c070873", 1},
                  {"7407087b", 1}, {"7407087b", 1}, {"7c060872", 1}, {"7c060872", 1}, {"7c070873", 1}, {"7c070873", 2}};
    factoryResets = 0;
    hear(decoder, "loco all reset");
    HOLDS(isInService(decoder));
    for (const auto &row : direct) {
        char line[20];
        snprintf(line, sizeof line, "frame %s", row.line);
        hear(decoder, line);
        if (factoryResets != row.count) printf("%d after %s\n", factoryResets, row.line);
        HOLDS(factoryResets == row.count);
    }
    HOLDS(acks == 0 && isInService(decoder));
}

static void aStationAsksForTheFirstValues() {
    static DccDecoder decoder;
    static DccSmallDecoder small;
    static const uint8_t cvs[DCC_CVS] = {3, 0, 0, 0, 0, 0, 0, 13};
    clockMs = 0;
    decoder.begin(cvs, now);
    factoryResetsOf(decoder);
    HOLDS(decoder.state.loco.cvs[7] == 13);
    memcpy(stored, cvs, sizeof stored);
    small.begin(now);
    /* the packet of the second write is the last with the address before */
    hear(small, "loco s3 cv write 8 8");
    hear(small, "loco s3 cv write 8 8");
    HOLDS(addressOf(small) == 3 && stored[0] == 9 && stored[7] == 13);
    hear(small, "idle");
    HOLDS(addressOf(small) == 9);
    stored[0] = 3;
    small.begin(now);
    hear(small, "loco all reset");
    hear(small, "frame 7c070873");
    hear(small, "frame 7c070873");
    HOLDS(addressOf(small) == 3 && stored[0] == 9);
    clockMs += 21;
    small.process();
    HOLDS(addressOf(small) == 9 && stored[7] == 13);
}

/* CVs in their place are those of the decoder. */
static void aDecoderPowersUpWithItsCvs() {
    static DccDecoder decoder;
    decoder.state.loco.cvs[0] = 3;
    turnouts = 0;
    decoder.powerUp(now, 12);
    HOLDS(addressOf(decoder) == 3 && decoder.board.number == 12);
    hear(decoder, "accessory 12 5 on");
    hear(decoder, "loco s3 functions 0 1");
    HOLDS(turnouts == 1 && decoder.state.loco.functions[0] == 2);
    decoder.state.loco.cvs[0] = 4;
    decoder.powerUp(now);
    HOLDS(addressOf(decoder) == 4 && decoder.state.loco.functions[0] == 0 && decoder.state.loco.cvs[0] == 4);
    hear(decoder, "accessory 12 5 on");
    HOLDS(turnouts == 1);
}

static void aDecoderStaysOnTheMainTrack() {
    static DccDecoder decoder;
    static const uint8_t cvs[DCC_CVS] = {3};
    begun = ended = acks = resets = 0;
    decoder.begin(cvs, now);
    decoder.setMainOnly(true);
    for (int copy = 0; copy < 2; copy++) {
        hear(decoder, "loco all reset");
        hear(decoder, "frame 7c3f85c6");
        hear(decoder, "frame 7c3f85c6");
    }
    HOLDS(begun == 0 && ended == 0 && acks == 0 && resets == 2 && decoder.state.loco.cvs[63] == 0);
    decoder.setMainOnly(false);
    HOLDS(begun == 0 && ended == 0);
    hear(decoder, "loco all reset");
    hear(decoder, "frame 7c000579");
    hear(decoder, "frame 7c000579");
    HOLDS(begun == 1 && ended == 0 && acks == 1 && addressOf(decoder) == 3);
    decoder.setMainOnly(false);
    HOLDS(ended == 0 && isInService(decoder));
    decoder.setMainOnly(true);
    HOLDS(begun == 1 && ended == 1 && addressOf(decoder) == 5 && !isInService(decoder));
    decoder.setMainOnly(true);
    HOLDS(ended == 1);
    /* begun anew, it hears both tracks */
    decoder.begin(cvs, now);
    hear(decoder, "loco all reset");
    HOLDS(begun == 2);
}

static bool isRefused(DccRefusal refusal, char letter, uint8_t number) {
    return refusal.letter == letter && refusal.number == number;
}

static void aStationIsMadeWithinItsLimits() {
    static DccStation station;
    HOLDS(!station.begin(0, 1, 1) && !station.begin(65, 1, 1) && !station.begin(1, 0, 1) && !station.begin(1, 129, 1));
    HOLDS(!station.begin(1, 1, 0) && !station.begin(1, 1, 9));
    HOLDS(isRefused(station.command("loco s3 reset"), 'C', 4));
    HOLDS(station.begin(64, 128, 8) && station.begin(1, 1, 1) && station.begin(2));
    HOLDS(isRefused(station.command("loco s3 speed28 f 32"), 'P', 8) && isRefused(station.command(""), 'P', 10));
    HOLDS(isRefused(station.command("idle"), 'C', 3));
    HOLDS(isRefused(station.command("loco s3 speed28 f 4"), 0, 0));
    HOLDS(isRefused(station.command("loco s4 reset                              x"), 'P', 10));
    /* the bytes that are counted are the line */
    HOLDS(isRefused(station.command("loco s4 reset\0", 14), 'P', 10));
    HOLDS(isRefused(station.command("loco s3 speed28 f 4\n", 20), 'P', 11));
    HOLDS(isRefused(station.command("loco s4 reset, then more", 13), 0, 0));
    HOLDS(isRefused(station.command("loco s5 reset"), 'C', 4));
    HOLDS(station.begin(2) && isRefused(station.command("loco s5 reset"), 0, 0));
    HOLDS(isRefused(station.command("loco s5 reset"), 0, 0));
    HOLDS(isRefused(station.command("loco s5 reset"), 'C', 4));
}

/* The packet that a station sends next, by its half-bits. If isWritten they are written as a line. */
static dcc_frame sent(DccStation &station, bool isWritten = false) {
    dcc_framer framer = dcc_framer_new();
    dcc_outcome seen = {};
    bool isOver = false;
    int n = 0;
    for (; !isOver && n < DCC_HALVES; n++) {
        uint16_t us = station.half();
        isOver = dcc_push(&framer, us, &seen);
        if (isWritten) printf(n > 0 ? " %u" : "%u", us);
    }
    if (isWritten) printf("\n");
    HOLDS(isOver && seen.refusal == 0 && n == 2 * (DCC_MAIN_TRACK + 9 * seen.frame.len + 1));
    return seen.frame;
}

static bool isSent(DccStation &station, const char *line) {
    char text[DCC_LINE];
    dcc_frame frame = sent(station);
    HOLDS(dcc_line(frame.bytes, frame.len, text) == 0);
    if (strcmp(text, line)) printf("%s in place of %s\n", text, line);
    return !strcmp(text, line);
}

/* A station that begins without sizes has 32 entries. The 33rd entry replaces the first entry. */
static void aStationHasItsEntries() {
    static DccStation station;
    char line[64];
    HOLDS(station.begin());
    for (int n = 1; n <= 33; n++) {
        snprintf(line, sizeof line, "loco s%d speed28 f 4", n);
        HOLDS(isRefused(station.command(line), 0, 0));
        for (int copy = 0; copy < 2; copy++) {
            station.process();
            HOLDS(isSent(station, line));
        }
    }
    for (int n = 0; n < 64; n++) {
        snprintf(line, sizeof line, "loco s%d speed28 f 4", n % 32 + 2);
        station.process();
        HOLDS(isSent(station, line));
    }
}

/* The linker directs each call of dcc_station_next to this function. If a station is interrupted, the timer takes its
 * half-bits during the call. */
static DccStation *interrupted;
extern "C" void __real_dcc_station_next(dcc_station *station, dcc_frame *frame);
extern "C" void __wrap_dcc_station_next(dcc_station *station, dcc_frame *frame) {
    if (interrupted) HOLDS(isSent(*interrupted, "idle"));
    __real_dcc_station_next(station, frame);
}

/* A station sends idle until process() has found the next packet. */
static void aPacketIsFoundBeforeItIsSent() {
    static DccStation station;
    HOLDS(station.begin());
    HOLDS(isRefused(station.command("loco s3 speed28 f 4"), 0, 0));
    for (int copy = 0; copy < 2; copy++) {
        interrupted = &station;
        station.process();
        interrupted = nullptr;
        HOLDS(isSent(station, "loco s3 speed28 f 4") && isSent(station, "idle"));
    }
}

static void anAccessoryDecoderIsOneOf0To510() {
    static DccAccessory decoder;
    const uint16_t boards[] = {0, 12, 510}, others[] = {511, 65535};
    for (uint16_t number : others) {
        HOLDS(!decoder.begin(number, now));
        play(decoder, "accessory 511 3 on");
        decoder.process();
        HOLDS(decoder.board.outs == 0);
    }
    for (uint16_t number : boards) {
        HOLDS(decoder.begin(number, now) && decoder.board.number == number);
        play(decoder, "accessory 511 3 on");
        play(decoder, "accessory 13 2 on");
        decoder.process();
        HOLDS(decoder.board.outs == 1 << 3);
    }
}

static void turnoutsAreCountedFromBoard1Or0() {
    for (uint8_t first = 0; first <= 1; first++) {
        uint16_t number = 0, found = 7;
        uint8_t pair = 7;
        for (uint16_t board = first; board <= 510; board++) {
            for (uint8_t output = 0; output < 8; output++) {
                number += output % 2 == 0;
                HOLDS(dccTurnout(board, output, first) == number);
                HOLDS(dccTurnoutPair(number, found, pair, first) && found == board && pair == output / 2);
            }
            HOLDS(dccTurnout(board, 8, first) == 0);
        }
        HOLDS(number == (first ? 2040 : 2044) && dccTurnout(511, 0, first) == 0 && dccTurnout(65535, 0, first) == 0);
        HOLDS(!dccTurnoutPair(0, found, pair, first) && !dccTurnoutPair(number + 1, found, pair, first));
        HOLDS(found == 510 && pair == 3);
        HOLDS(!dccTurnoutPair(1, found, pair, 2) && dccTurnout(40, 2, 2) == 0);
    }
    uint16_t board;
    uint8_t pair;
    HOLDS(dccTurnout(40, 2) == 158 && dccTurnout(40, 2, 0) == 162 && dccTurnout(0, 0) == 0);
    HOLDS(dccTurnoutPair(158, board, pair) && board == 40 && pair == 1);
}

static void aLateLoopGivesIdlePackets() {
    static DccStation station;
    HOLDS(station.begin(4, 4, 1));
    HOLDS(isSent(station, "idle") && isSent(station, "idle"));
    HOLDS(isRefused(station.command("loco s3 speed28 f 4"), 0, 0));
    station.process();
    station.process();
    HOLDS(isSent(station, "loco s3 speed28 f 4") && isSent(station, "idle"));
    station.process();
    HOLDS(isSent(station, "loco s3 speed28 f 4"));
    HOLDS(isRefused(station.command("loco s4 reset"), 0, 0));
    station.process();
    /* begun anew in the middle of a packet, it has nothing to send */
    for (int i = 0; i < 30; i++) station.half();
    station.process();
    HOLDS(station.begin());
    HOLDS(isSent(station, "idle") && isSent(station, "idle"));
}

static void station() {
    static DccStation station;
    char line[100];
    HOLDS(station.begin());
    while (fgets(line, sizeof line, stdin)) {
        line[strcspn(line, "\n")] = 0;
        if (strncmp(line, "send ", 5)) {
            DccRefusal refusal = station.command(line);
            if (refusal.letter != 0) printf("# refused %c%u\n", refusal.letter, refusal.number);
            continue;
        }
        for (int n = atoi(line + 5); n > 0; n--) {
            station.process();
            sent(station, true);
        }
    }
}

int main(int argc, char **) {
    if (argc > 1) {
        station();
        return wrong;
    }
    fourPacketsWait();
    aLineHasRoom();
    halfBitsDoNotFit();
    aSnifferIsBegunAnew();
    aTrackWithoutPowerIsAskedAgain();
    aRunIsLong();
    aLostPacketHasRoom();
    aTrackIsBegunAnew();
    longHalfBitsAreLong();
    aBoardIsOneOf0To510();
    anOutputChangesOnce();
    serviceModeEndsAfter20Milliseconds();
    eachDecoderHearsOfEachPacket();
    aStationAsksForTheFirstValues();
    aDecoderPowersUpWithItsCvs();
    aDecoderStaysOnTheMainTrack();
    anAccessoryDecoderIsOneOf0To510();
    aStationIsMadeWithinItsLimits();
    aStationHasItsEntries();
    aPacketIsFoundBeforeItIsSent();
    aLateLoopGivesIdlePackets();
    turnoutsAreCountedFromBoard1Or0();
    return wrong;
}
