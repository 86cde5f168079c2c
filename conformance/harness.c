/* SPDX-License-Identifier: MIT OR Apache-2.0
 *
 * Compares your decoder with the proved decoder, in the cases of cases.h and on random tracks. README.md describes what
 * is tested, the options and the exit status.
 *
 *   cc -O2 -Iinclude -o conformance conformance/harness.c YOUR_DECODER.c c/dcc.c
 *   ./conformance [--profile] [--service] [--accessory] [--states] [--no-cvs] [--no-14] [--no-128] [--cv N]
 *                 [--functions N] [--tracks N] [--packets N] [--seed N] */
#include "conformance.h"
#include "dcc.h"
#include <stdio.h>
#include <stdlib.h>
#include <string.h>

/* STANDARD: the standard demands a behaviour, so another behaviour is a fault. TOOLKIT: this toolkit chose it, so
 * another behaviour is only a difference. */
enum { STANDARD, TOOLKIT };

/* A case: half-bits or packets for a locomotive, packets for an accessory decoder, or packets of the programming track.
 * In packets, @ is the address of the decoder, ~ is its address of the other kind, # is the CV of --cv, $ is the CV 256
 * above it, and 5* means five copies of a packet. */
enum { HALVES, LOCO, BOARD, SERVICE };
typedef struct {
    unsigned char kind, by;
    const char *shows, *packets;
} test_case;

#include "cases.h"

typedef struct {
    unsigned tracks, packets, seed, functions, cv;
    bool cvs, steps14, speed128, states, accessory, service, profile;
} options;

static options wanted = {200, 200, 1, 68, 3, true, true, true, false, false, false, false};

static unsigned by;         /* STANDARD or TOOLKIT: what is tested now */
static bool is_programming; /* true on the programming track */
static bool is_nominal;     /* true if all half-bits are 58 and 100 microseconds */
static unsigned counts[2];  /* the faults and the differences */

/* ---- random numbers ---- */

static uint32_t state_of_random;

static uint32_t next_random(void) {
    state_of_random ^= state_of_random << 13;
    state_of_random ^= state_of_random >> 17;
    state_of_random ^= state_of_random << 5;
    return state_of_random;
}

/* Returns a random number from least to most. */
static unsigned between(unsigned least, unsigned most) { return least + next_random() % (most - least + 1); }

static bool one_in(unsigned n) { return between(1, n) == 1; }

/* ---- both decoders ---- */

static struct {
    dcc_framer framer;
    dcc_decoder loco;
    dcc_board_decoder board;
    uint32_t acknowledgements;
} proved;

static uint8_t start_cvs[DCC_CVS];
static char own[8];                  /* the address of the decoder in packet lines, or the number of its board */
static uint32_t answered[2];         /* the acknowledgements of your decoder and of the proved decoder so far */
static char shown[6][1000];          /* the last packets, for the report */
static unsigned shown_count;

static void power_up(void) {
    proved.framer = dcc_framer_new();
    proved.acknowledgements = 0;
    if (wanted.accessory) {
        dcc_board_decoder_new(&proved.board, start_cvs);
        dcc_board_decoder_set_main_only(&proved.board, !is_programming);
    } else {
        dcc_decoder_new(&proved.loco, start_cvs);
        dcc_decoder_set_main_only(&proved.loco, !is_programming);
    }
    your_new(start_cvs);
    answered[0] = answered[1] = 0;
    shown_count = 0;
}

static void hear(uint16_t us) {
    dcc_outcome outcome;
    dcc_answer answer;
    your_half(us);
    if (!dcc_push(&proved.framer, us, &outcome) || outcome.refusal) return;
    if (wanted.accessory) dcc_board_decoder_hear(&proved.board, outcome.frame.bytes, outcome.frame.len, &answer);
    else dcc_decoder_hear(&proved.loco, outcome.frame.bytes, outcome.frame.len, &answer);
    proved.acknowledgements += answer.acknowledged;
}

/* The decoder has a short address (s), a long address (l), or it is an accessory decoder (b). */
static void choose_cvs(char kind, unsigned address, unsigned other, bool has_14) {
    memset(start_cvs, 0, sizeof start_cvs);
    if (kind == 'b') {
        start_cvs[0] = address & 63;
        start_cvs[8] = (uint8_t)(address >> 6);
        start_cvs[28] = 128;
        sprintf(own, "%u", address);
        return;
    }
    unsigned long_address = kind == 'l' ? address : other;
    start_cvs[0] = (uint8_t)(kind == 's' ? address : other);
    start_cvs[16] = (uint8_t)(192 + long_address / 256);
    start_cvs[17] = (uint8_t)(long_address % 256);
    start_cvs[28] = (uint8_t)((kind == 'l' ? 32 : 0) + (has_14 ? 0 : 2));
    sprintf(own, "%c%u", kind, address);
}

/* ---- differences in words ---- */

static char why[200];

static const char *speed_words(char text[24], unsigned mode, unsigned step) {
    if (mode < 2) return mode ? "emergency stop" : "stop";
    sprintf(text, "step %u of %u", step, mode);
    return text;
}

/* Compares the bits from least to most of two sets. */
static bool sets_differ(const char *name, const uint64_t *yours, const uint64_t *right, unsigned least, unsigned most) {
    for (unsigned n = least; n <= most; n++) {
        bool is_on = yours[n / 64] >> n % 64 & 1, should_be_on = right[n / 64] >> n % 64 & 1;
        if (is_on == should_be_on) continue;
        sprintf(why, "%s%u of your decoder is %s, and should be %s", name, n, is_on ? "on" : "off",
            should_be_on ? "on" : "off");
        return true;
    }
    return false;
}

static bool locos_differ(const your_state *yours, const dcc_loco *right) {
    char is[24], should_be[24];
    if (yours->speed_mode != right->speed_mode || yours->step != right->step) {
        sprintf(why, "the speed of your decoder is %s, and should be %s",
            speed_words(is, yours->speed_mode, yours->step), speed_words(should_be, right->speed_mode, right->step));
        return true;
    }
    if (yours->forward != right->forward) {
        sprintf(why, "the direction of your decoder is %s, and should be %s", yours->forward ? "forward" : "reverse",
            right->forward ? "forward" : "reverse");
        return true;
    }
    return sets_differ("F", yours->functions, right->functions, 0, wanted.functions)
        || (wanted.states && sets_differ("binary state ", yours->states, right->states, 1, 127));
}

static bool boards_differ(const your_state *yours, const dcc_board *right) {
    uint64_t is = yours->outputs, should_be = right->outs;
    for (unsigned n = 0; by == TOOLKIT && n < 4; n++) {
        if (yours->aspects[n] == right->aspects[n]) continue;
        sprintf(why, "aspect %u of your decoder is %u, and should be %u", n, yours->aspects[n], right->aspects[n]);
        return true;
    }
    return sets_differ("output ", &is, &should_be, 0, 7);
}

/* Compares the acknowledgements since the last comparison. The standard demands no acknowledgement of a write. */
static bool answers_differ(const your_state *yours, bool is_verify) {
    bool is = yours->acknowledgements != answered[0], should_be = proved.acknowledgements != answered[1];
    answered[0] = yours->acknowledgements;
    answered[1] = proved.acknowledgements;
    if (is == should_be || (by == STANDARD && !is_verify)) return false;
    sprintf(why, "your decoder %s, and should %s", is ? "acknowledges" : "does not acknowledge",
        should_be ? "acknowledge" : "not acknowledge");
    return true;
}

/* Compares both decoders, and writes the first difference to why. */
static bool differ(bool is_verify) {
    your_state yours;
    memset(&yours, 0, sizeof yours);
    your_get(&yours);
    if (wanted.accessory ? boards_differ(&yours, &proved.board.board) : locos_differ(&yours, &proved.loco.loco)) {
        return true;
    }
    const uint8_t *cvs = wanted.accessory ? proved.board.cvs : proved.loco.loco.cvs;
    for (unsigned n = 1; (wanted.cvs || is_programming) && n <= DCC_CVS; n++) {
        if (yours.cvs[n - 1] == cvs[n - 1] || (by == STANDARD && n != wanted.cv)) continue;
        sprintf(why, "CV%u of your decoder is %u, and should be %u", n, yours.cvs[n - 1], cvs[n - 1]);
        return true;
    }
    return is_programming && answers_differ(&yours, is_verify);
}

/* Reports a difference. The sentence says what should be so. */
static void report(const char *sentence) {
    counts[by]++;
    printf("%s: %s\n", by == STANDARD ? "fault" : "difference", sentence);
    printf("  the decoder has the address %s", own);
    if (!wanted.accessory) printf(" and %d steps", start_cvs[28] & 2 ? 28 : 14);
    printf("; the last packets are:\n");
    for (unsigned n = shown_count < 6 ? 0 : shown_count - 6; n < shown_count; n++) printf("    %s\n", shown[n % 6]);
}

/* ---- half-bits ---- */

static uint16_t halves[400];
static unsigned halves_count;

static void put(unsigned us) { halves[halves_count++] = (uint16_t)us; }

/* A decoder must accept ones with half-bits of 52 to 64 microseconds that differ by at most 6, and zeros with half-bits
 * of 90 to 10000 and together 12000 microseconds. */
static void put_bit(bool is_one) {
    unsigned first = is_one ? 58 : 100, second = first;
    if (is_one && !is_nominal) {
        first = one_in(4) ? (one_in(2) ? 52 : 64) : between(52, 64);
        second = between(first < 58 ? 52 : first - 6, first > 58 ? 64 : first + 6);
    } else if (!is_nominal) {
        first = one_in(4) ? 90 : between(90, 120);
        second = one_in(4) ? 90 : between(90, 120);
    }
    if (!is_one && !is_nominal && !is_programming && one_in(50)) {
        first = one_in(3) ? 10000 : between(90, 10000);
        second = between(90, 2000);
    }
    bool is_swapped = !is_nominal && one_in(2);
    put(is_swapped ? second : first);
    put(is_swapped ? first : second);
}

/* Puts a preamble of this number of half-bits, and bytes. */
static void put_bytes(const uint8_t *bytes, unsigned len, unsigned preamble) {
    halves_count = 0;
    if (preamble % 2) put(58);
    for (unsigned n = preamble / 2; n > 0; n--) put_bit(true);
    for (unsigned n = 0; n < len; n++) {
        put_bit(false);
        for (int place = 7; place >= 0; place--) put_bit(bytes[n] >> place & 1);
    }
    put_bit(true);
}

static void hear_all(void) {
    for (unsigned n = 0; n < halves_count; n++) hear(halves[n]);
}

/* ---- packets of cases ---- */

/* Returns the frame of a packet line. "service write 3 7" is the packet of the programming track. */
static dcc_frame frame_of(const char *line) {
    static const char *const kinds[] = {"write", "verify", "bitwrite", "bitverify"};
    dcc_frame frame;
    char kind[16];
    unsigned cv, value, one = 0, refusal;
    if (sscanf(line, "service %15s %u %u %u", kind, &cv, &value, &one) >= 3) {
        dcc_service_packet packet = {(uint16_t)cv, DCC_OTHER, (uint8_t)value, (uint8_t)value, one != 0};
        for (unsigned n = 0; n < 4; n++) {
            if (!strcmp(kind, kinds[n])) packet.kind = (uint8_t)(DCC_CV_WRITE + n);
        }
        refusal = dcc_service_frame(&packet, &frame);
    } else {
        refusal = dcc_frame_of_line(line, strlen(line), &frame);
    }
    if (refusal) {
        printf("no packet line: %s\n", line);
        exit(2);
    }
    return frame;
}

/* Plays copies of a packet, and compares the decoders: after each copy, or by the standard on the programming track
 * after all copies. Returns false at a difference. */
static bool plays(unsigned copies, const char *line) {
    dcc_frame frame = frame_of(line);
    sprintf(shown[shown_count++ % 6], "%u copies of %s", copies, line);
    if (copies == 1) strcpy(shown[(shown_count - 1) % 6], line);
    for (unsigned n = 1; n <= copies; n++) {
        put_bytes(frame.bytes, frame.len, 2 * DCC_PROGRAMMING_TRACK);
        hear_all();
        if (n < copies && is_programming && by == STANDARD) continue;
        if (differ(strstr(line, "verify"))) return false;
    }
    return true;
}

/* Plays the packets of a case. Returns false at a difference. */
static bool plays_packets(const char *text) {
    while (*text) {
        char line[64] = "", *end;
        unsigned copies = (unsigned)strtoul(text, &end, 10), len = 0;
        if (*end == '*') text = end + 1;
        else copies = 1;
        for (; *text && *text != ';'; text++) {
            if (*text == '@') len += (unsigned)sprintf(line + len, "%s", own);
            else if (*text == '~') len += (unsigned)sprintf(line + len, "%s", own[0] == 's' ? "l1000" : "s3");
            else if (*text == '#') len += (unsigned)sprintf(line + len, "%u", wanted.cv);
            else if (*text == '$') len += (unsigned)sprintf(line + len, "%u", wanted.cv + 256);
            else line[len++] = *text;
        }
        if (*text == ';') text += 2;
        if (!plays(copies, line)) return false;
    }
    return true;
}

/* Plays the half-bits of a case: runs such as 58*28. Returns false at a difference. */
static bool plays_halves(const char *text) {
    char *end;
    snprintf(shown[shown_count++], sizeof shown[0], "half-bits %s", text);
    for (; *text; text = *end ? end + 1 : end) {
        unsigned us = (unsigned)strtoul(text, &end, 10), count = 1;
        if (*end == '*') count = (unsigned)strtoul(end + 1, &end, 10);
        while (count-- > 0) hear((uint16_t)us);
    }
    return !differ(false);
}

static bool is_wanted(const test_case *it) {
    if (it->by == TOOLKIT && !wanted.profile) return false;
    if (it->kind == SERVICE) return wanted.service && !strstr(it->packets, wanted.accessory ? "loco @" : "accessory");
    if ((it->kind == BOARD) != wanted.accessory) return false;
    return (wanted.speed128 || !strstr(it->packets, "speed128")) && (wanted.cvs || !strstr(it->packets, " cv "));
}

/* Plays a case: with short and long addresses, 28 and 14 steps, or with board 12. */
static void play_case(const test_case *it) {
    char sentence[400];
    by = it->by;
    is_programming = it->kind == SERVICE;
    for (unsigned n = 0; n < (wanted.accessory ? 1 : 4); n++) {
        if (n % 2 && !wanted.steps14) continue;
        if (wanted.accessory) choose_cvs('b', 12, 0, false);
        else if (n < 2) choose_cvs('s', 3, 1000, n % 2);
        else choose_cvs('l', 1000, it->kind == HALVES ? 5 : 3, n % 2); /* half-bits are for the address s3 */
        power_up();
        if (it->kind == HALVES ? plays_halves(it->packets) : plays_packets(it->packets)) continue;
        sprintf(sentence, "%s\n  %s", it->shows, why);
        report(sentence);
        return;
    }
}

static unsigned play_cases(void) {
    unsigned count = 0;
    is_nominal = true;
    for (unsigned n = 0; n < sizeof cases / sizeof *cases; n++) {
        if (!is_wanted(&cases[n])) continue;
        play_case(&cases[n]);
        count++;
    }
    is_nominal = false;
    return count;
}

/* ---- random packets ---- */

/* A track has resets, or it has packets to the short addresses 100 to 127. NMRA S-9.2 forbids a station to send these
 * packets after a reset, since a decoder with service mode can hear them as service packets. */
static bool has_resets;

static unsigned short_address(void) { return between(1, has_resets ? 99 : 127); }

static void choose_decoder(void) {
    has_resets = is_programming || !one_in(4);
    if (wanted.accessory) choose_cvs('b', between(by == STANDARD, 510), 0, false);
    else if (one_in(2)) choose_cvs('s', short_address(), between(0, 10239), wanted.steps14 && one_in(3));
    else choose_cvs('l', between(by == STANDARD, 10239), short_address(), wanted.steps14 && one_in(3));
    start_cvs[wanted.cv - 1] = (uint8_t)between(0, 255);
    if (by == TOOLKIT && one_in(2)) start_cvs[18] = (uint8_t)short_address();
}

/* Writes the address of another locomotive: any address, or one that a wrong decoder takes for its own. */
static void choose_other(char to[16]) {
    unsigned address = own[0] == 'b' ? 0 : (unsigned)atoi(own + 1);
    do {
        unsigned kind = between(1, 6);
        if (kind == 1) sprintf(to, "s%u", short_address());
        else if (kind == 2) sprintf(to, "l%u", between(0, 10239));
        else if (kind == 3 && own[0] == 's') sprintf(to, "l%u", (start_cvs[16] - 192u) * 256 + start_cvs[17]);
        else if (kind == 3) sprintf(to, "s%u", start_cvs[0]);
        else if (kind == 4 && start_cvs[18]) sprintf(to, "s%u", start_cvs[18]);
        else if (own[0] == 's') sprintf(to, "s%u", (address ^ 1u << between(0, 6)) % (has_resets ? 100 : 128));
        else sprintf(to, "l%u", (address ^ 1u << between(0, 13)) % 10240);
    } while (!strcmp(to, own) || !strcmp(to, "s0"));
}

/* CVs with a meaning of their own: the addresses, the version and the maker, and the mode of speed steps. */
enum { SPECIALS = 8 };
static const uint16_t special[SPECIALS] = {1, 7, 8, 9, 17, 18, 19, 29};

/* Writes the line of an access to a CV. */
static void choose_cv_line(char line[64], const char *before) {
    unsigned cv = wanted.cv, kind = between(1, 8), place = between(0, 7), value = between(0, 255);
    if (by == TOOLKIT && one_in(2)) cv = one_in(3) ? special[between(0, SPECIALS - 1)] : between(1, DCC_CVS);
    else if (kind > 2 && one_in(4)) cv += 256 * between(1, 3);
    const uint8_t *cvs = wanted.accessory ? proved.board.cvs : proved.loco.loco.cvs;
    if (kind < 3 && one_in(2)) value = cvs[cv - 1];
    if (kind == 1) sprintf(line, "%s verify %u %u", before, cv, value);
    else if (kind == 2) sprintf(line, "%s bitverify %u %u %u", before, cv, place, value >> place & 1);
    else if (kind < 5) sprintf(line, "%s bitwrite %u %u %u", before, cv, place, value & 1);
    else sprintf(line, "%s write %u %u", before, cv, value);
}

/* Writes the line of a random packet for all locomotives. By the standard, a stop may turn F0 off with 14 steps. */
static void choose_broadcast(char line[64], char way) {
    unsigned kind = by == STANDARD ? between(1, 3) : between(1, 8);
    bool has_light = !(start_cvs[28] & 2) && proved.loco.loco.functions[0] & 1;
    if (by == STANDARD && has_light) strcpy(line, "idle");
    else if (kind < 3) sprintf(line, "loco all speed28 %c %u", way, one_in(2) ? 0 : 2);
    else if (kind == 3 && has_resets) strcpy(line, "loco all reset");
    else if (kind == 4 && wanted.speed128) sprintf(line, "loco all speed128 %c %u", way, between(0, 127));
    else if (kind == 5) sprintf(line, "loco all functions 0 %u", between(0, 31));
    else if (kind == 6) sprintf(line, "loco all state %u on", between(0, 127));
    else if (kind == 7 && wanted.cvs) choose_cv_line(line, "loco all cv");
    else sprintf(line, "loco all speed28 %c %u", way, by == STANDARD ? 0 : between(0, 31));
}

/* Writes the line of a random packet of the main track. */
static void choose_loco_line(char line[64]) {
    static const unsigned groups[] = {0, 5, 9, 13, 21, 29, 37, 45, 53, 61};
    unsigned group = groups[between(0, 9)], bits = between(0, 31);
    char to[16], before[24], way = one_in(2) ? 'f' : 'r';
    if (one_in(10)) {
        choose_broadcast(line, way);
        return;
    }
    if (one_in(4)) choose_other(to);
    else strcpy(to, own);
    switch (between(1, 15)) {
    case 1: strcpy(line, "idle"); return;
    case 2: sprintf(line, "accessory %u %u %s", between(0, 511), between(0, 7), one_in(2) ? "on" : "off"); return;
    case 3: sprintf(line, "signal %u %u", between(0, 2047), between(0, 255)); return;
    case 4:
        if (has_resets) {
            sprintf(line, "loco %s reset", to);
            return;
        } /* fall through */
    case 5:
    case 6:
        /* by the standard, a decoder may ignore the direction of a stop with C = 1 */
        if (by == STANDARD && (bits == 1 || bits == 3)) way = proved.loco.loco.forward ? 'f' : 'r';
        sprintf(line, "loco %s speed28 %c %u", to, way, bits);
        return;
    case 7:
    case 8:
        bits = one_in(4) ? between(0, 1) : between(0, 127);
        sprintf(line, "loco %s speed128 %c %u", to, way, bits);
        if (!wanted.speed128) strcpy(line, "idle");
        return;
    case 9:
    case 10:
    case 11:
        bits = group == 0 ? bits : between(0, group < 13 ? 15 : 255);
        sprintf(line, "loco %s functions %u %u", to, group, bits);
        return;
    case 12:
        bits = by == TOOLKIT && one_in(3) ? between(0, 2) * 14 : between(2, 9) * 14 + 1;
        sprintf(line, "loco %s state %u %s", to, bits, one_in(2) ? "on" : "off");
        return;
    default:
        sprintf(before, "loco %s cv", to);
        if (wanted.cvs) choose_cv_line(line, before);
        else strcpy(line, "idle");
    }
}

/* Writes the line of a random packet for accessory decoders or a locomotive. By the standard, both outputs of a pair
 * are not on together. */
static void choose_board_line(char line[64]) {
    unsigned board = (unsigned)atoi(own), output = between(0, 7), kind = between(1, 10);
    bool on = !one_in(3), other_is_on = proved.board.board.outs >> (output ^ 1) & 1;
    if (by == STANDARD && on && other_is_on) on = false, output ^= 1;
    if (kind == 1) strcpy(line, "idle");
    else if (kind == 2) sprintf(line, "loco s%u functions 0 %u", short_address(), between(0, 31));
    else if (by == TOOLKIT && kind == 3) sprintf(line, "signal %u %u", 4 * board + output / 2, between(0, 255));
    else if (by == TOOLKIT && kind == 4) sprintf(line, "signal %u %u", between(2044, 2047), between(0, 255));
    else if (by == TOOLKIT && kind == 5) strcpy(line, one_in(3) ? "loco all reset" : "loco all speed28 f 0");
    else if (kind == 6) sprintf(line, "accessory 511 %u %s", output, on ? "on" : "off");
    else if (kind > 7) sprintf(line, "accessory %s %u %s", own, output, on ? "on" : "off");
    else sprintf(line, "accessory %u %u %s", board ^ 1u << between(0, 8), output, on ? "on" : "off");
}

/* Writes the line of the next packet. After a CV write the same write comes often, or another packet that the decoder
 * hears: by the standard, this packet cancels the write. By the standard, a decoder may be in service mode for 20
 * milliseconds after a reset of all decoders, so idle packets follow. */
static void choose_line(char line[64]) {
    static char write[64] = "idle";
    static unsigned idles;
    bool is_pending = !wanted.accessory && proved.loco.loco.pending.len, is_heard;
    if (!shown_count) idles = 0;
    else if (by == STANDARD && !is_pending && !strcmp(line, "loco all reset")) idles = 6;
    if (idles > 0) {
        idles--;
        strcpy(line, "idle");
        return;
    }
    if (shown_count && (is_pending ? one_in(2) : one_in(5))) return;
    char before[24];
    sprintf(before, "loco %s ", own);
    do {
        if (wanted.accessory) choose_board_line(line);
        else if (!strncmp(write, before, strlen(before)) && one_in(4)) strcpy(line, write);
        else choose_loco_line(line);
        is_heard = !strncmp(line, before, strlen(before)) || !strncmp(line, "loco all ", 9);
    } while (by == STANDARD && is_pending && !is_heard);
    if (strstr(line, "write") && !strncmp(line, before, strlen(before))) strcpy(write, line);
}

/* Changes a packet into one that the toolkit hears in its own way, and returns the change in words. */
static const char *change(uint8_t bytes[8], unsigned *len, unsigned *preamble) {
    unsigned kind = between(1, 4), at = bytes[0] < 128 ? 1 : 2;
    bool is_loco = bytes[0] < 128 || (bytes[0] >= 192 && bytes[0] < 232);
    if (kind == 1) {
        *preamble = between(14, 28);
        return ", after a preamble of 14 to 28 half-bits";
    }
    if (kind == 2 && *len < 6) {
        bytes[*len] = bytes[*len - 1];
        bytes[*len - 1] = (uint8_t)(one_in(2) ? 0 : between(1, 255));
        bytes[*len] ^= bytes[*len - 1];
        *len += 1;
        return ", with a byte more";
    }
    if (kind == 3 && is_loco) {
        bytes[*len - 1] ^= bytes[at];
        bytes[at] = (uint8_t)between(0, 255);
        if ((bytes[0] == 0 && !has_resets) || (bytes[at] == 0x3f && !wanted.speed128)) bytes[at] |= 128;
        bytes[*len - 1] ^= bytes[at];
        return ", with another instruction";
    }
    while (*len < 7) bytes[(*len)++] = (uint8_t)between(0, 255);
    return ", with more bytes after the error byte";
}

/* Changes one half-bit, often in the start bit or in the bit after it. */
static const char *change_half(unsigned preamble) {
    static const uint16_t limits[] = {51, 65, 80, 89, 10001, 58, 100, 1};
    unsigned at = one_in(4) ? preamble + between(0, 3) : between(0, halves_count - 1);
    halves[at] = one_in(2) ? limits[between(0, 7)] : (uint16_t)between(1, 120);
    return ", with a changed half-bit";
}

/* Plays a random packet of the main track. Returns false at a difference. */
static bool plays_random(char line[64]) {
    static bool was_short;
    const char *note = "";
    uint8_t bytes[8];
    choose_line(line);
    dcc_frame frame = frame_of(line);
    unsigned len = frame.len, preamble = 2 * (shown_count ? between(12, 22) : 12), kind = between(1, 60);
    memcpy(bytes, frame.bytes, len);
    bool is_short = kind > 3 && kind < 7 && !was_short;
    if (kind <= 3) {
        bytes[between(0, len - 1)] ^= (uint8_t)(1 << between(0, 7));
        note = ", with a wrong bit";
    } else if (is_short) {
        /* with the end bit of the packet before, the preamble has at most 9 ones */
        preamble = 2 * between(0, 8);
        note = ", after a short preamble";
    } else if (by == TOOLKIT && kind < 20) {
        note = change(bytes, &len, &preamble);
    }
    was_short = is_short;
    put_bytes(bytes, len, preamble);
    if (by == TOOLKIT && !*note && kind < 30) note = change_half(preamble);
    sprintf(shown[shown_count++ % 6], "%s%s", line, note);
    hear_all();
    return !differ(false);
}

/* ---- tracks ---- */

static void report_track(const char *of, unsigned number) {
    char sentence[300];
    sprintf(sentence, "%s\n  %s track %u with the seed %u, packet %u", why, of, number, wanted.seed, shown_count);
    report(sentence);
}

/* Plays a main track. Returns false at a difference. */
static bool plays_main(unsigned number) {
    char line[64] = "idle";
    choose_decoder();
    power_up();
    for (unsigned n = 0; n < wanted.packets; n++) {
        if (plays_random(line)) continue;
        report_track("main", number);
        return false;
    }
    return true;
}

/* Plays resets and then a service packet on the programming track. By the standard, the packets after fewer than 3
 * resets or 2 copies are not specified, so *is_end then ends the programming. */
static bool plays_question(bool is_first, bool *is_end) {
    char line[64];
    unsigned resets = is_first && one_in(8) ? 0 : between(3, 6), copies = one_in(4) ? 1 : between(2, 7);
    *is_end = resets == 0 || copies == 1;
    choose_cv_line(line, "service");
    return (!resets || plays(resets, "loco all reset")) && plays(copies, line);
}

/* Plays a random packet of the programming track, as the toolkit understands it. The decoder can get a new address. */
static bool plays_service_packet(void) {
    char line[64];
    unsigned kind = between(1, 10);
    const dcc_loco *loco = &proved.loco.loco;
    if (wanted.accessory) sprintf(own, "%u", proved.board.board.number);
    else if (loco->address) sprintf(own, "%c%u", loco->address_kind == DCC_SHORT ? 's' : 'l', loco->address);
    if (kind < 3) strcpy(line, "loco all reset");
    else if (kind == 3) strcpy(line, "idle");
    else if (kind < 9) choose_cv_line(line, "service");
    else if (wanted.accessory) choose_board_line(line);
    else choose_loco_line(line);
    return plays(between(1, 3), line);
}

/* Plays a programming track: many times, a power-up and then questions. Returns false at a difference. */
static bool plays_programming(unsigned number) {
    for (unsigned n = 0; n < wanted.packets; n += 10) {
        bool is_end = false;
        choose_decoder();
        power_up();
        for (unsigned left = between(1, by == STANDARD ? 4 : 20), count = 0; count < left && !is_end; count++) {
            if (by == STANDARD ? plays_question(count == 0, &is_end) : plays_service_packet()) continue;
            report_track("programming", number);
            return false;
        }
    }
    return true;
}

/* Plays all tracks of one kind, up to the first difference. */
static void play_tracks(bool (*plays_track)(unsigned)) {
    is_programming = plays_track == plays_programming;
    for (unsigned n = 1; n <= wanted.tracks && plays_track(n); n++) {}
}

/* ---- options ---- */

static void refuse(const char *word) {
    fprintf(stderr, "conformance: wrong option %s\n", word);
    exit(2);
}

static unsigned number_of(const char *name, const char *word, unsigned least, unsigned most) {
    char *end;
    unsigned long number = word ? strtoul(word, &end, 10) : 0;
    if (!word || !*word || *end || number < least || number > most) refuse(name);
    return (unsigned)number;
}

static void read_options(int argc, char **argv) {
    const struct {
        const char *name;
        bool *flag, value;
    } flags[] = {
        {"--profile", &wanted.profile, true}, {"--service", &wanted.service, true},
        {"--accessory", &wanted.accessory, true}, {"--states", &wanted.states, true},
        {"--no-cvs", &wanted.cvs, false}, {"--no-14", &wanted.steps14, false},
        {"--no-128", &wanted.speed128, false},
    };
    for (int i = 1; i < argc; i++) {
        const char *word = argv[i];
        unsigned n = 0;
        while (n < 7 && strcmp(word, flags[n].name)) n++;
        if (n < 7) *flags[n].flag = flags[n].value;
        else if (!strcmp(word, "--tracks")) wanted.tracks = number_of(word, argv[++i], 1, 1000000);
        else if (!strcmp(word, "--packets")) wanted.packets = number_of(word, argv[++i], 1, 1000000);
        else if (!strcmp(word, "--seed")) wanted.seed = number_of(word, argv[++i], 1, 1000000);
        else if (!strcmp(word, "--functions")) wanted.functions = number_of(word, argv[++i], 4, 68);
        else if (!strcmp(word, "--cv")) wanted.cv = number_of(word, argv[++i], 2, 256);
        else refuse(word);
    }
    for (unsigned n = 0; n < SPECIALS; n++) {
        if (wanted.cv == special[n]) refuse("--cv");
    }
}

int main(int argc, char **argv) {
    read_options(argc, argv);
    state_of_random = wanted.seed * 2654435761u | 1;
    unsigned count = play_cases();
    for (by = STANDARD; by <= (wanted.profile ? TOOLKIT : STANDARD); by++) {
        play_tracks(plays_main);
        if (wanted.service) play_tracks(plays_programming);
    }
    printf("%u cases and %u tracks of %u packets: ", count, wanted.tracks, wanted.packets);
    if (counts[STANDARD] + counts[TOOLKIT] == 0) printf("your decoder does the same as the proved decoder\n");
    else printf("faults %u, differences %u\n", counts[STANDARD], counts[TOOLKIT]);
    return counts[STANDARD] ? 1 : counts[TOOLKIT] ? 3 : 0;
}
