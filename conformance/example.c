/* SPDX-License-Identifier: MIT OR Apache-2.0
 *
 * A small decoder for a locomotive or for accessories, on the main track and on the programming track. It was written
 * from NMRA S-9.1, S-9.2, S-9.2.1, S-9.2.3 and RCN-212 to RCN-214 without the library, with the choices of
 * docs/SCOPE.md. It is an example for the harness, and is not proved. */
#include "conformance.h"
#include <string.h>

/* ---- the receiver ---- */

static unsigned half_ones;  /* half-bits of ones in a row, at most 20 */
static int first_half;      /* the class of the first half-bit of a bit: 1, 0, or -1 if there is none */
static enum { SEARCHES, IN_START_BIT, IN_BYTES } receiver;
static unsigned bits, byte_value;
static uint8_t packet[6];
static uint8_t packet_len;

static void execute(void);

static void restart(void) {
    receiver = SEARCHES;
    half_ones = 0;
    first_half = -1;
}

/* Takes a bit of a packet, after the start bit. */
static void take_bit(int bit) {
    if (bits < 8) {
        byte_value = byte_value << 1 | (unsigned)bit;
        bits++;
        return;
    }
    packet[packet_len++] = (uint8_t)byte_value;
    bits = byte_value = 0;
    if (!bit) {
        if (packet_len == 6) restart();
        return;
    }
    uint8_t sum = 0;
    for (int i = 0; i < packet_len; i++) sum ^= packet[i];
    if (packet_len >= 3 && sum == 0) execute();
    restart();
    half_ones = 2; /* the end bit counts as a one of the next preamble */
}

/* A preamble is counted in half-bits, since it can begin in the middle of a bit. */
static void search(int half) {
    if (half == 1) {
        if (half_ones < 20) half_ones++;
    } else if (half_ones == 20) {
        receiver = IN_START_BIT;
        bits = byte_value = packet_len = 0;
    } else {
        half_ones = 0;
    }
}

void your_half(uint16_t us) {
    int half = us >= 52 && us <= 64 ? 1 : us >= 90 && us <= 10000 ? 0 : -1;
    if (half < 0) {
        restart();
    } else if (receiver == SEARCHES) {
        search(half);
    } else if (receiver == IN_START_BIT) {
        if (half == 0) receiver = IN_BYTES;
        else restart();
    } else if (first_half < 0) {
        first_half = half;
    } else if (first_half != half) {
        restart();
    } else {
        first_half = -1;
        take_bit(half);
    }
}

/* ---- the state ---- */

static your_state decoder;
static int short_address, long_address, board; /* the address, or -1 */
static uint8_t last_write[6];                  /* the last packet, if it was a CV write */
static uint8_t last_write_len;
static bool in_service, has_changed;           /* service mode; a service packet changed a CV */
static uint8_t last_service[4];                /* the last packet, if it was a service packet, else 0 */

/* Stops the decoder and turns everything off. */
static void clear(void) {
    decoder.speed_mode = decoder.step = decoder.outputs = 0;
    decoder.forward = true;
    memset(decoder.functions, 0, sizeof decoder.functions);
    memset(decoder.states, 0, sizeof decoder.states);
}

/* Reads the address from the CVs. Bit 7 of CV29 is 1 in an accessory decoder. */
static void power_up(void) {
    const uint8_t *cvs = decoder.cvs;
    bool is_long = cvs[28] & 32 && cvs[16] >= 192 && cvs[16] < 232;
    short_address = long_address = -1;
    if (is_long) long_address = cvs[16] << 8 | cvs[17];
    else if (cvs[0] > 0 && cvs[0] < 128) short_address = cvs[0];
    board = (cvs[0] & 63) | (cvs[8] & 7) << 6;
    in_service = false;
    last_write_len = 0;
    clear();
}

static bool is_accessory;

void your_new(const uint8_t cvs[1024]) {
    memset(&decoder, 0, sizeof decoder);
    memcpy(decoder.cvs, cvs, sizeof decoder.cvs);
    is_accessory = cvs[28] & 128;
    power_up();
    restart();
}

void your_get(your_state *state) { *state = decoder; }

/* ---- CVs ---- */

/* The bytes are xxxxKKVV VVVVVVVV DDDDDDDD, on the main track and on the programming track. */
static unsigned cv_of(const uint8_t *bytes) { return (unsigned)((bytes[0] & 3) << 8 | bytes[1]) + 1; }

static bool is_write(const uint8_t *bytes) {
    unsigned kind = bytes[0] >> 2 & 3;
    return kind == 3 || (kind == 2 && bytes[2] >> 4 == 15);
}

/* Returns false if the CV is read-only. */
static bool write_cv(const uint8_t *bytes) {
    unsigned cv = cv_of(bytes), bit = 1u << (bytes[2] & 7), value = decoder.cvs[cv - 1], before = value;
    if (cv == 7 || cv == 8) return false;
    if ((bytes[0] >> 2 & 3) == 3) value = bytes[2];
    else value = bytes[2] & 8 ? value | bit : value & ~bit;
    decoder.cvs[cv - 1] = (uint8_t)value;
    if (in_service && value != before) has_changed = true;
    return true;
}

/* ---- the programming track ---- */

static bool is_service_packet(void) {
    unsigned kind = packet[0] >> 2 & 3;
    return packet_len == 4 && packet[0] >> 4 == 7 && kind > 0 && (kind != 2 || packet[2] >> 5 == 7);
}

/* Takes effect when it comes for the second time in a row. */
static void service_packet(void) {
    bool is_second = !memcmp(last_service, packet, 4), is_right;
    memcpy(last_service, packet, 4);
    if (!is_second) return;
    unsigned value = decoder.cvs[cv_of(packet) - 1];
    if (is_write(packet)) is_right = write_cv(packet);
    else if (packet[0] & 4) is_right = value == packet[2];
    else is_right = (value >> (packet[2] & 7) & 1) == (packet[2] >> 3 & 1u);
    if (is_right) decoder.acknowledgements++;
}

/* ---- accessories ---- */

/* 10AAAAAA 1NNNCDDD turns an output, 10AAAAAA 0NNN0PP1 XXXXXXXX sets the aspect of a signal */
static void accessory(void) {
    unsigned to = (packet[0] & 63u) | (~(unsigned)packet[1] >> 4 & 7) << 6, bit = 1u << (packet[1] & 7);
    bool is_own = to == (unsigned)board && to != 511;
    if (packet_len == 3 && packet[0] == 0 && packet[1] == 0) decoder.outputs = 0;
    if (packet[0] >> 6 != 2) return;
    if (packet_len == 3 && packet[1] & 128 && (is_own || to == 511)) {
        decoder.outputs = (uint8_t)(packet[1] & 8 ? decoder.outputs | bit : decoder.outputs & ~bit);
    } else if (packet_len == 4 && (packet[1] & 0x89) == 1) {
        if (is_own) decoder.aspects[packet[1] >> 1 & 3] = packet[2];
        if (to == 511 && (packet[1] & 6) == 6) memset(decoder.aspects, packet[2], 4);
    }
}

/* ---- a locomotive ---- */

static void set_bit(uint64_t bits[2], unsigned n, bool on) {
    uint64_t bit = (uint64_t)1 << n % 64;
    bits[n / 64] = on ? bits[n / 64] | bit : bits[n / 64] & ~bit;
}

static void set_functions(unsigned first, unsigned count, unsigned values) {
    for (unsigned i = 0; i < count; i++) set_bit(decoder.functions, first + i, values >> i & 1);
}

static void set_speed(unsigned mode, unsigned step) {
    decoder.speed_mode = (uint8_t)mode;
    decoder.step = (uint8_t)step;
}

/* 01DCSSSS */
static void speed_28(unsigned byte, bool is_broadcast) {
    bool forward = byte >> 5 & 1;
    unsigned low = byte & 15, step = 2 * low + (byte >> 4 & 1);
    if (is_broadcast) {
        /* only stops are for all decoders: S0000 with a direction, S0001 with a direction, others ignore it */
        if (low > 1) return;
        set_speed(low, 0);
        if (!(byte >> 4 & 1)) decoder.forward = forward;
        return;
    }
    decoder.forward = forward;
    if (low < 2) {
        set_speed(low, 0);
    } else if (decoder.cvs[28] & 2) {
        set_speed(28, step - 3);
    } else {
        set_speed(14, low - 1);
    }
    if (!(decoder.cvs[28] & 2)) set_functions(0, 1, byte >> 4);
}

/* DLLLLLLL; number 0 means all binary states */
static void binary_state(unsigned byte) {
    unsigned number = byte & 127;
    for (unsigned n = 1; n < 128; n++) {
        if (number == 0 || number == n) set_bit(decoder.states, n, byte >> 7);
    }
}

/* A CV write takes effect when it comes for the second time, without another packet for the decoder between. */
static void cv_access(const uint8_t *bytes) {
    bool is_second = last_write_len == packet_len && !memcmp(last_write, packet, packet_len);
    last_write_len = 0;
    if (!is_write(bytes)) return;
    if (is_second) write_cv(bytes);
    memcpy(last_write, packet, packet_len);
    last_write_len = packet_len;
}

static void instruction(const uint8_t *bytes, unsigned len, bool is_broadcast) {
    static const uint8_t high[5] = {29, 37, 45, 53, 61};
    uint8_t byte = bytes[0];
    if (len == 3 && byte >> 4 == 14 && !is_broadcast) {
        cv_access(bytes);
        return;
    }
    last_write_len = 0;
    if (len == 1 && byte == 0) {
        clear();
    } else if (len == 1 && byte >> 6 == 1) {
        speed_28(byte, is_broadcast);
    } else if (len == 2 && byte == 0x3f) {
        decoder.forward = bytes[1] >> 7;
        if ((bytes[1] & 127) < 2) set_speed(bytes[1] & 127, 0);
        else set_speed(126, (bytes[1] & 127) - 1u);
    } else if (len == 1 && byte >> 5 == 4) {
        set_functions(1, 4, byte);
        if (decoder.cvs[28] & 2) set_functions(0, 1, byte >> 4);
    } else if (len == 1 && byte >> 5 == 5) {
        set_functions(byte & 16 ? 5 : 9, 4, byte);
    } else if (len == 2 && (byte == 0xde || byte == 0xdf)) {
        set_functions(byte == 0xde ? 13 : 21, 8, bytes[1]);
    } else if (len == 2 && byte >= 0xd8 && byte <= 0xdc) {
        set_functions(high[byte - 0xd8], 8, bytes[1]);
    } else if (len == 2 && byte == 0xdd) {
        binary_state(bytes[1]);
    }
}

static void locomotive(void) {
    unsigned address_len = packet[0] >= 192 && packet[0] < 232 ? 2 : 1;
    int address = address_len == 2 ? packet[0] << 8 | packet[1] : packet[0];
    bool is_broadcast = packet[0] == 0, is_own = address == (address_len == 2 ? long_address : short_address);
    if (!is_broadcast && !is_own) return;
    if (packet_len < address_len + 2) return;
    instruction(packet + address_len, packet_len - address_len - 1, is_broadcast);
}

static void execute(void) {
    if (packet_len == 3 && packet[0] == 0 && packet[1] == 0) {
        if (!in_service) has_changed = false;
        in_service = true;
        memset(last_service, 0, sizeof last_service);
    } else if (in_service && is_service_packet()) {
        service_packet();
        return;
    } else if (in_service) {
        if (has_changed) power_up();
        in_service = false;
    }
    if (is_accessory) accessory();
    else locomotive();
}
