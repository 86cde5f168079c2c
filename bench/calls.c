/* The calls of the library for C beside plain C of the same job, for bench/calls.py.
 *
 *   calls NAME library | plain | loop      makes the call 2,000 times, on seven frames in turn; `loop` makes no call
 *   calls same                             compares what both do on each frame; status 1 if they differ
 *
 * The plain functions do the job as a maker would write it by hand, and prove nothing. `plain_apply` does not look
 * whether the numbers of the
 * decoder are those of a decoder, which the library owes. */
#include "dcc.h"
#include <stdio.h>
#include <string.h>

enum { FRAMES = 7, CALLS = 2000 };
static const dcc_frame frames[FRAMES] = {
    {3, {0x03, 0x62, 0x61}},             /* loco s3 speed28 */
    {3, {0xff, 0x00, 0xff}},             /* idle */
    {3, {0x03, 0x90, 0x93}},             /* loco s3 functions */
    {3, {0x8c, 0xfd, 0x71}},             /* accessory */
    {5, {0xc3, 0xe8, 0x3f, 0x7f, 0x6b}}, /* loco l1000 speed128 */
    {5, {0x03, 0xec, 0x1c, 0x06, 0xf5}}, /* loco s3 cv write */
    {3, {0x03, 0x9a, 0x99}},             /* loco s3 functions */
};
static const dcc_timing timing = DCC_MAIN_TIMING;

/* ---- frames ---- */

/* 0 for a frame, else the number of its fault */
static int fault_of(const uint8_t *frame, uint64_t len) {
    uint8_t sum = 0;
    if (len < 3 || len > 6) return DCC_L1_LENGTH;
    for (uint64_t i = 0; i < len; i++) sum ^= frame[i];
    return sum ? DCC_L2_ERROR_BYTE : 0;
}

/* ---- what is sent ---- */

typedef struct {
    uint64_t bits; /* of the body, the next one highest */
    uint16_t one, zero_first, zero_second;
    uint8_t ones, left, second; /* ones of the preamble left, bits of the body left,
            whether the second half is next */
} plain_sender;

static __attribute__((noinline)) int plain_start(plain_sender *sender, const uint8_t *frame, uint64_t len,
        const dcc_timing *in) {
    uint64_t bits = 0;
    int count = 0, fault;
    if (in->one < 55 || in->one > 61) return DCC_H6_ONE;
    if (in->zero_first < 95 || in->zero_first > 9900 || in->zero_second < 95
            || in->zero_second > 9900) return DCC_H7_ZERO;
    if (in->zero_first + in->zero_second > 12000) return DCC_H7_ZERO;
    if (in->preamble < 14 || in->preamble > 40) return DCC_H8_PREAMBLE;
    if ((fault = fault_of(frame, len))) return fault;
    for (uint64_t i = 0; i < len; i++) bits = bits << 9 | frame[i], count += 9;
    bits = bits << 1 | 1, count++;
    sender->bits = bits << (64 - count);
    sender->left = (uint8_t)count;
    sender->ones = in->preamble;
    sender->second = 0;
    sender->one = in->one, sender->zero_first = in->zero_first, sender->zero_second = in->zero_second;
    return 0;
}

static __attribute__((noinline)) uint16_t plain_half(plain_sender *sender) {
    if (sender->ones) {
        if (sender->second) sender->ones--;
        sender->second ^= 1;
        return sender->one;
    }
    if (!sender->left) return 0;
    uint16_t us = sender->bits >> 63 ? sender->one : sender->second ? sender->zero_second : sender->zero_first;
    if (sender->second) sender->bits <<= 1, sender->left--;
    sender->second ^= 1;
    return us;
}

static __attribute__((noinline)) int plain_halves(const uint8_t *frame, uint64_t len, uint8_t preamble,
        uint16_t *halves) {
    int count = 0;
    if (fault_of(frame, len) || preamble < 14 || preamble > 40) return 0;
    for (int i = 0; i < preamble; i++) halves[count] = halves[count + 1] = 58, count += 2;
    for (uint64_t i = 0; i < len; i++) {
        halves[count] = halves[count + 1] = 100, count += 2;
        for (int place = 7; place >= 0; place--) halves[count] = halves[count + 1] = frame[i] >> place & 1
                ? 58 : 100, count += 2;
    }
    halves[count] = halves[count + 1] = 58;
    return count + 2;
}

/* ---- packets ---- */

static int plain_other(dcc_packet *packet) {
    memset(packet, 0, sizeof *packet);
    packet->kind = DCC_OTHER;
    return 0;
}

/* a packet to locomotives, behind its address */
static int plain_instruction(const uint8_t *rest, int n, dcc_packet *packet) {
    static const uint8_t groups[8] = {29, 37, 45, 53, 61, 0, 13, 21};
    switch (rest[0] >> 5) {
    case 0:
        if (n == 1 && rest[0] == 0) return packet->kind = DCC_RESET, 0;
        break;
    case 1:
        if (n == 2 && rest[0] == 0x3f) return packet->kind = DCC_SPEED128, packet->forward = rest[1] >> 7,
                packet->bits = rest[1] & 127, 0;
        break;
    case 2:
    case 3:
        if (n != 1) break;
        packet->kind = DCC_SPEED28, packet->forward = rest[0] >> 5 & 1;
        packet->bits = (uint8_t)((rest[0] & 15) << 1 | (rest[0] >> 4 & 1));
        return 0;
    case 4:
        if (n == 1) return packet->kind = DCC_FUNCTIONS, packet->bits = rest[0] & 31, 0;
        break;
    case 5:
        if (n == 1) return packet->kind = DCC_FUNCTIONS, packet->group = rest[0] & 16 ? 5 : 9,
                packet->bits = rest[0] & 15, 0;
        break;
    case 6:
        if (n != 2 || rest[0] < 0xd8) break;
        if (rest[0] == 0xdd) return packet->kind = DCC_STATE, packet->on = rest[1] >> 7,
                packet->state = rest[1] & 127, 0;
        return packet->kind = DCC_FUNCTIONS, packet->group = groups[rest[0] - 0xd8], packet->bits = rest[1], 0;
    default:
        if (n != 3 || rest[0] & 0x10) break;
        packet->cv = (uint16_t)(((rest[0] & 3) << 8 | rest[1]) + 1);
        if ((rest[0] >> 2 & 3) == 3) return packet->kind = DCC_CV_WRITE, packet->value = rest[2], 0;
        if ((rest[0] >> 2 & 3) == 1) return packet->kind = DCC_CV_VERIFY, packet->value = rest[2], 0;
        if ((rest[0] >> 2 & 3) != 2 || rest[2] < 0xe0) break;
        packet->kind = rest[2] & 16 ? DCC_CV_BIT_WRITE : DCC_CV_BIT_VERIFY, packet->place = rest[2] & 7,
                packet->one = rest[2] >> 3 & 1;
        return 0;
    }
    return plain_other(packet);
}

static __attribute__((noinline)) int plain_read(const uint8_t *frame, uint64_t len, dcc_packet *packet) {
    int fault = fault_of(frame, len), n = (int)len - 1;
    if (fault) return fault;
    memset(packet, 0, sizeof *packet);
    if (frame[0] == 0xff && n == 2 && frame[1] == 0) return packet->kind = DCC_IDLE, 0;
    if (frame[0] >= 128 && frame[0] < 192) {
        if (n != 2 || !(frame[1] & 0x80)) return plain_other(packet);
        packet->kind = DCC_ACCESSORY, packet->address = (uint16_t)((frame[0] & 63) | (~frame[1] & 0x70) << 2);
        packet->on = frame[1] >> 3 & 1, packet->output = frame[1] & 7;
        return 0;
    }
    if (frame[0] >= 232) return plain_other(packet);
    packet->to = frame[0] >= 192 ? DCC_LONG : frame[0] ? DCC_SHORT : DCC_ALL;
    packet->address = frame[0] >= 192 ? (uint16_t)((frame[0] & 63) << 8 | frame[1]) : frame[0];
    int behind = frame[0] >= 192 ? 2 : 1;
    return plain_instruction(frame + behind, n - behind, packet);
}

static __attribute__((noinline)) int plain_hears(const dcc_loco *loco, const uint8_t *frame, uint64_t len,
        bool *heard) {
    int fault = fault_of(frame, len);
    if (fault) return fault;
    if (loco->address_kind > 2) return 13;
    if (frame[0] == 0) return *heard = true, 0;
    if (frame[0] < 128) return *heard = loco->address_kind == 1 && loco->address == frame[0], 0;
    if (frame[0] < 192 || frame[0] >= 232) return *heard = false, 0;
    return *heard = loco->address_kind == 2 && loco->address == ((frame[0] & 63) << 8 | frame[1]), 0;
}

/* ---- a decoder ---- */

static void set_bit(uint64_t words[2], int place, bool on) {
    uint64_t bit = 1ull << (place & 63);
    words[place >> 6] = on ? words[place >> 6] | bit : words[place >> 6] & ~bit;
}

static void set_speed(dcc_loco *loco, uint8_t mode, uint8_t bits, bool forward) {
    uint8_t stops = mode == 126 ? 2 : 4, step = mode == 126 ? bits - 1 : mode == 28 ? bits - 3 : bits / 2 - 1;
    loco->forward = forward;
    loco->speed_mode = bits >= stops ? mode : mode == 126 ? bits : bits >> 1 & 1;
    loco->step = bits >= stops ? step : 0;
}

/* a write: each copy behind the first is done */
static void write_cv(dcc_loco *loco, bool is_second, uint8_t value, uint16_t cv, const uint8_t *frame, uint64_t len) {
    if (is_second) {
        loco->cvs[cv - 1] = value;
        return;
    }
    memset(&loco->pending, 0, sizeof loco->pending);
    loco->pending.len = (uint8_t)len;
    memcpy(loco->pending.bytes, frame, len);
}

static __attribute__((noinline)) int plain_apply(dcc_loco *loco, const uint8_t *frame, uint64_t len) {
    dcc_packet packet;
    int fault = plain_read(frame, len, &packet);
    if (fault) return fault;
    if (packet.kind == DCC_IDLE || packet.kind >= DCC_ACCESSORY) return 0;
    if (packet.to != DCC_ALL && (loco->address_kind != packet.to || loco->address != packet.address)) return 0;
    bool is_second = loco->pending.len == len && !memcmp(loco->pending.bytes, frame, len);
    if (packet.kind != DCC_CV_WRITE && packet.kind != DCC_CV_BIT_WRITE) memset(&loco->pending, 0,
            sizeof loco->pending);
    uint8_t cv = packet.cv ? loco->cvs[packet.cv - 1] : 0, bit = (uint8_t)(1 << packet.place);
    int count = packet.group == 0 ? 5 : packet.group < 13 ? 4 : 8;
    switch (packet.kind) {
    case DCC_RESET:
        loco->speed_mode = loco->step = 0, loco->forward = true;
        memset(loco->functions, 0, sizeof loco->functions), memset(loco->states, 0, sizeof loco->states);
        break;
    case DCC_SPEED28: set_speed(loco, loco->cvs[28] & 2 ? 28 : 14, packet.bits, packet.forward); break;
    case DCC_SPEED128: set_speed(loco, 126, packet.bits, packet.forward); break;
    case DCC_FUNCTIONS:
        for (int i = 0; i < count; i++) set_bit(loco->functions, packet.group ? packet.group + i : i == 4
                ? 0 : i + 1, packet.bits >> i & 1);
        break;
    case DCC_STATE:
        if (packet.state) set_bit(loco->states, packet.state, packet.on);
        else loco->states[0] = packet.on ? ~1ull : 0, loco->states[1] = packet.on ? ~0ull : 0;
        break;
    case DCC_CV_WRITE: write_cv(loco, is_second, packet.value, packet.cv, frame, len); break;
    case DCC_CV_BIT_WRITE: write_cv(loco, is_second, (uint8_t)(packet.one ? cv | bit : cv & ~bit), packet.cv,
            frame, len); break;
    default: break;
    }
    return 0;
}

/* the CV that the next plain_apply writes, or 0 */
static __attribute__((noinline)) int plain_cv(const dcc_loco *loco, const uint8_t *frame, uint64_t len, uint16_t *cv) {
    dcc_packet packet;
    int fault = plain_read(frame, len, &packet);
    if (fault) return fault;
    bool is_second = loco->pending.len == len && !memcmp(loco->pending.bytes, frame, len);
    *cv = is_second ? packet.cv : 0;
    return 0;
}

/* ---- the calls ---- */

static dcc_loco loco, plain_loco;
static dcc_small_loco small_loco;
static uint8_t value;
static uint16_t cv;
static bool changed;
static dcc_packet packet, plain_packet;
static uint16_t halves[DCC_HALVES], same_halves[DCC_HALVES];
static volatile uint32_t sink;

static void new_locos(void) {
    uint8_t cvs[DCC_CVS] = {[0] = 3, [28] = 2};
    dcc_loco_new(&loco, cvs);
    dcc_small_loco_new(&small_loco, 3, 0, 0, 2);
    plain_loco = loco;
}

/* the numbers of two decoders, without the free bytes between them */
static bool is_same_loco(const dcc_loco *a, const dcc_loco *b) {
    return a->address_kind == b->address_kind && a->speed_mode == b->speed_mode && a->step == b->step
            && a->forward == b->forward
        && a->address == b->address && !memcmp(&a->pending, &b->pending, sizeof a->pending)
        && !memcmp(a->functions, b->functions, sizeof a->functions) && !memcmp(a->states, b->states, sizeof a->states)
        && !memcmp(a->cvs, b->cvs, sizeof a->cvs);
}

/* the numbers of a decoder whose CVs are in those of another */
static bool is_same_small_loco(const dcc_small_loco *a, const dcc_loco *b) {
    return a->address_kind == b->address_kind && a->speed_mode == b->speed_mode && a->step == b->step
        && a->forward == b->forward && a->address == b->address && a->cv29 == b->cvs[28]
        && !memcmp(&a->pending, &b->pending, sizeof a->pending)
        && !memcmp(a->functions, b->functions, sizeof a->functions) && !memcmp(a->states, b->states, sizeof a->states);
}

/* what both do on each frame, and with each frame twice in a row */
static int same(void) {
    for (int i = 0; i < 2 * FRAMES; i++) {
        const dcc_frame *it = &frames[i / 2];
        bool heard = false, plain_heard = false;
        dcc_sender sender;
        plain_sender plain;
        if (dcc_read(it->bytes, it->len, &packet) || plain_read(it->bytes, it->len, &plain_packet)) return 1;
        if (memcmp(&packet, &plain_packet, sizeof packet)) return 2;
        if (dcc_loco_hears(&loco, it->bytes, it->len, &heard) || plain_hears(&loco, it->bytes, it->len,
                &plain_heard) || heard != plain_heard) return 3;
        uint16_t needed = 0;
        if (dcc_small_loco_cv(&small_loco, it->bytes, it->len, &cv) || plain_cv(&plain_loco, it->bytes, it->len,
                &needed) || cv != needed) return 9;
        if (cv) value = plain_loco.cvs[cv - 1];
        if (dcc_loco_apply(&loco, it->bytes, it->len) || plain_apply(&plain_loco, it->bytes, it->len)) return 4;
        if (!is_same_loco(&loco, &plain_loco)) return 5;
        if (dcc_small_loco_apply(&small_loco, it->bytes, it->len, &value, &changed)) return 10;
        if (!is_same_small_loco(&small_loco, &plain_loco) || (cv && value != plain_loco.cvs[cv - 1])) return 11;
        int count = dcc_halves(it->bytes, it->len, 14, halves);
        if (count != plain_halves(it->bytes, it->len, 14, same_halves) || memcmp(halves, same_halves,
                2 * (size_t)count)) return 6;
        if (dcc_sender_start(&sender, it->bytes, it->len, &timing) || plain_start(&plain, it->bytes, it->len,
                &timing)) return 7;
        for (int k = 0; k < count + 2; k++)
            if (dcc_sender_half(&sender) != (k < count ? halves[k] : 0) || plain_half(&plain) != (k < count
                ? halves[k] : 0)) return 8;
    }
    return 0;
}

int main(int argc, char **argv) {
    const char *name = argc > 1 ? argv[1] : "", *which = argc > 2 ? argv[2] : "loop";
    bool is_library = !strcmp(which, "library"), is_plain = !strcmp(which, "plain");
    int only = -1;
    uint32_t sum = 0;
    bool heard = false;
    dcc_sender sender;
    plain_sender plain;
    memset(&sender, 0, sizeof sender), memset(&plain, 0, sizeof plain);
    new_locos();
    if (!strcmp(name, "same")) {
        int differs = same();
        if (differs) printf("they differ: %d\n", differs);
        return differs != 0;
    }
    if (!strcmp(name, "apply_speed")) only = 0;
    if (!strcmp(name, "apply_idle")) only = 1;
    if (!strcmp(name, "apply_functions")) only = 2;
    if (!strcmp(name, "apply_cv_write")) only = 5;
    for (int i = 0; i < CALLS; i++) {
        const dcc_frame *it = &frames[only < 0 ? i % FRAMES : only];
        sum += it->bytes[0] + it->len;
#define CALL(its_name, library, by_hand) if (!strcmp(name, its_name)) { if (is_library) { library; \
    } else if (is_plain) { by_hand; } continue; }
        CALL("read", sum += dcc_read(it->bytes, it->len, &packet), sum += (uint32_t)plain_read(it->bytes,
                it->len, &packet))
        CALL("hears", sum += dcc_loco_hears(&loco, it->bytes, it->len, &heard),
                sum += (uint32_t)plain_hears(&loco, it->bytes, it->len, &heard))
        CALL("halves", sum += dcc_halves(it->bytes, it->len, 14, halves),
                sum += (uint32_t)plain_halves(it->bytes, it->len, 14, halves))
        CALL("start", sum += dcc_sender_start(&sender, it->bytes, it->len, &timing),
                sum += (uint32_t)plain_start(&plain, it->bytes, it->len, &timing))
        CALL("small_cv", sum += dcc_small_loco_cv(&small_loco, it->bytes, it->len, &cv),
                sum += (uint32_t)plain_cv(&plain_loco, it->bytes, it->len, &cv))
        CALL("small_apply", sum += dcc_small_loco_apply(&small_loco, it->bytes, it->len, &value, &changed),
                sum += (uint32_t)plain_apply(&plain_loco, it->bytes, it->len))
        if (!strcmp(name, "half")) {
            /* 84 half-bits and the end, so the start counts little */
            if (i % 85 == 0) dcc_sender_start(&sender, frames[0].bytes, 3, &timing), plain_start(&plain,
                frames[0].bytes, 3, &timing);
            if (is_library) sum += dcc_sender_half(&sender);
            if (is_plain) sum += plain_half(&plain);
            continue;
        }
        if (is_library) sum += dcc_loco_apply(&loco, it->bytes, it->len);
        if (is_plain) sum += (uint32_t)plain_apply(&plain_loco, it->bytes, it->len);
    }
    sink = sum;
    return 0;
}
