/* Compares decoders whose CVs the program stores with dcc_loco and dcc_service, on random frames. Both have to write
 * the same fields, the same CVs and the same results. tools/test-c runs this program, also with sanitizers.
 *
 *   stored [FRAMES]
 *
 * It prints how often a CV was accessed and changed. Status 1 if a result differs, or if something happened too seldom
 * for a test. */
#include "dcc.h"

#include <stdio.h>
#include <stdlib.h>
#include <string.h>

static uint32_t state = 2463534242u;
static unsigned long accessed, changes, refused, answered, mode_changes, wrong;
static dcc_loco loco;
static dcc_service service;
static uint8_t bytes[6], len;

static uint32_t next(void) {
    state ^= state << 13;
    state ^= state >> 17;
    state ^= state << 5;
    return state >> 3;
}
static bool one_of(uint32_t n) { return next() % n == 0; }

static void check(bool is_right, const char *name) {
    if (is_right) return;
    if (wrong++ < 10) printf("wrong: %s, frame %02x %02x %02x %02x %02x %02x\n", name, bytes[0], bytes[1], bytes[2],
        bytes[3], bytes[4], bytes[5]);
}

/* A CV that matters, or any CV. */
static uint16_t some_cv(void) {
    static const uint16_t cvs[] = {1, 7, 8, 17, 18, 29, 1024, 257};
    return one_of(3) ? (uint16_t)(1 + next() % DCC_CVS) : cvs[next() % 8];
}

/* Makes a frame for the locomotive or for the programming track. Often it is the frame before. */
static void make_frame(bool of_service) {
    uint8_t at = 0, i, sum = 0;
    uint16_t cv = (uint16_t)(some_cv() - 1);
    static const uint8_t accesses[] = {0x0c, 0x04, 0x08};
    if (len && !one_of(3)) return;
    memset(bytes, 0, sizeof bytes);
    len = (uint8_t)(3 + next() % 4);
    if (one_of(12)) {
        for (i = 0; i < len; i++) bytes[i] = (uint8_t)next();
        if (one_of(2)) return; /* seldom a frame */
    } else if (of_service ? one_of(8) : one_of(20)) {
        len = 3; /* the reset */
    } else {
        if (!of_service) {
            uint16_t first = loco.address > 127 ? 192 | loco.address >> 8 : loco.address;
            bytes[0] = (uint8_t)(one_of(9) ? next() % 3 : first);
            if (loco.address > 127) bytes[++at] = (uint8_t)loco.address;
            at++;
        }
        if (!of_service && one_of(4)) {
            static const uint8_t first[] = {0x40, 0x80, 0xa0, 0xb0};
            bytes[at++] = (uint8_t)(first[next() % 4] + next() % 16); /* a speed or functions */
        } else {
            bytes[at++] = (uint8_t)((of_service ? 0x70 : 0xe0) | accesses[next() % 3] | cv >> 8);
            bytes[at++] = (uint8_t)cv;
            bytes[at++] = one_of(2) ? (uint8_t)next() : (uint8_t)(0xe0 | next() % 32);
        }
        len = (uint8_t)(at + 1);
    }
    for (i = 0; i + 1 < len; i++) sum ^= bytes[i];
    bytes[len - 1] = sum;
}

/* ---- a locomotive ---- */

static dcc_small_loco small;
static uint8_t store[DCC_CVS];

/* The fields of `loco` are those of `small`, and its CVs are stored. */
static bool is_same_loco(void) {
    return small.address_kind == loco.address_kind && small.speed_mode == loco.speed_mode && small.step == loco.step
        && small.forward == loco.forward && small.address == loco.address
        && !memcmp(&small.pending, &loco.pending, sizeof small.pending)
        && !memcmp(small.functions, loco.functions, sizeof small.functions)
        && !memcmp(small.states, loco.states, sizeof small.states) && small.cv29 == loco.cvs[28]
        && !memcmp(store, loco.cvs, DCC_CVS);
}

static void power_up_loco(void) {
    static dcc_loco other;
    unsigned i;
    for (i = 0; i < DCC_CVS; i++) store[i] = (uint8_t)next();
    if (!one_of(4)) store[0] = (uint8_t)(1 + next() % 127);
    if (one_of(2)) store[16] = (uint8_t)(192 + next() % 40);
    memset(&other, (int)(next() & 255), sizeof other);
    memcpy(other.cvs, store, DCC_CVS);
    dcc_loco_power_up(&other);
    dcc_loco_new(&loco, store);
    check(other.address_kind == loco.address_kind && other.address == loco.address && other.speed_mode == 0
        && other.step == 0 && other.forward && other.pending.len == 0 && !memcmp(other.cvs, store, DCC_CVS)
        && !other.functions[0] && !other.functions[1] && !other.states[0] && !other.states[1]
        && !memcmp(&other.pending, &loco.pending, sizeof other.pending), "dcc_loco_power_up");
    memset(&small, (int)(next() & 255), sizeof small);
    dcc_small_loco_new(&small, store[0], store[16], store[17], store[28]);
    check(is_same_loco(), "dcc_small_loco_new");
}

static void try_loco(void) {
    static bool is_refused;
    uint16_t cv = 9999;
    uint8_t value = (uint8_t)next(), was, told, result;
    bool changed = one_of(2), heard[2] = {false, true}, changed_before = changed;
    if (one_of(400)) power_up_loco();
    make_frame(false);
    if (one_of(50)) small.step = loco.step = (uint8_t)next();         /* fields that perhaps no decoder has */
    if (one_of(50) || (is_refused && one_of(3))) small.speed_mode = loco.speed_mode = 0, small.step = loco.step = 0;
    told = dcc_small_loco_cv(&small, bytes, len, &cv);
    check(told == 0 || cv == 9999, "dcc_small_loco_cv writes");
    check(told != 0 || cv <= DCC_CVS, "dcc_small_loco_cv");
    if (told == 0 && cv) value = store[cv - 1];
    was = value;
    check(dcc_small_loco_hears(&small, bytes, len, &heard[0]) == dcc_loco_hears(&loco, bytes, len, &heard[1])
        && (told || heard[0] == heard[1]), "dcc_small_loco_hears");
    result = dcc_small_loco_apply(&small, bytes, len, &value, &changed);
    check(result == dcc_loco_apply(&loco, bytes, len) && result == told, "the result of dcc_small_loco_apply");
    check(changed == (result ? changed_before : value != was), "changed by dcc_small_loco_apply");
    check(value == was || (result == 0 && cv), "a value that is not accessed");
    if (result == 0 && changed) store[cv - 1] = value;
    check(is_same_loco(), "dcc_small_loco_apply");
    accessed += told == 0 && cv;
    changes += result == 0 && changed;
    mode_changes += result == 0 && changed && cv == 29;
    is_refused = result == 13;
    refused += is_refused;
}

/* ---- the programming track ---- */

static dcc_small_service small_service;
static uint8_t service_store[DCC_CVS];

static bool is_same_service(void) {
    return small_service.in_service == service.in_service
        && !memcmp(&small_service.pending, &service.pending, sizeof service.pending)
        && !memcmp(service_store, service.cvs, DCC_CVS);
}

static void power_up_service(void) {
    static dcc_service other;
    unsigned i;
    for (i = 0; i < DCC_CVS; i++) service_store[i] = (uint8_t)next();
    memset(&other, 0, sizeof other);
    memset(&other.pending, (int)(next() & 255), sizeof other.pending);
    other.in_service = one_of(2);
    memcpy(other.cvs, service_store, DCC_CVS);
    dcc_service_power_up(&other);
    dcc_service_new(&service, service_store);
    check(!memcmp(&other, &service, sizeof other), "dcc_service_power_up");
    memset(&small_service.pending, (int)(next() & 255), sizeof small_service.pending);
    dcc_small_service_new(&small_service);
    check(is_same_service(), "dcc_small_service_new");
}

static void try_service(void) {
    static bool is_refused;
    uint16_t cv = 9999;
    uint8_t value = (uint8_t)next(), was, told, result;
    bool changed = one_of(2), yes[2], changed_before = changed;
    yes[0] = yes[1] = one_of(2);
    if (one_of(400)) power_up_service();
    make_frame(true);
    if (one_of(50)) small_service.pending.bytes[3] = service.pending.bytes[3] = (uint8_t)next();
    if (one_of(50) || (is_refused && one_of(3))) memset(&small_service.pending, 0, 7), memset(&service.pending, 0, 7);
    told = dcc_small_service_cv(&small_service, bytes, len, &cv);
    check(told == 0 || cv == 9999, "dcc_small_service_cv writes");
    check(told != 0 || cv <= DCC_CVS, "dcc_small_service_cv");
    if (told == 0 && cv) value = service_store[cv - 1];
    was = value;
    result = dcc_small_service_apply(&small_service, bytes, len, &value, &changed, &yes[0]);
    check(result == dcc_service_apply(&service, bytes, len, &yes[1]) && result == told,
        "the result of dcc_small_service_apply");
    check(yes[0] == yes[1], "the acknowledgement");
    check(changed == (result ? changed_before : value != was), "changed by dcc_small_service_apply");
    check(value == was || (result == 0 && cv), "a value that is not accessed in service");
    if (result == 0 && changed) service_store[cv - 1] = value;
    check(is_same_service(), "dcc_small_service_apply");
    accessed += told == 0 && cv;
    changes += result == 0 && changed;
    answered += result == 0 && yes[0];
    is_refused = result == 13;
    refused += is_refused;
}

int main(int argc, char **argv) {
    unsigned long frames = argc > 1 ? strtoul(argv[1], NULL, 10) : 200000, i;
    power_up_loco();
    power_up_service();
    for (i = 0; i < frames; i++) {
        len = i % 1000 ? len : 0; /* (a frame of the other track is then not taken again) */
        if (i / 1000 % 2) try_service();
        else try_loco();
    }
    printf("%lu frames: a CV accessed %lu times and changed %lu times, CV29 of a locomotive %lu times, "
        "%lu acknowledged, %lu refused, %lu wrong\n",
        frames, accessed, changes, mode_changes, answered, refused, wrong);
    return wrong || accessed < frames / 50 || changes < frames / 200 || answered < frames / 100
        || refused < frames / 1000 || mode_changes < frames / 5000;
}
