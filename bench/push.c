/* Pushes half-bits into `dcc_push`, or with the argument `plain` into a plain state machine in C that does the same
 * and is not proved. bench/push.py counts the instructions of both. Both print a sum over all outcomes, which must
 * be equal. With the argument `read` the program only reads the half-bits. */
#include <dcc.h>
#include <stdint.h>
#include <stdio.h>
#include <string.h>

#define HALVES 446400

static uint16_t halves[HALVES];

/* What an outcome is: a packet or a refusal, by its number, and its bytes. */
struct plain {
    uint8_t in_body, ones, has_first, first, shift, count, length, xor;
    uint8_t bytes[6];
};

enum { NOTHING, PACKET, BAD_HALF, SPLIT_BIT, TOO_SHORT, TOO_LONG, ERROR_BYTE };

static int ended(struct plain *p, int outcome, uint8_t ones) {
    p->in_body = 0;
    p->ones = ones;
    return outcome;
}

static __attribute__((noinline)) int plain_push(struct plain *p, uint16_t us) {
    int one = us >= 52 && us <= 64, zero = us >= 90 && us <= 10000;
    if (!p->in_body) {
        if (one) {
            if (p->ones < 20) p->ones++;
        } else if (zero && p->ones >= 20) {
            p->in_body = p->has_first = 1;
            p->first = p->shift = p->count = p->length = p->xor = 0;
        } else {
            p->ones = 0;
        }
        return NOTHING;
    }
    if (!one && !zero) return ended(p, BAD_HALF, 0);
    if (!p->has_first) {
        p->has_first = 1;
        p->first = (uint8_t)one;
        return NOTHING;
    }
    p->has_first = 0;
    if (p->first != one) return ended(p, SPLIT_BIT, 0);
    if (p->count == 0) {
        if (one) return ended(p, p->length < 3 ? TOO_SHORT : p->xor ? ERROR_BYTE : PACKET, 2);
        if (p->length == 6) return ended(p, TOO_LONG, 0);
        p->count = 1;
        return NOTHING;
    }
    p->shift = (uint8_t)(2 * p->shift + one);
    if (++p->count == 9) {
        p->bytes[p->length++] = p->shift;
        p->xor ^= p->shift;
        p->shift = p->count = 0;
    }
    return NOTHING;
}

static uint64_t summed(uint64_t sum, uint64_t at, int kind, const uint8_t *bytes, uint64_t length) {
    sum = sum * 31 + at * 7 + (uint64_t)kind;
    for (uint64_t i = 0; i < length; i++) sum = sum * 31 + bytes[i];
    return sum;
}

int main(int argc, char **argv) {
    size_t n = 0;
    unsigned us;
    while (n < HALVES && scanf("%u", &us) == 1) halves[n++] = (uint16_t)us;
    uint64_t sum = 0;
    if (argc > 1 && !strcmp(argv[1], "read")) {
        /* (what reading them takes) */
        for (size_t i = 0; i < n; i++) sum += halves[i];
    } else if (argc > 1) {
        struct plain p;
        memset(&p, 0, sizeof p);
        for (size_t i = 0; i < n; i++) {
            int kind = plain_push(&p, halves[i]);
            if (kind) sum = summed(sum, i, kind, p.bytes, kind == PACKET || kind == ERROR_BYTE ? p.length : 0);
        }
    } else {
        dcc_framer f = dcc_framer_new();
        dcc_outcome out;
        for (size_t i = 0; i < n; i++)
            if (dcc_push(&f, halves[i], &out))
                sum = summed(sum, i, PACKET + out.refusal, out.frame.bytes, out.frame.len);
    }
    printf("%zu halves, %llx\n", n, (unsigned long long)sum);
    return 0;
}
