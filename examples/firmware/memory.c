/* The three functions that libdcc_c.a needs. A firmware with a C library uses the functions of that library. The
 * state of a decoder has a kilobyte, so aligned memory is moved by four words at a time. */
#include <stdbool.h>
#include <stddef.h>
#include <stdint.h>

typedef uint32_t __attribute__((may_alias)) word;

static bool is_aligned(const void *at) {
    return (uintptr_t)at % sizeof(word) == 0;
}

/* From the first byte to the last, so the place may overlap what lies above it. */
static void copy_up(uint8_t *to, const uint8_t *from, size_t len) {
    if (is_aligned(to) && is_aligned(from)) {
        word *into = (word *)to;
        const word *out_of = (const word *)from;
        for (; len >= 16; len -= 16, into += 4, out_of += 4) {
            into[0] = out_of[0];
            into[1] = out_of[1];
            into[2] = out_of[2];
            into[3] = out_of[3];
        }
        for (; len >= 4; len -= 4) *into++ = *out_of++;
        to = (uint8_t *)into;
        from = (const uint8_t *)out_of;
    }
    for (size_t i = 0; i < len; i++) to[i] = from[i];
}

void *memcpy(void *restrict to, const void *restrict from, size_t len) {
    copy_up(to, from, len);
    return to;
}

void *memmove(void *to, const void *from, size_t len) {
    if ((uintptr_t)to - (uintptr_t)from >= len) {
        copy_up(to, from, len);
    } else {
        while (len-- > 0) ((uint8_t *)to)[len] = ((const uint8_t *)from)[len];
    }
    return to;
}

void *memset(void *at, int value, size_t len) {
    uint8_t *to = at, byte = (uint8_t)value;
    if (is_aligned(to)) {
        word *into = (word *)to;
        for (; len >= 16; len -= 16, into += 4) into[0] = into[1] = into[2] = into[3] = byte * 0x01010101u;
        for (; len >= 4; len -= 4) *into++ = byte * 0x01010101u;
        to = (uint8_t *)into;
    }
    for (size_t i = 0; i < len; i++) to[i] = byte;
    return at;
}
