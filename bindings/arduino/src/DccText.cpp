#include "DccText.h"

char *dccAppend(char *at, const char *text) {
    while (*text != 0) *at++ = *text++;
    *at = 0;
    return at;
}

char *dccAppendNumber(char *at, uint32_t number) {
    if (number >= 10) at = dccAppendNumber(at, number / 10);
    const char digit[2] = {(char)('0' + number % 10), 0};
    return dccAppend(at, digit);
}

static char *appendHex(char *at, uint8_t byte) {
    const char digits[3] = {"0123456789abcdef"[byte / 16], "0123456789abcdef"[byte % 16], 0};
    return dccAppend(at, digits);
}

char *dccAppendHex(char *at, const dcc_frame &frame) {
    for (uint8_t i = 0; i < frame.len; i++) at = appendHex(at, frame.bytes[i]);
    return at;
}

char *dccAppendPacket(char *at, const dcc_frame &frame) {
    if (dcc_line(frame.bytes, frame.len, at) != 0) return dccAppendHex(at, frame);
    while (*at != 0) at++;
    return at;
}

char *dccAppendOutcome(char *at, uint32_t half, const dcc_outcome &seen) {
    at = dccAppend(dccAppendNumber(at, half), " ");
    if (seen.refusal == 0) return dccAppendPacket(at, seen.frame);
    at = dccAppendNumber(dccAppend(at, "refused H"), seen.refusal);
    if (seen.frame.len > 0) at = dccAppend(at, " ");
    return dccAppendHex(at, seen.frame);
}
