#include "DccSniffer.h"

#include "DccText.h"
#ifdef __AVR__
#include <util/atomic.h>
#endif

/* An AVR reads and writes 16 bits in two steps, and an interrupt may come between them. */
static uint16_t load(const volatile uint16_t &from) {
#ifdef __AVR__
    uint16_t value;
    ATOMIC_BLOCK(ATOMIC_RESTORESTATE) { value = from; }
    return value;
#else
    return from;
#endif
}

static void store(volatile uint16_t &to, uint16_t value) {
#ifdef __AVR__
    ATOMIC_BLOCK(ATOMIC_RESTORESTATE) { to = value; }
#else
    to = value;
#endif
}

void DccSniffer::begin(uint32_t now) {
    framer = dcc_framer_new();
#ifndef DCC_NO_LOST
    dcc_lost_new(&finder);
#endif
    last = now;
    halves = missed = until = taken = 0;
    current = length = 0;
    isOpen = isFull = false;
    written = read = 0;
}

void DccSniffer::edge(uint32_t now) {
    uint32_t us = now - last;
    last = now;
    halfBit(us > UINT16_MAX ? UINT16_MAX : (uint16_t)us);
}

void DccSniffer::halfBit(uint16_t us) {
    if (isFull || (uint16_t)(written - read) == PLACES) {
        isFull = true;
        missed = missed + 1;
        return;
    }
    waiting[written % PLACES] = us;
    __atomic_signal_fence(__ATOMIC_SEQ_CST); /* loop() finds it complete */
    written = written + 1;
}

/* Writes the next half-bit. If some did not fit, half-bits of 65535 microseconds come after all that did. */
bool DccSniffer::take(uint16_t *us) {
    if (taken == until && isFull && read == load(written)) {
        isFull = false; /* the interrupt does not change missed from now on */
        __atomic_signal_fence(__ATOMIC_SEQ_CST);
        until = missed;
    }
    if (taken != until) {
        taken++;
        *us = UINT16_MAX;
        return true;
    }
    if (read == load(written)) return false;
    __atomic_signal_fence(__ATOMIC_SEQ_CST);
    *us = waiting[read % PLACES];
    __atomic_signal_fence(__ATOMIC_SEQ_CST); /* the interrupt may write to its place now */
    store(read, read + 1);
    return true;
}

#ifndef DCC_NO_LOST
static char *appendOffLimits(char *at, const char *name, const dcc_off_limits &off) {
    at = dccAppendNumber(dccAppend(at, name), off.count);
    at = dccAppendNumber(dccAppend(at, " from "), off.least);
    return dccAppendNumber(dccAppend(at, " to "), off.most);
}

/* Writes a lost packet whose last half-bit has this number. */
static void writeLost(char *line, uint32_t half, const dcc_lost_packet &lost) {
    const char *comma = "";
    char *at = dccAppend(dccAppendNumber(line, half), " lost ");
    at = dccAppend(dccAppendPacket(at, lost.frame), ": ");
    if (lost.preamble.is_short) {
        at = dccAppendNumber(dccAppend(at, "preamble "), lost.preamble.ones);
        const uint32_t refused = half - lost.preamble.since_refusal;
        if (lost.preamble.after_refusal) at = dccAppendNumber(dccAppend(at, " after "), refused);
        comma = ", ";
    }
    if (lost.ones.count > 0) {
        at = appendOffLimits(dccAppend(at, comma), "ones ", lost.ones);
        comma = ", ";
    }
    if (lost.zeros.count > 0) appendOffLimits(dccAppend(at, comma), "zeros ", lost.zeros);
}

/* Gives the current half-bit to the finder. Returns true if a packet is lost at this half-bit. */
bool DccSniffer::writesLost(char *line) {
    dcc_lost_packet lost;
    isOpen = false;
    if (!dcc_lost_push(&finder, current, &lost)) return false;
    writeLost(line, halves, lost);
    return true;
}
#else
bool DccSniffer::writesLost(char *) { return false; }
#endif

bool DccSniffer::nextLine(char line[LINE]) {
    dcc_outcome seen;
    for (;;) {
        if (isOpen && writesLost(line)) return true;
        if (!take(&current)) return false;
        halves++;
        isOpen = true;
        if (dcc_push(&framer, current, &seen)) {
            dccAppendOutcome(line, halves, seen);
            return true;
        }
    }
}

/* Writes a number without a division: an AVR has 900 cycles for a half-bit of a one. */
static char *appendSmall(char *at, uint16_t number) {
    static const uint16_t powers[] = {10000, 1000, 100, 10};
    bool hasDigit = false;
    for (uint16_t power : powers) {
        char digit = '0';
        for (; number >= power; number -= power) digit++;
        hasDigit |= digit != '0';
        if (hasDigit) *at++ = digit;
    }
    *at++ = '0' + number;
    *at = 0;
    return at;
}

bool DccSniffer::nextRun(char word[RUN]) {
    uint16_t us;
    while (take(&us)) {
        const bool isEnd = length > 0 && (us != current || length == LONGEST);
        if (isEnd) {
            char *at = appendSmall(word, current);
            if (length > 1) appendSmall(dccAppend(at, "*"), length);
            length = 0;
        }
        current = us;
        length++;
        if (isEnd) return true;
    }
    return false;
}
