/* SPDX-License-Identifier: MIT OR Apache-2.0
 *
 * The three functions of your decoder that harness.c calls. README.md describes the test. */
#ifndef CONFORMANCE_H
#define CONFORMANCE_H

#include <stdbool.h>
#include <stdint.h>

#ifdef __cplusplus
extern "C" {
#endif

/* The state of your decoder. All bytes are 0 before your_get, so write only the fields that your decoder has. */
typedef struct {
    uint8_t speed_mode;        /* 0 for stop, 1 for emergency stop, else the number of speed steps: 14, 28 or 126 */
    uint8_t step;              /* the step of the last speed packet, from 1, or 0 for stop and emergency stop */
    bool forward;
    uint64_t functions[2];     /* function F n is bit n % 64 of functions[n / 64] */
    uint8_t cvs[1024];         /* CV1 is cvs[0] */
    uint64_t states[2];        /* with --states: binary state n, 1 to 127, is bit n % 64 of states[n / 64] */
    uint8_t outputs;           /* with --accessory: output n is bit n */
    uint8_t aspects[4];        /* with --accessory --profile: the aspects of the four signals */
    uint32_t acknowledgements; /* with --service: the number of acknowledgements since your_new */
} your_state;

/* Powers your decoder up with these CVs. A locomotive is stopped and forward, and all its functions and binary states
 * are off. The outputs of an accessory decoder are off, and its aspects are 0. With --accessory, bit 7 of CV29 is 1. */
void your_new(const uint8_t cvs[1024]);

/* Takes one half-bit of the track, in microseconds. */
void your_half(uint16_t us);

/* Writes the state of your decoder. */
void your_get(your_state *state);

#ifdef __cplusplus
}
#endif

#endif
