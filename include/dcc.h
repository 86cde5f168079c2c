/* SPDX-License-Identifier: MIT OR Apache-2.0
 *
 * Digital Command Control (DCC) for C and C++. The library finds packets and lost packets in half-bits, computes the
 * statistics of a track, reads and sends packets, simulates decoders, reads and writes CVs, and runs a command station.
 *
 * Each function reads and writes only its arguments, allocates nothing, has no state of its own, and returns. The
 * library is proved (docs/C.md). The code that calls the library is not proved. The caller must obey these rules,
 * which nothing checks:
 *
 * - An object comes from a function whose name ends in _new, _power_up or _start, or is a complete copy of an object
 *   from one of these functions.
 * - A dcc_framer, a dcc_lost, a dcc_meter, a dcc_sender and a dcc_station are opaque: do not write to their fields. If
 *   all bytes are zero, a dcc_framer, a dcc_lost and a dcc_meter are new, a dcc_sender has no half-bit left, and a
 *   dcc_station accepts no command.
 * - A dcc_lost is all zeros before its first dcc_lost_new, a dcc_meter before its first dcc_meter_new, a dcc_sender
 *   before its first dcc_sender_start, and a dcc_station before its first dcc_station_new. A dcc_decoder and a
 *   dcc_board_decoder are all zeros before their first call.
 * - The fields of a dcc_decoder and a dcc_board_decoder may be read. Of these fields, only the bytes of cvs may be
 *   written. A program may pass the dcc_loco or the dcc_board in them to the functions that change nothing.
 * - The fields of all other objects may be read and changed. A function returns 13 if the fields that it reads are
 *   impossible for a decoder, a reading or a writing. The fields of a dcc_timing, a dcc_packet, a
 *   dcc_service_packet and a dcc_functions may have any values. A bool is 0 or 1.
 * - Pointers are not null, are aligned, and point to as many items as the function says. A pointer is not null even
 *   if a length is 0.
 * - The objects and arrays of one call do not overlap.
 * - Only one thread uses an object at a time. An interrupt counts as a thread. Give an interrupt objects of its own,
 *   or disable the interrupt around the calls of the main program.
 *
 * If the caller breaks one of these rules, the behaviour is undefined, as with memcpy.
 *
 * Two programs can keep more rules (docs/C.md, "What is proved"). If nothing waits, the registers of the decoder of one
 * program, except the pending write, then have the values that the commands to the station of the other program give.
 *
 * There are archives for 64-bit Linux on x86-64 and aarch64. tools/c-for-mcu makes archives for Cortex-M0+, M3, M4 and
 * RISC-V rv32imac. For every other little-endian target, for example AVR, compile dcc.c, which tools/c-source writes.
 * The proofs use 64-bit lengths, so lengths are uint64_t on each target. docs/C.md lists what you trust.
 */
#ifndef DCC_H
#define DCC_H

#include <stdbool.h>
#include <stdint.h>

#ifdef __cplusplus
extern "C" {
#endif

/* A byte of padding. Compilers for AVR, for MSP430, and for 32-bit x86 without Windows align numbers of 64 bits to
 * fewer bytes than other compilers. On these targets this macro inserts the padding that the others insert, so each
 * field of an object has the same place on each target. */
#if defined __AVR__ || defined __MSP430__ || (defined __i386__ && !defined _WIN32)
#define DCC_FREE_BYTE unsigned : 8;
#else
#define DCC_FREE_BYTE
#endif

/* The version of this header and of the library, as `dcc --version` prints it. If the first or the second number of two
 * versions differs, the sizes and the fields of structs can differ, and functions can be missing. So compile a program
 * anew with the header of its library, and store no struct for another version. */
#define DCC_VERSION "0.2.0"

/* Error codes. A function returns the number of an error code, or stores this number in the field refusal of an
 * outcome. The letter of an error code says which kind of value is refused. */
enum { /* H1 to H5: half-bits, as refusals in outcomes; H6 to H8: timings */
    DCC_H1_BAD_HALF = 1, DCC_H2_SPLIT_BIT, DCC_H3_TOO_SHORT, DCC_H4_TOO_LONG, DCC_H5_ERROR_BYTE, DCC_H6_ONE,
    DCC_H7_ZERO, DCC_H8_PREAMBLE
};
enum { DCC_L1_LENGTH = 1, DCC_L2_ERROR_BYTE }; /* bytes that are not a frame */
enum { /* packet lines, values, and fields that no decoder can have */
    DCC_P1_SHORT_ADDRESS = 1, DCC_P2_LONG_ADDRESS, DCC_P3_BOARD, DCC_P4_OUTPUT, DCC_P5_SIGNAL, DCC_P6_CV,
    DCC_P7_BIT_PLACE, DCC_P8_SPEED_BITS, DCC_P9_FUNCTION_BITS, DCC_P10_WORD, DCC_P11_NUMBER, DCC_P12_FRAME,
    DCC_P13_STATE, DCC_P14_BINARY_STATE
};
enum { DCC_C1_SIZES = 1, DCC_C2_MEMORY, DCC_C3_NO_COMMAND, DCC_C4_QUEUE_FULL }; /* a station and commands to it */

/* The number of ones before a packet, on the main track (NMRA S-9.2) and on the programming track (S-9.2.3). */
enum { DCC_MAIN_TRACK = 14, DCC_PROGRAMMING_TRACK = 20 };

/* The bytes of a frame with the error byte last, and then zeros. The field len is 0 if there is no frame, else 3 to 6.
 * The functions write no other len. If the pending frame of a decoder has another len, the _apply and _cv functions of
 * the decoder return 13. */
typedef struct {
    uint8_t len;
    uint8_t bytes[6];
} dcc_frame;

/* ---- packets in half-bits (NMRA S-9.1, S-9.2) ---- */

/* A framer, which finds packets in half-bits. The struct is opaque: do not read or write its fields. If all bytes are
 * zero, the framer is new, as after dcc_framer_new. So `static dcc_framer framer;` needs no call. */
typedef struct {
    uint64_t kept[3];
} dcc_framer;

/* A packet, or a refusal. */
typedef struct {
    uint32_t at;     /* from dcc_push_run: the number of the last half-bit of the outcome in the run, counted from 1.
                        From all other functions: 1 */
    uint8_t refusal; /* 0 for a packet, else 1 to 5: H1 a half-bit of a wrong length, H2 a bit of two different
                        half-bits, H3 fewer than 3 bytes, H4 more than 6 bytes, H5 a wrong error byte */
    dcc_frame frame; /* the frame of a packet, or the refused bytes of H5; len is 0 for H1 to H4 */
} dcc_outcome;

/* Returns a new framer, which has seen no half-bits. */
dcc_framer dcc_framer_new(void);

/* Takes a half-bit of us microseconds. Returns 1 if the half-bit completes a packet or a refusal, and stores the
 * outcome in *outcome. Otherwise returns 0 and leaves *outcome unchanged. */
uint8_t dcc_push(dcc_framer *framer, uint16_t us, dcc_outcome *outcome);

/* Takes n half-bits of us microseconds, as n calls of dcc_push would. At most one of these half-bits completes a
 * packet or a refusal. If one of them does, returns 1 and stores the outcome in *outcome. Otherwise returns 0 and
 * leaves *outcome unchanged. The function takes at most 110 half-bits one by one, whatever n is. */
uint8_t dcc_push_run(dcc_framer *framer, uint16_t us, uint32_t n, dcc_outcome *outcome);

/* Takes the half-bits of an array in order, as calls of dcc_push would, up to the first half-bit that completes a
 * packet or a refusal. Writes to *taken how many half-bits the function took. If a half-bit completes a
 * packet or a refusal, returns 1 and stores the outcome in *outcome. Otherwise returns 0, leaves *outcome unchanged,
 * and writes len to *taken. */
uint8_t dcc_push_many(dcc_framer *framer, const uint16_t *halves, uint64_t len, dcc_outcome *outcome,
                      uint64_t *taken);

/* ---- lost packets (NMRA S-9.1, S-9.2) ---- */

/* A packet is lost at a half-bit if these conditions hold (docs/FORMATS.md):
 *
 * - A framer has no outcome at this half-bit, and is between bodies after it.
 * - The half-bits end with at least 8 half-bits of ones and the body of the packet, with wider limits than the limits
 *   of a decoder: 26 to 76 microseconds for half of a one, and 77 to 20000 microseconds for half of a zero.
 * - The error byte of the packet is right.
 * - No longer packet ends at this half-bit in this way.
 *
 * Each lost packet has at least one cause: a preamble that is too short, or half-bits outside the limits of a decoder.
 */

/* A finder of lost packets. The struct is opaque: do not read or write its fields. If all bytes are zero, the finder is
 * new, as after dcc_lost_new. So `static dcc_lost finder;` needs no call. */
typedef struct {
    uint64_t kept[101];
} dcc_lost;

/* The preamble of a lost packet. If is_short is false, the preamble is long enough, and the other fields are 0. */
typedef struct {
    bool is_short;
    uint8_t ones;          /* the half-bits of ones directly before the body that no outcome uses, fewer than 20 */
    bool after_refusal;    /* true if the last refusal uses the half-bit directly before these half-bits, and this
                              half-bit is half of a one in the wider limits */
    uint8_t since_refusal; /* if after_refusal is true: the half-bits from the end of this refusal to the end of the
                              packet, at most 255 */
} dcc_short_preamble;

/* The half-bits of the packet and of the ones before it that are outside the limits of a decoder. If count is 0, there
 * are no such half-bits, and the other fields are 0. */
typedef struct {
    uint32_t count;
    uint16_t least; /* the shortest of these half-bits, in microseconds */
    uint16_t most;  /* the longest of these half-bits, in microseconds */
} dcc_off_limits;

/* A packet that a decoder does not hear, and its causes. */
typedef struct {
    dcc_frame frame;
    dcc_short_preamble preamble;
    DCC_FREE_BYTE
    dcc_off_limits ones;  /* the half-bits of ones outside 52 to 64 microseconds */
    dcc_off_limits zeros; /* the half-bits of zeros outside 90 to 10000 microseconds */
} dcc_lost_packet;

/* Makes a finder new: the finder has then seen no half-bits. */
void dcc_lost_new(dcc_lost *finder);

/* Takes a half-bit of us microseconds. Returns 1 if a packet is lost at this half-bit, and stores the packet with its
 * causes in *packet. Otherwise returns 0 and leaves *packet unchanged. */
uint8_t dcc_lost_push(dcc_lost *finder, uint16_t us, dcc_lost_packet *packet);

/* Takes half-bits of us microseconds, as calls of dcc_lost_push would, up to the first half-bit at which a packet is
 * lost, and at most n. If a packet is lost, stores the packet with its causes in *packet, and returns the number of
 * this half-bit, counted from 1: the function then took this number of half-bits. Otherwise takes all n half-bits,
 * returns 0 and leaves *packet unchanged. The time of a call grows with n. */
uint32_t dcc_lost_push_run(dcc_lost *finder, uint16_t us, uint32_t n, dcc_lost_packet *packet);

/* Takes the half-bits of an array in order, as calls of dcc_lost_push would, up to the first half-bit at which a packet
 * is lost. Writes to *taken how many half-bits the function took. If a packet is lost, returns 1 and stores the packet
 * with its causes in *packet. Otherwise returns 0, leaves *packet unchanged, and writes len to *taken. */
uint8_t dcc_lost_push_many(dcc_lost *finder, const uint16_t *halves, uint64_t len, dcc_lost_packet *packet,
                           uint64_t *taken);

/* ---- statistics of a track (NMRA S-9.1, S-9.2) ---- */

/* A meter, which computes the statistics that `dcc timing` writes (docs/FORMATS.md). The struct is opaque: do not read
 * or write its fields. Before its first dcc_meter_new, a meter must be all zeros, as in `static dcc_meter meter;`. If
 * all bytes are zero, the meter is new. */
typedef struct {
    uint64_t kept[138];
} dcc_meter;

/* The count, the sum, the least and the greatest of some durations. If there are none, all fields are 0. The mean of
 * the durations is sum / count. */
typedef struct {
    uint64_t count, sum, least, most;
} dcc_tally;

/* The statistics of half-bits. All durations are in microseconds. */
typedef struct {
    uint64_t time; /* the duration of all half-bits together */
    uint64_t gap;  /* the longest time from the end of a packet to the end of the next, or 0 without has_gap */
    dcc_tally below, ones, between, zeros, above; /* half-bits of at most 51, of 52 to 64, of 65 to 89, of 90 to 10000,
                                                     and of at least 10001 */
    dcc_tally differences; /* of each bit 1 of a packet, the difference between its two half-bits */
    dcc_tally sums;        /* of each bit 0 of a packet, its duration */
    uint32_t packets;      /* the number of packets */
    uint32_t refused[5];   /* the number of refusals, H1 to H5 */
    uint32_t halves;       /* the number of half-bits */
    uint32_t lost;         /* the number of lost packets, at most 4294967295 */
    uint16_t preamble;     /* the shortest preamble of a packet that is seen or lost, in half-bits and at most 65535,
                              or 0 without has_preamble */
    bool has_preamble;     /* true if a packet was seen or lost */
    bool has_gap;          /* true if at least two packets were seen */
    DCC_FREE_BYTE DCC_FREE_BYTE DCC_FREE_BYTE DCC_FREE_BYTE
} dcc_statistics;

/* Makes a meter new: the meter has then taken no half-bits. */
void dcc_meter_new(dcc_meter *meter);

/* Takes n half-bits of us microseconds and returns 1. If the meter would then have taken 2^32 or more half-bits,
 * returns 0 and takes none. The time of a call grows with n. */
uint8_t dcc_meter_push_run(dcc_meter *meter, uint16_t us, uint32_t n);

/* Takes the len half-bits of an array in order and returns 1. If the meter would then have taken 2^32 or more
 * half-bits, returns 0 and takes none. */
uint8_t dcc_meter_push_many(dcc_meter *meter, const uint16_t *halves, uint64_t len);

/* Writes the statistics of all half-bits that the meter has taken. */
void dcc_meter_read(const dcc_meter *meter, dcc_statistics *statistics);

/* ---- packets (NMRA S-9.2.1) ---- */

enum { /* kinds of packets */
    DCC_IDLE, DCC_RESET, DCC_SPEED28, DCC_SPEED128, DCC_FUNCTIONS, DCC_STATE, DCC_CV_WRITE, DCC_CV_VERIFY,
    DCC_CV_BIT_WRITE, DCC_CV_BIT_VERIFY, DCC_ACCESSORY, DCC_SIGNAL, DCC_OTHER
};

enum { DCC_ALL, DCC_SHORT, DCC_LONG }; /* kinds of addresses; in the state of a decoder, 0 means no address */

/* The content of a packet. Fields that the kind of the packet does not use are 0. A comment names the kinds that use
 * the field, without DCC_. */
typedef struct {
    uint8_t kind;
    uint8_t to;       /* RESET to CV_BIT_VERIFY: the kind of the address, DCC_ALL, DCC_SHORT or DCC_LONG */
    uint16_t address; /* RESET to CV_BIT_VERIFY: the address, or 0. ACCESSORY: the board. SIGNAL: the signal */
    bool forward;     /* SPEED28, SPEED128: the direction */
    uint8_t bits;     /* SPEED28: the speed bits, 0 to 31, which are 2 * SSSS + C of 01DCSSSS. SPEED128: the speed bits,
                         0 to 127. The comment on dcc_loco.step has the speed step of speed bits. FUNCTIONS: the
                         function bits, with the lowest function in the lowest bit (group 0: F1 to F4, then F0) */
    uint8_t group;    /* FUNCTIONS: the first function of the group, 5, 9, 13, 21, 29, 37, 45, 53 or 61; or 0 for F1 to
                         F4 and F0 */
    uint8_t state;    /* STATE: the number of the binary state, 0 for all binary states */
    bool on;          /* STATE, ACCESSORY: true for on */
    DCC_FREE_BYTE
    uint16_t cv;      /* CV_..: the number of the CV, 1 to 1024 */
    uint8_t value;    /* CV_WRITE, CV_VERIFY: the byte */
    uint8_t place;    /* CV_BIT_..: the place of the bit, 0 for the lowest bit */
    bool one;         /* CV_BIT_..: the value of the bit */
    uint8_t output;   /* ACCESSORY: the output, 0 to 7 */
    uint8_t aspect;   /* SIGNAL: the aspect */
    DCC_FREE_BYTE
} dcc_packet;

/* A function that takes a frame returns 1 (L1) if there are not 3 to 6 bytes, and 2 (L2) if the error byte is wrong.
 * In these two cases the function writes nothing. Otherwise the function returns 0. If a function returns other
 * values, its comment says so. */

/* Writes the fields of the packet of a frame. */
uint8_t dcc_read(const uint8_t *frame, uint64_t len, dcc_packet *packet);

enum { DCC_LINE = 41, DCC_PLAIN = 256, DCC_HALVES = 190, DCC_CVS = 1024 };

/* Writes the packet line of a frame (docs/FORMATS.md), for example "loco s3 speed28 f 4", and then zeros. */
uint8_t dcc_line(const uint8_t *frame, uint64_t len, char line[DCC_LINE]);

/* Writes the plain words of a packet (docs/FORMATS.md), for example "locomotive 3: step 1 of 28, forward", and then
 * zeros. The packet may have up to 15 bytes: returns 1 (L1) if there are not 3 to 15 bytes. */
uint8_t dcc_plain(const uint8_t *frame, uint64_t len, char text[DCC_PLAIN]);

/* Writes the frame of a packet line. If the line has an error, returns the number of its first error, 1 to 14 for
 * P1 to P14 (docs/FORMATS.md), and writes nothing. The parameter len counts only the bytes of the line, as strlen does.
 * The line need not end with a zero. If len also counts a zero or a line feed, this byte belongs to the last word. The
 * line is then refused with P10, or with P11 if the last word is a number. */
uint8_t dcc_frame_of_line(const char *line, uint64_t len, dcc_frame *frame);

/* Writes the frame of a packet, as dcc_read reads it. If the fields have an error, returns the number of the first
 * error and writes nothing. The function ignores the fields that the kind of the packet does not use. The order of the
 * errors is the order of a packet line:
 *
 * - 10 (P10) if there is no such kind.
 * - RESET to CV_BIT_VERIFY: 10 if to is no kind of an address, 1 or 2 (P1, P2) if there is no such address. Then the
 *   errors of the other fields: SPEED28, SPEED128: 8 (P8). FUNCTIONS: 10 if there is no such group, then 9 (P9) for
 *   the bits. STATE: 14 (P14). CV_..: 6 (P6) for the CV, then 7 (P7) for the place.
 * - ACCESSORY: 3 (P3) for the board, then 4 (P4) for the output. SIGNAL: 5 (P5).
 *
 * If the kind is DCC_OTHER, the bytes come from *frame, since a dcc_packet has no field for them. The function then
 * returns 12 (P12) if *frame has no frame, or has the frame of a packet of another kind. Otherwise the function keeps
 * the bytes and writes zeros after them. */
uint8_t dcc_frame_of_packet(const dcc_packet *packet, dcc_frame *frame);

/* Writes the half-bits of a preamble and of a frame in microseconds. The parameter preamble is the number of ones
 * before the frame, 14 to 40 (DCC_MAIN_TRACK, DCC_PROGRAMMING_TRACK). The half-bits of a one are 58 and 58, and the
 * half-bits of a zero are 100 and 100. Returns the number of half-bits, at most 190, and writes only this number of
 * elements. Returns 0 and writes nothing if the bytes are not a frame or the preamble is not 14 to 40. */
uint8_t dcc_halves(const uint8_t *frame, uint64_t len, uint8_t preamble, uint16_t halves[DCC_HALVES]);

/* The timing of a station: the lengths of half-bits in microseconds, and the number of ones before a packet (NMRA
 * S-9.1, S-9.2). */
typedef struct {
    uint16_t one;         /* each half of a one, 55 to 61, else H6 */
    uint16_t zero_first;  /* the first half of a zero, 95 to 9900, else H7 */
    uint16_t zero_second; /* the second half of a zero, 95 to 9900, and at most 12000 with the first, else H7 */
    uint8_t preamble;     /* 14 to 40, else H8 */
    DCC_FREE_BYTE
} dcc_timing;

/* The nominal timings, as initialisers: static const dcc_timing main_track = DCC_MAIN_TIMING; */
#define DCC_MAIN_TIMING {58, 100, 100, DCC_MAIN_TRACK}
#define DCC_PROGRAMMING_TIMING {58, 100, 100, DCC_PROGRAMMING_TRACK}

/* A sender, which has the half-bits of a packet that are left to send. A sender has 16 bytes, and the array of
 * dcc_halves has 380 bytes. The struct is opaque: do not read or write its fields. If all bytes are zero, as in `static
 * dcc_sender sender;`, no half-bit is left. */
typedef struct {
    uint64_t kept[2];
} dcc_sender;

/* Begins to send a frame in a timing, and returns 0. If the timing or the frame has an error, returns the number of the
 * first error and writes nothing. The errors of the timing come first: 6, 7 or 8 (H6, H7, H8). The errors of the frame
 * are 1 and 2 (L1, L2). */
uint8_t dcc_sender_start(dcc_sender *sender, const uint8_t *frame, uint64_t len, const dcc_timing *timing);

/* Returns the next half-bit of the packet in microseconds, and counts this half-bit as sent. Returns 0 and writes
 * nothing if no half-bit is left. The function uses no division and does not copy the frame, so a timer interrupt may
 * call it. */
uint16_t dcc_sender_half(dcc_sender *sender);

/* ---- decoders ---- */

/* The _apply and _cv functions return 13 (P13) and write nothing if the fields of the struct are not a possible state
 * of a decoder. The _hears functions read only the address or the number of the decoder. They return 13 and write
 * nothing if no decoder can have this address or number. */

/* A locomotive decoder. */
typedef struct {
    uint8_t address_kind;  /* the kind of the active address; 0 if the decoder has no address */
    uint8_t speed_mode;    /* 0 for stop, 1 for emergency stop, else the number of steps: 14, 28 or 126 */
    uint8_t step;          /* the speed step, from 1; 0 if the decoder is stopped. SPEED128 sets the step to bits - 1.
                              SPEED28 sets the step to bits - 3 with 28 steps, and to bits / 2 - 1 with 14 steps (bit 1
                              of CV29 is 0). If this number is below 1, the packet stops the decoder. A SPEED28 to all
                              locomotives with bits above 3 changes nothing */
    bool forward;
    uint16_t address;
    dcc_frame pending;     /* the CV write that takes effect if the decoder hears the same packet again */
    DCC_FREE_BYTE DCC_FREE_BYTE DCC_FREE_BYTE
    uint64_t functions[2]; /* function F n, n from 0 to 68, is bit n % 64 of functions[n / 64] */
    uint64_t states[2];    /* binary state n, n from 1 to 127, is bit n % 64 of states[n / 64] */
    uint8_t cvs[DCC_CVS];  /* CV1 is cvs[0] */
} dcc_loco;

/* Creates a locomotive decoder that is powered up with the given CVs. The function copies the CVs. */
void dcc_loco_new(dcc_loco *loco, const uint8_t cvs[DCC_CVS]);

/* Powers a locomotive decoder up with the CVs in loco->cvs, as dcc_loco_new does, and leaves these CVs unchanged. All
 * other fields may have any values before the call. So a program can write the CVs to loco->cvs and needs no second
 * array. */
void dcc_loco_power_up(dcc_loco *loco);

/* Applies the packet of a frame to the decoder. A packet for other decoders changes nothing. */
uint8_t dcc_loco_apply(dcc_loco *loco, const uint8_t *frame, uint64_t len);

/* Writes true if the packet of a frame is for this decoder, that is, for its address or for all locomotive decoders.
 * Otherwise writes false. So a program can call its own functions only for packets of its decoder. Returns 13 if no
 * decoder can have the address in *loco. The function ignores all other fields. */
uint8_t dcc_loco_hears(const dcc_loco *loco, const uint8_t *frame, uint64_t len, bool *heard);

/* An accessory decoder. */
typedef struct {
    uint16_t number;    /* the number of the board, 0 to 510 */
    uint8_t outs;       /* bit n is output n */
    bool positions[4];  /* true if output 2n + 1 is the output of pair n that was turned on last */
    uint8_t aspects[4]; /* the aspects of its signals */
    DCC_FREE_BYTE
} dcc_board;

/* Creates an accessory decoder with all outputs off, all positions false and all aspects 0. Returns 3 (P3) and writes
 * nothing if the number is above 510. */
uint8_t dcc_board_new(dcc_board *board, uint16_t number);

/* Applies the packet of a frame to the decoder. A packet for other decoders changes nothing. */
uint8_t dcc_board_apply(dcc_board *board, const uint8_t *frame, uint64_t len);

/* Writes true if the packet of a frame is for this decoder, and false otherwise. Packets for an accessory decoder name
 * an output of its board or of board 511, one of its four signals, or signal 2047. A reset of all decoders is for every
 * accessory decoder. Returns 13 if the number in *board is above 511. The function ignores all other fields. */
uint8_t dcc_board_hears(const dcc_board *board, const uint8_t *frame, uint64_t len, bool *heard);

/* A decoder on the programming track, in direct mode (NMRA S-9.2.3). */
typedef struct {
    bool in_service;
    dcc_frame pending; /* the service packet that takes effect if the same packet comes again */
    uint8_t cvs[DCC_CVS];
} dcc_service;

/* Creates a decoder with the given CVs that is not in service mode. The function copies the CVs. */
void dcc_service_new(dcc_service *service, const uint8_t cvs[DCC_CVS]);

/* Powers a decoder up with the CVs in service->cvs, as dcc_service_new does, and leaves these CVs unchanged. All other
 * fields may have any values before the call. */
void dcc_service_power_up(dcc_service *service);

/* Applies a frame to the decoder. Writes true if the decoder acknowledges the frame, and false otherwise. */
uint8_t dcc_service_apply(dcc_service *service, const uint8_t *frame, uint64_t len, bool *acknowledged);

/* ---- decoders whose CVs the program stores, for example in EEPROM ---- */

/* A dcc_small_loco and a dcc_small_service have no CVs of their own, so they fit an ATmega328P. A dcc_small_loco
 * behaves as a dcc_loco with the stored CVs, and a dcc_small_service behaves as a dcc_service with the stored CVs. A
 * program takes four steps for each frame:
 *
 * - The _cv function writes the number of the CV that the frame accesses, or 0.
 * - If the number is not 0, the program reads the value of this CV from its store.
 * - The _apply function takes the value of this CV, and writes the new value of this CV.
 * - If the value changed, the program writes the new value to its store.
 *
 * Between the calls of the _cv and the _apply function, the program does not change the decoder. */

/* A locomotive decoder whose CVs the program stores. */
typedef struct {
    uint8_t address_kind;  /* the fields from address_kind to states are those of a dcc_loco */
    uint8_t speed_mode;
    uint8_t step;
    bool forward;
    uint16_t address;
    dcc_frame pending;
    DCC_FREE_BYTE DCC_FREE_BYTE DCC_FREE_BYTE
    uint64_t functions[2];
    uint64_t states[2];
    uint8_t cv29;          /* the value of CV29: bit 1 is the mode of speed steps */
    uint8_t unused[7];     /* no function reads or writes these bytes */
} dcc_small_loco;

/* Creates a locomotive decoder that is powered up with the given values of CV1, CV17, CV18 and CV29. The values of all
 * other CVs do not matter. */
void dcc_small_loco_new(dcc_small_loco *loco, uint8_t cv1, uint8_t cv17, uint8_t cv18, uint8_t cv29);

/* If dcc_small_loco_apply would execute a CV write for this frame, writes the number of the CV, 1 to 1024. Writes 0 for
 * all other frames. */
uint8_t dcc_small_loco_cv(const dcc_small_loco *loco, const uint8_t *frame, uint64_t len, uint16_t *cv);

/* Applies the packet of a frame, as dcc_loco_apply does. If dcc_small_loco_cv writes the number of a CV for this
 * frame, *value must be the value of this CV. The function then writes the new value of this CV to *value. For all
 * other frames *value does not matter and does not change. The function writes true to *changed if the value changed,
 * and false otherwise. CV7 and CV8 never change. */
uint8_t dcc_small_loco_apply(dcc_small_loco *loco, const uint8_t *frame, uint64_t len, uint8_t *value, bool *changed);

/* Writes true if the packet of a frame is for this decoder, and false otherwise, as dcc_loco_hears does. */
uint8_t dcc_small_loco_hears(const dcc_small_loco *loco, const uint8_t *frame, uint64_t len, bool *heard);

/* A decoder on the programming track whose CVs the program stores. */
typedef struct {
    bool in_service;
    dcc_frame pending; /* the service packet that takes effect if the same packet comes again */
} dcc_small_service;

/* Creates a decoder that is not in service mode. */
void dcc_small_service_new(dcc_small_service *service);

/* If dcc_small_service_apply would execute a service packet for this frame, writes the number of the CV of this packet,
 * 1 to 1024. Writes 0 for all other frames. */
uint8_t dcc_small_service_cv(const dcc_small_service *service, const uint8_t *frame, uint64_t len, uint16_t *cv);

/* Applies a frame to the decoder, as dcc_service_apply does. Writes true to *acknowledged if the decoder acknowledges
 * the frame, and false otherwise. If dcc_small_service_cv writes the number of a CV for this frame, *value must be the
 * value of this CV. The function then writes the new value of this CV to *value. For all other frames *value does not
 * matter and does not change. The function writes true to *changed if the value changed, and false otherwise. CV7 and
 * CV8 never change. */
uint8_t dcc_small_service_apply(dcc_small_service *service, const uint8_t *frame, uint64_t len, uint8_t *value,
    bool *changed, bool *acknowledged);

/* ---- decoders on the main track and on the programming track (NMRA S-9.2.3) ---- */

/* A decoder hears the frames of both tracks, and changes between the tracks as the frames say (docs/FORMATS.md has the
 * packets):
 *
 * - The decoder hears the reset 00 00 00, so a running locomotive stops. The reset also enters service mode.
 * - In service mode, service packets reach only the CVs of the decoder.
 * - Each other frame ends service mode. If a service packet changed a CV since service mode began, the decoder first
 *   powers up with its CVs, and so has its new address. The decoder then hears the frame as on the main track.
 *
 * On the main track, frames for the short addresses 116 to 127 look like service packets. After a reset, two copies of
 * 7c 3f 85 c6, a speed packet for address 124, would write CV64 of each decoder that can enter service mode. So a
 * program that knows that its decoder is on the main track calls the _set_main_only function.
 *
 * A program ends service mode with the _end_service function if no packet of service mode comes for 20 milliseconds.
 *
 * Before its first call, a decoder must be all zeros, as in `static dcc_decoder decoder;`. The fields of a decoder may
 * be read. Of these fields, only the bytes of cvs may be written. */

/* The answer of a decoder to a frame. */
typedef struct {
    uint16_t changed;  /* the number of the CV whose value changed, on either track, or 0 if no CV changed. A program
                          can store the new value, for example in EEPROM */
    bool acknowledged; /* true if the decoder acknowledges the frame: the program then draws the current of the
                          acknowledgement for 6 milliseconds */
    DCC_FREE_BYTE
} dcc_answer;

/* A locomotive decoder on both tracks. If all bytes are zero, the decoder has no address, and its CVs are 0. */
typedef struct {
    dcc_loco loco;             /* the decoder with its registers and CVs */
    dcc_small_service service; /* service.in_service is true if the decoder is in service mode */
    bool changed;              /* true if a service packet changed a CV since service mode began */
    bool main_only;            /* true if the decoder stays on the main track */
    DCC_FREE_BYTE DCC_FREE_BYTE DCC_FREE_BYTE DCC_FREE_BYTE DCC_FREE_BYTE DCC_FREE_BYTE
} dcc_decoder;

/* Creates a locomotive decoder that is powered up with the given CVs, is not in service mode and can hear both tracks.
 * The function copies the CVs. */
void dcc_decoder_new(dcc_decoder *decoder, const uint8_t cvs[DCC_CVS]);

/* Powers a locomotive decoder up with the CVs in decoder->loco.cvs, as dcc_decoder_new does, and leaves these CVs
 * unchanged. So a program can write stored CVs to decoder->loco.cvs and needs no second array. */
void dcc_decoder_power_up(dcc_decoder *decoder);

/* Hears a frame of either track, and writes the answer of the decoder. */
uint8_t dcc_decoder_hear(dcc_decoder *decoder, const uint8_t *frame, uint64_t len, dcc_answer *answer);

/* Ends service mode. If a service packet changed a CV since service mode began, the decoder powers up with its CVs. */
void dcc_decoder_end_service(dcc_decoder *decoder);

/* Keeps the decoder on the main track if main_only is true: then no frame enters service mode, and the decoder
 * acknowledges no frame. If the decoder is in service mode, service mode ends first, as dcc_decoder_end_service ends
 * it. If main_only is false, the decoder can hear both tracks. */
void dcc_decoder_set_main_only(dcc_decoder *decoder, bool main_only);

/* An accessory decoder on both tracks. The lower six bits of its address are in CV1, and the upper three bits in CV9. A
 * decoder with the address 511 hears only the packets for all accessory decoders. No packet of the main track changes a
 * CV. If all bytes are zero, the decoder has the address 0, its outputs are off, and its CVs are 0. */
typedef struct {
    dcc_board board;           /* the decoder with its address, 0 to 511, outputs, positions and aspects. A decoder
                                * with the address 511 hears only the packets for all boards */
    uint8_t cvs[DCC_CVS];      /* CV1 is cvs[0] */
    dcc_small_service service; /* service.in_service is true if the decoder is in service mode */
    bool changed;              /* true if a service packet changed a CV since service mode began */
    bool main_only;            /* true if the decoder stays on the main track */
} dcc_board_decoder;

/* Creates an accessory decoder that is powered up with the given CVs, with all outputs off, all positions false and all
 * aspects 0. The decoder is not in service mode and can hear both tracks. The function copies the CVs. */
void dcc_board_decoder_new(dcc_board_decoder *decoder, const uint8_t cvs[DCC_CVS]);

/* Powers an accessory decoder up with the CVs in decoder->cvs, and leaves the CVs, the positions and the aspects
 * unchanged: the outputs are off. The decoder is not in service mode and can hear both tracks. So a program can write
 * stored CVs to decoder->cvs and needs no second array. */
void dcc_board_decoder_power_up(dcc_board_decoder *decoder);

/* Hears a frame of either track, and writes the answer of the decoder. */
uint8_t dcc_board_decoder_hear(dcc_board_decoder *decoder, const uint8_t *frame, uint64_t len, dcc_answer *answer);

/* Ends service mode, as dcc_decoder_end_service does. */
void dcc_board_decoder_end_service(dcc_board_decoder *decoder);

/* Keeps the decoder on the main track if main_only is true, as dcc_decoder_set_main_only does. */
void dcc_board_decoder_set_main_only(dcc_board_decoder *decoder, bool main_only);

/* ---- service packets (NMRA S-9.2.3, direct mode) ---- */

/* The content of a service packet, which writes or verifies a CV or a bit of a CV on the programming track. */
typedef struct {
    uint16_t cv;   /* the number of the CV, 1 to 1024, else P6 */
    uint8_t kind;  /* DCC_CV_WRITE, DCC_CV_VERIFY, DCC_CV_BIT_WRITE or DCC_CV_BIT_VERIFY, else P10 */
    uint8_t value; /* CV_WRITE, CV_VERIFY: the byte, otherwise 0 */
    uint8_t place; /* CV_BIT_..: the place of the bit, 0 for the lowest bit, at most 7, else P7 */
    bool one;      /* CV_BIT_..: the value of the bit, otherwise false */
} dcc_service_packet;

/* Writes the frame of a service packet. If the fields have an error, returns the number of the first error and writes
 * nothing. The order of the errors is 10 (P10), 6 (P6) and 7 (P7). The function ignores the fields that the kind does
 * not use. */
uint8_t dcc_service_frame(const dcc_service_packet *packet, dcc_frame *frame);

/* Writes the fields of the service packet of a frame. Fields that the kind of the packet does not use are 0. Returns 10
 * (P10) and writes nothing if no service packet has this frame. */
uint8_t dcc_service_read(const uint8_t *frame, uint64_t len, dcc_service_packet *packet);

/* ---- reading a CV ---- */

/* The reading of a CV by nine questions. The first eight questions ask if bit 0, 1, .. 7 of the CV is one. The ninth
 * question asks if the CV has the value that these bits form. */
typedef struct {
    uint16_t cv;   /* the number of the CV, 1 to 1024 */
    uint8_t known; /* the number of answers so far, 0 to 8. Bits 0 to known - 1 of the CV are known */
    uint8_t value; /* the known bits; all other bits are 0 */
} dcc_reader;

/* Begins to read a CV. Returns 6 (P6) and writes nothing if the CV is not 1 to 1024. */
uint8_t dcc_reader_new(dcc_reader *reader, uint16_t cv);

/* Writes the frame of the next question. To ask this question, a station sends three resets (00 00 00) and then the
 * frame five times. Each of the eight packets has a preamble of 20 ones (DCC_PROGRAMMING_TRACK). The answer is yes if
 * the decoder acknowledges any of the eight packets. Returns 13 and writes nothing if the fields are not those of a
 * reading. */
uint8_t dcc_reader_question(const dcc_reader *reader, dcc_frame *question);

enum { DCC_MORE, DCC_VALUE, DCC_NO_ANSWER }; /* the state of a reading after an answer */

/* Takes the answer to the question of dcc_reader_question. The parameter yes is true if the decoder acknowledged the
 * question.
 *
 * - Returns DCC_MORE if there is a further question.
 * - Returns DCC_VALUE and writes the value if the ninth question was acknowledged.
 * - Returns DCC_NO_ANSWER if the ninth question was not acknowledged, so no value is known (S1).
 * - Returns 13 if the fields are not those of a reading.
 *
 * The function changes the reading only if it returns DCC_MORE. After the ninth answer dcc_reader_question writes the
 * ninth question again. */
uint8_t dcc_reader_answer(dcc_reader *reader, bool yes, uint8_t *value);

/* ---- writing a CV ---- */

/* The writing of a CV by two questions. The first question writes the byte to the CV. The second question asks if the
 * CV has this byte. */
typedef struct {
    uint16_t cv;       /* the number of the CV, 1 to 1024 */
    uint8_t value;     /* the byte */
    bool is_verifying; /* true if the first question has its answer, so that the second question is next */
} dcc_writer;

/* Begins to write a byte to a CV. Returns 6 (P6) and writes nothing if the CV is not 1 to 1024. */
uint8_t dcc_writer_new(dcc_writer *writer, uint16_t cv, uint8_t value);

/* Writes the frame of the next question, which a station asks as the comment on dcc_reader_question says. Returns 13
 * and writes nothing if the fields are not those of a writing. */
uint8_t dcc_writer_question(const dcc_writer *writer, dcc_frame *question);

enum { DCC_DONE = 1, DCC_FAILED }; /* with DCC_MORE: the state of a writing after an answer */

/* Takes the answer to the question of dcc_writer_question. The parameter yes is true if the decoder acknowledged the
 * question.
 *
 * - Returns DCC_MORE after the first question, whatever the answer is. A decoder that writes the CV can fail to
 *   acknowledge it, so the second question decides.
 * - Returns DCC_DONE if the second question was acknowledged, so the CV has the byte.
 * - Returns DCC_FAILED if the second question was not acknowledged. A decoder never writes CV7 and CV8.
 * - Returns 13 if the fields are not those of a writing.
 *
 * The function changes the writing only if it returns DCC_MORE. After the second answer dcc_writer_question writes the
 * second question again. */
uint8_t dcc_writer_answer(dcc_writer *writer, bool yes);

/* ---- a command station ---- */

/* A command station, which has waiting commands and entries. A station sends the entries again and again while no
 * command waits. The struct is opaque: do not read or write its fields. Before its first dcc_station_new, a station
 * must be all zeros, as in `static dcc_station station;`. A station of zeros accepts no command. It sends idle packets,
 * and one stop after a call of dcc_station_stop. */
typedef struct {
    uint8_t kept[1801];
} dcc_station;

/* Creates a station without commands. Returns 1 (C1) and writes nothing if a parameter is outside its range:
 *
 * - queue, the greatest number of waiting commands, is 1 to 64.
 * - slots, the greatest number of entries, is 1 to 128.
 * - repeats, the number of copies of a command in a row, is 1 to 8. */
uint8_t dcc_station_new(dcc_station *station, uint8_t queue, uint8_t slots, uint8_t repeats);

/* Adds the command of a frame to the end of the queue. Returns 3 (C3) if a station does not send the packet: idle, a
 * packet of kind DCC_OTHER, or a CV access to all decoders. Otherwise returns 4 (C4) if the queue is full. A refused
 * command changes nothing. */
uint8_t dcc_station_command(dcc_station *station, const uint8_t *frame, uint64_t len);

/* Writes the frame to send next. If a stop waits, this frame is a copy of the stop. Otherwise, if a command waits, the
 * frame is a copy of the first waiting command. Otherwise the frame is the first entry, which moves to the end of the
 * entries. If there is no entry either, the frame is an idle packet. */
void dcc_station_next(dcc_station *station, dcc_frame *frame);

/* Removes the entries with an address of locomotives, for example when a locomotive leaves the track. The parameter to
 * is the kind of the address, DCC_SHORT or DCC_LONG, and address is its number. The waiting commands stay. A command of
 * which no copy was sent becomes an entry as before. A partly sent command becomes no entry again. No entry has the
 * address of all locomotives, so DCC_ALL removes nothing. Returns 10 (P10) if to is no kind of an address, 1 or 2 (P1,
 * P2) if there is no such address. In these cases nothing changes. */
uint8_t dcc_station_forget(dcc_station *station, uint8_t to, uint16_t address);

/* Stops all locomotives. The next frames are copies of 00 71 71, the emergency stop of all locomotives, as many as of
 * a command. The directions of the locomotives stay. The function removes each waiting command that sets the speed of
 * a locomotive to a step, and returns the number of these commands. All other commands wait until the stop is sent. If
 * one of them was partly sent, all its copies are sent again. The stop takes no place in the queue. A stop that is
 * called while another stop waits starts the copies again. A locomotive that hears a copy of the stop, and all later
 * frames, stands until the station accepts a command that sets a speed to a step. */
uint8_t dcc_station_stop(dcc_station *station);

/* Returns the number of waiting commands. A stop that waits does not count. */
uint8_t dcc_station_waiting(const dcc_station *station);

/* Returns the number of entries. */
uint8_t dcc_station_entries(const dcc_station *station);

/* ---- the functions of a locomotive that a station remembers (RCN-212) ---- */

/* The functions F0 to F68 of a locomotive. A packet sets all functions of a group, so a station that turns one function
 * needs the states of the other functions of the group. If all bytes are zero, all functions are off. */
typedef struct {
    uint64_t on[2]; /* function F n, n from 0 to 68, is bit n % 64 of on[n / 64], as in a dcc_loco. Other bits are
                       unused */
} dcc_functions;

/* Turns a function on or off, and writes the frame of the group of this function. The frame has the states of all
 * functions of the group, and the address of the kind to and with the number address, as in a dcc_packet. A decoder
 * that has the functions in *functions has them still after it hears this frame. With 14 speed steps, a decoder takes
 * F0 from the speed packets (DCC_SPEED28), and ignores the F0 of the group.
 *
 * Returns 10 (P10) if to is no kind of an address, 1 or 2 (P1, P2) if there is no such address, and then 13 (P13) if
 * the function is above 68. In these cases the function writes nothing. */
uint8_t dcc_functions_turn(dcc_functions *functions, uint8_t to, uint16_t address, uint8_t function, bool on,
                           dcc_frame *frame);

/* Returns 1 if the function is on, and 0 if the function is off or above 68. */
uint8_t dcc_functions_is_on(const dcc_functions *functions, uint8_t function);

/* The assertions stop the compiler if bool or a struct does not have the size that the library expects. */
#ifdef __cplusplus
#define DCC_ASSERT(condition) static_assert(condition, #condition)
#elif defined __STDC_VERSION__ && __STDC_VERSION__ >= 201112L
#define DCC_ASSERT(condition) _Static_assert(condition, #condition)
#else
#define DCC_ASSERT(condition) extern char dcc_assert[(condition) ? 1 : -1]
#endif
DCC_ASSERT(sizeof(bool) == 1);
DCC_ASSERT(sizeof(dcc_frame) == 7);
DCC_ASSERT(sizeof(dcc_framer) == 24);
DCC_ASSERT(sizeof(dcc_outcome) == 12);
DCC_ASSERT(sizeof(dcc_lost) == 808);
DCC_ASSERT(sizeof(dcc_short_preamble) == 4);
DCC_ASSERT(sizeof(dcc_off_limits) == 8);
DCC_ASSERT(sizeof(dcc_lost_packet) == 28);
DCC_ASSERT(sizeof(dcc_meter) == 1104);
DCC_ASSERT(sizeof(dcc_tally) == 32);
DCC_ASSERT(sizeof(dcc_statistics) == 280);
DCC_ASSERT(sizeof(dcc_packet) == 18);
DCC_ASSERT(sizeof(dcc_timing) == 8);
DCC_ASSERT(sizeof(dcc_sender) == 16);
DCC_ASSERT(sizeof(dcc_loco) == 1072);
DCC_ASSERT(sizeof(dcc_board) == 12);
DCC_ASSERT(sizeof(dcc_service) == 1032);
DCC_ASSERT(sizeof(dcc_small_loco) == 56);
DCC_ASSERT(sizeof(dcc_small_service) == 8);
DCC_ASSERT(sizeof(dcc_answer) == 4);
DCC_ASSERT(sizeof(dcc_decoder) == 1088);
DCC_ASSERT(sizeof(dcc_board_decoder) == 1046);
DCC_ASSERT(sizeof(dcc_service_packet) == 6);
DCC_ASSERT(sizeof(dcc_reader) == 4);
DCC_ASSERT(sizeof(dcc_writer) == 4);
DCC_ASSERT(sizeof(dcc_station) == 1801);
DCC_ASSERT(sizeof(dcc_functions) == 16);

#ifdef __cplusplus
}
#endif

#endif
