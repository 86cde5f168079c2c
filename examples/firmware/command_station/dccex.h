/* SPDX-License-Identifier: MIT OR Apache-2.0
 *
 * A command station that takes the commands of DCC-EX over serial lines, for example `<t 3 10 1>`. README.md of
 * examples/firmware lists the commands and their answers. The station drives a main track and a programming track. The
 * functions allocate nothing and are not recursive. The library (dcc.h) is proved, and these functions are tested.
 *
 * A program has an object that is all zeros before its first dccex_begin, as in `static dccex station;`. Interrupts
 * call only the functions dccex_half, dccex_programming_half and dccex_take. The main loop calls the other functions.
 * No function waits for a serial line. A serial line is a port, with a number from 0 on. */
#ifndef DCCEX_H
#define DCCEX_H

#include "dcc.h"

#ifdef __cplusplus
extern "C" {
#endif

enum {
    DCCEX_PORTS = 2,     /* the ports. Each has commands and answers of its own */
    DCCEX_COMMAND = 40,  /* the most bytes between < and > of a command. A longer command is dropped */
    DCCEX_CABS = 16,     /* the most locomotives with a remembered speed and remembered functions */
    DCCEX_QUEUE = 16,    /* the most commands that wait for the main track */
    DCCEX_TURNOUTS = 16, /* the most turnouts that are defined */
    DCCEX_LINE = 256,    /* the bytes for commands that have come and have not run. Places count modulo 256 */
    DCCEX_ANSWERS = 512, /* the bytes for answers that a port has not taken. Sixteen `<l ..>` fit */
    DCCEX_TEXT = 104,    /* the most bytes of an answer, and one more. Sixteen turnouts of `<J T>` fit */
    DCCEX_URGENT = 2     /* the commands that act at once: <!> and <0> */
};

/* A locomotive that the station remembers. */
typedef struct {
    dcc_functions functions;
    uint16_t cab;  /* the address, or 0 if the place is free */
    uint8_t speed; /* 128 for forward, plus 0 for stop, 1 for emergency stop, or the speed step plus 1 */
    uint8_t ahead; /* the commands of the queue up to its last one, or 0 if no command of it waits */
} dccex_cab;

/* A locomotive that was forgotten while a command of it waits. */
typedef struct {
    uint16_t cab;
    uint8_t ahead; /* 0 if the place is free */
} dccex_leaving;

/* A turnout that <T ..> has defined. */
typedef struct {
    uint16_t id;
    uint16_t board;
    uint8_t pair;
    bool is_thrown;
    bool is_defined; /* false if the place is free */
} dccex_turnout;

/* A command that acts at once. dccex_take sets has_come, and the main loop clears it. */
typedef struct {
    volatile bool has_come;
    volatile uint8_t places[DCCEX_PORTS]; /* the places of the ports at which it came */
    uint8_t before[DCCEX_PORTS];          /* the bytes of the commands that came before it and have not run */
} dccex_urgent;

/* The bytes of a port. The ring has the commands that have come and have not run, each after its length. */
typedef struct {
    char ring[DCCEX_LINE];
    volatile uint8_t written; /* the place after the last complete command. Only dccex_take writes it */
    volatile uint8_t read;    /* the place of the first command. Only the main loop writes it */
    volatile bool has_dropped; /* true if a command found no room in the ring, until <s> tells it */
    /* the command that is not complete. Only dccex_take uses these fields */
    bool is_open;  /* true after < and before > */
    bool has_room; /* true if the ring has room for it so far */
    uint8_t len;   /* its bytes, DCCEX_COMMAND + 1 if it is too long */
    uint8_t marks; /* its bytes that are no blank: 0, 1, or 2 for more */
    char letter;   /* the first of these */
} dccex_line;

/* The answers that a port has not taken. */
typedef struct {
    char ring[DCCEX_ANSWERS];
    uint16_t first, len;
    bool has_dropped; /* true if an answer found no room, until <s> tells it */
} dccex_answers;

/* The answer that the main loop writes. */
typedef struct {
    char bytes[DCCEX_TEXT];
    uint8_t len;
} dccex_text;

/* The main track. */
typedef struct {
    dcc_sender sender; /* the packet on the track. Only the interrupt uses it */
    dcc_sender next;   /* the next packet if is_ready is true. The main loop writes it if is_ready is false */
    dcc_sender idle;   /* an idle packet. The interrupts send it if the main loop is late */
    volatile bool is_ready;
    volatile uint8_t late; /* the idle packets for the last packet that was late. Only the interrupt writes it */
} dccex_main;

/* The programming track. */
typedef struct {
    dcc_sender sender;        /* the packet on the track. Only the interrupt uses it */
    dcc_sender question;      /* the main loop writes it if is_asking is false */
    dcc_sender reset;         /* a reset packet */
    dcc_sender next;          /* the next packet of joined tracks if is_ready is true. The main loop writes it if
                                 is_ready is false */
    uint16_t last;            /* the microseconds of the last half-bit */
    uint16_t drawn;           /* the microseconds for which the decoder has drawn the current without a break */
    uint8_t packets;          /* the packets of the question that are left to send */
    volatile bool has_power;  /* true if the track has a signal. Only the main loop writes it */
    volatile bool is_joined;  /* true if the track has the packets of the main track. Only the main loop writes it */
    volatile bool is_ready;   /* of joined tracks, as in dccex_main */
    volatile bool is_asking;  /* the main loop sets it. The interrupt clears it after the last packet, and the main
                                 loop clears it if the power ends */
    volatile bool has_answer; /* true if the decoder has acknowledged the question */
} dccex_programming;

/* The command for the programming track that is not finished. It has one operation after the other, and an operation
 * has one question after the other. */
typedef struct {
    uint8_t kind;      /* 0 if there is none */
    uint8_t port;      /* the port that has the answer */
    bool has_numbers;  /* true if the answer repeats the numbers of the command */
    int16_t numbers[2];
    uint16_t cab;      /* <W CAB>: the address */
    uint8_t high;      /* <R>: CV17 */
    uint8_t operation; /* the operation, and its CV, its value and its bit */
    uint16_t cv;
    uint8_t value;
    uint8_t place;
    bool is_second;    /* an operation with a bit: the first question has its answer */
    dcc_reader reader;
    dcc_writer writer;
} dccex_task;

typedef struct {
    dcc_station station;
    dccex_cab cabs[DCCEX_CABS];
    dccex_leaving leaving[DCCEX_QUEUE];
    dccex_turnout turnouts[DCCEX_TURNOUTS];
    dccex_main main;
    dccex_programming programming;
    dccex_task task;
    dccex_line lines[DCCEX_PORTS];
    dccex_answers answers[DCCEX_PORTS];
    dccex_urgent urgent[DCCEX_URGENT];
    dccex_text text;
    uint8_t port;           /* the port of the command that runs */
    bool is_on;             /* true if the main track has power */
    bool programming_is_on; /* true if <1> or <1 PROG> came after <0> and <0 PROG> */
    bool is_joined;         /* true after <1 JOIN> */
    uint16_t current;       /* the last current of the main track in milliamperes */
    uint8_t overload;       /* 0 if this current is allowed, else 1 plus the packets since it is not */
    /* a program may write these fields after dccex_begin */
    uint16_t most_current;  /* the most current of the main track in milliamperes, or 0 if nothing measures it */
    bool counts_from_board_0; /* true if turnout 1 is on board 0, false if it is on board 1 */
} dccex;

/* Begins without commands and without power. A program calls this function once. */
void dccex_begin(dccex *it);

/* Takes a byte of a port, in the interrupt of the port. The function finds <!> and <0> also if there is no room for
 * further commands. A main loop may call it instead, for all bytes that have come, before dccex_process. The interrupt
 * of a port does not interrupt that of another port. */
void dccex_take(dccex *it, uint8_t port, char c);

/* Does what <!> and <0> ask if they have come, executes at most one other command, and prepares the next packets, which
 * can take milliseconds on a small chip. The main loop calls it after each interrupt, and then switches the power of
 * the main track to is_on. */
void dccex_process(dccex *it);

/* Takes a measured current of the main track. Turns the power of both tracks off as <0> does, answers `<p0>` on all
 * ports and returns true if the current has exceeded most_current for at least two packets, 6 to 20 milliseconds. All
 * calls in this time must have such a current. The station goes on without power. */
bool dccex_measure(dccex *it, uint16_t milliamperes);

/* Writes the next byte of the answers of a port to *c. Returns false if there is none. The main loop calls it while the
 * port has room. An answer for which there is no room is dropped whole. */
bool dccex_give(dccex *it, uint8_t port, char *c);

/* Returns the next half-bit of the main track in microseconds. Called in the interrupt of the main track's timer. */
uint16_t dccex_half(dccex *it);

/* Returns the next half-bit of the programming track in microseconds, or 0 if the track has no power. Called in the
 * interrupt of the programming track's timer. The parameter draws_current is true if the decoder draws at least 60 mA
 * more than before the question. A current of 4 to 9 milliseconds is an acknowledgement (NMRA S-9.2.3: 5 to 7). */
uint16_t dccex_programming_half(dccex *it, bool draws_current);

#ifdef __cplusplus
}
#endif

#endif
