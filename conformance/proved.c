/* SPDX-License-Identifier: MIT OR Apache-2.0
 *
 * The proved decoders of the library as the decoder under test. It is an example of a decoder that uses the library. It
 * hears the programming track too, or only the main track if MAIN_ONLY is defined. */
#include "conformance.h"
#include "dcc.h"
#include <string.h>

static dcc_framer framer;
static dcc_decoder loco;
static dcc_board_decoder board;
static bool is_board;
static uint32_t acknowledgements;

void your_new(const uint8_t cvs[1024]) {
    framer = dcc_framer_new();
    acknowledgements = 0;
    is_board = cvs[28] & 128;
    dcc_decoder_new(&loco, cvs);
    dcc_board_decoder_new(&board, cvs);
#ifdef MAIN_ONLY
    dcc_decoder_set_main_only(&loco, true);
    dcc_board_decoder_set_main_only(&board, true);
#endif
}

void your_half(uint16_t us) {
    dcc_outcome outcome;
    dcc_answer answer;
    if (!dcc_push(&framer, us, &outcome) || outcome.refusal) return;
    const dcc_frame *frame = &outcome.frame;
    if (is_board) dcc_board_decoder_hear(&board, frame->bytes, frame->len, &answer);
    else dcc_decoder_hear(&loco, frame->bytes, frame->len, &answer);
    acknowledgements += answer.acknowledged;
}

void your_get(your_state *state) {
    state->acknowledgements = acknowledgements;
    if (is_board) {
        state->outputs = board.board.outs;
        memcpy(state->aspects, board.board.aspects, sizeof state->aspects);
        memcpy(state->cvs, board.cvs, sizeof state->cvs);
        return;
    }
    state->speed_mode = loco.loco.speed_mode;
    state->step = loco.loco.step;
    state->forward = loco.loco.forward;
    memcpy(state->functions, loco.loco.functions, sizeof state->functions);
    memcpy(state->states, loco.loco.states, sizeof state->states);
    memcpy(state->cvs, loco.loco.cvs, sizeof state->cvs);
}
