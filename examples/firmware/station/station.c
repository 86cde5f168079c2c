/* A command station. Commands are lines of text, for example `loco s3 speed28 f 4` (docs/FORMATS.md). The interrupt
 * of a timer asks how long the track keeps its level. The station sends the waiting commands, and the refreshed
 * packets while no command waits. */
#include "board.h"
#include "dcc.h"
#include <stdatomic.h>

static dcc_station station;

/* The packet on the track, and an idle packet. Only the interrupt uses them after main has begun the idle packet. */
static dcc_sender sender, idle;

/* The packet after the one on the track. The main loop writes it if it is not ready, and the interrupt reads it if
 * it is ready. */
static dcc_sender next;
static atomic_bool is_ready;

static const dcc_timing timing = DCC_MAIN_TIMING;

/* Finding and starting the next packet can take milliseconds on a small chip, so the interrupt does neither. If the
 * main loop is late, an idle packet is sent: the track always has a signal. */
uint16_t on_timer(void) {
    uint16_t us = dcc_sender_half(&sender);
    if (us > 0) return us;
    sender = is_ready ? next : idle;
    is_ready = false;
    return dcc_sender_half(&sender);
}

static void prepare(void) {
    dcc_frame frame;
    dcc_station_next(&station, &frame);
    dcc_sender_start(&next, frame.bytes, frame.len, &timing);
    is_ready = true;
}

static void tell(const char *refusal, uint8_t number) {
    show(refusal);
    show_number(number);
    show("\n");
}

/* A longer line than LINE is refused whole, as `dcc` refuses a line that is too long. */
static void command(const char *line, uint32_t len) {
    dcc_frame frame;
    uint8_t fault = len > LINE ? DCC_P10_WORD : dcc_frame_of_line(line, len, &frame);
    if (fault) {
        tell("# refused P", fault);
        return;
    }
    fault = dcc_station_command(&station, frame.bytes, frame.len);
    if (fault) tell("# refused C", fault);
}

int main(void) {
    static const uint8_t idle_packet[3] = {0xff, 0x00, 0xff};
    static char line[LINE];
    uint32_t len;
    if (dcc_station_new(&station, 16, 32, 2)) return 1;
    dcc_sender_start(&idle, idle_packet, sizeof idle_packet, &timing);
    do {
        while (next_line(line, &len)) command(line, len);
        if (!is_ready) prepare();
    } while (wait_for_interrupt());
    return 0;
}
