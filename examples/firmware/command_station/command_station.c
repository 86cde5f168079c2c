/* A command station for throttles and programs that speak the commands of DCC-EX. The commands come over two serial
 * lines, for example from UARTs, and so do the answers. The station drives a main track and a programming track
 * (dccex.h). */
#include "board.h"
#include "dccex.h"

/* (your boosters have a limit of their own) */
const uint16_t most_current = 2000;

static dccex station;

uint16_t on_timer(void) {
    return dccex_half(&station);
}

uint16_t on_programming_timer(void) {
    return dccex_programming_half(&station, draws_current());
}

void on_byte(uint8_t port, char c) {
    dccex_take(&station, port, c);
}

static void give_answers(uint8_t port) {
    char c;
    while (has_room(port) && dccex_give(&station, port, &c)) give_byte(port, c);
}

int main(void) {
    dccex_begin(&station);
    station.most_current = most_current;
    begin_serial();
    do {
        dccex_process(&station);
        if (dccex_measure(&station, main_current())) notify_overload();
        set_power(station.is_on);
        for (uint8_t port = 0; port < DCCEX_PORTS; port++) give_answers(port);
    } while (wait_for_interrupt());
    return 0;
}
