/* The values of a locomotive that callbacks report. The decoders compare the values before and after a packet. */
#ifndef DCC_LOCO_VALUES_H
#define DCC_LOCO_VALUES_H

#include <dcc.h>

struct DccLocoValues {
    /* Copies the values of a dcc_loco or a dcc_small_loco. */
    template <typename Loco>
    explicit DccLocoValues(const Loco &loco)
        : functions{loco.functions[0], loco.functions[1]}, states{loco.states[0], loco.states[1]},
          mode(loco.speed_mode), step(loco.step), forward(loco.forward) {}

    /* Calls the callback of each value that differs from the value before: notifyDccSpeed, notifyDccFunc and
     * notifyDccState. */
    void notifyChanges(const DccLocoValues &before) const;

    uint64_t functions[2], states[2];
    uint8_t mode, step;
    bool forward;
};

#endif
