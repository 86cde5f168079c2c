/* A stand-in for the EEPROM library of Arduino: cells that are erased, or first have the complements in KEPT. */
#ifndef EEPROM_H
#define EEPROM_H

#include <stdint.h>

#ifndef KEPT
#define KEPT 0
#endif

static struct {
    uint8_t cells[1024];
    uint8_t read(int at) { return ~cells[at]; }
    void update(int at, uint8_t value) { cells[at] = ~value; }
} EEPROM = {{KEPT}};

#endif
