/* The library for C. dcc.inc is a copy of dcc.c, which bindings/arduino/make makes. */
#include "dcc.h"

#include "DccInRam.h"

#if defined ESP8266 || defined ESP32
/* The functions that an interrupt calls, and the callee that gcc may not inline. `flatten` inlines all others. */
#define DCC_WHOLE_IN_RAM DCC_IN_RAM __attribute__((flatten))
DCC_WHOLE_IN_RAM uint8_t dcc_push(dcc_framer *framer, uint16_t us, dcc_outcome *outcome);
DCC_WHOLE_IN_RAM static void dcc_c_framer_push_apart(unsigned char *a0, uint16_t a1, unsigned char *a2);
DCC_WHOLE_IN_RAM uint16_t dcc_sender_half(dcc_sender *sender);
#endif

#include "dcc.inc"
