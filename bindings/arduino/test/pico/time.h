/* A stand-in for the call of the Pico SDK that the sketch Station makes, for tests on this machine. */
#ifndef PICO_TIME_H
#define PICO_TIME_H

#include <stdint.h>

typedef int32_t alarm_id_t;
typedef int64_t (*alarm_callback_t)(alarm_id_t id, void *user_data);

alarm_id_t add_alarm_in_us(uint64_t us, alarm_callback_t call, void *user_data, bool fire_if_past);

#endif
