/* On an ESP8266 and an ESP32 the code is in flash, and no code in flash runs while flash is written. DCC_IN_RAM before
 * a function puts its code into RAM. All the functions that an interrupt calls have it. On other chips the macro is
 * empty. */
#ifndef DCC_IN_RAM_H
#define DCC_IN_RAM_H

#ifdef ESP8266
#include <c_types.h>
#define DCC_IN_RAM IRAM_ATTR
#elif defined ESP32
#include <esp_attr.h>
#define DCC_IN_RAM IRAM_ATTR
#else
#define DCC_IN_RAM
#endif

#endif
