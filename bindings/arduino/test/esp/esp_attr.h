/* The stand-in for the core of the ESP32. */
#define DCC_TEXT_OF(line) #line
#define DCC_SECTION(count) __attribute__((section(".iram1." DCC_TEXT_OF(count))))
#define IRAM_ATTR DCC_SECTION(__COUNTER__)
