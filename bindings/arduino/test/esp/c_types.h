/* The stand-in for the core of the ESP8266. */
#define DCC_TEXT_OF(line) #line
#define DCC_SECTION(count) __attribute__((section(".iram.text." DCC_TEXT_OF(count))))
#define IRAM_ATTR DCC_SECTION(__COUNTER__)
