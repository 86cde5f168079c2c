/* The functions of Arduino that the sketches use, for tests under qemu. The edges of the track come from a capture. */
#ifndef ARDUINO_H
#define ARDUINO_H

#include <stdint.h>
#include <string.h>

enum { LOW, HIGH };
enum { INPUT, OUTPUT };
enum { CHANGE = 1, FALLING, RISING };
enum { DEC = 10, HEX = 16 };
enum { A0 = 54 };

uint32_t micros();
unsigned long millis();
void pinMode(uint8_t pin, uint8_t mode);
void digitalWrite(uint8_t pin, uint8_t level);
int digitalRead(uint8_t pin);
int analogRead(uint8_t pin);
void analogWrite(uint8_t pin, int value);
inline uint8_t digitalPinToInterrupt(uint8_t pin) { return pin; }
void attachInterrupt(uint8_t interrupt, void (*call)(), int mode);
inline void delay(unsigned long) {}
void interrupts();
void noInterrupts();

struct Port {
    void begin(unsigned long) {}
    void print(const char *text);
    void print(char c);
    void print(unsigned long number, int base = DEC);
    void print(int number, int base = DEC) { print((unsigned long)number, base); }
    void print(unsigned number, int base = DEC) { print((unsigned long)number, base); }
    template <typename T> void println(T it) { print(it); println(); }
    void println() { print("\n"); }
    int available();
    int read();
    int availableForWrite();
    void write(char c);
};
using HardwareSerial = Port;
extern Port Serial, Serial1;

void setup();
void loop();

#endif
