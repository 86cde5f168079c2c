/* A stand-in for Arduino's library Servo, which Debian does not have: the same calls, and the same use of timer 1. Each
 * pulse begins and ends in an interrupt of the timer, which calls digitalWrite. Every 20 milliseconds the timer begins
 * at 0. */
#ifndef Servo_h
#define Servo_h

#include <Arduino.h>

class Servo {
public:
    Servo();
    uint8_t attach(int pin);
    void detach();
    void write(int degrees);
    bool attached();

private:
    uint8_t number;
};

#endif
