#include "Servo.h"

/* the timer counts half microseconds: a pulse has 544 to 2400 microseconds for 0 to 180 degrees */
enum { MOST = 12, ROUND = 40000, LEAST_PULSE = 1088, MOST_PULSE = 4800 };
static volatile struct {
    uint8_t pin;
    bool isOn;
    uint16_t ticks;
} servos[MOST];
static uint8_t count;
static volatile int8_t current = -1;

ISR(TIMER1_COMPA_vect) {
    if (current < 0) TCNT1 = 0;
    else if (servos[current].isOn) digitalWrite(servos[current].pin, LOW);
    current++;
    if (current < count) {
        OCR1A = TCNT1 + servos[current].ticks;
        if (servos[current].isOn) digitalWrite(servos[current].pin, HIGH);
    } else {
        OCR1A = TCNT1 + 4 < ROUND ? ROUND : TCNT1 + 4;
        current = -1;
    }
}

Servo::Servo() : number(count++) { servos[number].ticks = (LEAST_PULSE + MOST_PULSE) / 2; }

uint8_t Servo::attach(int pin) {
    pinMode(pin, OUTPUT);
    servos[number].pin = pin;
    if (!(TIMSK1 & 1 << OCIE1A)) {
        TCCR1A = 0;
        TCCR1B = 1 << CS11;
        TCNT1 = 0;
        TIFR1 |= 1 << OCF1A;
        TIMSK1 |= 1 << OCIE1A;
    }
    servos[number].isOn = true;
    return number;
}

void Servo::detach() {
    servos[number].isOn = false;
    for (uint8_t i = 0; i < count; i++) {
        if (servos[i].isOn) return;
    }
    TIMSK1 &= ~(1 << OCIE1A);
}

void Servo::write(int degrees) {
    const uint16_t ticks = LEAST_PULSE + (uint32_t)degrees * (MOST_PULSE - LEAST_PULSE) / 180;
    noInterrupts();
    servos[number].ticks = ticks;
    interrupts();
}

bool Servo::attached() { return servos[number].isOn; }
