#include "DccPacketTimer.h"

#include <Arduino.h>

void DccPacketTimer::restart() { last = millis(); }

uint32_t DccPacketTimer::age() const { return (uint32_t)millis() - last; }
