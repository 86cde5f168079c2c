#include "DccFactoryReset.h"

bool DccFactoryReset::isSecond(const dcc_frame &frame, const dcc_packet &packet, bool isInService) {
    dcc_service_packet asked = {packet.cv, packet.kind, packet.value, 0, false};
    if (isInService && dcc_service_read(frame.bytes, frame.len, &asked) != 0) asked.kind = DCC_OTHER;
    const bool isWrite = asked.kind == DCC_CV_WRITE && asked.cv == 8 && asked.value == 8;
    if (!isWrite) copies = 0;
    else if (copies < 3) copies++;
    return copies == 2 && isWrite;
}
