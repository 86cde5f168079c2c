#include "DccSmallDecoder.h"

#include "DccLocoValues.h"

__attribute__((weak)) uint8_t notifyCVRead(uint16_t) { return 0; }
__attribute__((weak)) uint8_t notifyCVWrite(uint16_t, uint8_t) { return 0; }

void DccSmallDecoder::begin(uint32_t now) {
    dcc_small_service_new(&service);
    powerUp();
    track.begin(now);
    packets.restart();
}

void DccSmallDecoder::powerUp() {
    dcc_small_loco_new(&loco, notifyCVRead(1), notifyCVRead(17), notifyCVRead(18), notifyCVRead(29));
    isProgrammed = false;
}

void DccSmallDecoder::process() {
    uint32_t half;
    dcc_outcome seen;
    dcc_packet packet;
    while (track.next(&half, &seen)) {
        if (seen.refusal != 0 || dcc_read(seen.frame.bytes, seen.frame.len, &packet) != 0) continue;
        packets.restart();
        notifyDccMsg(seen.frame);
        hearService(seen.frame, packet);
        bool isReset = packet.kind == DCC_RESET && packet.to == DCC_ALL;
        if (service.in_service && !isReset) continue;
        if (!service.in_service && isProgrammed) {
            DccLocoValues before(loco);
            powerUp();
            DccLocoValues(loco).notifyChanges(before);
        }
        hearLoco(seen.frame, packet);
    }
    if (!service.in_service || timer.age() <= 20) return;
    dcc_small_service_new(&service);
    notifyServiceMode(false);
    if (isProgrammed) powerUp(); /* the locomotive has stopped since the reset, so no value changes */
}

/* Takes a frame of the programming track. dcc_small_service_cv writes the number of the accessed CV, or 0. */
void DccSmallDecoder::hearService(const dcc_frame &frame, const dcc_packet &packet) {
    uint16_t cv;
    bool isChanged, isAcknowledged, wasInService = service.in_service;
    if (dcc_small_service_cv(&service, frame.bytes, frame.len, &cv) != 0) return;
    uint8_t value = cv > 0 ? notifyCVRead(cv) : 0;
    if (dcc_small_service_apply(&service, frame.bytes, frame.len, &value, &isChanged, &isAcknowledged) != 0) return;
    if (wasInService != service.in_service) notifyServiceMode(service.in_service);
    if (service.in_service) timer.restart();
    if (isAcknowledged) notifyCVAck();
    if (service.in_service) hearFactoryReset(frame, packet);
    if (!isChanged) return;
    isProgrammed = true;
    notifyCVWrite(cv, value);
}

/* The callback can change any CV, so the locomotive powers up after it: when service mode ends, or at the next packet
 * of the main track. */
void DccSmallDecoder::hearFactoryReset(const dcc_frame &frame, const dcc_packet &packet) {
    if (!factory.isSecond(frame, packet, service.in_service)) return;
    isProgrammed = true;
    notifyCVResetFactoryDefault();
}

/* Applies a packet of the main track. dcc_small_loco_cv writes the number of the CV that the packet writes, or 0. */
void DccSmallDecoder::hearLoco(const dcc_frame &frame, const dcc_packet &packet) {
    uint16_t cv;
    bool isChanged, heard = false;
    if (dcc_small_loco_hears(&loco, frame.bytes, frame.len, &heard) != 0 || !heard) return;
    if (dcc_small_loco_cv(&loco, frame.bytes, frame.len, &cv) != 0) return;
    uint8_t value = cv > 0 ? notifyCVRead(cv) : 0;
    DccLocoValues before(loco);
    if (dcc_small_loco_apply(&loco, frame.bytes, frame.len, &value, &isChanged) != 0) return;
    if (packet.kind == DCC_RESET) notifyDccReset();
    if (!service.in_service) hearFactoryReset(frame, packet);
    DccLocoValues(loco).notifyChanges(before);
    if (isChanged) notifyCVWrite(cv, value);
}
