// The packet: check and build. This file is compiled with -O3, so that the compiler sums with vector instructions.
#include "packet.h"

// Never above 255 * 255, so 16 bits hold it.
static inline uint16_t sum(const uint8_t *bytes, size_t count)
{
    uint16_t total = 0;
    for (size_t i = 0; i < count; i++) {
        total += bytes[i];
    }
    return total;
}

uint16_t peer_sum(const uint8_t *bytes, size_t count)
{
    return sum(bytes, count);
}

peer_checked peer_check(const uint8_t *bytes, size_t count)
{
    if (count == 0) {
        return (peer_checked){.number = PEER_CUT};
    }
    size_t length = bytes[AT_LENGTH];
    if (length < AT_DATA) {
        return (peer_checked){.number = PEER_LENGTH};
    }
    if (count < length + CHECKSUM_SIZE) {
        return (peer_checked){.number = PEER_CUT};
    }
    uint16_t checksum = (uint16_t)(bytes[length] << 8 | bytes[length + 1]);
    if ((uint16_t)(sum(bytes, length) + checksum) != 0) {
        return (peer_checked){.number = PEER_CHECKSUM};
    }
    return (peer_checked){PEER_PACKET, bytes[AT_LENGTH], bytes[AT_OPCODE], bytes[AT_SOURCE], bytes[AT_STATUS]};
}

size_t peer_seal(uint8_t *packet)
{
    size_t length = packet[AT_LENGTH];
    uint16_t checksum = (uint16_t)-sum(packet, length);
    packet[length] = (uint8_t)(checksum >> 8);
    packet[length + 1] = (uint8_t)checksum;
    return length + CHECKSUM_SIZE;
}

peer_built peer_build(uint8_t *room, size_t room_size, uint8_t opcode, uint8_t source, uint8_t status,
    const uint8_t *data, size_t count)
{
    if (room_size < PEER_PACKET_SIZE) {
        return (peer_built){PEER_ROOM, 0};
    }
    if (source != READER && source != HOST) {
        return (peer_built){PEER_SOURCE, 0};
    }
    if (!status_allowed(opcode, status)) {
        return (peer_built){PEER_STATUS, 0};
    }
    if (count > PEER_DATA_SIZE) {
        return (peer_built){PEER_DATA, 0};
    }
    room[AT_LENGTH] = (uint8_t)(AT_DATA + count);
    room[AT_OPCODE] = opcode;
    room[AT_SOURCE] = source;
    room[AT_STATUS] = status;
    memcpy(room + AT_DATA, data, count);
    return (peer_built){PEER_WRITTEN, (uint16_t)peer_seal(room)};
}
