// What packet, hub, sender and reader share.
#ifndef PEER_PACKET_H
#define PEER_PACKET_H

#include <string.h>

#include "peer.h"

enum {
    AT_LENGTH = 0,
    AT_OPCODE = 1,
    AT_SOURCE = 2,
    AT_STATUS = 3,
    AT_DATA = 4,
    CHECKSUM_SIZE = 2
};

enum {
    READER = 0,
    HOST = 4
};

// Status bits.
enum {
    RESEND = 0x01,
    MORE = 0x02,
    PERMANENT = 0x08
};

enum {
    AIM_OFF = 0xC4,
    AIM_ON = 0xC5,
    PARAM_SEND = 0xC6,
    PARAM_REQUEST = 0xC7,
    PARAM_DEFAULTS = 0xC8,
    CMD_ACK = 0xD0,
    CMD_NAK = 0xD1,
    START_SESSION = 0xE4,
    STOP_SESSION = 0xE5,
    BEEP = 0xE6,
    LED_ON = 0xE7,
    LED_OFF = 0xE8,
    SCAN_ENABLE = 0xE9,
    SCAN_DISABLE = 0xEA,
    DECODE_DATA = 0xF3
};

enum {
    CAUSE_RESEND = 1,
    CAUSE_CONTEXT = 2,
    CAUSE_DENIED = 6
};

// Of the bytes of a packet, or of some of them.
uint16_t peer_sum(const uint8_t *bytes, size_t count);

// Puts the checksum behind a body that stands there with its length. Gives the packet's size.
size_t peer_seal(uint8_t *packet);

static inline bool is_answer(uint8_t opcode)
{
    return opcode == CMD_ACK || opcode == CMD_NAK;
}

static inline bool status_allowed(uint8_t opcode, uint8_t status)
{
    uint8_t allowed = opcode == DECODE_DATA ? RESEND | MORE | PERMANENT : RESEND | PERMANENT;
    return (status & ~allowed) == 0;
}

static inline uint8_t cause_of(uint8_t refusal)
{
    if (refusal <= PEER_CUT) {
        return CAUSE_RESEND;
    }
    return refusal <= PEER_DATA ? CAUSE_CONTEXT : CAUSE_DENIED;
}

// ACK and NAK have no byte that is not known before, but for the cause and what it takes from the checksum.
static inline uint8_t put_ack(uint8_t *room, uint8_t source)
{
    const uint8_t ack[6] = {4, CMD_ACK, source, 0, 0xFF, (uint8_t)(0x2C - source)};
    memcpy(room, ack, sizeof ack);
    return sizeof ack;
}

static inline uint8_t put_nak(uint8_t *room, uint8_t source, uint8_t cause)
{
    const uint8_t nak[7] = {5, CMD_NAK, source, 0, cause, 0xFF, (uint8_t)(0x2A - source - cause)};
    memcpy(room, nak, sizeof nak);
    return sizeof nak;
}

#endif
