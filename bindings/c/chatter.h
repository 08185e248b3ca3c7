// Garbage for the tests that need it: random control values and buffers, packets with noise between them, and what
// is to be seen of them. All that is random is seeded.
#ifndef CHATTER_H
#define CHATTER_H

#include "ground.h"

enum { NUMBERS = 256 };

typedef struct {
    bool seen[NUMBERS];
} sights;

static inline void see(sights *told, size_t number)
{
    CHECK(number < NUMBERS);
    if (number < NUMBERS)
        told->seen[number] = true;
}

// Just the documented numbers came, and each of them did.
static inline void saw(const sights *told, const uint8_t *numbers, size_t count)
{
    size_t seen = 0;
    for (size_t i = 0; i < NUMBERS; i++)
        seen += told->seen[i];
    CHECK(seen == count);
    for (size_t i = 0; i < count; i++)
        CHECK(told->seen[numbers[i]]);
}

// Of a control value with its flags: the short way leaves a flag's byte as it is, where a call writes what it read.
typedef struct {
    uint8_t *one, *other;
    size_t size;
    const uint8_t *flags;
} twin;

static inline void make_twins(const twin *twins, size_t count)
{
    for (size_t i = 0; i < count; i++)
        memcpy(twins[i].other, twins[i].one, twins[i].size);
}

static inline bool same_control(const twin *control)
{
    uint8_t one[MK_READER_CONTROL_SIZE], other[MK_READER_CONTROL_SIZE];
    memcpy(one, control->one, control->size);
    memcpy(other, control->other, control->size);
    due_flags(one, control->flags);
    due_flags(other, control->flags);
    return memcmp(one, other, control->size) == 0;
}

static inline bool are_twins(const twin *twins, size_t count)
{
    for (size_t i = 0; i < count; i++) {
        if (twins[i].flags != NULL ? !same_control(&twins[i])
                                   : memcmp(twins[i].other, twins[i].one, twins[i].size) != 0)
            return false;
    }
    return true;
}

// Random bytes alone are a machine at rest too often: big numbers read as 0. So some have mostly zeros.
static inline void sparse_control(uint8_t *control, size_t size)
{
    for (size_t i = 0; i < size; i++)
        control[i] = below(8) == 0 ? any_byte() : below(6) == 0;
}

static inline uint32_t idle_sender(uint8_t *control, size_t size)
{
    return mk_sender_idle(control, size, false);
}

// The ground anew, with a control value of any bytes, of few, or of a machine just made.
static inline void any_start(uint8_t *control, size_t size, uint32_t (*make)(uint8_t *control, size_t size))
{
    fill_ground();
    switch (below(3)) {
    case 0:
        sparse_control(control, size);
        break;
    case 1:
        make(control, size);
        break;
    }
}

static const uint8_t hub_opcodes[] = {MK_OPCODE_DECODE_DATA, MK_OPCODE_DECODE_DATA, MK_OPCODE_DECODE_DATA,
    MK_OPCODE_DECODE_DATA, MK_OPCODE_CMD_ACK, MK_OPCODE_CMD_NAK, MK_OPCODE_BEEP};
static const uint8_t reader_opcodes[] = {MK_OPCODE_PARAM_SEND, MK_OPCODE_PARAM_SEND, MK_OPCODE_PARAM_REQUEST,
    MK_OPCODE_PARAM_DEFAULTS, MK_OPCODE_START_SESSION, MK_OPCODE_STOP_SESSION, MK_OPCODE_BEEP, MK_OPCODE_LED_ON,
    MK_OPCODE_LED_OFF, MK_OPCODE_SCAN_ENABLE, MK_OPCODE_SCAN_DISABLE, MK_OPCODE_AIM_ON, MK_OPCODE_AIM_OFF,
    MK_OPCODE_CMD_ACK, MK_OPCODE_CMD_ACK, MK_OPCODE_CMD_NAK, MK_OPCODE_DECODE_DATA};
static const uint8_t parameters[] = {0x80, 0x89, 0x8A, 0x9B, 0x9C, 0x9E, 0x9F, 0xED, 0xEE, 0xFE, 0xFF};

// Packets for one side, most of them right, with noise and gaps between them.
typedef struct {
    const uint8_t *opcodes;
    size_t kinds;
    uint8_t source;
    uint8_t packet[MK_PACKET_SIZE];
    size_t at, size;
} chatter;

static inline uint8_t any_datum(void)
{
    switch (below(4)) {
    case 0:
        return any_byte();
    case 1:
        return pick(parameters, COUNT(parameters));
    case 2:
        return (uint8_t)below(0x1D);
    default:
        return (uint8_t)below(3);
    }
}

static inline void new_packet(chatter *talk)
{
    static const uint8_t statuses[] = {0, 0, 0, 1, 2, 2, 8};
    uint8_t data[MK_DATA_SIZE];
    size_t count = below(16) == 0 ? below(MK_DATA_SIZE + 1) : below(4);
    for (size_t i = 0; i < count; i++)
        data[i] = any_datum();
    uint8_t source = below(16) == 0 ? any_byte() : talk->source;
    uint8_t status = below(16) == 0 ? any_byte() : pick(statuses, COUNT(statuses));
    talk->size = make_packet(talk->packet, pick(talk->opcodes, talk->kinds), source, status, data, count);
    if (below(16) == 0)
        talk->packet[below(talk->size)] ^= (uint8_t)(1 << below(8));
}

static inline void resend(chatter *talk)
{
    talk->packet[3] |= MK_STATUS_RESEND;
    if (talk->packet[0] + 2u == talk->size) // not where its length was spoiled
        seal(talk->packet);
}

static inline uint32_t next_event(chatter *talk)
{
    size_t chance = below(32);
    if (talk->at < talk->size)
        return talk->packet[talk->at++];
    if (chance == 0)
        return any_byte();
    if (chance == 1)
        return (uint32_t)draw();
    if (chance < 4)
        return MK_MESSAGE_GAP;
    if (chance < 10)
        return MK_CHARACTER_GAP;
    if (chance < 20 && talk->size > 0)
        resend(talk);
    else
        new_packet(talk);
    talk->at = 1;
    return talk->packet[0];
}

#endif
