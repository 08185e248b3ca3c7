// Bytes and gaps into packets, for hub and reader.
#ifndef PEER_FRAMER_H
#define PEER_FRAMER_H

#include "packet.h"

static inline void framer_init(peer_framer *framer)
{
    framer->at = 0;
    framer->last = 0;
    framer->sum = 0;
    framer->start = 0;
    framer->deaf = false;
    framer->accepted = false;
}

// Whether the event was a byte inside a packet: nearly every one is, and for these there is nothing else to do.
static inline bool framer_goes_on(peer_framer *framer, uint32_t event)
{
    if (event > 255 || framer->at >= framer->last) {
        return false;
    }
    framer->line[framer->at++] = (uint8_t)event;
    framer->sum += event;
    return true;
}

static inline uint8_t framer_begin(peer_framer *framer, uint8_t length)
{
    if (length < AT_DATA) {
        framer->deaf = true;
        return PEER_LENGTH;
    }
    framer->line[framer->start] = length;
    framer->at = framer->start + 1;
    framer->last = framer->start + length + 1;
    framer->sum = length;
    return PEER_NOTHING;
}

// The sum has the checksum's high byte in it, as if that were one more of the body.
static inline uint8_t framer_end(peer_framer *framer, uint8_t low)
{
    uint8_t high = framer->line[framer->at - 1];
    framer->line[framer->at] = low;
    framer->last = 0;
    if ((uint16_t)(framer->sum + 255u * high + low) != 0) {
        framer->deaf = true;
        return PEER_CHECKSUM;
    }
    return PEER_PACKET;
}

static inline uint8_t framer_gap(peer_framer *framer)
{
    bool cut = framer->last != 0;
    framer->deaf = false;
    framer->last = 0;
    return cut ? PEER_CUT : PEER_NOTHING;
}

// An event that framer_goes_on did not take: PEER_PACKET, a refusal, or nothing.
static inline uint8_t framer_edge(peer_framer *framer, uint32_t event)
{
    if (event > PEER_MESSAGE_GAP) {
        return PEER_NOTHING;
    }
    if (event > 255) {
        return framer_gap(framer);
    }
    if (framer->deaf) {
        return PEER_NOTHING;
    }
    return framer->last == 0 ? framer_begin(framer, (uint8_t)event) : framer_end(framer, (uint8_t)event);
}

// Moves those of the bytes that belong to the packet begun, but for its last one. Gives how many they were.
static inline size_t framer_move(peer_framer *framer, const uint8_t *bytes, size_t count)
{
    size_t missing = framer->last - framer->at;
    if (count > missing) {
        count = missing;
    }
    memcpy(framer->line + framer->at, bytes, count);
    framer->sum += peer_sum(bytes, count);
    framer->at += (uint32_t)count;
    return count;
}

// The packet that came.
static inline const uint8_t *framer_packet(const peer_framer *framer)
{
    return framer->line + framer->start;
}

// It stays where it is, and the next one comes into the other half.
static inline void framer_accept(peer_framer *framer)
{
    framer->start = PEER_PACKET_SIZE - framer->start;
    framer->accepted = true;
}

// There is no last accepted packet. One that is begun goes on.
static inline void framer_forget(peer_framer *framer)
{
    framer->accepted = false;
}

// Whether the packet that came is a resend of the last accepted one: marked, and equal apart from that.
static inline bool framer_repeats(const peer_framer *framer)
{
    const uint8_t *packet = framer_packet(framer);
    if ((packet[AT_STATUS] & RESEND) == 0 || !framer->accepted) {
        return false;
    }
    const uint8_t *before = framer->line + (PEER_PACKET_SIZE - framer->start);
    return memcmp(packet, before, AT_STATUS) == 0 && ((packet[AT_STATUS] ^ before[AT_STATUS]) & ~RESEND) == 0
        && memcmp(packet + AT_DATA, before + AT_DATA, packet[AT_LENGTH] - AT_DATA) == 0;
}

#endif
