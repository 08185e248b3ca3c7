// The hub: joins decode data into messages and answers each packet.
#include "framer.h"

const size_t peer_hub_size = sizeof(peer_hub);

void peer_hub_init(peer_hub *hub)
{
    framer_init(&hub->framer);
    hub->barred = false;
    hub->open = false;
    hub->code = 0;
    hub->count = 0;
}

// What goes out is put at the front of a room: an event's is the hub's own, a block's is lent.

static peer_hub_told refuse(uint8_t *room, uint8_t refusal)
{
    return (peer_hub_told){.number = refusal, .answer = put_nak(room, HOST, cause_of(refusal))};
}

static peer_hub_told bar(peer_hub *hub, uint8_t *room)
{
    hub->barred = true;
    hub->open = false;
    hub->count = 0;
    return refuse(room, PEER_BARRED);
}

static peer_hub_told acknowledge(uint8_t *room, uint8_t number)
{
    return (peer_hub_told){.number = number, .answer = put_ack(room, HOST)};
}

static peer_hub_told add(peer_hub *hub, uint8_t *room, uint8_t code, const uint8_t *piece, size_t size)
{
    memcpy(hub->gather + hub->count, piece, size);
    hub->open = true;
    hub->code = code;
    hub->count += (uint16_t)size;
    return acknowledge(room, PEER_ADDED);
}

static peer_hub_told hand_out(peer_hub *hub, uint8_t *room, uint8_t code, const uint8_t *piece, size_t size)
{
    memcpy(hub->message, hub->gather, hub->count);
    memcpy(hub->message + hub->count, piece, size);
    peer_hub_told told = acknowledge(room, PEER_MESSAGE);
    told.code = code;
    told.count = (uint16_t)(hub->count + size);
    hub->open = false;
    hub->count = 0;
    return told;
}

static peer_hub_told join(peer_hub *hub, uint8_t *room, const uint8_t *packet)
{
    uint8_t code = packet[AT_DATA];
    const uint8_t *piece = packet + AT_DATA + 1;
    size_t size = packet[AT_LENGTH] - AT_DATA - 1u;
    if (hub->open && hub->code != code) {
        return bar(hub, room);
    }
    if (hub->count + size > PEER_MESSAGE_SIZE) {
        return bar(hub, room);
    }
    framer_accept(&hub->framer);
    return packet[AT_STATUS] & MORE ? add(hub, room, code, piece, size) : hand_out(hub, room, code, piece, size);
}

static peer_hub_told take(peer_hub *hub, uint8_t *room)
{
    const uint8_t *packet = framer_packet(&hub->framer);
    if (is_answer(packet[AT_OPCODE])) {
        return (peer_hub_told){0};
    }
    if (packet[AT_SOURCE] != READER) {
        return refuse(room, PEER_SOURCE);
    }
    if (!status_allowed(packet[AT_OPCODE], packet[AT_STATUS])) {
        return refuse(room, PEER_STATUS);
    }
    if (packet[AT_OPCODE] != DECODE_DATA) {
        return refuse(room, PEER_OPCODE);
    }
    if (packet[AT_LENGTH] == AT_DATA) {
        return refuse(room, PEER_DATA);
    }
    if (hub->barred) {
        return refuse(room, PEER_BARRED);
    }
    if (framer_repeats(&hub->framer)) {
        return acknowledge(room, PEER_REPEATED);
    }
    return join(hub, room, packet);
}

// A function of its own, so that events which tell nothing pay nothing for what it keeps on the stack.
__attribute__((noinline)) static peer_hub_told tell(peer_hub *hub, uint32_t event, uint8_t number, uint8_t *room)
{
    peer_hub_told told = {0};
    if (number == PEER_PACKET) {
        told = take(hub, room);
    } else if (number != PEER_NOTHING) {
        told = refuse(room, number);
    }
    if (event == PEER_MESSAGE_GAP) {
        peer_hub_init(hub);
    }
    return told;
}

peer_hub_told peer_hub_event(peer_hub *hub, uint32_t event)
{
    if (framer_goes_on(&hub->framer, event)) {
        return (peer_hub_told){0};
    }
    uint8_t number = framer_edge(&hub->framer, event);
    if (number == PEER_NOTHING && event != PEER_MESSAGE_GAP) {
        return (peer_hub_told){0};
    }
    return tell(hub, event, number, hub->answer);
}

// The bytes up to the one at which the framer has something to tell: PEER_PACKET, a refusal; or nothing, at their end.
static uint8_t hear(peer_framer *framer, const uint8_t **at, const uint8_t *end)
{
    if (framer->last == 0) {
        uint8_t number = framer_begin(framer, *(*at)++);
        if (number != PEER_NOTHING) {
            return number;
        }
    }
    *at += framer_move(framer, *at, (size_t)(end - *at));
    return *at == end ? PEER_NOTHING : framer_end(framer, *(*at)++);
}

peer_block_told peer_hub_block(peer_hub *hub, const uint8_t *bytes, size_t size, uint8_t *answers, size_t room)
{
    if (room < PEER_HUB_ANSWER_SIZE) {
        return (peer_block_told){.number = PEER_ROOM};
    }
    if (size > PEER_BLOCK_SIZE) {
        return (peer_block_told){.number = PEER_LONG};
    }
    peer_block_told told = {0};
    const uint8_t *at = bytes;
    const uint8_t *end = bytes + size;
    // No answer may be written behind this.
    const uint8_t *brink = answers + (room - PEER_HUB_ANSWER_SIZE);
    uint8_t *answer = answers;
    while (at != end && answer <= brink) {
        if (hub->framer.deaf) {
            at = end;
            break;
        }
        uint8_t number = hear(&hub->framer, &at, end);
        if (number == PEER_NOTHING) {
            break;
        }
        // No byte is a message gap, so any stands for the one that came.
        peer_hub_told one = tell(hub, 0, number, answer);
        answer += one.answer;
        if (one.number == PEER_MESSAGE) {
            told.number = PEER_MESSAGE;
            told.code = one.code;
            told.count = one.count;
            break;
        }
        if (number != PEER_PACKET) {
            told.number = number;
        }
    }
    told.answers = (uint16_t)(answer - answers);
    told.taken = (uint16_t)(at - bytes);
    return told;
}
