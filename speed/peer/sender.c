// The sender: one message at a time, piece by piece, each packet copied at most three times.
#include "packet.h"

enum {
    PIECE_SIZE = 250,
    MOST_RESENDS = 2
};

const size_t peer_sender_size = sizeof(peer_sender);

void peer_sender_init(peer_sender *sender)
{
    sender->out = false;
    sender->before = PEER_NOTHING;
}

static bool more(const peer_sender *sender)
{
    return sender->place + sender->piece < sender->size;
}

static peer_sent write_copy(peer_sender *sender)
{
    uint8_t *copy = sender->copy;
    copy[AT_LENGTH] = (uint8_t)(AT_DATA + 1 + sender->piece);
    copy[AT_OPCODE] = DECODE_DATA;
    copy[AT_SOURCE] = READER;
    copy[AT_STATUS] = (uint8_t)((more(sender) ? MORE : 0) | (sender->resends > 0 ? RESEND : 0));
    copy[AT_DATA] = sender->code;
    memcpy(copy + AT_DATA + 1, sender->message + sender->place, sender->piece);
    return (peer_sent){.number = PEER_COPY, .value = (uint16_t)peer_seal(copy)};
}

// The next piece, behind one of `last` bytes, or none where that is 0. One that would equal it is cut by a byte, as the
// hub could take its marked copy for that one.
static peer_sent send_piece(peer_sender *sender, size_t last)
{
    const uint8_t *piece = sender->message + sender->place;
    size_t size = sender->size - sender->place;
    if (size > PIECE_SIZE) {
        bool equal = last == PIECE_SIZE && memcmp(piece, piece - PIECE_SIZE, PIECE_SIZE) == 0;
        size = equal ? PIECE_SIZE - 1 : PIECE_SIZE;
    }
    sender->piece = (uint8_t)size;
    sender->resends = 0;
    return write_copy(sender);
}

static peer_sent end(peer_sender *sender, uint8_t how)
{
    sender->out = false;
    sender->before = how;
    return (peer_sent){.number = how, .value = sender->marked};
}

static peer_sent go_on(peer_sender *sender)
{
    if (!more(sender)) {
        return end(sender, PEER_DELIVERED);
    }
    sender->place += sender->piece;
    return send_piece(sender, sender->piece);
}

static peer_sent resend(peer_sender *sender)
{
    if (sender->resends == MOST_RESENDS) {
        return end(sender, PEER_FAILED);
    }
    sender->resends++;
    sender->marked++;
    return write_copy(sender);
}

// The last piece of the message before still stands where it was sent from. A message of more pieces than one is longer
// than that, and its first packet has MORE set.
static bool gap_due(const peer_sender *sender, uint8_t code, const uint8_t *bytes, size_t count)
{
    if (sender->before != PEER_DELIVERED) {
        return sender->before == PEER_FAILED;
    }
    return count == sender->piece && code == sender->code
        && memcmp(sender->message + sender->place, bytes, count) == 0;
}

peer_sent peer_sender_send(peer_sender *sender, uint8_t code, const uint8_t *bytes, size_t count)
{
    if (count > PEER_MESSAGE_SIZE || sender->out) {
        return (peer_sent){.number = PEER_START};
    }
    bool gap = gap_due(sender, code, bytes, count);
    memcpy(sender->message, bytes, count);
    sender->out = true;
    sender->code = code;
    sender->marked = 0;
    sender->size = (uint16_t)count;
    sender->place = 0;
    peer_sent sent = send_piece(sender, 0);
    sent.gap = gap;
    return sent;
}

peer_sent peer_sender_heard(peer_sender *sender, uint32_t heard)
{
    if (!sender->out || heard > PEER_HEARD_TIME_OUT) {
        return (peer_sent){.number = PEER_NOTHING};
    }
    if (heard == PEER_HEARD_ACK) {
        return go_on(sender);
    }
    if (heard == PEER_HEARD_TIME_OUT || heard == CAUSE_RESEND) {
        return resend(sender);
    }
    return end(sender, PEER_FAILED);
}
