// The story of sample 8. A reader sends 251 characters that end in "SAMPLE 8", in two packets; the second holds only
// the 8. The ACK of that one is lost, so the reader sends it again, marked. A hub that added it again would file the
// scores under sample 88.
#include <stdio.h>
#include <stdlib.h>
#include <string.h>

#include "motikhund.h"

enum { CODE_TYPE = 0x1B, COUNT = 251, WIRE = 1024 };

// Two wires for two serial ports: what one end sends stands there until the other end hears it.
typedef struct {
    uint8_t bytes[WIRE];
    size_t count;
} wire;

static mk_reader reader;
static mk_hub hub;
static wire to_hub, to_reader;
static bool delivered;

static void transmit(wire *to, const uint8_t *bytes, size_t count)
{
    if (count > WIRE - to->count) {
        fputs("the wire is full\n", stderr);
        exit(1);
    }
    memcpy(to->bytes + to->count, bytes, count);
    to->count += count;
}

// The other end hears what was sent, and a character gap behind it.
static void carry(wire *from, void (*hears)(uint32_t event))
{
    wire sent = *from;
    from->count = 0;
    for (size_t i = 0; i < sent.count; i++)
        hears(sent.bytes[i]);
    hears(MK_CHARACTER_GAP);
}

// What the hub files. It does so before its answer goes out, as nothing here takes longer than the reader waits: a
// power cut then loses nothing that the reader calls delivered. Where filing is slow, send the answer first and file
// behind it (docs/PROTOCOL.md §15); hub.message keeps the message until the next one is whole.
static void file(uint8_t code, const uint8_t *message, size_t count)
{
    size_t end = count < 8 ? count : 8; // a message may be shorter, and have no byte at all
    printf("hub: a message of %zu characters, type %02X, that ends in \"%.*s\"\n", count, code, (int)end,
        (const char *)message + count - end);
}

static void hub_hears(uint32_t event)
{
    mk_hub_told told = mk_hub_event(&hub, event);
    switch (told.number) {
    case MK_ADDED:
        puts("hub: a piece added");
        break;
    case MK_REPEATED:
        puts("hub: a repeat, acknowledged and not added");
        break;
    case MK_MESSAGE:
        file(told.code, hub.message, told.count);
        break;
    default: // refusals: the NAK in hub.answer says it to the reader
        break;
    }
    if (told.answer > 0)
        transmit(&to_reader, hub.answer, told.answer);
}

// What the reader's sender brought: at a start, at a time-out or at an event, by the same numbers.
static void reader_brings(uint32_t number, size_t value)
{
    switch (number) {
    case MK_COPY:
        printf("reader: a packet of %zu bytes%s\n", value, reader.copy[3] & MK_STATUS_RESEND ? ", resent" : "");
        transmit(&to_hub, reader.copy, value);
        break;
    case MK_DELIVERED:
        printf("reader: delivered, resends: %zu\n", value);
        delivered = true;
        break;
    case MK_FAILED: // nobody knows whether the hub has it; the next start tells that a message gap is due
        printf("reader: failed, resends: %zu\n", value);
        break;
    default:
        break;
    }
}

static void reader_hears(uint32_t event)
{
    mk_reader_told told = mk_reader_event(&reader, event);
    if (told.answer > 0) // to a command; there is none in this story
        transmit(&to_hub, reader.answer, told.answer);
    reader_brings(told.number, told.value);
}

// Where the start says so, the copy waits until the reader has sent nothing for a message gap, which the hub hears. A
// firmware does the same before its first message after power-up; this hub is just switched on.
static void start(const uint8_t *form, size_t count)
{
    mk_outcome outcome = mk_reader_send(&reader, CODE_TYPE, form, count);
    if (outcome.gap)
        hub_hears(MK_MESSAGE_GAP);
    reader_brings(outcome.number, outcome.value);
}

// No answer came within the response time-out.
static void expire(void)
{
    mk_outcome outcome = mk_reader_expire(&reader);
    reader_brings(outcome.number, outcome.value);
}

// The form of a table, filled up with blanks so that the 8 is alone in the second packet.
static void write_form(uint8_t form[COUNT])
{
    static const char text[] = "CUPPING TABLE 4 / WASHED / ROASTED 12 NOVEMBER";
    static const char end[] = "SAMPLE 8";
    memset(form, ' ', COUNT);
    memcpy(form, text, strlen(text));
    memcpy(form + COUNT - strlen(end), end, strlen(end));
}

int main(void)
{
    uint8_t form[COUNT];
    write_form(form);
    mk_reader_init(&reader);
    mk_hub_init(&hub);

    start(form, COUNT);
    for (int copies = 1; to_hub.count > 0; copies++) {
        carry(&to_hub, hub_hears);
        if (copies == 2) {
            puts("line: the answer is lost");
            to_reader.count = 0;
        }
        bool answered = to_reader.count > 0;
        carry(&to_reader, reader_hears);
        if (!answered)
            expire();
    }
    return delivered ? 0 : 1;
}
