// What the tests share: checks, a seeded generator, lent buffers with guards between them, bytes and events in text,
// packets, and the machines under test. Everything is static, so each test program has its own.
#ifndef GROUND_H
#define GROUND_H

#include <ctype.h>
#include <stdio.h>
#include <stdlib.h>
#include <string.h>

#include "motikhund.h"

#define COUNT(array) (sizeof(array) / sizeof *(array))

// ---- checks

static const char *testing;
static unsigned long checks, failures;

static inline void check(bool holds, const char *text, const char *file, int line)
{
    checks++;
    if (holds)
        return;
    failures++;
    if (failures <= 20)
        fprintf(stderr, "%s:%d: %s: not so: %s\n", file, line, testing, text);
}

#define CHECK(truth) check((truth), #truth, __FILE__, __LINE__)

static inline void stop(const char *why)
{
    fprintf(stderr, "%s\n", why);
    exit(1);
}

// ---- the generator

static uint64_t seed = 88;

static inline uint64_t draw(void)
{
    seed ^= seed << 13;
    seed ^= seed >> 7;
    seed ^= seed << 17;
    return seed * 0x2545F4914F6CDD1D;
}

static inline size_t below(size_t limit)
{
    return (size_t)(draw() >> 32) % limit;
}

static inline uint8_t any_byte(void)
{
    return (uint8_t)below(256);
}

static inline uint8_t pick(const uint8_t *from, size_t count)
{
    return from[below(count)];
}

// ---- what is lent: buffers on one ground, with guards between them

enum { GROUND = 1 << 16, GUARD = 64, LENT = 24 };

static _Alignas(size_t) uint8_t ground[GROUND];
static uint8_t before[GROUND]; // the ground as it was, or as it is due
static struct {
    size_t from, to;
} lent[LENT];
static size_t lents;

static inline size_t ground_end(void)
{
    return (lents == 0 ? 0 : lent[lents - 1].to) + GUARD;
}

static inline void *lend(size_t size)
{
    size_t from = (ground_end() + 7) / 8 * 8;
    if (lents == LENT || from + size + 2 * GUARD > GROUND)
        stop("the ground is too small");
    lent[lents].from = from;
    lent[lents].to = from + size;
    lents++;
    return ground + from;
}

// From here on the ground is compared with what it is now.
static inline void remember(void)
{
    memcpy(before, ground, ground_end());
}

// Any bytes everywhere, in the guards too.
static inline void fill_ground(void)
{
    for (size_t i = 0; i < ground_end(); i += sizeof seed) {
        uint64_t bytes = draw();
        memcpy(ground + i, &bytes, sizeof bytes);
    }
    remember();
}

static inline bool guards_stand(void)
{
    size_t at = 0;
    for (size_t i = 0; i < lents; i++) {
        if (memcmp(ground + at, before + at, lent[i].from - at) != 0)
            return false;
        at = lent[i].to;
    }
    return memcmp(ground + at, before + at, GUARD) == 0;
}

// What stood where a lent buffer is.
static inline uint8_t *was(const void *buffer)
{
    return before + ((const uint8_t *)buffer - ground);
}

// A lent buffer is as it was behind its first bytes, which are no more than it has.
static inline bool stays(const uint8_t *buffer, size_t written, size_t size)
{
    return written <= size && memcmp(buffer + written, was(buffer) + written, size - written) == 0;
}

static inline bool nothing_changed(void)
{
    return memcmp(ground, before, ground_end()) == 0;
}

// ---- bytes and events in text: two hex digits a byte, `.` a character gap, `/` a message gap

enum { EVENTS = 1024 };

static inline size_t read_events(const char *text, uint32_t events[EVENTS])
{
    size_t count = 0;
    for (; *text != 0 && count < EVENTS; text++) {
        unsigned value;
        if (*text == '.') {
            events[count++] = MK_CHARACTER_GAP;
        } else if (*text == '/') {
            events[count++] = MK_MESSAGE_GAP;
        } else if (isxdigit((unsigned char)*text) && sscanf(text++, "%2x", &value) == 1) {
            events[count++] = value;
        }
    }
    return count;
}

static inline size_t read_bytes(const char *text, uint8_t bytes[EVENTS])
{
    uint32_t events[EVENTS];
    size_t count = read_events(text, events);
    for (size_t i = 0; i < count; i++)
        bytes[i] = (uint8_t)events[i];
    return count;
}

static inline bool reads(const uint8_t *bytes, size_t size, const char *text)
{
    uint8_t wanted[EVENTS];
    return size == read_bytes(text, wanted) && memcmp(bytes, wanted, size) == 0;
}

// ---- packets made here, not by the archive

static inline size_t seal(uint8_t *packet)
{
    size_t length = packet[0], checksum = 65536;
    for (size_t i = 0; i < length; i++)
        checksum -= packet[i];
    packet[length] = (uint8_t)(checksum >> 8);
    packet[length + 1] = (uint8_t)checksum;
    return length + 2;
}

static inline size_t make_packet(
    uint8_t *packet, uint8_t opcode, uint8_t source, uint8_t status, const uint8_t *data, size_t count)
{
    packet[0] = (uint8_t)(4 + count);
    packet[1] = opcode;
    packet[2] = source;
    packet[3] = status;
    memcpy(packet + 4, data, count);
    return seal(packet);
}

// ---- control values

// Where their parts stand (crates/motikhund/specs/Control.antt). A number has eight bytes, low byte first. Who changes
// this raises the minor number of MK_VERSION.
enum {
    LINE_COUNT = 0, // of framer, hub and reader: the bytes of the packet begun
    LINE_DEAF = 8,
    LINE_SECOND = 9, // of hub and reader: whether the second half receives
    LINE_LAST = 10,  // and the length of the last accepted packet
    HUB_BARRED = 18,
    HUB_BEGUN = 19, // then code type and count
    HUB_CODE = 20,
    HUB_COUNT = 21,
    READER_ANSWERED = 18,
    READER_PRESENT = 26, // the nine values, in the order of their numbers
    READER_ACK_NAK = 32, // the present value of 9Fh
    READER_PERMANENT = 35,
    READER_LOCKS = 44, // a flag for each of the nine
    READER_SWITCHES = 53,
    READER_SENDER = 57,
    SENDER_OUT = 0,
    SENDER_CODE = 1,
    SENDER_FAILED = 2,
    SENDER_DELIVERED = 3, // the last packet of the message before stands in the buffer
    SENDER_LENGTH = 4,
    SENDER_AT = 12,   // where the present piece starts, or that last one
    SENDER_SIZE = 20, // and how many bytes it has; then resends and marked copies
    NUMBER = 8
};

// The flags behind the framer's bytes; 0 ends them.
static const uint8_t hub_flags[] = {LINE_DEAF, LINE_SECOND, HUB_BARRED, HUB_BEGUN, 0};
static const uint8_t reader_flags[] = {LINE_DEAF, LINE_SECOND, READER_LOCKS, READER_LOCKS + 1, READER_LOCKS + 2,
    READER_LOCKS + 3, READER_LOCKS + 4, READER_LOCKS + 5, READER_LOCKS + 6, READER_LOCKS + 7, READER_LOCKS + 8,
    READER_SWITCHES, READER_SWITCHES + 1, READER_SWITCHES + 2, READER_SWITCHES + 3, READER_SENDER + SENDER_OUT,
    READER_SENDER + SENDER_FAILED, READER_SENDER + SENDER_DELIVERED, 0};

static inline uint64_t number_at(const uint8_t *at)
{
    uint64_t number = 0;
    for (size_t i = 0; i < NUMBER; i++)
        number |= (uint64_t)at[i] << 8 * i;
    return number;
}

static inline void put_number(uint8_t *at, uint64_t number)
{
    for (size_t i = 0; i < NUMBER; i++)
        at[i] = (uint8_t)(number >> 8 * i);
}

// A flag that is not 1 is not set.
static inline void due_flags(uint8_t *control, const uint8_t *flags)
{
    for (; *flags != 0; flags++)
        control[*flags] = control[*flags] == 1;
}

// ---- under test: buffers for the archive's calls, and the machines

static struct {
    uint8_t *framer, *hub, *sender, *reader; // control values
    uint8_t *packet, *line, *gather, *message, *answer, *hub_answer, *answers, *reader_answer, *set, *bytes;
    size_t *values;
    mk_table *table;
} room;
static mk_framer *framer;
static mk_hub *hub;
static mk_sender *sender;
static mk_reader *reader;
static uint8_t message[MK_MESSAGE_SIZE + 1];

static inline void lay_ground(void)
{
    room.framer = lend(MK_FRAMER_CONTROL_SIZE);
    room.hub = lend(MK_HUB_CONTROL_SIZE);
    room.sender = lend(MK_SENDER_CONTROL_SIZE);
    room.reader = lend(MK_READER_CONTROL_SIZE);
    room.packet = lend(MK_PACKET_SIZE);
    room.line = lend(MK_LINE_SIZE);
    room.gather = lend(MK_MESSAGE_SIZE);
    room.message = lend(MK_MESSAGE_SIZE);
    room.answer = lend(MK_ANSWER_SIZE);
    room.hub_answer = lend(MK_HUB_ANSWER_SIZE);
    room.answers = lend(MK_READER_ANSWER_SIZE);
    room.reader_answer = lend(MK_READER_ANSWER_SIZE);
    room.set = lend(MK_SET_SIZE);
    room.bytes = lend(sizeof message);
    room.values = lend(MK_READER_VALUES * sizeof *room.values);
    room.table = lend(sizeof *room.table);
    framer = lend(sizeof *framer);
    hub = lend(sizeof *hub);
    sender = lend(sizeof *sender);
    reader = lend(sizeof *reader);
}

// What is due is written over what is remembered: so many values are told, the first one, and 0 for the others.
static inline void due_values(size_t count, size_t first)
{
    size_t values[MK_READER_VALUES] = {first};
    memcpy(was(room.values), values, count * sizeof *values);
}

static inline void fresh_machines(void)
{
    fill_ground();
    mk_framer_init(framer);
    mk_hub_init(hub);
    mk_sender_init(sender);
    mk_reader_init(reader);
    memcpy(message, room.bytes, sizeof message);
}

// What the last event brings; those before it bring nothing.
static inline mk_hub_told hub_takes(const char *text)
{
    uint32_t events[EVENTS];
    size_t count = read_events(text, events);
    mk_hub_told told = {MK_NOTHING, 0, 0, 0};
    for (size_t i = 0; i < count; i++) {
        CHECK(told.number == MK_NOTHING && told.answer == 0);
        told = mk_hub_event(hub, events[i]);
    }
    return told;
}

static inline mk_reader_told reader_takes(const char *text)
{
    uint32_t events[EVENTS];
    size_t count = read_events(text, events);
    mk_reader_told told = {MK_NOTHING, 0, {0, 0, 0}, false, 0};
    for (size_t i = 0; i < count; i++) {
        CHECK(told.number == MK_NOTHING && told.answer == 0);
        told = mk_reader_event(reader, events[i]);
    }
    return told;
}

// What a packet brings at its last byte; its other bytes and the gap behind it bring nothing.
static inline mk_hub_told hub_gets(const uint8_t *packet, size_t size)
{
    mk_hub_told told = {MK_NOTHING, 0, 0, 0};
    CHECK(size <= MK_PACKET_SIZE);
    for (size_t i = 0; i < size && i < MK_PACKET_SIZE; i++) {
        CHECK(told.number == MK_NOTHING && told.answer == 0);
        told = mk_hub_event(hub, packet[i]);
    }
    CHECK(mk_hub_event(hub, MK_CHARACTER_GAP).number == MK_NOTHING);
    return told;
}

static inline mk_reader_told reader_gets(const uint8_t *packet, size_t size)
{
    mk_reader_told told = {MK_NOTHING, 0, {0, 0, 0}, false, 0};
    CHECK(size <= MK_PACKET_SIZE);
    for (size_t i = 0; i < size && i < MK_PACKET_SIZE; i++) {
        CHECK(told.number == MK_NOTHING && told.answer == 0);
        told = mk_reader_event(reader, packet[i]);
    }
    CHECK(mk_reader_event(reader, MK_CHARACTER_GAP).number == MK_NOTHING);
    return told;
}

static inline mk_reader_told command(uint8_t opcode, uint8_t status, const uint8_t *data, size_t count)
{
    uint8_t packet[MK_PACKET_SIZE];
    return reader_gets(packet, make_packet(packet, opcode, MK_SOURCE_HOST, status, data, count));
}

#define HUB_ACK "04 D0 04 00 FF 28"
#define HUB_NAK_1 "05 D1 04 00 01 FF 25"
#define HUB_NAK_2 "05 D1 04 00 02 FF 24"
#define HUB_NAK_6 "05 D1 04 00 06 FF 20"
#define READER_ACK "04 D0 00 00 FF 2C"
#define READER_NAK_1 "05 D1 00 00 01 FF 29"
#define READER_NAK_2 "05 D1 00 00 02 FF 28"
#define READER_NAK_6 "05 D1 00 00 06 FF 24"
#define PIECE "06 F3 00 00 1B 38 FE B4"
#define MARKED_PIECE "06 F3 00 01 1B 38 FE B3"
#define EMPTY_PIECE "05 F3 00 00 1B FE ED"
#define HOUSE_SET "01 09 80 00 89 0A 8A 00 9B 14 9C 06 9E 04 9F 01 ED 00 EE 01 00" // the house defaults, none locked

static inline bool hub_said(mk_hub_told told, uint32_t number, const char *answer)
{
    return told.number == number && reads(hub->answer, told.answer, answer);
}

static inline bool reader_said(mk_reader_told told, uint32_t number, const char *answer)
{
    return told.number == number && reads(reader->answer, told.answer, answer);
}

// With no message gap due before it.
static inline bool brought(mk_outcome outcome, uint32_t number, size_t value)
{
    return outcome.number == number && !outcome.gap && outcome.value == value;
}

// A start: a copy of so many bytes, with a message gap due before it or not.
static inline bool started(mk_outcome outcome, size_t value, bool gap)
{
    return outcome.number == MK_COPY && outcome.gap == gap && outcome.value == value;
}

// What the reader's sender brought at an event: the same numbers, and no answer.
static inline mk_outcome of_sender(mk_reader_told told)
{
    mk_outcome outcome = {told.number, false, told.value};
    CHECK(told.answer == 0 && told.beep.count == 0);
    return outcome;
}

// ---- the parameters

// Parameter, lowest, highest, house default.
static const uint8_t settings[][4] = {
    {MK_PARAMETER_POWER_MODE, MK_POWER_CONTINUOUS, MK_POWER_LOW, MK_POWER_CONTINUOUS},
    {MK_PARAMETER_SAME_SYMBOL_TIME, 0, 99, 10},
    {MK_PARAMETER_TRIGGER, MK_TRIGGER_LEVEL, MK_TRIGGER_HOST, MK_TRIGGER_LEVEL},
    {MK_PARAMETER_RESPONSE_TIME_OUT, 0, 99, 20},
    {MK_PARAMETER_BAUD, MK_BAUD_300, MK_BAUD_19200, MK_BAUD_9600},
    {MK_PARAMETER_PARITY, MK_PARITY_ODD, MK_PARITY_NONE, MK_PARITY_NONE},
    {MK_PARAMETER_ACK_NAK, MK_ACK_NAK_OFF, MK_ACK_NAK_ON, MK_ACK_NAK_ON},
    {MK_PARAMETER_AIM_DURATION, 0, 99, 0},
    {MK_PARAMETER_PACKETED_DATA, MK_DATA_RAW, MK_DATA_PACKETED, MK_DATA_PACKETED},
};

static inline bool is_allowed(size_t row, unsigned value)
{
    if (settings[row][0] == MK_PARAMETER_TRIGGER)
        return value == MK_TRIGGER_LEVEL || value == MK_TRIGGER_PULSE || value == MK_TRIGGER_CONTINUOUS
            || value == MK_TRIGGER_BLINKING || value == MK_TRIGGER_HOST;
    return value >= settings[row][1] && value <= settings[row][2];
}

// A PARAM_SEND of one pair: what it brings.
static inline uint32_t set(uint8_t status, uint8_t number, unsigned value)
{
    uint8_t data[] = {0xFF, number, (uint8_t)value};
    return command(MK_OPCODE_PARAM_SEND, status, data, sizeof data).number;
}

// ---- all tests of a program

typedef struct {
    const char *name;
    void (*run)(void);
} test;

// Each on fresh machines. The program's status.
static inline int run_tests(const test *tests, size_t count)
{
    lay_ground();
    for (size_t i = 0; i < count; i++) {
        testing = tests[i].name;
        fresh_machines();
        tests[i].run();
        CHECK(guards_stand());
    }
    if (failures > 0)
        fprintf(stderr, "c: %lu failures\n", failures);
    printf("c: %lu checks\n", checks);
    return failures > 0;
}

#endif
