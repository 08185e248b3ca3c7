// Tests of blocks, mk_hub_hear_block and mk_hub_block, through motikhund.h. Each block goes to one hub, and its bytes
// one by one to another that has the same control value and buffers, garbage too. All is to be the same afterwards, the
// answers are to stand joined at the front of their room, and as many bytes are to be taken as the rule says, which is
// counted here. Rooms that are too small are in refused.c.
#include "chatter.h"

enum { RUNS = 4000, STRETCHES = 40, STRETCH = 1200, LEAST_ROOM = MK_HUB_ANSWER_SIZE, MOST_ROOM = 60 };

// What a call is lent besides room: an answer room, whose bytes behind the size that is told are a fence too.
static uint8_t *answers;

// The packets of this file besides those in ground.h.
#define MORE_PIECE "06 F3 00 02 1B 38 FE B2" // more follows
#define OTHER_TYPE "06 F3 00 00 1C 38 FE B3"
#define SPOILED "06 F3 00 00 1B 38 FE B5"
#define NO_DATA "04 F3 00 00 FF 09"

// ---- the same bytes one by one

// What is due of a block, by the hub that stands in `hub`.
typedef struct {
    uint32_t number;
    size_t code, count, taken;
    uint8_t answers[EVENTS];
    size_t size;     // of them
    size_t answered; // and how many they are
} outcome;

static void see_answer(outcome *due, const mk_hub_told *told, sights *inside)
{
    memcpy(due->answers + due->size, hub->answer, told->answer);
    due->size += told->answer;
    due->answered++;
    see(inside, told->number);
}

// One byte by the call itself: the short functions go the short way first, which leaves flags as they are.
static mk_hub_told hub_hears(uint8_t byte)
{
    size_t values[MK_HUB_VALUES];
    mk_hub_told told;
    told.number = mk_hub_hear(hub->control, sizeof hub->control, hub->line, hub->gather, hub->answer,
        sizeof hub->answer, hub->message, sizeof hub->message, byte, values);
    told.answer = values[MK_HUB_VALUE_ANSWER];
    told.code = (uint8_t)values[MK_HUB_VALUE_CODE];
    told.count = values[MK_HUB_VALUE_COUNT];
    return told;
}

// Up to a message, or as long as there is room for an answer, whatever the byte would bring.
static outcome one_by_one(const uint8_t *bytes, size_t count, size_t room_size, sights *inside)
{
    outcome due = {0};
    while (due.taken < count && room_size - due.size >= MK_HUB_ANSWER_SIZE && due.number != MK_MESSAGE) {
        mk_hub_told told = hub_hears(bytes[due.taken++]);
        if (told.answer > 0)
            see_answer(&due, &told, inside);
        if (told.number == MK_LENGTH || told.number == MK_CHECKSUM || told.number == MK_MESSAGE)
            due.number = told.number;
        due.code = told.code;
        due.count = told.count;
    }
    return due;
}

// ---- a block and its twin

static twin twins[4];

static void pair_up(void)
{
    const twin pairs[] = {
        {room.hub, hub->control, sizeof hub->control, hub_flags},
        {room.line, hub->line, sizeof hub->line, NULL},
        {room.gather, hub->gather, sizeof hub->gather, NULL},
        {room.message, hub->message, sizeof hub->message, NULL},
    };
    memcpy(twins, pairs, sizeof twins);
    make_twins(twins, COUNT(twins));
}

static uint32_t room_hub_hears(uint32_t event)
{
    return mk_hub_hear(room.hub, MK_HUB_CONTROL_SIZE, room.line, room.gather, room.hub_answer, MK_HUB_ANSWER_SIZE,
        room.message, MK_MESSAGE_SIZE, event, room.values);
}

static uint32_t room_hub_takes(const uint8_t *bytes, size_t count, size_t room_size)
{
    return mk_hub_hear_block(room.hub, MK_HUB_CONTROL_SIZE, room.line, room.gather, answers, room_size, room.message,
        MK_MESSAGE_SIZE, bytes, count, room.values);
}

// Just these values, and in the answer room just these answers.
static bool is_told(const outcome *due)
{
    const size_t *values = room.values;
    return values[MK_BLOCK_VALUE_ANSWER] == due->size && values[MK_BLOCK_VALUE_CODE] == due->code
        && values[MK_BLOCK_VALUE_COUNT] == due->count && values[MK_BLOCK_VALUE_TAKEN] == due->taken
        && memcmp(answers, due->answers, due->size) == 0 && stays(answers, due->size, MOST_ROOM);
}

// Why a call left; and which numbers of answers came, from HOW_MANY on.
enum { AT_END, AT_MESSAGE, BEFORE_MORE, FOR_ROOM, FOR_ROOM_DEAF, LEAVES, HOW_MANY = 100 };

static size_t why_left(const outcome *due, size_t count)
{
    if (due->number == MK_MESSAGE)
        return due->taken == count ? AT_MESSAGE : BEFORE_MORE;
    if (due->taken == count)
        return AT_END;
    return hub->control[LINE_DEAF] == 1 ? FOR_ROOM_DEAF : FOR_ROOM;
}

typedef struct {
    sights told, inside, left;
} seen;

// The front of room.bytes as a block to the hub in room, and one by one to its twin. How many were taken.
static size_t alike(size_t count, size_t room_size, seen *all)
{
    uint8_t bytes[MK_BLOCK_SIZE];
    memcpy(bytes, room.bytes, count);
    remember();
    uint32_t number = room_hub_takes(room.bytes, count, room_size);
    CHECK(stays(room.bytes, 0, MK_BLOCK_SIZE + 1));
    CHECK(stays(room.message, room.values[MK_BLOCK_VALUE_COUNT], MK_MESSAGE_SIZE));
    outcome due = one_by_one(bytes, count, room_size, &all->inside);
    CHECK(number == due.number && is_told(&due));
    CHECK(are_twins(twins, COUNT(twins)) && guards_stand());
    see(&all->told, number);
    see(&all->left, why_left(&due, count));
    see(&all->left, HOW_MANY + due.answered);
    return due.taken;
}

static size_t any_room(void)
{
    return LEAST_ROOM + below(MOST_ROOM - LEAST_ROOM + 1);
}

// How many of the bytes left go into a block: none, one, some, or all of them.
static size_t any_size(size_t left)
{
    switch (below(4)) {
    case 0:
        return 0;
    case 1:
        return 1;
    case 2:
        return below(left + 1);
    default:
        return left;
    }
}

// ---- garbage: any control value, any buffers, then packets in a row, cut anywhere

// Bytes up to a gap, which ends them; most character gaps are passed over, so that packets come in a row.
static size_t next_stretch(chatter *talk, uint8_t *bytes, uint32_t *gap)
{
    size_t count = 0;
    *gap = MK_CHARACTER_GAP;
    while (count < STRETCH) {
        uint32_t event = next_event(talk);
        if (event < MK_CHARACTER_GAP) {
            bytes[count++] = (uint8_t)event;
        } else if (event == MK_MESSAGE_GAP || (event == MK_CHARACTER_GAP && below(4) == 0)) {
            *gap = event;
            break;
        }
    }
    return count;
}

static void cut_anywhere(const uint8_t *bytes, size_t count, seen *all)
{
    for (size_t at = 0; at < count;) {
        size_t size = any_size(count - at);
        memcpy(room.bytes, bytes + at, size);
        at += alike(size, any_room(), all);
    }
}

static void gap_alike(uint32_t gap)
{
    uint32_t number = room_hub_hears(gap);
    CHECK(mk_hub_event(hub, gap).number == number);
    CHECK(are_twins(twins, COUNT(twins)));
}

static void test_garbage(void)
{
    seen all = {0};
    uint8_t bytes[STRETCH];
    uint32_t gap;
    for (int i = 0; i < RUNS; i++) {
        chatter talk = {hub_opcodes, COUNT(hub_opcodes), MK_SOURCE_READER, {0}, 0, 0};
        any_start(room.hub, MK_HUB_CONTROL_SIZE, mk_hub_on);
        pair_up();
        for (int j = 0; j < STRETCHES; j++) {
            size_t count = next_stretch(&talk, bytes, &gap);
            cut_anywhere(bytes, count, &all);
            gap_alike(gap);
        }
    }
    saw(&all.told, (const uint8_t[]){MK_NOTHING, MK_LENGTH, MK_CHECKSUM, MK_MESSAGE}, 4);
    saw(&all.inside, (const uint8_t[]){MK_LENGTH, MK_CHECKSUM, MK_SOURCE, MK_STATUS, MK_OPCODE, MK_DATA, MK_BARRED,
        MK_ADDED, MK_REPEATED, MK_MESSAGE}, 10);
    for (size_t i = 0; i < LEAVES; i++)
        CHECK(all.left.seen[i]);
    for (size_t i = 0; i <= 8; i++)
        CHECK(all.left.seen[HOW_MANY + i]);
}

// Any bytes, behind a control value of any: with a packet begun in either half, deaf, barred, a message begun.
static void test_any_bytes(void)
{
    static const uint16_t sizes[] = {0, 1, 2, 10, 300, MK_BLOCK_SIZE};
    seen all = {0};
    for (int i = 0; i < 4 * RUNS; i++) {
        any_start(room.hub, MK_HUB_CONTROL_SIZE, mk_hub_on);
        if (below(2) == 0)
            put_number(room.hub + LINE_COUNT, below(260));
        pair_up();
        for (size_t at = 0; at < MK_BLOCK_SIZE; at++)
            room.bytes[at] = below(8) == 0 ? any_byte() : (uint8_t)below(12); // small lengths, so that packets end
        alike(sizes[below(COUNT(sizes))], any_room(), &all);
    }
    CHECK(all.told.seen[MK_NOTHING] && all.told.seen[MK_LENGTH] && all.told.seen[MK_CHECKSUM]);
}

// ---- worked by hand: a hub just switched on, and one block

static bool takes(const char *block, size_t room_size, outcome due, const char *answers_due)
{
    fill_ground();
    mk_hub_on(room.hub, MK_HUB_CONTROL_SIZE);
    size_t count = read_bytes(block, room.bytes);
    remember();
    due.size = read_bytes(answers_due, due.answers);
    return room_hub_takes(room.bytes, count, room_size) == due.number && is_told(&due) && guards_stand();
}

static outcome told(uint32_t number, size_t taken)
{
    outcome due = {0};
    due.number = number;
    due.taken = taken;
    return due;
}

static outcome message_of(size_t count, size_t taken)
{
    outcome due = told(MK_MESSAGE, taken);
    due.code = 0x1B;
    due.count = count;
    return due;
}

// An answer is written as long as seven bytes are left before its packet's first byte.
static void test_answers(void)
{
    static const char *const packets[][2] = {{MORE_PIECE, HUB_ACK}, {NO_DATA, HUB_NAK_2}};
    for (size_t kind = 0; kind < COUNT(packets); kind++) {
        uint8_t bytes[EVENTS];
        size_t size = read_bytes(packets[kind][0], bytes), answer = read_bytes(packets[kind][1], bytes);
        for (size_t room_size = LEAST_ROOM; room_size <= MOST_ROOM; room_size++) {
            char block[10 * 32] = "", due[10 * 32] = "";
            size_t fit = (room_size - MK_HUB_ANSWER_SIZE) / answer + 1;
            for (size_t i = 0; i < 10; i++)
                strcat(block, packets[kind][0]);
            for (size_t i = 0; i < fit; i++)
                strcat(due, packets[kind][1]);
            CHECK(fit < 10 && takes(block, room_size, told(MK_NOTHING, fit * size), due));
        }
    }
}

static void test_messages(void)
{
    CHECK(takes(PIECE, MOST_ROOM, message_of(1, 8), HUB_ACK)); // at the last byte
    CHECK(takes(PIECE "03", MOST_ROOM, message_of(1, 8), HUB_ACK));
    CHECK(takes(PIECE PIECE, MOST_ROOM, message_of(1, 8), HUB_ACK));
    CHECK(takes(MORE_PIECE PIECE "06", MOST_ROOM, message_of(2, 16), HUB_ACK HUB_ACK));
    CHECK(takes(MORE_PIECE PIECE "06", 13, message_of(2, 16), HUB_ACK HUB_ACK)); // the room is full too
    CHECK(takes(MORE_PIECE PIECE "06", 12, told(MK_NOTHING, 8), HUB_ACK));
    CHECK(takes(EMPTY_PIECE "05", 7, message_of(0, 7), HUB_ACK));
}

// A deaf framer ignores what follows, but it is taken only where there is room.
static void test_deaf(void)
{
    CHECK(takes("03" PIECE "00 FF", 14, told(MK_LENGTH, 11), HUB_NAK_1));
    CHECK(takes(SPOILED PIECE "00 FF", MOST_ROOM, told(MK_CHECKSUM, 18), HUB_NAK_1));
    CHECK(takes("03" PIECE "00 FF", 13, told(MK_LENGTH, 1), HUB_NAK_1));
    CHECK(takes(SPOILED PIECE "00 FF", 7, told(MK_CHECKSUM, 8), HUB_NAK_1));
    CHECK(takes(MORE_PIECE SPOILED PIECE, 20, told(MK_CHECKSUM, 24), HUB_ACK HUB_NAK_1));
    CHECK(takes(MORE_PIECE SPOILED PIECE, 19, told(MK_CHECKSUM, 16), HUB_ACK HUB_NAK_1));
}

// 1, 2 and a message alone are told: of all else there are answers.
static void test_not_told(void)
{
    CHECK(takes("06 F3 04 00 1B 38 FE B0", 7, told(MK_NOTHING, 8), HUB_NAK_2));
    CHECK(takes("06 F3 00 04 1B 38 FE B0", 7, told(MK_NOTHING, 8), HUB_NAK_2));
    CHECK(takes("05 E6 00 00 01 FF 14", 7, told(MK_NOTHING, 7), HUB_NAK_2));
    CHECK(takes(NO_DATA, 7, told(MK_NOTHING, 6), HUB_NAK_2));
    CHECK(takes(MORE_PIECE "06 F3 00 03 1B 38 FE B1" OTHER_TYPE PIECE, MOST_ROOM, told(MK_NOTHING, 32),
        HUB_ACK HUB_ACK HUB_NAK_6 HUB_NAK_6));
    CHECK(takes(READER_ACK READER_NAK_1, 7, told(MK_NOTHING, 13), "")); // nothing comes of these at all
}

// None, and as many as are allowed: all ignored, or with a message at the last byte.
static void test_sizes(void)
{
    CHECK(takes("", 7, told(MK_NOTHING, 0), ""));
    fill_ground();
    mk_hub_on(room.hub, MK_HUB_CONTROL_SIZE);
    memset(room.bytes, 3, MK_BLOCK_SIZE);
    CHECK(room_hub_takes(room.bytes, MK_BLOCK_SIZE, 14) == MK_LENGTH);
    CHECK(room.values[MK_BLOCK_VALUE_TAKEN] == MK_BLOCK_SIZE);

    size_t count = 0;
    fill_ground();
    mk_hub_on(room.hub, MK_HUB_CONTROL_SIZE);
    while (count < MK_BLOCK_SIZE - 12) // ACKs of six bytes, of which nothing comes; then a packet that fits
        count += read_bytes(READER_ACK, room.bytes + count);
    uint8_t data[MK_DATA_SIZE] = {0x1B};
    size_t left = MK_BLOCK_SIZE - count;
    count += make_packet(room.bytes + count, MK_OPCODE_DECODE_DATA, MK_SOURCE_READER, 0, data, left - 6);
    CHECK(count == MK_BLOCK_SIZE && room_hub_takes(room.bytes, count, 7) == MK_MESSAGE);
    CHECK(room.values[MK_BLOCK_VALUE_TAKEN] == MK_BLOCK_SIZE && room.values[MK_BLOCK_VALUE_COUNT] == left - 7);
    CHECK(reads(answers, room.values[MK_BLOCK_VALUE_ANSWER], HUB_ACK) && guards_stand());
}

// ---- too many bytes (15), with any garbage: not a byte changes; rooms are looked at first

static uint8_t long_block[65536 + 8]; // so long that its size would be small in 16 bits

static void test_long(void)
{
    static const size_t sizes[] = {
        MK_BLOCK_SIZE + 1, MK_BLOCK_SIZE + 2, 2 * MK_BLOCK_SIZE, 65535, 65536, sizeof long_block};
    for (size_t i = 0; i < 50 * COUNT(sizes); i++) {
        size_t size = sizes[i % COUNT(sizes)];
        any_start(room.hub, MK_HUB_CONTROL_SIZE, mk_hub_on);
        remember();
        due_values(MK_BLOCK_VALUES, 0);
        CHECK(room_hub_takes(long_block, size, any_room()) == MK_LONG && nothing_changed());
        CHECK(room_hub_takes(long_block, size, below(LEAST_ROOM)) == MK_ROOM && nothing_changed());
    }
}

// ---- the hub with its buffers

// What a hub brought: its answers and messages in a row, each message with its type and size before it.
typedef struct {
    uint8_t bytes[1 << 17];
    size_t size, messages;
} record;

static record of_events, of_blocks;

static void keep(record *of, const uint8_t *bytes, size_t count)
{
    if (of->size + count > sizeof of->bytes)
        stop("the record is too small");
    memcpy(of->bytes + of->size, bytes, count);
    of->size += count;
}

static void keep_message(record *of, const mk_hub *from, uint8_t code, size_t count)
{
    const uint8_t head[] = {code, (uint8_t)(count >> 8), (uint8_t)count};
    keep(of, head, sizeof head);
    keep(of, from->message, count);
    of->messages++;
}

static void by_events(mk_hub *it, const uint8_t *bytes, size_t count)
{
    for (size_t i = 0; i < count; i++) {
        mk_hub_told told = mk_hub_event(it, bytes[i]);
        keep(&of_events, it->answer, told.answer);
        if (told.number == MK_MESSAGE)
            keep_message(&of_events, it, told.code, told.count);
    }
}

// As the header has it: one answer at most in each call, and a byte at least.
static void by_blocks(mk_hub *it, const uint8_t *bytes, size_t count)
{
    for (size_t at = 0; at < count;) {
        mk_hub_block_told told = mk_hub_block(it, bytes + at, count - at);
        CHECK(told.taken > 0 && told.taken <= count - at && told.taken <= MK_BLOCK_SIZE);
        CHECK(told.answer <= MK_HUB_ANSWER_SIZE && (told.answer > 0 || told.number == MK_NOTHING));
        CHECK(told.number == MK_MESSAGE || (told.code == 0 && told.count == 0));
        if (told.taken == 0)
            return;
        keep(&of_blocks, it->answer, told.answer);
        if (told.number == MK_MESSAGE)
            keep_message(&of_blocks, it, told.code, told.count);
        at += told.taken;
    }
}

static bool brought_alike(void)
{
    return of_events.size == of_blocks.size && memcmp(of_events.bytes, of_blocks.bytes, of_events.size) == 0;
}

static mk_hub other;

// One hub by events, one by blocks, cut anywhere or not at all: all that they brought is the same, and every byte of
// them.
static void test_hub(void)
{
    static uint8_t bytes[STRETCH];
    uint32_t gap;
    of_events.messages = of_blocks.messages = 0;
    for (int i = 0; i < RUNS; i++) {
        chatter talk = {hub_opcodes, COUNT(hub_opcodes), MK_SOURCE_READER, {0}, 0, 0};
        mk_hub_init(hub);
        other = *hub;
        for (int j = 0; j < STRETCHES; j++) {
            size_t count = next_stretch(&talk, bytes, &gap);
            of_events.size = of_blocks.size = 0;
            by_events(&other, bytes, count);
            for (size_t at = 0, size; at < count; at += size) {
                size = below(2) == 0 ? any_size(count - at) : count - at;
                by_blocks(hub, bytes + at, size);
            }
            CHECK(brought_alike());
            CHECK(mk_hub_event(hub, gap).number == mk_hub_event(&other, gap).number);
            CHECK(memcmp(hub, &other, sizeof other) == 0);
        }
    }
    CHECK(of_events.messages > RUNS && of_events.messages == of_blocks.messages);
}

// More than a block has is cut: nothing is refused. Packets of seven and of eight bytes, so that few end with a block.
static void test_any_number(void)
{
    static const size_t sizes[] = {0, 1, MK_BLOCK_SIZE, MK_BLOCK_SIZE + 1, 2 * MK_BLOCK_SIZE, sizeof long_block};
    uint8_t packet[EVENTS];
    size_t size = 0;
    for (size_t at = 0, count = 0; at < sizeof long_block; at++) {
        if (count == size) {
            size = read_bytes(at % 3 == 0 ? PIECE : at % 3 == 1 ? EMPTY_PIECE : MORE_PIECE, packet);
            count = 0;
        }
        long_block[at] = packet[count++];
    }
    for (size_t i = 0; i < COUNT(sizes); i++) {
        mk_hub_init(hub);
        other = *hub;
        of_events.size = of_blocks.size = 0;
        by_events(&other, long_block, sizes[i]);
        by_blocks(hub, long_block, sizes[i]);
        CHECK(brought_alike());
        CHECK(memcmp(hub, &other, sizeof other) == 0);
    }
    memset(long_block, 3, sizeof long_block);
    mk_hub_init(hub);
    mk_hub_block_told told = mk_hub_block(hub, long_block, sizeof long_block);
    CHECK(told.number == MK_LENGTH && told.taken == 1 && reads(hub->answer, told.answer, HUB_NAK_1));
    told = mk_hub_block(hub, long_block, sizeof long_block);
    CHECK(told.number == MK_NOTHING && told.taken == MK_BLOCK_SIZE && told.answer == 0);
    told = mk_hub_block(hub, long_block, 0);
    CHECK(told.number == MK_NOTHING && told.taken == 0 && told.answer == 0 && guards_stand());
}

static const test tests[] = {
    {"blocks of garbage", test_garbage},
    {"blocks of any bytes", test_any_bytes},
    {"room for so many answers", test_answers},
    {"a message ends a block", test_messages},
    {"a deaf framer eats the rest", test_deaf},
    {"what is not told", test_not_told},
    {"no bytes, and as many as are allowed", test_sizes},
    {"too many bytes", test_long},
    {"a hub by blocks", test_hub},
    {"any number of bytes", test_any_number},
};

int main(void)
{
    answers = lend(MOST_ROOM);
    return run_tests(tests, COUNT(tests));
}
