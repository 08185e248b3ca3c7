// Tests of the short way, mk_go_on, through motikhund.h, with garbage in every byte. What it takes and what it leaves
// is judged by the framer's own call on the half that receives. Then hub and reader take the same event on the same
// bytes: where the short way took it they tell nothing, touch no room and leave the same. Both go on from there, one
// by its call alone, one by the short way first: every later event tells the same and leaves the same.
#include "chatter.h"

enum { STARTS = 10000, LATER = 200 };

// What an event is to a framer, in either half: the first seven are taken.
enum {
    FIRST,        // a packet's first byte
    INSIDE,       // a byte inside it
    DEAF_BYTE,    // a byte that is ignored
    DEAF_GAP,     // a gap that ends that
    IDLE_GAP,     // a gap with nothing begun
    BROKEN_FIRST, // the same two with a count that no line has
    BROKEN_GAP,
    BAD_LENGTH, // these are left
    END,
    CUT,
    MESSAGE_GAP,
    NO_EVENT,
    KINDS
};

static size_t kind_of(const uint8_t *control, const uint8_t *half, uint32_t event)
{
    uint64_t count = number_at(control + LINE_COUNT), begun = count < MK_PACKET_SIZE ? count : 0;
    if (event >= MK_MESSAGE_GAP)
        return event == MK_MESSAGE_GAP ? MESSAGE_GAP : NO_EVENT;
    if (control[LINE_DEAF] == 1)
        return event == MK_CHARACTER_GAP ? DEAF_GAP : DEAF_BYTE;
    if (event == MK_CHARACTER_GAP)
        return begun > 0 ? CUT : count > 0 ? BROKEN_GAP : IDLE_GAP;
    size_t length = begun > 0 ? half[0] : event;
    if (length < 4)
        return BAD_LENGTH;
    if (begun > length)
        return END;
    return begun > 0 ? INSIDE : count > 0 ? BROKEN_FIRST : FIRST;
}

// Any bytes, with a count and flags that now and then stand for something.
static void any_control(uint8_t *control)
{
    static const uint8_t flags[] = {0, 0, 1, 1, 2, 0xFF};
    if (below(8) > 0)
        put_number(control + LINE_COUNT, below(4) == 0 ? 255 + below(4) : below(12));
    if (below(8) > 0)
        control[LINE_DEAF] = pick(flags, COUNT(flags));
    if (below(8) > 0)
        control[LINE_SECOND] = pick(flags, COUNT(flags));
}

static uint8_t *receiving_half(const uint8_t *control)
{
    return room.line + (control[LINE_SECOND] == 1 ? MK_PACKET_SIZE : 0);
}

// Bytes begun that are a packet so far, or nearly one.
static void any_begun(uint8_t *half)
{
    if (below(4) > 0)
        half[0] = (uint8_t)(below(4) == 0 ? 253 + below(3) : below(12));
}

static uint32_t any_event(void)
{
    switch (below(8)) {
    case 0:
        return MK_CHARACTER_GAP;
    case 1:
        return MK_MESSAGE_GAP;
    case 2:
        return (uint32_t)draw();
    case 3:
        return (uint32_t)below(8);
    default:
        return any_byte();
    }
}

// The short way on a control value and room.line: whether it took the event.
static bool goes_on(uint8_t *control, uint32_t event, sights *kinds)
{
    uint8_t *half = receiving_half(control);
    size_t kind = kind_of(control, half, event);
    see(kinds, 2 * kind + (control[LINE_SECOND] == 1));
    memcpy(room.framer, control, MK_FRAMER_CONTROL_SIZE);
    memcpy(room.packet, half, MK_PACKET_SIZE);
    uint32_t number =
        mk_framer_hear(room.framer, MK_FRAMER_CONTROL_SIZE, room.packet, MK_PACKET_SIZE, event, room.values);
    remember();
    bool taken = mk_go_on(control, room.line, event);
    CHECK(taken == (kind < BAD_LENGTH) && taken == (number == MK_NOTHING && event <= MK_CHARACTER_GAP));
    if (taken) {
        // Of the framer's bytes the count is written, and the flag where a deaf framer wakes at a gap.
        bool wakes = was(control)[LINE_DEAF] == 1 && event == MK_CHARACTER_GAP;
        memcpy(was(control), room.framer, wakes ? MK_FRAMER_CONTROL_SIZE : LINE_DEAF);
        memcpy(was(half), room.packet, MK_PACKET_SIZE);
    }
    CHECK(nothing_changed());
    return taken;
}

static void saw_all(const sights *kinds)
{
    for (size_t i = 0; i < 2 * KINDS; i++)
        CHECK(kinds->seen[i]);
}

// One machine stands in room, its twin is mk_hub or mk_reader.

static uint32_t room_hub_hears(uint32_t event)
{
    return mk_hub_hear(room.hub, MK_HUB_CONTROL_SIZE, room.line, room.gather, room.hub_answer, MK_HUB_ANSWER_SIZE,
        room.message, MK_MESSAGE_SIZE, event, room.values);
}

static void hubs_hear_alike(uint32_t event)
{
    uint32_t number = room_hub_hears(event);
    mk_hub_told told = mk_hub_event(hub, event);
    CHECK(told.number == number && told.answer == room.values[MK_HUB_VALUE_ANSWER]);
    CHECK(told.code == room.values[MK_HUB_VALUE_CODE] && told.count == room.values[MK_HUB_VALUE_COUNT]);
}

static void test_hub(void)
{
    sights kinds = {{0}};
    twin twins[] = {
        {room.hub, hub->control, sizeof hub->control, hub_flags},
        {room.line, hub->line, sizeof hub->line, NULL},
        {room.gather, hub->gather, sizeof hub->gather, NULL},
        {room.hub_answer, hub->answer, sizeof hub->answer, NULL},
        {room.message, hub->message, sizeof hub->message, NULL},
    };
    for (int i = 0; i < STARTS; i++) {
        chatter talk = {hub_opcodes, COUNT(hub_opcodes), MK_SOURCE_READER, {0}, 0, 0};
        any_start(room.hub, MK_HUB_CONTROL_SIZE, mk_hub_on);
        any_control(room.hub);
        any_begun(receiving_half(room.hub));
        make_twins(twins, COUNT(twins));
        uint32_t event = any_event();
        bool taken = goes_on(room.hub, event, &kinds);
        uint32_t number = mk_hub_hear(hub->control, MK_HUB_CONTROL_SIZE, hub->line, hub->gather, hub->answer,
            MK_HUB_ANSWER_SIZE, hub->message, MK_MESSAGE_SIZE, event, room.values);
        if (taken)
            CHECK(number == MK_NOTHING && room.values[0] == 0 && room.values[1] == 0 && room.values[2] == 0);
        else
            CHECK(room_hub_hears(event) == number);
        CHECK(are_twins(twins, COUNT(twins)));
        for (int j = 0; j < LATER; j++)
            hubs_hear_alike(next_event(&talk));
        CHECK(are_twins(twins, COUNT(twins)) && guards_stand());
    }
    saw_all(&kinds);
}

static uint32_t room_reader_hears(uint32_t event)
{
    return mk_reader_hear(room.reader, MK_READER_CONTROL_SIZE, room.line, room.answers, room.message,
        room.reader_answer, MK_READER_ANSWER_SIZE, room.packet, MK_PACKET_SIZE, event, room.values);
}

static void readers_hear_alike(uint32_t event)
{
    uint32_t number = room_reader_hears(event);
    mk_reader_told told = mk_reader_event(reader, event);
    const size_t *values = room.values;
    CHECK(told.number == number && told.answer == values[MK_READER_VALUE_ANSWER]);
    CHECK(told.beep.duration == values[MK_READER_VALUE_DURATION] && told.beep.pitch == values[MK_READER_VALUE_PITCH]);
    CHECK(told.beep.count == values[MK_READER_VALUE_COUNT] && told.value == values[MK_READER_VALUE_SENT]);
    CHECK(told.permanent == values[MK_READER_VALUE_PERMANENT]);
}

static void test_reader(void)
{
    sights kinds = {{0}};
    twin twins[] = {
        {room.reader, reader->control, sizeof reader->control, reader_flags},
        {room.line, reader->line, sizeof reader->line, NULL},
        {room.answers, reader->answers, sizeof reader->answers, NULL},
        {room.message, reader->message, sizeof reader->message, NULL},
        {room.reader_answer, reader->answer, sizeof reader->answer, NULL},
        {room.packet, reader->copy, sizeof reader->copy, NULL},
    };
    for (int i = 0; i < STARTS; i++) {
        chatter talk = {reader_opcodes, COUNT(reader_opcodes), MK_SOURCE_HOST, {0}, 0, 0};
        any_start(room.reader, MK_READER_CONTROL_SIZE, mk_reader_on);
        any_control(room.reader);
        any_begun(receiving_half(room.reader));
        make_twins(twins, COUNT(twins));
        uint32_t event = any_event();
        bool taken = goes_on(room.reader, event, &kinds);
        memcpy(room.packet, reader->copy, sizeof reader->copy); // it was lent to the framer
        uint32_t number = mk_reader_hear(reader->control, MK_READER_CONTROL_SIZE, reader->line, reader->answers,
            reader->message, reader->answer, MK_READER_ANSWER_SIZE, reader->copy, MK_PACKET_SIZE, event, room.values);
        if (taken) {
            CHECK(number == MK_NOTHING);
            for (size_t value = 0; value < MK_READER_VALUES; value++)
                CHECK(room.values[value] == 0);
        } else {
            CHECK(room_reader_hears(event) == number);
        }
        CHECK(are_twins(twins, COUNT(twins)));
        for (int j = 0; j < LATER; j++)
            readers_hear_alike(next_event(&talk));
        CHECK(are_twins(twins, COUNT(twins)) && guards_stand());
    }
    saw_all(&kinds);
}

// The short functions do go it first: where a call would have put the flags in order, they stay garbage.
static void test_first(void)
{
    const uint8_t byte = 6;
    memset(hub->control, 0xFF, sizeof hub->control);
    memset(hub->control, 0, MK_FRAMER_CONTROL_SIZE);
    memset(reader->control, 0xFF, sizeof reader->control);
    memset(reader->control, 0, MK_FRAMER_CONTROL_SIZE);
    memcpy(room.hub, hub->control, sizeof hub->control);
    memcpy(room.reader, reader->control, sizeof reader->control);
    remember();
    was(hub->control)[LINE_COUNT] = 1;
    was(hub->line)[0] = byte;
    was(reader->control)[LINE_COUNT] = 1;
    was(reader->line)[0] = byte;
    CHECK(mk_hub_event(hub, byte).number == MK_NOTHING && mk_reader_event(reader, byte).number == MK_NOTHING);
    CHECK(nothing_changed());
    CHECK(room_hub_hears(byte) == MK_NOTHING && room.hub[HUB_BARRED] == 0);
    CHECK(room_reader_hears(byte) == MK_NOTHING && room.reader[READER_LOCKS] == 0);
}

static const test tests[] = {
    {"the short way first", test_first},
    {"the hub goes on", test_hub},
    {"the reader goes on", test_reader},
};

int main(void)
{
    return run_tests(tests, COUNT(tests));
}
