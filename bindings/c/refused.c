// Tests of all that is refused, through motikhund.h: which refusal, its answer, and every lent byte afterwards.
// On 11 to 15 no lent byte changes but the values told, which are 0 (12 is in sets.c, 15 in blocks.c), nor does one on 7
// and 9 of a table (tables.c). On 1 to 10 of an event these change and no other: the values, the answer at the front of
// its room, the byte that came in its place in the line, and the control value as the rules have it (docs/PROTOCOL.md
// §6).
#include "ground.h"

// ---- the ground before a call: garbage of several kinds everywhere

enum { ANY = 256 };

static const unsigned fills[] = {0x00, 0x01, 0x02, 0xAA, 0xFF, ANY, ANY, ANY};

static void fill_with(unsigned fill)
{
    fill_ground();
    if (fill != ANY)
        memset(ground, (int)fill, ground_end());
    remember();
}

static void name_case(const char *call, uint32_t number, unsigned fill)
{
    static char name[64];
    snprintf(name, sizeof name, "%s: refusal %u, garbage %02X", call, (unsigned)number, fill);
    testing = name;
}

// ---- rooms (13): whatever is lent too small

static uint32_t room_event;

static uint32_t build_in(const size_t *size)
{
    return mk_build(room.packet, size[0], MK_OPCODE_BEEP, MK_SOURCE_HOST, 0, room.bytes, 1, room.values);
}

static uint32_t answer_in(const size_t *size)
{
    return mk_answer(room.answer, size[0], MK_SOURCE_HOST, room_event, room.values);
}

static uint32_t framer_idle_in(const size_t *size)
{
    return mk_framer_idle(room.framer, size[0]);
}

static uint32_t framer_hear_in(const size_t *size)
{
    return mk_framer_hear(room.framer, size[0], room.packet, size[1], room_event, room.values);
}

static uint32_t hub_on_in(const size_t *size)
{
    return mk_hub_on(room.hub, size[0]);
}

static uint32_t hub_hear_in(const size_t *size)
{
    return mk_hub_hear(room.hub, size[0], room.line, room.gather, room.hub_answer, size[1], room.message, size[2],
        room_event, room.values);
}

// Of no bytes, of some, of as many as are allowed, and of one more: the rooms are looked at first.
static uint32_t hub_hear_block_in(const size_t *size)
{
    static const uint16_t counts[] = {0, 1, 300, MK_BLOCK_SIZE, MK_BLOCK_SIZE + 1};
    return mk_hub_hear_block(room.hub, size[0], room.line, room.gather, room.hub_answer, size[1], room.message, size[2],
        room.bytes, counts[room_event % COUNT(counts)], room.values);
}

static uint32_t sender_idle_in(const size_t *size)
{
    return mk_sender_idle(room.sender, size[0], true);
}

static uint32_t sender_start_in(const size_t *size)
{
    return mk_sender_start(room.sender, size[0], room.message, room.packet, size[1], 0x1B, room.bytes, 1, room.values);
}

static uint32_t sender_hear_in(const size_t *size)
{
    return mk_sender_hear(room.sender, size[0], room.message, room.packet, size[1], room_event, room.values);
}

static uint32_t sender_waits_in(const size_t *size)
{
    return mk_sender_waits(room.sender, size[0]);
}

static uint32_t reader_on_in(const size_t *size)
{
    return mk_reader_on(room.reader, size[0]);
}

static uint32_t reader_power_up_in(const size_t *size)
{
    return mk_reader_power_up(room.reader, size[0]);
}

static uint32_t reader_start_in(const size_t *size)
{
    return mk_reader_start(room.reader, size[0], room.message, room.packet, size[1], 0x1B, room.bytes, 1, room.values);
}

static uint32_t reader_time_out_in(const size_t *size)
{
    return mk_reader_time_out(room.reader, size[0], room.message, room.packet, size[1], room.values);
}

static uint32_t reader_hear_in(const size_t *size)
{
    return mk_reader_hear(room.reader, size[0], room.line, room.answers, room.message, room.reader_answer, size[1],
        room.packet, size[2], room_event, room.values);
}

static uint32_t reader_save_in(const size_t *size)
{
    return mk_reader_save(room.reader, size[0], room.set, size[1], room.values);
}

// The form is right, as it is judged before the room.
static uint32_t reader_load_in(const size_t *size)
{
    uint8_t form[EVENTS];
    size_t count = read_bytes(HOUSE_SET, form);
    return mk_reader_load(room.reader, size[0], form, count);
}

static uint32_t reader_locked_in(const size_t *size)
{
    return mk_reader_locked(room.reader, size[0], MK_PARAMETER_BAUD, room.values);
}

static uint32_t reader_value_in(const size_t *size)
{
    return mk_reader_value(room.reader, size[0], MK_PARAMETER_BAUD, room.values);
}

static uint32_t reader_switches_in(const size_t *size)
{
    return mk_reader_switches(room.reader, size[0], room.values);
}

static uint32_t reader_table_in(const size_t *size)
{
    return mk_reader_table(room.reader, size[0], room.table);
}

// Most of what stands in the table is not allowed: the control value's size is looked at before.
static uint32_t reader_put_table_in(const size_t *size)
{
    return mk_reader_put_table(room.reader, size[0], room.table);
}

// A call, the sizes that it asks for, and how many numbers it tells.
typedef struct {
    const char *name;
    uint32_t (*call)(const size_t *size);
    size_t need[3];
    size_t values;
} asking;

static const asking askings[] = {
    {"mk_build", build_in, {MK_PACKET_SIZE, 0, 0}, 1},
    {"mk_answer", answer_in, {MK_ANSWER_SIZE, 0, 0}, 1},
    {"mk_framer_idle", framer_idle_in, {MK_FRAMER_CONTROL_SIZE, 0, 0}, 0},
    {"mk_framer_hear", framer_hear_in, {MK_FRAMER_CONTROL_SIZE, MK_PACKET_SIZE, 0}, MK_HEAD_VALUES},
    {"mk_hub_on", hub_on_in, {MK_HUB_CONTROL_SIZE, 0, 0}, 0},
    {"mk_hub_hear", hub_hear_in, {MK_HUB_CONTROL_SIZE, MK_HUB_ANSWER_SIZE, MK_MESSAGE_SIZE}, MK_HUB_VALUES},
    {"mk_hub_hear_block", hub_hear_block_in, {MK_HUB_CONTROL_SIZE, MK_HUB_ANSWER_SIZE, MK_MESSAGE_SIZE},
        MK_BLOCK_VALUES},
    {"mk_sender_idle", sender_idle_in, {MK_SENDER_CONTROL_SIZE, 0, 0}, 0},
    {"mk_sender_start", sender_start_in, {MK_SENDER_CONTROL_SIZE, MK_PACKET_SIZE, 0}, MK_START_VALUES},
    {"mk_sender_hear", sender_hear_in, {MK_SENDER_CONTROL_SIZE, MK_PACKET_SIZE, 0}, 1},
    {"mk_sender_waits", sender_waits_in, {MK_SENDER_CONTROL_SIZE, 0, 0}, 0},
    {"mk_reader_on", reader_on_in, {MK_READER_CONTROL_SIZE, 0, 0}, 0},
    {"mk_reader_power_up", reader_power_up_in, {MK_READER_CONTROL_SIZE, 0, 0}, 0},
    {"mk_reader_start", reader_start_in, {MK_READER_CONTROL_SIZE, MK_PACKET_SIZE, 0}, MK_START_VALUES},
    {"mk_reader_time_out", reader_time_out_in, {MK_READER_CONTROL_SIZE, MK_PACKET_SIZE, 0}, 1},
    {"mk_reader_hear", reader_hear_in, {MK_READER_CONTROL_SIZE, MK_READER_ANSWER_SIZE, MK_PACKET_SIZE},
        MK_READER_VALUES},
    {"mk_reader_save", reader_save_in, {MK_READER_CONTROL_SIZE, MK_SET_SIZE, 0}, 1},
    {"mk_reader_load", reader_load_in, {MK_READER_CONTROL_SIZE, 0, 0}, 0},
    {"mk_reader_locked", reader_locked_in, {MK_READER_CONTROL_SIZE, 0, 0}, 1},
    {"mk_reader_value", reader_value_in, {MK_READER_CONTROL_SIZE, 0, 0}, 1},
    {"mk_reader_switches", reader_switches_in, {MK_READER_CONTROL_SIZE, 0, 0}, MK_SWITCH_VALUES},
    {"mk_reader_table", reader_table_in, {MK_READER_CONTROL_SIZE, 0, 0}, 0},
    {"mk_reader_put_table", reader_put_table_in, {MK_READER_CONTROL_SIZE, 0, 0}, 0},
};

static void room_refused(const asking *asked, size_t which, size_t size)
{
    size_t sizes[3];
    memcpy(sizes, asked->need, sizeof sizes);
    sizes[which] = size;
    room_event = (uint32_t)below(258);
    memset(room.values, 0x5A, asked->values * sizeof *room.values);
    CHECK(asked->call(sizes) == MK_ROOM);
    CHECK(nothing_changed());
}

// Every size that is too small, of everything that a call asks for.
static void test_rooms(void)
{
    for (size_t i = 0; i < COUNT(askings); i++) {
        for (size_t fill = 0; fill < COUNT(fills); fill++) {
            name_case(askings[i].name, MK_ROOM, fills[fill]);
            fill_with(fills[fill]);
            due_values(askings[i].values, 0);
            for (size_t which = 0; which < 3; which++)
                for (size_t size = 0; size < askings[i].need[which]; size++)
                    room_refused(&askings[i], which, size);
            CHECK(askings[i].call(askings[i].need) != MK_ROOM);
        }
    }
}

// ---- the packet's calls (1 to 5 and 7): nothing is written

static const struct {
    uint32_t number;
    const char *bytes;
} check_cases[] = {
    {MK_CUT, ""},
    {MK_LENGTH, "03"},
    {MK_LENGTH, "00 D0 04 00 FF 28"},
    {MK_CUT, "04"},
    {MK_CUT, "04 D0 04 00 FF"},
    {MK_CHECKSUM, "04 D0 04 00 FF 29"},
};

static const struct {
    uint32_t number;
    uint8_t source, status;
    size_t count;
} build_cases[] = {
    {MK_SOURCE, 1, 4, MK_DATA_SIZE + 1},
    {MK_STATUS, MK_SOURCE_READER, 4, MK_DATA_SIZE + 1},
    {MK_STATUS, MK_SOURCE_HOST, MK_STATUS_MORE, 1},
    {MK_DATA, MK_SOURCE_HOST, MK_STATUS_RESEND, MK_DATA_SIZE + 1},
};

static void test_packet_refusals(void)
{
    for (size_t fill = 0; fill < COUNT(fills); fill++) {
        for (size_t i = 0; i < COUNT(check_cases); i++) {
            name_case("mk_check", check_cases[i].number, fills[fill]);
            fill_with(fills[fill]);
            size_t count = read_bytes(check_cases[i].bytes, room.bytes);
            remember();
            due_values(MK_HEAD_VALUES, 0);
            CHECK(mk_check(room.bytes, count, room.values) == check_cases[i].number);
            CHECK(nothing_changed());
        }
        for (size_t i = 0; i < COUNT(build_cases); i++) {
            name_case("mk_build", build_cases[i].number, fills[fill]);
            fill_with(fills[fill]);
            due_values(1, 0);
            CHECK(mk_build(room.packet, MK_PACKET_SIZE, MK_OPCODE_BEEP, build_cases[i].source, build_cases[i].status,
                      room.bytes, build_cases[i].count, room.values)
                == build_cases[i].number);
            CHECK(nothing_changed());
        }
        name_case("mk_answer", MK_SOURCE, fills[fill]);
        fill_with(fills[fill]);
        due_values(1, 0);
        CHECK(mk_answer(room.answer, MK_ANSWER_SIZE, 1, MK_REPLY_ACK, room.values) == MK_SOURCE);
        CHECK(nothing_changed());
    }
}

// ---- control values

static void set_barred(uint8_t *control)
{
    control[HUB_BARRED] = 1;
}

static void set_other_type(uint8_t *control)
{
    control[HUB_BEGUN] = 1;
    control[HUB_CODE] = 0x1C;
}

static void set_full(uint8_t *control)
{
    control[HUB_BEGUN] = 1;
    control[HUB_CODE] = 0x1B;
    put_number(control + HUB_COUNT, MK_MESSAGE_SIZE);
}

static void set_locked(uint8_t *control)
{
    control[READER_LOCKS + 2] = 1; // 8Ah is the third
}

// A message of one byte is out, not yet resent.
static void set_out(uint8_t *control)
{
    control[SENDER_OUT] = 1;
    memset(control + SENDER_LENGTH, 0, 5 * NUMBER);
    put_number(control + SENDER_LENGTH, 1);
    put_number(control + SENDER_SIZE, 1);
}

// A number over its limit is 0.
static void due_number(uint8_t *at, uint64_t most)
{
    uint64_t number = number_at(at);
    put_number(at, number <= most ? number : 0);
}

// 1 to 10 end the packet begun, 1 and 2 make the framer deaf.
static void due_framer(uint8_t *control, uint32_t number)
{
    put_number(control + LINE_COUNT, 0);
    control[LINE_DEAF] = number == MK_LENGTH || number == MK_CHECKSUM;
}

// What was gathered is put in order where the framer tells something; 10 bars the hub, and then nothing is gathered.
// A message gap clears everything.
static void due_hub(uint8_t *control, uint32_t number, uint32_t event)
{
    due_framer(control, number);
    due_flags(control, hub_flags);
    if (number == MK_BARRED)
        control[HUB_BARRED] = 1;
    if (control[HUB_BEGUN] != 1 || number == MK_BARRED)
        memset(control + HUB_BEGUN, 0, MK_HUB_CONTROL_SIZE - HUB_BEGUN);
    due_number(control + HUB_COUNT, MK_MESSAGE_SIZE);
    if (event == MK_MESSAGE_GAP)
        memset(control, 0, MK_HUB_CONTROL_SIZE);
}

static void due_reader(uint8_t *control, uint32_t number)
{
    due_framer(control, number);
    due_flags(control, reader_flags);
    due_number(control + READER_ANSWERED, MK_READER_ANSWER_SIZE);
}

// ---- refused events (1 to 10)

// At the last of the events; what else the control value must have stands in it first.
typedef struct {
    uint32_t number;
    const char *events;
    const char *answer;
    void (*set)(uint8_t *control);
} refusal;

// The longest packet, with a wrong checksum: its last byte is the last one of its half.
#define ZEROS_16 "00000000000000000000000000000000"
#define ZEROS_128 ZEROS_16 ZEROS_16 ZEROS_16 ZEROS_16 ZEROS_16 ZEROS_16 ZEROS_16 ZEROS_16
#define LONGEST "FF" ZEROS_128 ZEROS_128

static const refusal framer_refusals[] = {
    {MK_LENGTH, "03", "", NULL},
    {MK_CHECKSUM, "04 D0 04 00 FF 29", "", NULL},
    {MK_CHECKSUM, LONGEST, "", NULL},
    {MK_CUT, "04 D0 .", "", NULL},
    {MK_CUT, "FF /", "", NULL},
};

static const refusal hub_refusals[] = {
    {MK_LENGTH, "03", HUB_NAK_1, NULL},
    {MK_CHECKSUM, "06 F3 00 00 1B 38 FE B5", HUB_NAK_1, NULL},
    {MK_CHECKSUM, LONGEST, HUB_NAK_1, NULL},
    {MK_CUT, "06 F3 00 00 1B 38 FE .", HUB_NAK_1, NULL},
    {MK_CUT, "04 /", HUB_NAK_1, NULL},
    {MK_SOURCE, "05 F3 04 00 1B FE E9", HUB_NAK_2, NULL},
    {MK_STATUS, "05 F3 00 04 1B FE E9", HUB_NAK_2, NULL},
    {MK_OPCODE, "05 E6 00 00 01 FF 14", HUB_NAK_2, NULL},
    {MK_DATA, "04 F3 00 00 FF 09", HUB_NAK_2, NULL},
    {MK_BARRED, PIECE, HUB_NAK_6, set_barred},
    {MK_BARRED, MARKED_PIECE, HUB_NAK_6, set_barred},
    {MK_BARRED, PIECE, HUB_NAK_6, set_other_type},
    {MK_BARRED, PIECE, HUB_NAK_6, set_full},
};

// The first five are those of the framer.
static const refusal reader_refusals[] = {
    {MK_LENGTH, "00", READER_NAK_1, NULL},
    {MK_CHECKSUM, "05 E6 04 00 01 FF 11", READER_NAK_1, NULL},
    {MK_CHECKSUM, LONGEST, READER_NAK_1, NULL},
    {MK_CUT, "05 E6 04 00 01 FF .", READER_NAK_1, NULL},
    {MK_CUT, "04 /", READER_NAK_1, NULL},
    {MK_SOURCE, "05 E6 00 00 01 FF 14", READER_NAK_2, NULL},
    {MK_STATUS, "05 E6 04 02 01 FF 0E", READER_NAK_2, NULL},
    {MK_OPCODE, "05 F3 04 00 1B FE E9", READER_NAK_2, NULL},
    {MK_DATA, "06 C6 04 00 FF 8A FD A7", READER_NAK_2, NULL},
    {MK_DATA, "04 C7 04 00 FF 31", READER_NAK_2, NULL},
    {MK_BEEP, "05 E6 04 00 1E FE F3", READER_NAK_6, NULL},
    {MK_BEEP, "07 C6 04 00 1E 8A 08 FE 7F", READER_NAK_6, NULL},
    {MK_SETTING, "07 C6 04 00 FF 8A 01 FD A5", READER_NAK_6, NULL},
    {MK_SETTING, "07 C6 04 00 FF 8A 00 FD A6", READER_NAK_6, set_locked},
};

// All events but the last have come: their bytes stand in the half that receives. Where there are none, the count stays
// garbage, which no packet reaches. Gives the last; the short way of hub and reader leaves it. Its byte is due in its
// place.
static uint32_t come(uint8_t *control, uint8_t *half, const char *text)
{
    uint32_t events[EVENTS];
    size_t count = read_events(text, events) - 1;
    if (count > 0)
        put_number(control + LINE_COUNT, count);
    if (control[LINE_DEAF] == 1)
        control[LINE_DEAF] = 0;
    for (size_t i = 0; i < count; i++)
        half[i] = (uint8_t)events[i];
    remember();
    if (control != room.framer)
        CHECK(!mk_go_on(control, room.line, events[count]) && nothing_changed());
    if (events[count] < MK_CHARACTER_GAP)
        was(half)[count] = (uint8_t)events[count];
    return events[count];
}

static uint8_t *receiving_half(const uint8_t *control)
{
    return room.line + (control[LINE_SECOND] == 1 ? MK_PACKET_SIZE : 0);
}

static void framer_refuses(const refusal *due)
{
    uint32_t event = come(room.framer, room.packet, due->events);
    due_framer(was(room.framer), due->number);
    due_values(MK_HEAD_VALUES, 0);
    CHECK(mk_framer_hear(room.framer, MK_FRAMER_CONTROL_SIZE, room.packet, MK_PACKET_SIZE, event, room.values)
        == due->number);
    CHECK(nothing_changed());
}

static void hub_refuses(const refusal *due)
{
    if (due->set != NULL) {
        room.hub[HUB_BARRED] = 2; // not set, so that each cause of 10 is tried alone
        due->set(room.hub);
    }
    uint32_t event = come(room.hub, receiving_half(room.hub), due->events);
    due_hub(was(room.hub), due->number, event);
    due_values(MK_HUB_VALUES, read_bytes(due->answer, was(room.hub_answer)));
    CHECK(mk_hub_hear(room.hub, MK_HUB_CONTROL_SIZE, room.line, room.gather, room.hub_answer, MK_HUB_ANSWER_SIZE,
              room.message, MK_MESSAGE_SIZE, event, room.values)
        == due->number);
    CHECK(nothing_changed());
}

// No NAK goes out where 9Fh is not 1, and none for 1 to 3 while a message is out.
static void reader_refuses(const refusal *due, bool out)
{
    if (due->set != NULL)
        due->set(room.reader);
    if (out)
        set_out(room.reader + READER_SENDER);
    uint32_t event = come(room.reader, receiving_half(room.reader), due->events);
    bool quiet = room.reader[READER_ACK_NAK] != MK_ACK_NAK_ON || (out && due->number <= MK_CUT);
    due_reader(was(room.reader), due->number);
    due_values(MK_READER_VALUES, read_bytes(quiet ? "" : due->answer, was(room.reader_answer)));
    CHECK(mk_reader_hear(room.reader, MK_READER_CONTROL_SIZE, room.line, room.answers, room.message, room.reader_answer,
              MK_READER_ANSWER_SIZE, room.packet, MK_PACKET_SIZE, event, room.values)
        == due->number);
    CHECK(nothing_changed());
}

static void test_framer_bytes(void)
{
    for (size_t fill = 0; fill < COUNT(fills); fill++) {
        for (size_t i = 0; i < COUNT(framer_refusals); i++) {
            name_case("mk_framer_hear", framer_refusals[i].number, fills[fill]);
            fill_with(fills[fill]);
            framer_refuses(&framer_refusals[i]);
        }
    }
}

// In either half of the line.
static void test_hub_bytes(void)
{
    for (size_t fill = 0; fill < COUNT(fills); fill++) {
        for (size_t i = 0; i < 2 * COUNT(hub_refusals); i++) {
            const refusal *due = &hub_refusals[i / 2];
            name_case("mk_hub_hear", due->number, fills[fill]);
            fill_with(fills[fill]);
            if (i % 2 == 1)
                room.hub[LINE_SECOND] = 1;
            hub_refuses(due);
        }
    }
}

// In either half, with 9Fh at 1 too, with a message out and with none.
static void test_reader_bytes(void)
{
    for (size_t fill = 0; fill < COUNT(fills); fill++) {
        for (size_t i = 0; i < 8 * COUNT(reader_refusals); i++) {
            const refusal *due = &reader_refusals[i / 8];
            name_case("mk_reader_hear", due->number, fills[fill]);
            fill_with(fills[fill]);
            if (i % 2 == 1)
                room.reader[LINE_SECOND] = 1;
            if (i / 2 % 2 == 1)
                room.reader[READER_ACK_NAK] = MK_ACK_NAK_ON;
            reader_refuses(due, i / 4 % 2 == 1);
        }
    }
}

// ---- no events: numbers above that of a message gap, and replies above that of an ACK, do nothing

static const uint32_t above[] = {MK_MESSAGE_GAP + 1, 512, 0x80000000, 0xFFFFFF00, 0xFFFFFFFF};

static void does_nothing(const asking *asked, size_t way)
{
    fill_with(fills[way % COUNT(fills)]);
    room_event = above[way / COUNT(fills)];
    due_values(asked->values, 0);
    CHECK(asked->call(asked->need) == MK_NOTHING);
    CHECK(nothing_changed());
}

static void test_no_events(void)
{
    static const char *const takers[] = {"mk_answer", "mk_framer_hear", "mk_hub_hear", "mk_reader_hear"};
    size_t tried = 0;
    for (size_t i = 0; i < COUNT(askings); i++) {
        for (size_t taker = 0; taker < COUNT(takers); taker++) {
            if (strcmp(askings[i].name, takers[taker]) != 0)
                continue;
            name_case(takers[taker], MK_NOTHING, 0);
            for (size_t way = 0; way < COUNT(above) * COUNT(fills); way++)
                does_nothing(&askings[i], way);
            tried++;
        }
    }
    CHECK(tried == COUNT(takers));
    fill_with(ANY);
    for (size_t i = 0; i < COUNT(above); i++) {
        CHECK(!mk_go_on(room.hub, room.line, above[i]) && !mk_go_on(room.reader, room.line, above[i]));
        CHECK(nothing_changed());
    }
    due_values(1, 0);
    CHECK(mk_answer(room.answer, MK_ANSWER_SIZE, 1, MK_REPLY_ACK + 1, room.values) == MK_NOTHING); // before MK_SOURCE
    CHECK(nothing_changed());
}

// ---- refused starts (11): over 4,096 bytes, one still out, or both

static uint32_t sender_starts(size_t count)
{
    return mk_sender_start(room.sender, MK_SENDER_CONTROL_SIZE, room.message, room.packet, MK_PACKET_SIZE, 0x1B,
        room.bytes, count, room.values);
}

static uint32_t reader_starts(size_t count)
{
    return mk_reader_start(room.reader, MK_READER_CONTROL_SIZE, room.message, room.packet, MK_PACKET_SIZE, 0x1B,
        room.bytes, count, room.values);
}

static void start_refuses(
    const char *name, uint32_t (*start)(size_t count), uint8_t *control, unsigned fill, size_t way)
{
    name_case(name, MK_START, fill);
    fill_with(fill);
    if (way > 0)
        set_out(control);
    remember();
    due_values(MK_START_VALUES, 0);
    CHECK(start(way < 2 ? MK_MESSAGE_SIZE + 1 : 1) == MK_START);
    CHECK(nothing_changed());
}

static void test_start_bytes(void)
{
    for (size_t fill = 0; fill < COUNT(fills); fill++) {
        for (size_t way = 0; way < 3; way++) {
            start_refuses("mk_sender_start", sender_starts, room.sender, fills[fill], way);
            start_refuses("mk_reader_start", reader_starts, room.reader + READER_SENDER, fills[fill], way);
        }
    }
}

// ---- refusals in the course of events

static void test_hub_refusals(void)
{
    for (size_t i = 0; i < COUNT(hub_refusals); i++) {
        const refusal *due = &hub_refusals[i];
        fresh_machines();
        if (due->set != NULL)
            due->set(hub->control);
        CHECK(hub_said(hub_takes(due->events), due->number, due->answer));
        CHECK(stays(hub->message, 0, sizeof hub->message) && guards_stand());
    }
}

static void test_reader_refusals(void)
{
    for (size_t i = 0; i < COUNT(reader_refusals); i++) {
        const refusal *due = &reader_refusals[i];
        fresh_machines();
        if (due->set != NULL)
            due->set(reader->control);
        CHECK(reader_said(reader_takes(due->events), due->number, due->answer));
        CHECK(stays(reader->copy, 0, sizeof reader->copy) && guards_stand());
    }
}

// A reader that waits for an answer sends nothing for 1 to 3.
static void test_waiting_reader(void)
{
    mk_reader_send(reader, 0x1B, message, 1);
    for (size_t i = 0; i < 5; i++) {
        CHECK(reader_said(reader_takes(reader_refusals[i].events), reader_refusals[i].number, ""));
        mk_reader_event(reader, MK_CHARACTER_GAP);
    }
    CHECK(reader_said(reader_takes(reader_refusals[5].events), MK_SOURCE, READER_NAK_2));
}

// Another type inside a message bars the hub: 10 until a message gap, 1 to 7 as ever.
static void test_other_type(void)
{
    CHECK(hub_said(hub_takes("06 F3 00 02 1B 38 FE B2"), MK_ADDED, HUB_ACK));
    CHECK(hub_said(hub_takes("06 F3 00 00 1C 38 FE B3"), MK_BARRED, HUB_NAK_6));
    CHECK(hub_said(hub_takes(". " PIECE), MK_BARRED, HUB_NAK_6));
    CHECK(hub_said(hub_takes(". " MARKED_PIECE), MK_BARRED, HUB_NAK_6));
    CHECK(hub_said(hub_takes(". 04 F3 00 00 FF 09"), MK_DATA, HUB_NAK_2));
    CHECK(hub_said(hub_takes("/ " PIECE), MK_MESSAGE, HUB_ACK));
}

static mk_hub_told hub_gets_piece(uint8_t status, size_t count)
{
    uint8_t packet[MK_PACKET_SIZE], data[MK_DATA_SIZE];
    data[0] = 0x1B;
    memcpy(data + 1, message, count);
    return hub_gets(packet, make_packet(packet, MK_OPCODE_DECODE_DATA, MK_SOURCE_READER, status, data, count + 1));
}

static void test_total(void)
{
    for (size_t last = 96; last <= 97; last++) {
        mk_hub_event(hub, MK_MESSAGE_GAP);
        for (int i = 0; i < 16; i++)
            CHECK(hub_said(hub_gets_piece(MK_STATUS_MORE, 250), MK_ADDED, HUB_ACK));
        mk_hub_told told = hub_gets_piece(0, last);
        CHECK(last == 96 ? hub_said(told, MK_MESSAGE, HUB_ACK) : hub_said(told, MK_BARRED, HUB_NAK_6));
        CHECK(told.count == (last == 96 ? 4096 : 0));
    }
}

// Number 11: over 4,096 bytes, and one still out. Nothing changes, and no gap is told, though one is due.
static void test_refused_starts(void)
{
    mk_sender_idle(sender->control, sizeof sender->control, true);
    reader->control[READER_SENDER + SENDER_FAILED] = 1;
    remember();
    CHECK(brought(mk_sender_send(sender, 0x1B, message, 4097), MK_START, 0));
    CHECK(brought(mk_reader_send(reader, 0x1B, message, 4097), MK_START, 0));
    CHECK(nothing_changed() && !mk_sender_out(sender));
    CHECK(started(mk_sender_send(sender, 0x1B, message, 1), 8, true));
    CHECK(started(mk_reader_send(reader, 0x1B, message, 1), 8, true));
    mk_sender_init(sender);
    mk_reader_restart(reader);
    CHECK(brought(mk_sender_send(sender, 0x1B, message, 1), MK_COPY, 8));
    CHECK(brought(mk_reader_send(reader, 0x1B, message, 1), MK_COPY, 8));
    remember();
    CHECK(brought(mk_sender_send(sender, 0x1C, message, 2), MK_START, 0));
    CHECK(brought(mk_reader_send(reader, 0x1C, message, 2), MK_START, 0));
    CHECK(nothing_changed() && mk_sender_out(sender));
}

// ---- all of them

static const test tests[] = {
    {"rooms", test_rooms},
    {"packet refusals", test_packet_refusals},
    {"framer: every byte", test_framer_bytes},
    {"hub: every byte", test_hub_bytes},
    {"reader: every byte", test_reader_bytes},
    {"no events", test_no_events},
    {"starts: every byte", test_start_bytes},
    {"hub refusals", test_hub_refusals},
    {"reader refusals", test_reader_refusals},
    {"waiting reader", test_waiting_reader},
    {"other type", test_other_type},
    {"total", test_total},
    {"refused starts", test_refused_starts},
};

int main(void)
{
    return run_tests(tests, COUNT(tests));
}
