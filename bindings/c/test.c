// Tests of the archive through motikhund.h: garbage, small cases worked by hand, both ends with the story of sample 8
// (give it examples/88.txt), the reader's commands. All that is random is seeded. What is refused is in refused.c, the
// saved set in sets.c.
#include "chatter.h"

// ---- garbage: random control values and buffers, then random events. Each machine runs twice, by its calls with
// guards around every buffer, and as its type by the short functions: both are to do the same.

enum { ROUNDS = 5000, ROUND_EVENTS = 50, MOST_RESENDS = 34, MOST_PIECES = 17 };
enum { GAP_DUE = 200 }; // seen beside the numbers: a start that tells a message gap

static bool is_head(const size_t *head, size_t length, uint8_t opcode, uint8_t source, uint8_t status)
{
    return head[MK_HEAD_LENGTH] == length && head[MK_HEAD_OPCODE] == opcode && head[MK_HEAD_SOURCE] == source
        && head[MK_HEAD_STATUS] == status;
}

// The packet's calls, against packets made here.
static void garbage_build(sights *checked, sights *built, uint8_t opcode, uint8_t source, uint8_t status)
{
    uint8_t made[MK_PACKET_SIZE + 8];
    size_t length = below(4) == 0 ? below(MK_PACKET_SIZE) : MK_PACKET_SIZE, count = below(MK_DATA_SIZE + 9);
    uint32_t number = mk_build(room.packet, length, opcode, source, status, room.bytes, count, room.values);
    size_t size = room.values[0];
    see(built, number);
    CHECK((number == MK_ROOM) == (length < MK_PACKET_SIZE) && (number == MK_WRITTEN) == (size > 0));
    CHECK(stays(room.packet, size, MK_PACKET_SIZE));
    if (number != MK_WRITTEN)
        return;
    CHECK(size == make_packet(made, opcode, source, status, room.bytes, count) && memcmp(room.packet, made, size) == 0);
    number = mk_check(room.packet, MK_PACKET_SIZE, room.values);
    see(checked, number);
    CHECK(number == MK_PACKET && is_head(room.values, count + 4, opcode, source, status));
}

static void garbage_check(sights *checked)
{
    size_t count = below(8) == 0 ? 0 : below(MK_PACKET_SIZE);
    uint32_t number = mk_check(room.bytes, count, room.values);
    see(checked, number);
    size_t length = room.values[MK_HEAD_LENGTH];
    CHECK((number == MK_PACKET) == (length > 0) && (number != MK_PACKET || length + 2 <= count));
}

static void garbage_answer(sights *answered, uint8_t source)
{
    uint8_t made[MK_ANSWER_SIZE];
    uint32_t reply = below(2) == 0 ? any_byte() : (uint32_t)(MK_REPLY_ACK + below(2) * below(2) * below(1 << 30));
    uint8_t cause = (uint8_t)reply;
    size_t length = below(2) == 0 ? below(MK_ANSWER_SIZE) : MK_ANSWER_SIZE;
    uint32_t number = mk_answer(room.answer, length, source, reply, room.values);
    size_t size = room.values[0];
    see(answered, number);
    CHECK((number == MK_ROOM) == (length < MK_ANSWER_SIZE) && (number == MK_WRITTEN) == (size > 0));
    CHECK((number == MK_NOTHING) == (length >= MK_ANSWER_SIZE && reply > MK_REPLY_ACK));
    CHECK(stays(room.answer, size, MK_ANSWER_SIZE));
    if (number != MK_WRITTEN)
        return;
    uint8_t opcode = reply < 256 ? MK_OPCODE_CMD_NAK : MK_OPCODE_CMD_ACK;
    CHECK(size == make_packet(made, opcode, source, 0, &cause, reply < 256) && memcmp(room.answer, made, size) == 0);
}

static void garbage_heed(uint8_t opcode, uint8_t source, uint8_t status)
{
    size_t count = below(3);
    uint32_t heard = MK_HEARD_NOTHING;
    if (source == MK_SOURCE_HOST && status < 2 && opcode == MK_OPCODE_CMD_ACK && count == 0)
        heard = MK_HEARD_ACK;
    if (source == MK_SOURCE_HOST && status < 2 && opcode == MK_OPCODE_CMD_NAK && count == 1)
        heard = room.bytes[0];
    CHECK(mk_sender_heed(opcode, source, status, room.bytes, count) == heard);
}

static void test_garbage_packets(void)
{
    sights checked = {{0}}, built = {{0}}, answered = {{0}};
    for (int i = 0; i < ROUNDS; i++) {
        uint8_t opcode = pick(hub_opcodes, COUNT(hub_opcodes)), source = (uint8_t)(below(3) * 2);
        uint8_t status = below(2) == 0 ? (uint8_t)below(2) : any_byte();
        fill_ground();
        garbage_check(&checked);
        garbage_build(&checked, &built, opcode, source, status);
        garbage_answer(&answered, source);
        garbage_heed(opcode, source, status);
        CHECK(stays(room.bytes, 0, MK_MESSAGE_SIZE + 1) && guards_stand());
    }
    saw(&checked, (const uint8_t[]){MK_LENGTH, MK_CHECKSUM, MK_CUT, MK_PACKET}, 4);
    saw(&built, (const uint8_t[]){MK_SOURCE, MK_STATUS, MK_DATA, MK_ROOM, MK_WRITTEN}, 5);
    saw(&answered, (const uint8_t[]){MK_NOTHING, MK_SOURCE, MK_ROOM, MK_WRITTEN}, 4);
}

static void garbage_framer(sights *told, chatter *talk)
{
    uint32_t event = next_event(talk);
    remember();
    uint32_t number =
        mk_framer_hear(room.framer, MK_FRAMER_CONTROL_SIZE, room.packet, MK_PACKET_SIZE, event, room.values);
    mk_found other = mk_framer_event(framer, event);
    see(told, number);
    size_t length = room.values[MK_HEAD_LENGTH];
    CHECK(other.number == number);
    CHECK(is_head(room.values, other.head.length, other.head.opcode, other.head.source, other.head.status));
    CHECK(number == MK_PACKET ? length >= 4 && length <= 255 : length == 0);
    CHECK(guards_stand());
}

static void test_garbage_framer(void)
{
    sights told = {{0}};
    twin twins[] = {
        {room.framer, framer->control, sizeof framer->control, NULL},
        {room.packet, framer->line, sizeof framer->line, NULL},
    };
    for (int i = 0; i < ROUNDS; i++) {
        chatter talk = {reader_opcodes, COUNT(reader_opcodes), MK_SOURCE_HOST, {0}, 0, 0};
        any_start(room.framer, MK_FRAMER_CONTROL_SIZE, mk_framer_idle);
        make_twins(twins, COUNT(twins));
        for (int j = 0; j < ROUND_EVENTS; j++) {
            garbage_framer(&told, &talk);
            CHECK(are_twins(twins, COUNT(twins)));
        }
    }
    saw(&told, (const uint8_t[]){MK_NOTHING, MK_LENGTH, MK_CHECKSUM, MK_CUT, MK_PACKET}, 5);
}

static void garbage_hub(sights *told, chatter *talk)
{
    uint32_t event = next_event(talk);
    remember();
    uint32_t number = mk_hub_hear(room.hub, MK_HUB_CONTROL_SIZE, room.line, room.gather, room.hub_answer,
        MK_HUB_ANSWER_SIZE, room.message, MK_MESSAGE_SIZE, event, room.values);
    mk_hub_told other = mk_hub_event(hub, event);
    size_t answer = room.values[MK_HUB_VALUE_ANSWER], code = room.values[MK_HUB_VALUE_CODE],
           count = room.values[MK_HUB_VALUE_COUNT];
    see(told, number);
    CHECK(other.number == number && other.answer == answer && other.code == code && other.count == count);
    CHECK(stays(room.hub_answer, answer, MK_HUB_ANSWER_SIZE) && stays(room.message, count, MK_MESSAGE_SIZE));
    CHECK(number == MK_MESSAGE || (code == 0 && count == 0));
    CHECK((number == MK_NOTHING) == (answer == 0));
    CHECK(guards_stand());
}

static void test_garbage_hub(void)
{
    sights told = {{0}};
    twin twins[] = {
        {room.hub, hub->control, sizeof hub->control, hub_flags},
        {room.line, hub->line, sizeof hub->line, NULL},
        {room.gather, hub->gather, sizeof hub->gather, NULL},
        {room.hub_answer, hub->answer, sizeof hub->answer, NULL},
        {room.message, hub->message, sizeof hub->message, NULL},
    };
    for (int i = 0; i < ROUNDS; i++) {
        chatter talk = {hub_opcodes, COUNT(hub_opcodes), MK_SOURCE_READER, {0}, 0, 0};
        any_start(room.hub, MK_HUB_CONTROL_SIZE, mk_hub_on);
        make_twins(twins, COUNT(twins));
        for (int j = 0; j < ROUND_EVENTS; j++) {
            garbage_hub(&told, &talk);
            CHECK(are_twins(twins, COUNT(twins)));
        }
    }
    saw(&told, (const uint8_t[]){MK_NOTHING, MK_LENGTH, MK_CHECKSUM, MK_CUT, MK_SOURCE, MK_STATUS, MK_OPCODE, MK_DATA,
        MK_BARRED, MK_ADDED, MK_REPEATED, MK_MESSAGE}, 12);
}

// What a sender brought: number and room.values[0], of one that was lent the rooms; and the same of its twin.
static void garbage_sent(sights *told, uint32_t number, mk_outcome other, size_t started)
{
    size_t value = room.values[0];
    see(told, number);
    CHECK(other.number == number && other.value == value);
    CHECK(stays(room.packet, number == MK_COPY ? value : 0, MK_PACKET_SIZE));
    CHECK(stays(room.message, number == MK_COPY ? started : 0, MK_MESSAGE_SIZE));
    CHECK(number != MK_COPY || value >= 7);
    CHECK((number != MK_DELIVERED && number != MK_FAILED) || value <= MOST_RESENDS);
    CHECK((number != MK_NOTHING && number != MK_START) || value == 0);
}

// Whether a message gap is due before a message, by the sender's part of a control value and the buffer as they were.
static bool gap_is_due(const uint8_t *control, const uint8_t *buffer, uint8_t code, const uint8_t *bytes, size_t count)
{
    uint64_t length = number_at(control + SENDER_LENGTH), at = number_at(control + SENDER_AT);
    if (control[SENDER_FAILED] == 1)
        return true;
    if (control[SENDER_OUT] == 1 || control[SENDER_DELIVERED] != 1 || control[SENDER_CODE] != code)
        return false;
    if (length > MK_MESSAGE_SIZE || at > length || number_at(control + SENDER_SIZE) != length - at)
        return false;
    return length - at <= 250 && length - at == count && memcmp(buffer + at, bytes, count) == 0;
}

// A start: as above, and the gap that it tells.
static void garbage_started(
    sights *told, uint32_t number, mk_outcome other, const uint8_t *control, uint8_t code, size_t count)
{
    size_t gap = room.values[MK_START_VALUE_GAP];
    CHECK(gap == (number == MK_COPY && gap_is_due(was(control), was(room.message), code, room.bytes, count)));
    CHECK(other.gap == gap);
    if (gap == 1)
        see(told, GAP_DUE);
    garbage_sent(told, number, other, count);
}

// Few types and counts, of the same bytes in each round: so that messages in a row are often equal.
static uint8_t any_code(void)
{
    return below(4) == 0 ? any_byte() : 0x1B;
}

static size_t any_count(void)
{
    return below(4) == 0 ? below(MK_MESSAGE_SIZE + 2) : below(4);
}

static uint32_t any_heard(void)
{
    static const uint16_t heard[] = {MK_HEARD_ACK, MK_HEARD_ACK, MK_HEARD_TIME_OUT, MK_CAUSE_RESEND, MK_HEARD_NOTHING};
    size_t chance = below(8);
    if (chance < COUNT(heard))
        return heard[chance];
    return chance == 7 ? (uint32_t)draw() : any_byte();
}

static void garbage_sender(sights *told)
{
    size_t count = any_count();
    uint32_t heard = any_heard(), number;
    uint8_t code = any_code();
    remember();
    if (below(4) == 0) {
        number = mk_sender_start(room.sender, MK_SENDER_CONTROL_SIZE, room.message, room.packet, MK_PACKET_SIZE, code,
            room.bytes, count, room.values);
        garbage_started(told, number, mk_sender_send(sender, code, room.bytes, count), room.sender, code, count);
    } else {
        number = mk_sender_hear(room.sender, MK_SENDER_CONTROL_SIZE, room.message, room.packet, MK_PACKET_SIZE, heard,
            room.values);
        mk_outcome other = mk_sender_heard(sender, heard);
        CHECK(!other.gap);
        garbage_sent(told, number, other, 0);
    }
    number = mk_sender_waits(room.sender, MK_SENDER_CONTROL_SIZE);
    see(told, number);
    CHECK(mk_sender_out(sender) == (number == MK_OUT));
    CHECK(guards_stand());
}

static void test_garbage_sender(void)
{
    sights told = {{0}};
    twin twins[] = {
        {room.sender, sender->control, sizeof sender->control, NULL},
        {room.message, sender->message, sizeof sender->message, NULL},
        {room.packet, sender->copy, sizeof sender->copy, NULL},
    };
    for (int i = 0; i < ROUNDS; i++) {
        any_start(room.sender, MK_SENDER_CONTROL_SIZE, idle_sender);
        make_twins(twins, COUNT(twins));
        for (int j = 0; j < ROUND_EVENTS; j++) {
            garbage_sender(&told);
            CHECK(are_twins(twins, COUNT(twins)));
        }
    }
    saw(&told, (const uint8_t[]){MK_NOTHING, MK_START, MK_COPY, MK_DELIVERED, MK_FAILED, MK_OUT, GAP_DUE}, 7);
}

static void garbage_reader_event(sights *told, uint32_t event)
{
    remember();
    uint32_t number = mk_reader_hear(room.reader, MK_READER_CONTROL_SIZE, room.line, room.answers, room.message,
        room.reader_answer, MK_READER_ANSWER_SIZE, room.packet, MK_PACKET_SIZE, event, room.values);
    mk_reader_told other = mk_reader_event(reader, event);
    size_t answer = room.values[MK_READER_VALUE_ANSWER], duration = room.values[MK_READER_VALUE_DURATION],
           pitch = room.values[MK_READER_VALUE_PITCH], count = room.values[MK_READER_VALUE_COUNT];
    CHECK(other.number == number && other.answer == answer);
    CHECK(other.beep.duration == duration && other.beep.pitch == pitch && other.beep.count == count);
    CHECK(duration <= MK_DURATION_LOW_CLICK && pitch <= MK_PITCH_LOW_CLICK && count <= 13);
    CHECK(number == MK_ACTED || count == 0);
    bool changed = memcmp(room.reader + READER_PERMANENT, was(room.reader) + READER_PERMANENT, COUNT(settings)) != 0;
    CHECK(room.values[MK_READER_VALUE_PERMANENT] == changed && other.permanent == changed);
    CHECK(number == MK_ACTED || !changed);
    CHECK(stays(room.reader_answer, answer, MK_READER_ANSWER_SIZE));
    bool of_sender = number == MK_COPY || number == MK_DELIVERED || number == MK_FAILED;
    CHECK(of_sender ? answer == 0 : room.values[MK_READER_VALUE_SENT] == 0);
    room.values[0] = room.values[MK_READER_VALUE_SENT];
    mk_outcome sent = {other.number, false, other.value};
    garbage_sent(told, number, sent, 0);
}

// The set written, and read again as it is or with a byte changed. What it must be is in sets.c.
static void garbage_set(sights *sets)
{
    uint8_t form[MK_SET_SIZE];
    size_t size;
    uint32_t saved = mk_reader_save(room.reader, MK_READER_CONTROL_SIZE, room.set, MK_SET_SIZE, room.values);
    CHECK(mk_reader_save(reader->control, sizeof reader->control, form, sizeof form, &size) == saved);
    CHECK(size == room.values[0] && size >= 21 && size <= MK_SET_SIZE && memcmp(room.set, form, size) == 0);
    CHECK(stays(room.set, size, MK_SET_SIZE));
    if (below(4) == 0)
        form[below(size)] ^= (uint8_t)(1 << below(8));
    uint32_t loaded = mk_reader_load(room.reader, MK_READER_CONTROL_SIZE, form, size);
    CHECK(mk_reader_load(reader->control, sizeof reader->control, form, size) == loaded);
    see(sets, saved);
    see(sets, loaded);
}

// The table taken out, and put back as it is or with a byte changed. What it must be is in tables.c.
static void garbage_table(sights *tables)
{
    mk_table table;
    uint32_t taken = mk_reader_table(room.reader, MK_READER_CONTROL_SIZE, room.table);
    CHECK(mk_reader_table(reader->control, sizeof reader->control, &table) == taken);
    CHECK(memcmp(room.table, &table, sizeof table) == 0);
    if (below(4) == 0)
        ((uint8_t *)&table)[below(sizeof table)] ^= (uint8_t)(1 << below(8));
    uint32_t put = mk_reader_put_table(room.reader, MK_READER_CONTROL_SIZE, &table);
    CHECK(mk_reader_put_table(reader->control, sizeof reader->control, &table) == put);
    see(tables, taken);
    see(tables, put);
}

static void garbage_reader(sights *told, sights *sent, sights *sets, sights *tables, chatter *talk)
{
    size_t chance = below(32), count = any_count();
    uint8_t code = any_code(), number = pick(parameters, COUNT(parameters));
    remember();
    if (chance == 0) {
        uint32_t start = mk_reader_start(room.reader, MK_READER_CONTROL_SIZE, room.message, room.packet,
            MK_PACKET_SIZE, code, room.bytes, count, room.values);
        mk_outcome other = mk_reader_send(reader, code, room.bytes, count);
        garbage_started(sent, start, other, room.reader + READER_SENDER, code, count);
    } else if (chance == 1) {
        uint32_t timed_out = mk_reader_time_out(
            room.reader, MK_READER_CONTROL_SIZE, room.message, room.packet, MK_PACKET_SIZE, room.values);
        mk_outcome other = mk_reader_expire(reader);
        CHECK(!other.gap);
        garbage_sent(sent, timed_out, other, 0);
    } else if (chance == 2 && below(4) == 0) {
        CHECK(mk_reader_power_up(room.reader, MK_READER_CONTROL_SIZE) == MK_NOTHING);
        mk_reader_restart(reader);
    } else if (chance == 3) {
        garbage_set(sets);
    } else if (chance == 4) {
        garbage_table(tables);
    } else {
        garbage_reader_event(told, next_event(talk));
    }
    CHECK(mk_reader_value(room.reader, MK_READER_CONTROL_SIZE, number, room.values) == MK_NOTHING);
    CHECK(mk_reader_parameter(reader, number) == room.values[0]);
    size_t locked;
    CHECK(mk_reader_locked(room.reader, MK_READER_CONTROL_SIZE, number, room.values) == MK_NOTHING);
    CHECK(mk_reader_locked(reader->control, sizeof reader->control, number, &locked) == MK_NOTHING);
    CHECK(locked == room.values[0] && locked <= 1);
    CHECK(guards_stand());
}

static void test_garbage_reader(void)
{
    sights told = {{0}}, sent = {{0}}, sets = {{0}}, tables = {{0}};
    twin twins[] = {
        {room.reader, reader->control, sizeof reader->control, reader_flags},
        {room.line, reader->line, sizeof reader->line, NULL},
        {room.answers, reader->answers, sizeof reader->answers, NULL},
        {room.message, reader->message, sizeof reader->message, NULL},
        {room.reader_answer, reader->answer, sizeof reader->answer, NULL},
        {room.packet, reader->copy, sizeof reader->copy, NULL},
    };
    for (int i = 0; i < ROUNDS; i++) {
        chatter talk = {reader_opcodes, COUNT(reader_opcodes), MK_SOURCE_HOST, {0}, 0, 0};
        any_start(room.reader, MK_READER_CONTROL_SIZE, mk_reader_on);
        make_twins(twins, COUNT(twins));
        for (int j = 0; j < ROUND_EVENTS; j++) {
            garbage_reader(&told, &sent, &sets, &tables, &talk);
            CHECK(are_twins(twins, COUNT(twins)));
        }
    }
    saw(&told, (const uint8_t[]){MK_NOTHING, MK_LENGTH, MK_CHECKSUM, MK_CUT, MK_SOURCE, MK_STATUS, MK_OPCODE, MK_DATA,
        MK_BEEP, MK_SETTING, MK_REPEATED, MK_ACTED, MK_COPY, MK_DELIVERED, MK_FAILED}, 15);
    saw(&sent, (const uint8_t[]){MK_NOTHING, MK_START, MK_COPY, MK_FAILED, GAP_DUE}, 5);
    saw(&sets, (const uint8_t[]){MK_NOTHING, MK_FORM, MK_WRITTEN}, 3);
    saw(&tables, (const uint8_t[]){MK_NOTHING, MK_SETTING}, 2);
}

// Each init makes the control value that its call makes, and touches nothing else.
static void test_init(void)
{
    fill_ground();
    mk_framer_idle(room.framer, MK_FRAMER_CONTROL_SIZE);
    mk_hub_on(room.hub, MK_HUB_CONTROL_SIZE);
    mk_sender_idle(room.sender, MK_SENDER_CONTROL_SIZE, false);
    mk_reader_on(room.reader, MK_READER_CONTROL_SIZE);
    remember();
    memcpy(was(framer->control), room.framer, MK_FRAMER_CONTROL_SIZE);
    memcpy(was(hub->control), room.hub, MK_HUB_CONTROL_SIZE);
    memcpy(was(sender->control), room.sender, MK_SENDER_CONTROL_SIZE);
    memcpy(was(reader->control), room.reader, MK_READER_CONTROL_SIZE);
    mk_framer_init(framer);
    mk_hub_init(hub);
    mk_sender_init(sender);
    mk_reader_init(reader);
    CHECK(nothing_changed());
}

// A hub that was never initialised: after a message gap it is one just switched on.
static void test_never_initialised(void)
{
    for (int i = 0; i < ROUNDS; i++) {
        fill_ground();
        if (below(2) == 0)
            sparse_control(hub->control, sizeof hub->control);
        mk_hub_told told = mk_hub_event(hub, MK_MESSAGE_GAP);
        CHECK(told.number == MK_NOTHING || hub_said(told, MK_CUT, HUB_NAK_1));
        mk_hub_on(room.hub, MK_HUB_CONTROL_SIZE);
        CHECK(memcmp(hub->control, room.hub, MK_HUB_CONTROL_SIZE) == 0 && guards_stand());
    }
}

// ---- ten cases worked by hand

typedef struct {
    const char *packet;
    uint8_t opcode, source, status;
    const char *data;
} packet_case;

static const packet_case packet_cases[] = {
    {HUB_ACK, MK_OPCODE_CMD_ACK, MK_SOURCE_HOST, 0, ""},
    {READER_ACK, MK_OPCODE_CMD_ACK, MK_SOURCE_READER, 0, ""},
    {HUB_NAK_1, MK_OPCODE_CMD_NAK, MK_SOURCE_HOST, 0, "01"},
    {READER_NAK_6, MK_OPCODE_CMD_NAK, MK_SOURCE_READER, 0, "06"},
    {PIECE, MK_OPCODE_DECODE_DATA, MK_SOURCE_READER, 0, "1B 38"},
    {EMPTY_PIECE, MK_OPCODE_DECODE_DATA, MK_SOURCE_READER, 0, "1B"},
    {"07 C6 04 00 FF 8A 08 FD 9E", MK_OPCODE_PARAM_SEND, MK_SOURCE_HOST, 0, "FF 8A 08"},
    {"05 C7 04 00 8A FE A6", MK_OPCODE_PARAM_REQUEST, MK_SOURCE_HOST, 0, "8A"},
    {"07 C6 00 00 FF 8A 08 FD A2", MK_OPCODE_PARAM_SEND, MK_SOURCE_READER, 0, "FF 8A 08"},
};

// Cases 1 to 8 built, checked and cut out of a line.
static void test_case_packets(void)
{
    const uint8_t *packet = room.packet;
    for (size_t i = 0; i < COUNT(packet_cases); i++) {
        const packet_case *due = &packet_cases[i];
        uint8_t data[EVENTS];
        size_t count = read_bytes(due->data, data), size = count + 6;
        remember();
        CHECK(mk_build(room.packet, MK_PACKET_SIZE, due->opcode, due->source, due->status, data, count, room.values)
            == MK_WRITTEN);
        CHECK(room.values[0] == size && reads(packet, size, due->packet) && stays(packet, size, MK_PACKET_SIZE));
        CHECK(mk_check(packet, size, room.values) == MK_PACKET);
        CHECK(is_head(room.values, size - 2, due->opcode, due->source, due->status));
        CHECK(mk_check(packet, size - 1, room.values) == MK_CUT && is_head(room.values, 0, 0, 0, 0));
    }
}

static void test_case_frames(void)
{
    for (size_t i = 0; i < COUNT(packet_cases); i++) {
        const packet_case *due = &packet_cases[i];
        uint8_t packet[EVENTS];
        size_t size = read_bytes(due->packet, packet);
        mk_found told = {MK_NOTHING, {0, 0, 0, 0}};
        for (size_t j = 0; j < size; j++) {
            CHECK(told.number == MK_NOTHING);
            told = mk_framer_event(framer, packet[j]);
        }
        CHECK(told.number == MK_PACKET && told.head.length == size - 2 && told.head.opcode == due->opcode);
        CHECK(told.head.source == due->source && told.head.status == due->status);
        CHECK(memcmp(framer->line, packet, size) == 0 && reads(framer->line + 4, told.head.length - 4, due->data));
    }
}

static bool answers(uint8_t source, uint32_t reply, const char *text)
{
    uint32_t number = mk_answer(room.answer, MK_ANSWER_SIZE, source, reply, room.values);
    return number == MK_WRITTEN && reads(room.answer, room.values[0], text);
}

// Cases 1 to 4: written by themselves and by the machines, heeded by the sender, ignored by the hub.
static void test_case_answers(void)
{
    static const uint8_t causes[] = {MK_CAUSE_RESEND, MK_CAUSE_DENIED};
    CHECK(answers(MK_SOURCE_HOST, MK_REPLY_ACK, HUB_ACK));
    CHECK(answers(MK_SOURCE_READER, MK_REPLY_ACK, READER_ACK));
    CHECK(answers(MK_SOURCE_HOST, MK_CAUSE_RESEND, HUB_NAK_1));
    CHECK(answers(MK_SOURCE_READER, MK_CAUSE_DENIED, READER_NAK_6));

    CHECK(mk_sender_heed(MK_OPCODE_CMD_ACK, MK_SOURCE_HOST, 0, causes, 0) == MK_HEARD_ACK);
    CHECK(mk_sender_heed(MK_OPCODE_CMD_ACK, MK_SOURCE_READER, 0, causes, 0) == MK_HEARD_NOTHING);
    CHECK(mk_sender_heed(MK_OPCODE_CMD_NAK, MK_SOURCE_HOST, 0, causes, 1) == MK_CAUSE_RESEND);
    CHECK(mk_sender_heed(MK_OPCODE_CMD_NAK, MK_SOURCE_READER, 0, causes + 1, 1) == MK_HEARD_NOTHING);

    CHECK(hub_said(hub_takes(PIECE), MK_MESSAGE, HUB_ACK));
    CHECK(reader_said(reader_takes("05 E6 04 00 01 FF 10"), MK_ACTED, READER_ACK));
    CHECK(hub_said(hub_takes("03"), MK_LENGTH, HUB_NAK_1));
    CHECK(reader_said(reader_takes("05 E6 04 00 1E FE F3"), MK_BEEP, READER_NAK_6));
    CHECK(hub_said(hub_takes(". " READER_ACK), MK_NOTHING, ""));
    CHECK(hub_said(hub_takes(READER_NAK_6), MK_NOTHING, ""));
}

// Cases 5 and 6: written by the sender and by the reader, taken by the hub.
static void test_case_pieces(void)
{
    const char *packets[] = {EMPTY_PIECE, PIECE};
    for (size_t count = 0; count < 2; count++) {
        const uint8_t *eight = (const uint8_t *)"8";
        mk_outcome sent = mk_sender_send(sender, 0x1B, eight, count);
        CHECK(sent.number == MK_COPY && reads(sender->copy, sent.value, packets[count]));
        CHECK(brought(mk_sender_heard(sender, MK_HEARD_ACK), MK_DELIVERED, 0));
        sent = mk_reader_send(reader, 0x1B, eight, count);
        CHECK(sent.number == MK_COPY && reads(reader->copy, sent.value, packets[count]));
        mk_hub_told told = hub_gets(reader->copy, sent.value);
        CHECK(hub_said(told, MK_MESSAGE, HUB_ACK) && told.code == 0x1B && told.count == count);
        CHECK(memcmp(hub->message, eight, count) == 0 && stays(hub->message, count, sizeof hub->message));
        CHECK(brought(of_sender(reader_gets(hub->answer, told.answer)), MK_DELIVERED, 0));
    }
}

// Case 7, and case 8 before it and after it.
static void test_case_parameter(void)
{
    CHECK(reader_said(reader_takes("05 C7 04 00 8A FE A6"), MK_ACTED, "07 C6 00 00 FF 8A 00 FD AA"));
    CHECK(reader_said(reader_takes("07 C6 04 00 FF 8A 08 FD 9E"), MK_ACTED, READER_ACK));
    CHECK(reader_said(reader_takes("05 C7 04 00 8A FE A6"), MK_ACTED, "07 C6 00 00 FF 8A 08 FD A2"));
    CHECK(reader_said(reader_takes("05 C7 04 01 8A FE A5"), MK_REPEATED, "07 C6 00 00 FF 8A 08 FD A2"));
}

// A message, each packet acknowledged at once: how many pieces, and their sizes.
static size_t cut(const uint8_t *bytes, size_t count, size_t sizes[MOST_PIECES])
{
    size_t pieces = 0, at = 0;
    mk_outcome sent = mk_sender_send(sender, 0x1B, bytes, count);
    while (sent.number == MK_COPY && pieces < MOST_PIECES) {
        size_t size = sender->copy[0] - 5u;
        CHECK(size <= count - at && memcmp(sender->copy + 5, bytes + at, size) == 0);
        at += sizes[pieces++] = size;
        CHECK(sender->copy[3] == (at < count ? MK_STATUS_MORE : 0));
        sent = mk_sender_heard(sender, MK_HEARD_ACK);
    }
    CHECK(brought(sent, MK_DELIVERED, 0) && at == count);
    return pieces;
}

// Cases 9 and 10: how many pieces, and the last one's size. All before it have 250 bytes.
static void test_case_cuts(void)
{
    static const size_t cuts[][3] = {{250, 1, 250}, {251, 2, 1}, {500, 2, 250}, {4096, 17, 96}};
    for (size_t i = 0; i < COUNT(cuts); i++) {
        size_t sizes[MOST_PIECES], pieces = cut(message, cuts[i][0], sizes);
        CHECK(pieces == cuts[i][1] && sizes[pieces - 1] == cuts[i][2]);
        for (size_t j = 0; j + 1 < pieces; j++)
            CHECK(sizes[j] == 250);
    }
    CHECK(brought(mk_sender_send(sender, 0x1B, message, 4097), MK_START, 0));
}

// A piece that would equal the one before it is cut one byte shorter, the last one never is.
static void test_equal_pieces(void)
{
    static const struct {
        size_t count, pieces, sizes[5];
    } cuts[] = {
        {250, 1, {250}},
        {251, 2, {250, 1}},
        {500, 2, {250, 250}},
        {501, 3, {250, 249, 2}},
        {749, 3, {250, 249, 250}},
        {750, 4, {250, 249, 250, 1}},
        {999, 4, {250, 249, 250, 250}},
        {1000, 5, {250, 249, 250, 249, 2}},
    };
    size_t sizes[MOST_PIECES];
    uint8_t equal[MK_MESSAGE_SIZE];
    memset(equal, '8', sizeof equal);
    for (size_t i = 0; i < COUNT(cuts); i++) {
        CHECK(cut(equal, cuts[i].count, sizes) == cuts[i].pieces);
        CHECK(memcmp(sizes, cuts[i].sizes, cuts[i].pieces * sizeof *sizes) == 0);
    }
    CHECK(cut(equal, MK_MESSAGE_SIZE, sizes) == MOST_PIECES && sizes[16] == 104);
    for (size_t i = 0; i < 16; i++)
        CHECK(sizes[i] == (i % 2 == 0 ? 250 : 249));

    // Two equal pieces among others: those behind the cut one start a byte sooner.
    memcpy(message + 500, message + 250, 250);
    CHECK(cut(message, MK_MESSAGE_SIZE, sizes) == MOST_PIECES && sizes[16] == 97);
    for (size_t i = 0; i < 16; i++)
        CHECK(sizes[i] == (i == 2 ? 249 : 250));
}

// ---- both ends

// The story's three packets: the form up to "SAMPLE ", the 8, and the 8 marked.
static uint8_t story[3][MK_PACKET_SIZE];
static size_t story_sizes[3];

static void read_story(const char *path)
{
    static char text[4 * EVENTS];
    uint32_t events[EVENTS];
    FILE *file = fopen(path, "r");
    if (file == NULL)
        stop("the story cannot be read");
    text[fread(text, 1, sizeof text - 1, file)] = 0;
    fclose(file);
    size_t packets = 0, count = read_events(text, events);
    for (size_t i = 0; i < count && packets < 3; i++) {
        if (events[i] >= MK_CHARACTER_GAP)
            packets++;
        else if (story_sizes[packets] < MK_PACKET_SIZE)
            story[packets][story_sizes[packets]++] = (uint8_t)events[i];
    }
    if (packets != 3 || story_sizes[0] != MK_PACKET_SIZE || story_sizes[1] != 8 || story_sizes[2] != 8)
        stop("the story is another one");
}

static bool is_story(mk_outcome sent, size_t packet)
{
    return brought(sent, MK_COPY, story_sizes[packet]) && memcmp(reader->copy, story[packet], sent.value) == 0;
}

static void test_story(void)
{
    uint8_t form[251];
    memcpy(form, story[0] + 5, 250);
    form[250] = story[1][5];
    CHECK(is_story(mk_reader_send(reader, story[0][4], form, sizeof form), 0));
    mk_hub_told told = hub_gets(reader->copy, story_sizes[0]);
    CHECK(hub_said(told, MK_ADDED, HUB_ACK) && stays(hub->message, 0, sizeof hub->message));
    CHECK(is_story(of_sender(reader_gets(hub->answer, told.answer)), 1));
    told = hub_gets(reader->copy, story_sizes[1]);
    CHECK(hub_said(told, MK_MESSAGE, HUB_ACK) && told.code == story[0][4] && told.count == sizeof form);
    CHECK(memcmp(hub->message, form, sizeof form) == 0 && stays(hub->message, told.count, sizeof hub->message));
    CHECK(memcmp(hub->message + sizeof form - 8, "SAMPLE 8", 8) == 0);
    remember();
    CHECK(is_story(mk_reader_expire(reader), 2)); // the ACK is lost
    told = hub_gets(reader->copy, story_sizes[2]);
    CHECK(hub_said(told, MK_REPEATED, HUB_ACK) && told.count == 0 && stays(hub->message, 0, sizeof hub->message));
    CHECK(brought(of_sender(reader_gets(hub->answer, told.answer)), MK_DELIVERED, 1));
    CHECK(brought(mk_reader_expire(reader), MK_NOTHING, 0));
}

// A message over a line that loses nothing, handed out once and whole. How many pieces it took.
static size_t deliver(uint8_t code, size_t count)
{
    size_t pieces = 0, messages = 0;
    mk_outcome sent = mk_reader_send(reader, code, message, count);
    if (sent.gap)
        mk_hub_event(hub, MK_MESSAGE_GAP);
    while (sent.number == MK_COPY && pieces < 20) {
        mk_hub_told told = hub_gets(reader->copy, sent.value);
        pieces++;
        messages += told.number == MK_MESSAGE;
        CHECK(hub_said(told, messages > 0 ? MK_MESSAGE : MK_ADDED, HUB_ACK));
        CHECK(messages == 0 || (told.code == code && told.count == count));
        sent = of_sender(reader_gets(hub->answer, told.answer));
    }
    CHECK(brought(sent, MK_DELIVERED, 0) && messages == 1 && memcmp(hub->message, message, count) == 0);
    return pieces;
}

static void test_equal_cards(void)
{
    for (int card = 0; card < 2; card++) {
        memset(hub->message, 0, sizeof hub->message);
        CHECK(deliver(0x1B, 1) == 1);
    }
    for (int card = 0; card < 2; card++) {
        memset(hub->message, 0, sizeof hub->message);
        CHECK(deliver(0x1B, 251) == 2);
    }
}

// ---- message gaps

// A message by sender and reader, each packet acknowledged at once: whether its start tells a message gap.
static bool tells_gap(uint8_t code, const uint8_t *bytes, size_t count)
{
    mk_outcome one = mk_sender_send(sender, code, bytes, count), other = mk_reader_send(reader, code, bytes, count);
    bool gap = one.gap;
    CHECK(one.number == MK_COPY && started(other, one.value, gap));
    while (one.number == MK_COPY) {
        CHECK(memcmp(sender->copy, reader->copy, one.value) == 0);
        one = mk_sender_heard(sender, MK_HEARD_ACK);
        other = of_sender(reader_takes(HUB_ACK));
        CHECK(brought(other, one.number, one.value));
    }
    CHECK(brought(one, MK_DELIVERED, 0));
    return gap;
}

// Where the whole message is the last packet of the one before: the same type, the same bytes.
static void test_gap_told(void)
{
    CHECK(!tells_gap(0x1B, message, 5));
    CHECK(tells_gap(0x1B, message, 5));
    CHECK(tells_gap(0x1B, message, 5));
    CHECK(!tells_gap(0x1C, message, 5)); // another type
    CHECK(!tells_gap(0x1C, message, 4)); // the front of it
    CHECK(!tells_gap(0x1C, message, 5)); // the same and one byte more
    CHECK(!tells_gap(0x1C, message + 1, 5));
    CHECK(!tells_gap(0x1C, message, 0));
    CHECK(tells_gap(0x1C, message, 0));
    CHECK(!tells_gap(0x1C, message, 250));
    CHECK(tells_gap(0x1C, message, 250));
    CHECK(!tells_gap(0x1C, message, 251)); // its first packet has more to come
    CHECK(!tells_gap(0x1C, message, 251));
    CHECK(!tells_gap(0x1C, message, 250)); // the first piece of the one before, not its last
    CHECK(!tells_gap(0x1C, message, 251));
    CHECK(tells_gap(0x1C, message + 250, 1)); // its last piece
    CHECK(!tells_gap(0x1C, message, MK_MESSAGE_SIZE));
    CHECK(tells_gap(0x1C, message + 4000, 96));
}

// Neither commands nor a saved set nor refused starts change what a start tells.
static void test_gap_kept(void)
{
    uint8_t form[EVENTS];
    CHECK(!tells_gap(0x1B, message, 5));
    CHECK(command(MK_OPCODE_BEEP, 0, form, 0).number == MK_DATA);
    CHECK(set(MK_STATUS_PERMANENT, MK_PARAMETER_AIM_DURATION, 5) == MK_ACTED);
    CHECK(reader_said(reader_takes("05 C7 04 00 8A FE A6"), MK_ACTED, "07 C6 00 00 FF 8A 00 FD AA"));
    size_t size = read_bytes(HOUSE_SET, form);
    CHECK(mk_reader_load(reader->control, sizeof reader->control, form, size) == MK_NOTHING);
    CHECK(mk_reader_load(reader->control, sizeof reader->control, form, size - 1) == MK_FORM);
    CHECK(brought(mk_reader_expire(reader), MK_NOTHING, 0) && brought(of_sender(reader_takes(HUB_ACK)), MK_NOTHING, 0));
    CHECK(brought(mk_sender_heard(sender, MK_HEARD_TIME_OUT), MK_NOTHING, 0));
    CHECK(brought(mk_reader_send(reader, 0x1B, message, 4097), MK_START, 0));
    CHECK(brought(mk_sender_send(sender, 0x1B, message, 4097), MK_START, 0));
    CHECK(mk_reader_start(reader->control, sizeof reader->control, reader->message, reader->copy,
              sizeof reader->copy - 1, 0x1B, message, 5, room.values)
        == MK_ROOM);
    CHECK(tells_gap(0x1B, message, 5));
}

// Power-up and a sender made anew know nothing of what was before.
static void test_gap_forgotten(void)
{
    CHECK(!tells_gap(0x1B, message, 5));
    mk_reader_restart(reader);
    mk_sender_init(sender);
    CHECK(!tells_gap(0x1B, message, 5));
    mk_reader_init(reader);
    mk_sender_idle(sender->control, sizeof sender->control, true);
    CHECK(started(mk_sender_send(sender, 0x1C, message, 5), 12, true));
    CHECK(started(mk_reader_send(reader, 0x1C, message, 5), 12, false));
    CHECK(of_sender(reader_takes(HUB_NAK_6)).number == MK_FAILED);
    mk_reader_restart(reader);
    CHECK(started(mk_reader_send(reader, 0x1C, message, 5), 12, false));
}

// After a failed message, whatever the next one is; and before that one only.
static void test_gap_after_failure(void)
{
    for (size_t count = 0; count < 3; count++) {
        CHECK(!tells_gap(0x1C, message, 5));
        CHECK(started(mk_sender_send(sender, 0x1B, message, 1), 8, false));
        CHECK(started(mk_reader_send(reader, 0x1B, message, 1), 8, false));
        CHECK(brought(mk_sender_heard(sender, MK_CAUSE_DENIED), MK_FAILED, 0));
        CHECK(brought(of_sender(reader_takes(HUB_NAK_6)), MK_FAILED, 0));
        CHECK(brought(mk_sender_send(sender, 0x1B, message, 4097), MK_START, 0));
        CHECK(brought(mk_reader_send(reader, 0x1B, message, 4097), MK_START, 0));
        CHECK(tells_gap(0x1B, message, count));
    }
    CHECK(!tells_gap(0x1C, message, 5));
}

// The last packet of the message before is read in the buffer: who writes there changes what is told, and nothing else.
static void test_gap_by_buffer(void)
{
    CHECK(!tells_gap(0x1B, message, 5));
    memcpy(sender->message, message + 1, 5);
    memcpy(reader->message, message + 1, 5);
    CHECK(!tells_gap(0x1B, message, 5));
    memcpy(sender->message, message + 1, 5);
    memcpy(reader->message, message + 1, 5);
    CHECK(tells_gap(0x1B, message + 1, 5));
}

// A control value that no run leaves has nothing out and no packet before: its start is a first one.
static void test_gap_of_no_run(void)
{
    static const struct {
        uint8_t out, delivered;
        uint64_t length, at, size;
        bool gap;
    } cases[] = {
        {0, 1, 5, 0, 5, true},
        {0, 1, 255, 250, 5, true},
        {2, 1, 5, 0, 5, true},
        {0, 2, 5, 0, 5, false},
        {0, 0, 5, 0, 5, false},
        {1, 1, 5, 0, 4, false},
        {0, 1, 5, 0, 4, false},
        {0, 1, 255, 0, 5, false},
        {0, 1, 600, 0, 250, false}, // as of a piece that is not the last
        {0, 1, 600, 0, 249, false},
        {0, 1, 4097, 4096, 1, false},
        {0, 1, 5, 6, UINT64_MAX, false},
        {0, 1, UINT64_MAX, UINT64_MAX - 5, 5, false},
    };
    for (size_t i = 0; i < COUNT(cases); i++) {
        uint8_t control[MK_SENDER_CONTROL_SIZE] = {cases[i].out, 0x1B, 0, cases[i].delivered};
        size_t at = cases[i].at < MK_MESSAGE_SIZE - 250 ? (size_t)cases[i].at : 0;
        size_t count = cases[i].size <= 250 ? (size_t)cases[i].size : 0;
        put_number(control + SENDER_LENGTH, cases[i].length);
        put_number(control + SENDER_AT, cases[i].at);
        put_number(control + SENDER_SIZE, cases[i].size);
        memcpy(sender->control, control, sizeof control);
        memcpy(sender->message, message, MK_MESSAGE_SIZE);
        CHECK(started(mk_sender_send(sender, 0x1B, message + at, count), count + 7, cases[i].gap));
        memcpy(reader->control + READER_SENDER, control, sizeof control);
        memcpy(reader->message, message, MK_MESSAGE_SIZE);
        CHECK(started(mk_reader_send(reader, 0x1B, message + at, count), count + 7, cases[i].gap));
    }
}

// Cards over a line that loses copies and answers, most of them equal to the one before, some with equal pieces. How
// many were not handed out as they were called: a delivered one once and whole, a failed one at most once.
static size_t misfiled(bool heeds)
{
    static const size_t counts[] = {0, 1, 1, 1, 250, 500, 750};
    size_t wrong = 0;
    for (int i = 0; i < ROUNDS; i++) {
        uint8_t card[750];
        size_t count = counts[below(COUNT(counts))], handed = 0, whole = 0;
        memset(card, below(4) == 0 ? '9' : '8', sizeof card);
        mk_outcome sent = mk_reader_send(reader, 0x1B, card, count);
        if (sent.gap && heeds)
            mk_hub_event(hub, MK_MESSAGE_GAP);
        while (sent.number == MK_COPY) {
            mk_hub_told told = {MK_NOTHING, 0, 0, 0};
            if (below(3) > 0)
                told = hub_gets(reader->copy, sent.value);
            handed += told.number == MK_MESSAGE;
            whole += told.number == MK_MESSAGE && told.count == count && memcmp(hub->message, card, count) == 0;
            if (told.answer > 0 && below(3) > 0)
                sent = of_sender(reader_gets(hub->answer, told.answer));
            else
                sent = mk_reader_expire(reader);
        }
        wrong += handed != whole || handed > 1 || (sent.number == MK_DELIVERED && handed == 0);
    }
    return wrong;
}

// Two equal cards in a row come out as two where the gap is kept that a start tells, and else not always.
static void test_equal_cards_on_a_line(void)
{
    CHECK(misfiled(true) == 0);
    mk_reader_init(reader);
    mk_hub_init(hub);
    CHECK(misfiled(false) > 0);
}

// ---- how a message ends

static void test_longest_message(void)
{
    CHECK(deliver(0x1B, 4096) == 17);
    CHECK(brought(mk_reader_send(reader, 0x1B, message, 4097), MK_START, 0));
    CHECK(deliver(0x1C, 250) == 1);
}

// At most two resends, each marked; then failed. Another NAK cause fails at once.
static void test_failures(void)
{
    CHECK(brought(mk_reader_expire(reader), MK_NOTHING, 0));
    mk_reader_send(reader, 0x1B, (const uint8_t *)"8", 1);
    CHECK(brought(mk_reader_expire(reader), MK_COPY, 8) && reads(reader->copy, 8, MARKED_PIECE));
    CHECK(brought(of_sender(reader_takes(HUB_NAK_1)), MK_COPY, 8) && reads(reader->copy, 8, MARKED_PIECE));
    CHECK(brought(mk_reader_expire(reader), MK_FAILED, 2));
    CHECK(started(mk_reader_send(reader, 0x1B, (const uint8_t *)"8", 1), 8, true));
    CHECK(brought(of_sender(reader_takes(HUB_NAK_6)), MK_FAILED, 0));

    mk_sender_send(sender, 0x1B, (const uint8_t *)"8", 1);
    CHECK(mk_sender_out(sender));
    CHECK(brought(mk_sender_heard(sender, MK_CAUSE_RESEND), MK_COPY, 8) && reads(sender->copy, 8, MARKED_PIECE));
    CHECK(brought(mk_sender_heard(sender, MK_HEARD_TIME_OUT), MK_COPY, 8));
    CHECK(brought(mk_sender_heard(sender, MK_HEARD_NOTHING), MK_NOTHING, 0));
    CHECK(brought(mk_sender_heard(sender, MK_CAUSE_CONTEXT), MK_FAILED, 2) && !mk_sender_out(sender));
}

// ---- the reader's commands

// The beep codes that are allowed (docs/PROTOCOL.md §13): duration, pitch, number of beeps.
#define ONE_TO_FIVE(duration, pitch) \
    {duration, pitch, 1}, {duration, pitch, 2}, {duration, pitch, 3}, {duration, pitch, 4}, {duration, pitch, 5}

static const mk_beep beeps[] = {
    ONE_TO_FIVE(MK_DURATION_SHORT, MK_PITCH_HIGH),
    ONE_TO_FIVE(MK_DURATION_SHORT, MK_PITCH_LOW),
    ONE_TO_FIVE(MK_DURATION_LONG, MK_PITCH_HIGH),
    ONE_TO_FIVE(MK_DURATION_LONG, MK_PITCH_LOW),
    {MK_DURATION_FAST_WARBLE, MK_PITCH_HIGH_LOW_HIGH_LOW, 4},
    {MK_DURATION_SLOW_WARBLE, MK_PITCH_HIGH_LOW_HIGH_LOW, 4},
    {MK_DURATION_MIX_1, MK_PITCH_HIGH_LOW, 2},
    {MK_DURATION_MIX_2, MK_PITCH_LOW_HIGH, 2},
    {MK_DURATION_MIX_3, MK_PITCH_HIGH_LOW_HIGH, 3},
    {MK_DURATION_MIX_4, MK_PITCH_LOW_HIGH_LOW, 3},
    {MK_DURATION_LONG, MK_PITCH_HIGH_HIGH_LOW_LOW, 4},
    {MK_DURATION_SHORT, MK_PITCH_HIGH_HIGH_HIGH, 13},
    {MK_DURATION_HIGH_CLICK, MK_PITCH_HIGH, 1},
    {MK_DURATION_LOW_CLICK, MK_PITCH_LOW_CLICK, 1},
};

static bool sounds(mk_reader_told told, mk_beep beep)
{
    return told.beep.duration == beep.duration && told.beep.pitch == beep.pitch && told.beep.count == beep.count;
}

static void test_beeps(void)
{
    static const uint8_t opcodes[] = {MK_OPCODE_BEEP, MK_OPCODE_PARAM_SEND};
    static const mk_beep silence = {0, 0, 0};
    CHECK(COUNT(beeps) == 0x1E); // so 1Dh is the last
    for (size_t i = 0; i < 2; i++) {
        for (unsigned code = 0; code <= 0xFF; code++) {
            uint8_t datum = (uint8_t)code;
            bool none = opcodes[i] == MK_OPCODE_PARAM_SEND && code == 0xFF;
            bool allowed = none || code < COUNT(beeps);
            mk_reader_told told = command(opcodes[i], 0, &datum, 1);
            CHECK(reader_said(told, allowed ? MK_ACTED : MK_BEEP, allowed ? READER_ACK : READER_NAK_6));
            CHECK(sounds(told, allowed && !none ? beeps[code] : silence));
        }
    }
}

static void test_settings(void)
{
    for (size_t i = 0; i < COUNT(settings); i++) {
        uint8_t number = settings[i][0], house = settings[i][3];
        CHECK(mk_reader_parameter(reader, number) == house);
        for (unsigned value = 0; value < 256; value++) {
            bool allowed = is_allowed(i, value);
            uint8_t present = mk_reader_parameter(reader, number);
            CHECK(set(0, number, value) == (allowed ? MK_ACTED : MK_SETTING));
            CHECK(mk_reader_parameter(reader, number) == (allowed ? value : present));
        }
        mk_reader_restart(reader);
        CHECK(mk_reader_parameter(reader, number) == house);
    }
    CHECK(mk_reader_parameter(reader, 0x81) == 0 && set(0, 0x81, 0) == MK_SETTING);
}

static void test_power_up(void)
{
    CHECK(set(MK_STATUS_PERMANENT, MK_PARAMETER_BAUD, MK_BAUD_4800) == MK_ACTED);
    CHECK(set(0, MK_PARAMETER_BAUD, MK_BAUD_1200) == MK_ACTED);
    CHECK(mk_reader_parameter(reader, MK_PARAMETER_BAUD) == MK_BAUD_1200);
    mk_reader_send(reader, 0x1B, message, 1);
    mk_reader_event(reader, 0x05);
    mk_reader_restart(reader);
    CHECK(mk_reader_parameter(reader, MK_PARAMETER_BAUD) == MK_BAUD_4800);
    CHECK(mk_reader_event(reader, MK_CHARACTER_GAP).number == MK_NOTHING); // no packet begun
    CHECK(brought(mk_reader_expire(reader), MK_NOTHING, 0));               // no message out
    CHECK(command(MK_OPCODE_PARAM_DEFAULTS, 0, message, 0).number == MK_ACTED);
    mk_reader_restart(reader);
    CHECK(mk_reader_parameter(reader, MK_PARAMETER_BAUD) == MK_BAUD_9600);
    mk_reader_told told = reader_takes("05 C7 04 00 FE FE 32");
    CHECK(reader_said(told, MK_ACTED, "17 C6 00 00 FF 80 00 89 0A 8A 00 9B 14 9C 06 9E 04 9F 01 ED 00 EE 01 F8 18"));
    CHECK(told.answer == MK_READER_ANSWER_SIZE);
}

// With 9Fh at 0 no ACK and no NAK goes out, but the packet that sets it is still answered, and its resend too.
static void test_no_handshake(void)
{
    CHECK(reader_said(reader_takes("07 C6 04 00 FF 9F 00 FD 91"), MK_ACTED, READER_ACK));
    CHECK(reader_said(reader_takes("07 C6 04 01 FF 9F 00 FD 90"), MK_REPEATED, READER_ACK));
    CHECK(reader_said(reader_takes("05 E6 04 00 01 FF 10"), MK_ACTED, ""));
    CHECK(reader_said(reader_takes("05 E6 04 00 1E FE F3"), MK_BEEP, ""));
}

static bool switched(bool scanning, bool session, bool aim, bool led)
{
    mk_switches on = mk_reader_switched(reader);
    return on.scanning == scanning && on.session == session && on.aim == aim && on.led == led;
}

static void test_switches(void)
{
    uint8_t bit = 1;
    CHECK(switched(true, false, false, false));
    command(MK_OPCODE_START_SESSION, 0, &bit, 0);
    CHECK(switched(true, true, false, false));
    command(MK_OPCODE_AIM_ON, 0, &bit, 0);
    CHECK(switched(true, true, true, false));
    command(MK_OPCODE_LED_ON, 0, &bit, 1);
    CHECK(switched(true, true, true, true));
    command(MK_OPCODE_SCAN_DISABLE, 0, &bit, 0);
    CHECK(switched(false, false, true, true));
    command(MK_OPCODE_START_SESSION, 0, &bit, 0);
    CHECK(switched(false, false, true, true));
    command(MK_OPCODE_AIM_OFF, 0, &bit, 0);
    command(MK_OPCODE_LED_OFF, 0, &bit, 1);
    command(MK_OPCODE_SCAN_ENABLE, 0, &bit, 0);
    CHECK(switched(true, false, false, false));
}

static const test tests[] = {
    {"garbage: packets", test_garbage_packets},
    {"garbage: framer", test_garbage_framer},
    {"garbage: hub", test_garbage_hub},
    {"garbage: sender", test_garbage_sender},
    {"garbage: reader", test_garbage_reader},
    {"init", test_init},
    {"never initialised", test_never_initialised},
    {"cases: packets", test_case_packets},
    {"cases: frames", test_case_frames},
    {"cases: answers", test_case_answers},
    {"cases: pieces", test_case_pieces},
    {"cases: parameter", test_case_parameter},
    {"cases: cuts", test_case_cuts},
    {"equal pieces", test_equal_pieces},
    {"story", test_story},
    {"equal cards", test_equal_cards},
    {"gap: told", test_gap_told},
    {"gap: kept", test_gap_kept},
    {"gap: forgotten", test_gap_forgotten},
    {"gap: after a failure", test_gap_after_failure},
    {"gap: by the buffer", test_gap_by_buffer},
    {"gap: of no run", test_gap_of_no_run},
    {"equal cards on a line", test_equal_cards_on_a_line},
    {"longest message", test_longest_message},
    {"failures", test_failures},
    {"beeps", test_beeps},
    {"settings", test_settings},
    {"power-up", test_power_up},
    {"no handshake", test_no_handshake},
    {"switches", test_switches},
};

int main(int argc, char **argv)
{
    if (argc != 2)
        stop("usage: test examples/88.txt");
    read_story(argv[1]);
    return run_tests(tests, COUNT(tests));
}
