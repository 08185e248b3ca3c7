// The reader's whole end: commands with the parameter table, its saved set, and the sender.
#include "framer.h"

enum {
    HIGHEST_BEEP = 0x1D,
    NO_BEEP = 0xFF,
    ALL = 0xFE,
    NO_ROW = 0
};

// The rows of the parameters (§12), from 1 on: 0 is no parameter.
enum {
    POWER_MODE = 1,
    SAME_SYMBOL_TIME,
    TRIGGER,
    RESPONSE_TIME_OUT,
    BAUD,
    PARITY,
    ACK_NAK,
    AIM_DURATION,
    PACKETED_DATA
};

static const uint8_t row_of[256] = {
    [0x80] = POWER_MODE,
    [0x89] = SAME_SYMBOL_TIME,
    [0x8A] = TRIGGER,
    [0x9B] = RESPONSE_TIME_OUT,
    [0x9C] = BAUD,
    [0x9E] = PARITY,
    [0x9F] = ACK_NAK,
    [0xED] = AIM_DURATION,
    [0xEE] = PACKETED_DATA
};

static const struct {
    uint8_t number, lowest, highest, house;
} rows[PEER_PARAMETERS] = {
    {0x80, 0, 1, 0},
    {0x89, 0, 99, 10},
    {0x8A, 0, 8, 0},
    {0x9B, 0, 99, 20},
    {0x9C, 1, 7, 6},
    {0x9E, 0, 4, 4},
    {0x9F, 0, 1, 1},
    {0xED, 0, 99, 0},
    {0xEE, 0, 1, 1}
};

// Of the trigger's 0 to 8 these alone are allowed, a bit for each.
enum {
    TRIGGERS = 1 << 0 | 1 << 2 | 1 << 4 | 1 << 7 | 1 << 8
};

// Duration, pitch, number of beeps (§13).
static const uint8_t beeps[HIGHEST_BEEP + 1][3] = {
    {0, 0, 1}, {0, 0, 2}, {0, 0, 3}, {0, 0, 4}, {0, 0, 5},
    {0, 1, 1}, {0, 1, 2}, {0, 1, 3}, {0, 1, 4}, {0, 1, 5},
    {1, 0, 1}, {1, 0, 2}, {1, 0, 3}, {1, 0, 4}, {1, 0, 5},
    {1, 1, 1}, {1, 1, 2}, {1, 1, 3}, {1, 1, 4}, {1, 1, 5},
    {2, 2, 4}, {3, 2, 4}, {4, 3, 2}, {5, 4, 2}, {6, 5, 3}, {7, 6, 3}, {1, 7, 4},
    {0, 8, 13}, {8, 0, 1}, {9, 9, 1}
};

const size_t peer_table_size = sizeof(peer_table);
const size_t peer_reader_size = sizeof(peer_reader);

// ---- the parameter table

static bool locked(const peer_table *table, size_t place)
{
    return table->locked[place] == 1;
}

void peer_table_defaults(peer_table *table)
{
    for (size_t i = 0; i < PEER_PARAMETERS; i++) {
        if (!locked(table, i)) {
            table->present[i] = rows[i].house;
            table->permanent[i] = rows[i].house;
        }
    }
}

void peer_table_power_up(peer_table *table)
{
    memcpy(table->present, table->permanent, sizeof table->present);
}

static bool setting_allowed(uint8_t number, uint8_t value)
{
    uint8_t row = row_of[number];
    if (row == NO_ROW || value < rows[row - 1].lowest || value > rows[row - 1].highest) {
        return false;
    }
    return row != TRIGGER || (TRIGGERS >> value & 1) != 0;
}

// A locked parameter is not to be named, whatever the value.
static bool settings_allowed(const peer_table *table, const uint8_t *pairs, size_t count)
{
    for (size_t i = 0; i < count; i += 2) {
        if (!setting_allowed(pairs[i], pairs[i + 1]) || locked(table, row_of[pairs[i]] - 1)) {
            return false;
        }
    }
    return true;
}

static void put_settings(peer_table *table, const uint8_t *pairs, size_t count, bool permanently)
{
    for (size_t i = 0; i < count; i += 2) {
        uint8_t row = row_of[pairs[i]];
        table->present[row - 1] = pairs[i + 1];
        if (permanently) {
            table->permanent[row - 1] = pairs[i + 1];
        }
    }
}

uint32_t peer_table_set(peer_table *table, const uint8_t *pairs, size_t count, bool permanently)
{
    if (count % 2 != 0) {
        return PEER_DATA;
    }
    if (!settings_allowed(table, pairs, count)) {
        return PEER_SETTING;
    }
    put_settings(table, pairs, count, permanently);
    return PEER_NOTHING;
}

// ---- power-up

void peer_reader_restart(peer_reader *reader)
{
    framer_init(&reader->framer);
    peer_sender_init(&reader->sender);
    peer_table_power_up(&reader->table);
    reader->switches = (peer_switches){.scanning = true};
    reader->kept_size = 0;
}

void peer_reader_init(peer_reader *reader)
{
    memset(reader->table.locked, 0, sizeof reader->table.locked);
    peer_table_defaults(&reader->table);
    peer_reader_restart(reader);
}

static bool handshaking(const peer_reader *reader)
{
    return reader->table.present[ACK_NAK - 1] == 1;
}

static peer_reader_told refuse(peer_reader *reader, uint8_t refusal)
{
    peer_reader_told told = {.number = refusal};
    if (handshaking(reader)) {
        told.answer = put_nak(reader->answer, READER, cause_of(refusal));
    }
    return told;
}

// ---- the parameters in a command

// Whether a permanent value is another one afterwards: a number named twice may end as it was.
static bool set(peer_table *table, const uint8_t *pairs, size_t count, bool permanently)
{
    uint8_t before[PEER_PARAMETERS];
    memcpy(before, table->permanent, sizeof before);
    put_settings(table, pairs, count, permanently);
    return memcmp(before, table->permanent, sizeof before) != 0;
}

static bool set_back(peer_table *table)
{
    uint8_t before[PEER_PARAMETERS];
    memcpy(before, table->permanent, sizeof before);
    peer_table_defaults(table);
    return memcmp(before, table->permanent, sizeof before) != 0;
}

static size_t put_all(const peer_table *table, uint8_t *pairs)
{
    for (size_t i = 0; i < PEER_PARAMETERS; i++) {
        pairs[2 * i] = rows[i].number;
        pairs[2 * i + 1] = table->present[i];
    }
    return 2 * PEER_PARAMETERS;
}

// Each once, in the order of first asking.
static size_t put_asked(const peer_table *table, uint8_t *pairs, const uint8_t *numbers, size_t count)
{
    uint32_t done = 1u << NO_ROW;
    size_t size = 0;
    for (size_t i = 0; i < count; i++) {
        uint8_t row = row_of[numbers[i]];
        if ((done >> row & 1) == 0) {
            done |= 1u << row;
            pairs[size++] = numbers[i];
            pairs[size++] = table->present[row - 1];
        }
    }
    return size;
}

static uint8_t put_values(peer_reader *reader, const uint8_t *numbers, size_t count)
{
    uint8_t *answer = reader->answer;
    uint8_t *pairs = answer + AT_DATA + 1;
    bool all = memchr(numbers, ALL, count) != NULL;
    size_t size = all ? put_all(&reader->table, pairs) : put_asked(&reader->table, pairs, numbers, count);
    answer[AT_LENGTH] = (uint8_t)(AT_DATA + 1 + size);
    answer[AT_OPCODE] = PARAM_SEND;
    answer[AT_SOURCE] = READER;
    answer[AT_STATUS] = 0;
    answer[AT_DATA] = NO_BEEP;
    return (uint8_t)peer_seal(answer);
}

// ---- the saved set

enum {
    EDITION = 1,
    AT_EDITION = 0,
    AT_COUNT = 1,
    AT_PAIRS = 2,
    AT_LOCK_COUNT = AT_PAIRS + 2 * PEER_PARAMETERS,
    AT_LOCKS = AT_LOCK_COUNT + 1
};

peer_built peer_reader_save(const peer_reader *reader, uint8_t *room, size_t room_size)
{
    if (room_size < PEER_SET_SIZE) {
        return (peer_built){PEER_ROOM, 0};
    }
    size_t size = AT_LOCKS;
    room[AT_EDITION] = EDITION;
    room[AT_COUNT] = PEER_PARAMETERS;
    for (size_t i = 0; i < PEER_PARAMETERS; i++) {
        room[AT_PAIRS + 2 * i] = rows[i].number;
        room[AT_PAIRS + 2 * i + 1] = reader->table.permanent[i];
        if (locked(&reader->table, i)) {
            room[size++] = rows[i].number;
        }
    }
    room[AT_LOCK_COUNT] = (uint8_t)(size - AT_LOCKS);
    return (peer_built){PEER_WRITTEN, (uint16_t)size};
}

static bool pairs_right(const uint8_t *pairs)
{
    for (size_t i = 0; i < PEER_PARAMETERS; i++) {
        if (pairs[2 * i] != rows[i].number || !setting_allowed(pairs[2 * i], pairs[2 * i + 1])) {
            return false;
        }
    }
    return true;
}

// The rows are in the order of their numbers, so the locks rise where their rows do; and NO_ROW is above none.
static bool locks_right(const uint8_t *numbers, size_t count)
{
    uint8_t before = NO_ROW;
    for (size_t i = 0; i < count; i++) {
        uint8_t row = row_of[numbers[i]];
        if (row <= before) {
            return false;
        }
        before = row;
    }
    return true;
}

static bool form_right(const uint8_t *form, size_t count)
{
    return count >= AT_LOCKS && form[AT_EDITION] == EDITION && form[AT_COUNT] == PEER_PARAMETERS
        && form[AT_LOCK_COUNT] == count - AT_LOCKS && pairs_right(form + AT_PAIRS)
        && locks_right(form + AT_LOCKS, count - AT_LOCKS);
}

uint32_t peer_reader_load(peer_reader *reader, const uint8_t *form, size_t count)
{
    if (!form_right(form, count)) {
        return PEER_FORM;
    }
    peer_table *table = &reader->table;
    for (size_t i = 0; i < PEER_PARAMETERS; i++) {
        table->permanent[i] = form[AT_PAIRS + 2 * i + 1];
        table->locked[i] = 0;
    }
    peer_table_power_up(table);
    for (size_t i = AT_LOCKS; i < count; i++) {
        table->locked[row_of[form[i]] - 1] = 1;
    }
    framer_forget(&reader->framer);
    reader->kept_size = 0;
    return PEER_NOTHING;
}

// ---- the commands

static uint8_t judge_length(uint8_t opcode, size_t count)
{
    switch (opcode) {
    case AIM_OFF:
    case AIM_ON:
    case PARAM_DEFAULTS:
    case START_SESSION:
    case STOP_SESSION:
    case SCAN_ENABLE:
    case SCAN_DISABLE:
        return count == 0 ? PEER_NOTHING : PEER_DATA;
    case BEEP:
    case LED_ON:
    case LED_OFF:
        return count == 1 ? PEER_NOTHING : PEER_DATA;
    case PARAM_SEND:
        return count % 2 == 1 ? PEER_NOTHING : PEER_DATA;
    case PARAM_REQUEST:
        return count > 0 ? PEER_NOTHING : PEER_DATA;
    default:
        return PEER_OPCODE;
    }
}

static uint8_t judge_head(const uint8_t *packet)
{
    if (packet[AT_SOURCE] != HOST) {
        return PEER_SOURCE;
    }
    if (!status_allowed(packet[AT_OPCODE], packet[AT_STATUS])) {
        return PEER_STATUS;
    }
    return judge_length(packet[AT_OPCODE], packet[AT_LENGTH] - AT_DATA);
}

static uint8_t judge_data(const peer_table *table, uint8_t opcode, const uint8_t *data, size_t count)
{
    if (opcode == BEEP) {
        return data[0] <= HIGHEST_BEEP ? PEER_NOTHING : PEER_BEEP;
    }
    if (opcode != PARAM_SEND) {
        return PEER_NOTHING;
    }
    if (data[0] > HIGHEST_BEEP && data[0] != NO_BEEP) {
        return PEER_BEEP;
    }
    return settings_allowed(table, data + 1, count - 1) ? PEER_NOTHING : PEER_SETTING;
}

static void sound(peer_reader_told *told, uint8_t code)
{
    if (code != NO_BEEP) {
        told->duration = beeps[code][0];
        told->pitch = beeps[code][1];
        told->count = beeps[code][2];
    }
}

static void act(peer_reader *reader, const uint8_t *packet, peer_reader_told *told)
{
    const uint8_t *data = packet + AT_DATA;
    size_t count = packet[AT_LENGTH] - AT_DATA;
    peer_switches *switches = &reader->switches;
    switch (packet[AT_OPCODE]) {
    case AIM_OFF:
        switches->aim = false;
        break;
    case AIM_ON:
        switches->aim = true;
        break;
    case PARAM_SEND:
        told->changed = set(&reader->table, data + 1, count - 1, packet[AT_STATUS] & PERMANENT);
        sound(told, data[0]);
        break;
    case PARAM_DEFAULTS:
        told->changed = set_back(&reader->table);
        break;
    case START_SESSION:
        switches->session |= switches->scanning;
        break;
    case STOP_SESSION:
        switches->session = false;
        break;
    case BEEP:
        sound(told, data[0]);
        break;
    case LED_ON:
        switches->led |= data[0] & 1;
        break;
    case LED_OFF:
        switches->led &= ~data[0] & 1;
        break;
    case SCAN_ENABLE:
        switches->scanning = true;
        break;
    case SCAN_DISABLE:
        switches->scanning = false;
        switches->session = false;
        break;
    }
}

// The answer follows 9Fh as it stood before the command.
static uint8_t put_answer(peer_reader *reader, const uint8_t *packet)
{
    if (packet[AT_OPCODE] == PARAM_REQUEST) {
        return put_values(reader, packet + AT_DATA, packet[AT_LENGTH] - AT_DATA);
    }
    return handshaking(reader) ? put_ack(reader->answer, READER) : 0;
}

static peer_reader_told perform(peer_reader *reader, const uint8_t *packet)
{
    peer_reader_told told = {.number = PEER_ACTED, .answer = put_answer(reader, packet)};
    act(reader, packet, &told);
    framer_accept(&reader->framer);
    reader->kept_size = told.answer;
    memcpy(reader->kept, reader->answer, told.answer);
    return told;
}

static peer_reader_told answer_again(peer_reader *reader)
{
    memcpy(reader->answer, reader->kept, reader->kept_size);
    return (peer_reader_told){.number = PEER_REPEATED, .answer = reader->kept_size};
}

// An ACK or NAK of the host: for the sender, if it is one that it heeds.
static peer_reader_told hand_on(peer_reader *reader, const uint8_t *packet)
{
    bool ack = packet[AT_OPCODE] == CMD_ACK;
    uint8_t length = ack ? AT_DATA : AT_DATA + 1;
    if (packet[AT_SOURCE] != HOST || (packet[AT_STATUS] & ~RESEND) != 0 || packet[AT_LENGTH] != length) {
        return (peer_reader_told){0};
    }
    peer_sent sent = peer_sender_heard(&reader->sender, ack ? PEER_HEARD_ACK : packet[AT_DATA]);
    return (peer_reader_told){.number = sent.number, .value = sent.value};
}

static peer_reader_told take(peer_reader *reader)
{
    const uint8_t *packet = framer_packet(&reader->framer);
    if (is_answer(packet[AT_OPCODE])) {
        return hand_on(reader, packet);
    }
    uint8_t refusal = judge_head(packet);
    if (refusal != PEER_NOTHING) {
        return refuse(reader, refusal);
    }
    if (framer_repeats(&reader->framer)) {
        return answer_again(reader);
    }
    refusal = judge_data(&reader->table, packet[AT_OPCODE], packet + AT_DATA, packet[AT_LENGTH] - AT_DATA);
    if (refusal != PEER_NOTHING) {
        return refuse(reader, refusal);
    }
    return perform(reader, packet);
}

// A function of its own, so that events which tell nothing pay nothing for what it keeps on the stack.
__attribute__((noinline)) static peer_reader_told tell(peer_reader *reader, uint8_t number)
{
    if (number == PEER_PACKET) {
        return take(reader);
    }
    // What came while the sender waits was most likely a spoiled ACK or NAK, and these are never answered.
    return reader->sender.out ? (peer_reader_told){.number = number} : refuse(reader, number);
}

peer_reader_told peer_reader_event(peer_reader *reader, uint32_t event)
{
    if (framer_goes_on(&reader->framer, event)) {
        return (peer_reader_told){0};
    }
    uint8_t number = framer_edge(&reader->framer, event);
    if (number == PEER_NOTHING) {
        return (peer_reader_told){0};
    }
    return tell(reader, number);
}

peer_sent peer_reader_send(peer_reader *reader, uint8_t code, const uint8_t *bytes, size_t count)
{
    return peer_sender_send(&reader->sender, code, bytes, count);
}

peer_sent peer_reader_expire(peer_reader *reader)
{
    return peer_sender_heard(&reader->sender, PEER_HEARD_TIME_OUT);
}
