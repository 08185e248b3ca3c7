// Tests of the parameter table that a board keeps, through motikhund.h: each list and what it must do is told here by
// the settings in ground.h, every byte of the table afterwards, the same lists and commands at a reader, and a table
// taken out of a reader and put back. Control values that are too small are in refused.c too.
#include "chatter.h"

enum {
    ROUNDS = 4000,
    STEPS = 12,
    SEND_PAIRS = (MK_DATA_SIZE - 1) / 2, // as many as a PARAM_SEND has room for
    LONG = 200001,                       // bytes of a list; more than 16 bits count
    HOW_MANY_ALLOWED = 2 + 100 + 5 + 100 + 7 + 5 + 2 + 100 + 2
};

static uint8_t long_list[LONG];

// ---- what is due, told here once more

static size_t row_of(uint8_t number)
{
    size_t row = 0;
    while (row < MK_PLACES && settings[row][0] != number)
        row++;
    return row;
}

static bool may_be_set(const mk_table *it, uint8_t number, uint8_t value)
{
    size_t row = row_of(number);
    return row < MK_PLACES && it->locked[row] != 1 && is_allowed(row, value);
}

static uint32_t due_set(mk_table *it, const uint8_t *pairs, size_t size, bool permanent)
{
    if (size % 2 != 0)
        return MK_DATA;
    for (size_t i = 0; i < size; i += 2)
        if (!may_be_set(it, pairs[i], pairs[i + 1]))
            return MK_SETTING;
    for (size_t i = 0; i < size; i += 2) {
        it->present[row_of(pairs[i])] = pairs[i + 1];
        if (permanent)
            it->permanent[row_of(pairs[i])] = pairs[i + 1];
    }
    return MK_NOTHING;
}

static void due_defaults(mk_table *it)
{
    for (size_t row = 0; row < MK_PLACES; row++)
        if (it->locked[row] != 1)
            it->present[row] = it->permanent[row] = settings[row][3];
}

static void due_power_up(mk_table *it)
{
    memcpy(it->present, it->permanent, sizeof it->present);
}

static bool values_allowed(const mk_table *it)
{
    bool allowed = true;
    for (size_t row = 0; row < MK_PLACES; row++)
        allowed &= is_allowed(row, it->present[row]) && is_allowed(row, it->permanent[row]);
    return allowed;
}

// ---- the calls on the lent table, each with its number and every byte

// The table as it is, to be written over with what is due.
static mk_table *table_due(void)
{
    memcpy(was(room.table), room.table, sizeof *room.table);
    return (mk_table *)was(room.table);
}

// The table and the guards around it.
static bool table_is_due(void)
{
    const uint8_t *from = (const uint8_t *)room.table - GUARD;
    return memcmp(from, was(from), sizeof *room.table + 2 * GUARD) == 0;
}

static uint32_t sets(const uint8_t *pairs, size_t size, bool permanent)
{
    uint32_t due = due_set(table_due(), pairs, size, permanent);
    CHECK(mk_table_set(room.table, pairs, size, permanent) == due);
    CHECK(table_is_due());
    return due;
}

static void sets_defaults(void)
{
    due_defaults(table_due());
    mk_table_set_defaults(room.table);
    CHECK(table_is_due());
}

static void powers_up(void)
{
    due_power_up(table_due());
    mk_table_power_up(room.table);
    CHECK(table_is_due());
}

// Of the control value in room: what it must hold stands here, and no control byte changes.
static void takes_out(void)
{
    remember();
    mk_table *due = table_due();
    memcpy(due->present, room.reader + READER_PRESENT, sizeof due->present);
    memcpy(due->permanent, room.reader + READER_PERMANENT, sizeof due->permanent);
    for (size_t row = 0; row < MK_PLACES; row++)
        due->locked[row] = room.reader[READER_LOCKS + row] == 1;
    CHECK(mk_reader_table(room.reader, MK_READER_CONTROL_SIZE, room.table) == MK_NOTHING);
    CHECK(nothing_changed());
}

// Into the control value in room. All that a reader reads it by stays, but for the last accepted packet and its answer.
static uint32_t puts_back(void)
{
    remember();
    bool allowed = values_allowed(room.table);
    if (allowed) {
        uint8_t *control = was(room.reader);
        due_flags(control, reader_flags);
        put_number(control + LINE_LAST, 0);
        put_number(control + READER_ANSWERED, 0);
        memcpy(control + READER_PRESENT, room.table->present, sizeof room.table->present);
        memcpy(control + READER_PERMANENT, room.table->permanent, sizeof room.table->permanent);
        for (size_t row = 0; row < MK_PLACES; row++)
            control[READER_LOCKS + row] = room.table->locked[row] == 1;
    }
    uint32_t number = mk_reader_put_table(room.reader, MK_READER_CONTROL_SIZE, room.table);
    CHECK(number == (allowed ? MK_NOTHING : MK_SETTING));
    CHECK(nothing_changed());
    return number;
}

// ---- tables and lists

static mk_table house(void)
{
    mk_table it = {{0}, {0}, {0}};
    for (size_t row = 0; row < MK_PLACES; row++)
        it.present[row] = it.permanent[row] = settings[row][3];
    return it;
}

// No value is its default, and none is the other of its parameter but for those that take two values.
static mk_table altered(void)
{
    const mk_table it = {{1, 99, 8, 0, 7, 0, 0, 42, 0}, {1, 5, 4, 99, 1, 3, 0, 7, 0}, {0}};
    return it;
}

static uint8_t any_allowed(size_t row)
{
    uint8_t value;
    do {
        value = any_byte();
    } while (!is_allowed(row, value));
    return value;
}

// Now and then all are locked, or none; a lock that is not set is any byte but 1.
static mk_table any_table(void)
{
    mk_table it;
    size_t often = below(4);
    for (size_t row = 0; row < MK_PLACES; row++) {
        it.present[row] = any_allowed(row);
        it.permanent[row] = any_allowed(row);
        it.locked[row] = any_byte();
        if (it.locked[row] == 1 || below(3) < often)
            it.locked[row] = below(3) < often;
    }
    return it;
}

// Up to so many pairs. Two lists of three are right for this table; in the others a pair may be wrong, or cut.
static size_t any_list(const mk_table *it, size_t most, uint8_t *pairs)
{
    bool right = below(3) > 0;
    size_t size = 0;
    for (size_t i = below(most + 1); i > 0; i--) {
        size_t row = below(MK_PLACES);
        if (right && it->locked[row] == 1)
            continue;
        pairs[size++] = settings[row][0];
        pairs[size++] = any_allowed(row);
    }
    if (!right && size > 0) {
        size_t way = below(3);
        if (way < 2)
            pairs[2 * below(size / 2) + way] = any_byte();
        else
            size--;
    }
    return size;
}

// ---- made

static void test_made(void)
{
    mk_table due = house();
    memset(room.table, 0, sizeof *room.table);
    sets_defaults();
    CHECK(memcmp(room.table, &due, sizeof due) == 0);
    fill_ground();
    remember();
    memcpy(was(room.table), &due, sizeof due);
    mk_table_init(room.table);
    CHECK(nothing_changed());
    CHECK(mk_reader_table(reader->control, sizeof reader->control, room.table) == MK_NOTHING); // of garbage
    mk_reader_init(reader);
    CHECK(mk_reader_table(reader->control, sizeof reader->control, room.table) == MK_NOTHING);
    CHECK(memcmp(room.table, &due, sizeof due) == 0);
}

// The places have the names of the parameters that stand there.
static void test_places(void)
{
    static const uint8_t places[][2] = {
        {MK_PLACE_POWER_MODE, MK_PARAMETER_POWER_MODE},
        {MK_PLACE_SAME_SYMBOL_TIME, MK_PARAMETER_SAME_SYMBOL_TIME},
        {MK_PLACE_TRIGGER, MK_PARAMETER_TRIGGER},
        {MK_PLACE_RESPONSE_TIME_OUT, MK_PARAMETER_RESPONSE_TIME_OUT},
        {MK_PLACE_BAUD, MK_PARAMETER_BAUD},
        {MK_PLACE_PARITY, MK_PARAMETER_PARITY},
        {MK_PLACE_ACK_NAK, MK_PARAMETER_ACK_NAK},
        {MK_PLACE_AIM_DURATION, MK_PARAMETER_AIM_DURATION},
        {MK_PLACE_PACKETED_DATA, MK_PARAMETER_PACKETED_DATA},
    };
    CHECK(COUNT(places) == MK_PLACES);
    for (size_t i = 0; i < COUNT(places); i++) {
        mk_table_init(room.table);
        uint8_t place = places[i][0], number = places[i][1], value = altered().present[place];
        CHECK(sets((const uint8_t[]){number, value}, 2, false) == MK_NOTHING && room.table->present[place] == value);
    }
}

// ---- lists

// Every number with every value, for now and for ever.
static void test_every_pair(void)
{
    mk_table start = house();
    for (int permanent = 0; permanent < 2; permanent++) {
        size_t taken = 0;
        for (unsigned pair = 0; pair < 256 * 256; pair++) {
            uint8_t pairs[] = {(uint8_t)(pair >> 8), (uint8_t)pair};
            *room.table = start;
            taken += sets(pairs, sizeof pairs, permanent == 1) == MK_NOTHING;
        }
        CHECK(taken == HOW_MANY_ALLOWED);
    }
}

// All nine in rising order with the values of a table, twice.
static size_t both_rows(const mk_table *it, uint8_t *pairs)
{
    size_t size = 0;
    for (size_t i = 0; i < 2 * MK_PLACES; i++) {
        pairs[size++] = settings[i % MK_PLACES][0];
        pairs[size++] = i < MK_PLACES ? it->permanent[i] : it->present[i - MK_PLACES];
    }
    return size;
}

// One that is wrong at each place of lists of each length, in each way: nothing is stored.
static void test_one_is_wrong(void)
{
    static const uint8_t wrong[][2] = {{0x81, 0}, {0x00, 0}, {0xFF, 0}, {MK_PARAMETER_TRIGGER, 1},
        {MK_PARAMETER_BAUD, 0}, {MK_PARAMETER_BAUD, 8}, {MK_PARAMETER_AIM_DURATION, 100},
        {MK_PARAMETER_PARITY, 5}, {MK_PARAMETER_SAME_SYMBOL_TIME, 255}};
    mk_table start = house(), other = altered();
    uint8_t pairs[4 * MK_PLACES];
    size_t size = both_rows(&other, pairs);
    for (size_t length = 2; length <= size; length += 2) {
        *room.table = start;
        CHECK(sets(pairs, length, length % 4 == 0) == MK_NOTHING);
        for (size_t at = 0; at < length; at += 2) {
            for (size_t i = 0; i < 2 * COUNT(wrong); i++) {
                uint8_t kept[2] = {pairs[at], pairs[at + 1]};
                memcpy(pairs + at, wrong[i / 2], 2);
                *room.table = start;
                CHECK(sets(pairs, length, i % 2 == 1) == MK_SETTING);
                CHECK(memcmp(room.table, &start, sizeof start) == 0);
                memcpy(pairs + at, kept, 2);
            }
        }
    }
}

// The later value holds, and the earlier one is judged all the same.
static void test_named_twice(void)
{
    mk_table start = altered();
    for (size_t row = 0; row < MK_PLACES; row++) {
        for (unsigned values = 0; values < 256 * 256; values += 1 + (unsigned)below(40)) {
            uint8_t first = (uint8_t)(values >> 8), later = (uint8_t)values;
            uint8_t pairs[] = {settings[row][0], first, settings[(row + 1) % MK_PLACES][0],
                settings[(row + 1) % MK_PLACES][3], settings[row][0], later};
            *room.table = start;
            bool taken = sets(pairs, sizeof pairs, values % 2 == 0) == MK_NOTHING;
            CHECK(taken == (is_allowed(row, first) && is_allowed(row, later)));
            CHECK(room.table->present[row] == (taken ? later : start.present[row]));
        }
    }
}

// An odd number of bytes is looked at before what stands in them; none is right.
static void test_lengths(void)
{
    mk_table start = house(), other = altered();
    uint8_t right[4 * MK_PLACES], wrong[4 * MK_PLACES];
    size_t size = both_rows(&other, right);
    memset(wrong, 0xFF, sizeof wrong);
    for (int permanent = 0; permanent < 2; permanent++) {
        for (size_t length = 0; length <= size; length++) {
            *room.table = start;
            CHECK(sets(right, length, permanent == 1) == (length % 2 == 0 ? MK_NOTHING : MK_DATA));
            *room.table = start;
            uint32_t due = length % 2 == 1 ? MK_DATA : MK_SETTING;
            CHECK(sets(wrong, length, permanent == 1) == (length == 0 ? MK_NOTHING : due));
        }
        *room.table = other;
        CHECK(sets(right, 0, permanent == 1) == MK_NOTHING && memcmp(room.table, &other, sizeof other) == 0);
    }
}

// A hundred thousand pairs: all are set, and the last one that is wrong refuses them.
static void test_long_lists(void)
{
    mk_table start = house();
    for (size_t i = 0; i + 1 < LONG; i += 2) {
        size_t row = below(MK_PLACES);
        long_list[i] = settings[row][0];
        long_list[i + 1] = any_allowed(row);
    }
    long_list[LONG - 1] = MK_PARAMETER_BAUD;
    static const size_t lengths[] = {MK_BLOCK_SIZE, MK_BLOCK_SIZE + 2, 65536, 65538, 131072, LONG - 1};
    for (size_t i = 0; i < COUNT(lengths); i++) {
        *room.table = start;
        CHECK(sets(long_list, lengths[i], i % 2 == 0) == MK_NOTHING);
        CHECK(sets(long_list, lengths[i] + 1, i % 2 == 0) == MK_DATA);
        uint8_t kept = long_list[lengths[i] - 1];
        long_list[lengths[i] - 1] = 100;
        CHECK(sets(long_list, lengths[i], i % 2 == 0) == MK_SETTING);
        long_list[lengths[i] - 1] = kept;
    }
}

// ---- locks

// Each of the 512 patterns: what a list names decides, defaults pass over, power-up does not.
static void test_every_lock(void)
{
    const mk_table values = altered();
    for (unsigned pattern = 0; pattern < 512; pattern++) {
        mk_table start = values;
        uint8_t all[4 * MK_PLACES], free_ones[2 * MK_PLACES];
        size_t size = 0;
        for (size_t row = 0; row < MK_PLACES; row++) {
            do {
                start.locked[row] = pattern >> row & 1 ? 1 : any_byte();
            } while ((start.locked[row] == 1) != (pattern >> row & 1));
            if (start.locked[row] == 1)
                continue;
            free_ones[size++] = settings[row][0];
            free_ones[size++] = settings[row][3];
        }
        for (size_t i = 0; i < 2 * MK_PLACES; i++) {
            size_t row = i / 2;
            uint8_t named[] = {settings[row][0], settings[row][3]}, same[] = {settings[row][0], start.present[row]};
            *room.table = start;
            CHECK(sets(named, 2, i % 2 == 1) == (pattern >> row & 1 ? MK_SETTING : MK_NOTHING));
            *room.table = start;
            CHECK(sets(same, 2, i % 2 == 1) == (pattern >> row & 1 ? MK_SETTING : MK_NOTHING));
        }
        for (int permanent = 0; permanent < 2; permanent++) {
            *room.table = start;
            CHECK(sets(free_ones, size, permanent == 1) == MK_NOTHING);
            *room.table = start;
            CHECK(sets(all, both_rows(&values, all), permanent == 1) == (pattern == 0 ? MK_NOTHING : MK_SETTING));
        }
        *room.table = start;
        sets_defaults();
        for (size_t row = 0; row < MK_PLACES; row++) {
            bool locked = pattern >> row & 1;
            CHECK(room.table->present[row] == (locked ? values.present[row] : settings[row][3]));
            CHECK(room.table->permanent[row] == (locked ? values.permanent[row] : settings[row][3]));
        }
        *room.table = start;
        powers_up();
        CHECK(memcmp(room.table->present, values.permanent, MK_PLACES) == 0);
    }
}

// Each byte as a lock: 1 alone locks, and no byte is written.
static void test_every_lock_byte(void)
{
    for (size_t row = 0; row < MK_PLACES; row++) {
        for (unsigned byte = 0; byte < 256; byte++) {
            uint8_t pair[] = {settings[row][0], settings[row][3]};
            *room.table = altered();
            room.table->locked[row] = (uint8_t)byte;
            CHECK(sets(pair, 2, true) == (byte == 1 ? MK_SETTING : MK_NOTHING));
            powers_up();
            sets_defaults();
            CHECK((room.table->permanent[row] == settings[row][3]) == (byte != 1));
            CHECK(room.table->locked[row] == byte);
        }
    }
}

// ---- any bytes are a table

static void test_garbage(void)
{
    sights told = {{0}};
    for (int i = 0; i < ROUNDS; i++) {
        fill_ground();
        for (size_t row = 0; row < MK_PLACES; row++)
            if (below(4) == 0)
                room.table->locked[row] = 1;
        size_t size = any_list(room.table, 2 * MK_PLACES, room.bytes);
        remember();
        see(&told, sets(room.bytes, size, below(2) == 0));
        CHECK(nothing_changed());
        if (below(2) == 0)
            powers_up();
        sets_defaults();
        powers_up();
        CHECK(nothing_changed());
    }
    saw(&told, (const uint8_t[]){MK_NOTHING, MK_DATA, MK_SETTING}, 3);
}

// Each byte of the table in turn each byte, the others as they are.
static void test_each_byte_garbage(void)
{
    static const uint8_t pairs[] = {MK_PARAMETER_BAUD, MK_BAUD_300, MK_PARAMETER_PACKETED_DATA, MK_DATA_RAW};
    for (size_t at = 0; at < sizeof *room.table; at++) {
        for (unsigned byte = 0; byte < 256; byte++) {
            *room.table = altered();
            ((uint8_t *)room.table)[at] = (uint8_t)byte;
            sets(pairs, sizeof pairs, byte % 2 == 0);
            powers_up();
            sets_defaults();
        }
    }
}

// ---- beside a reader

static mk_table table_of_reader(void)
{
    mk_table it;
    CHECK(mk_reader_table(reader->control, sizeof reader->control, &it) == MK_NOTHING);
    return it;
}

static uint32_t put_into_reader(const mk_table *it)
{
    return mk_reader_put_table(reader->control, sizeof reader->control, it);
}

static bool same_as_reader(void)
{
    mk_table it = table_of_reader();
    return memcmp(&it, room.table, sizeof it) == 0;
}

// The list in room.bytes, by the table and as a PARAM_SEND: the same refusal, and the same table afterwards.
static uint32_t sends(size_t size, bool permanent)
{
    uint8_t data[MK_DATA_SIZE];
    mk_table old = *room.table;
    uint32_t number = sets(room.bytes, size, permanent);
    data[0] = 0xFF;
    memcpy(data + 1, room.bytes, size);
    mk_reader_told told = command(MK_OPCODE_PARAM_SEND, permanent ? MK_STATUS_PERMANENT : 0, data, size + 1);
    CHECK(told.number == (number == MK_NOTHING ? MK_ACTED : number));
    CHECK(told.permanent == (memcmp(old.permanent, room.table->permanent, MK_PLACES) != 0));
    CHECK(same_as_reader());
    return number;
}

static void test_as_param_send(void)
{
    sights told = {{0}};
    for (int i = 0; i < ROUNDS; i++) {
        mk_table start = any_table();
        CHECK(put_into_reader(&start) == MK_NOTHING);
        *room.table = table_of_reader();
        see(&told, sends(any_list(room.table, i % 8 == 0 ? SEND_PAIRS : MK_PLACES, room.bytes), below(2) == 0));
    }
    saw(&told, (const uint8_t[]){MK_NOTHING, MK_DATA, MK_SETTING}, 3);
}

// One call after another, and the same commands one after another: lists, PARAM_DEFAULTS, power-up.
static void test_one_after_another(void)
{
    sights told = {{0}};
    for (int i = 0; i < ROUNDS / 4; i++) {
        mk_table start = any_table();
        mk_reader_init(reader);
        CHECK(put_into_reader(&start) == MK_NOTHING);
        *room.table = table_of_reader();
        for (int step = 0; step < STEPS; step++) {
            size_t way = below(6);
            if (way == 0) {
                sets_defaults();
                CHECK(command(MK_OPCODE_PARAM_DEFAULTS, 0, message, 0).number == MK_ACTED);
            } else if (way == 1) {
                powers_up();
                mk_reader_restart(reader);
            } else {
                see(&told, sends(any_list(room.table, MK_PLACES, room.bytes), below(2) == 0));
            }
            CHECK(same_as_reader());
        }
    }
    saw(&told, (const uint8_t[]){MK_NOTHING, MK_DATA, MK_SETTING}, 3);
}

// ---- out of a reader and back

// Of any control value, and into any: every byte of both.
static void test_there_and_back(void)
{
    sights told = {{0}};
    for (int i = 0; i < ROUNDS; i++) {
        fill_ground();
        if (below(2) == 0)
            mk_reader_on(room.reader, MK_READER_CONTROL_SIZE);
        for (size_t row = 0; row < MK_PLACES; row++)
            if (below(3) == 0)
                room.reader[READER_LOCKS + row] = 1;
        takes_out();
        see(&told, puts_back());
        *room.table = any_table();
        CHECK(puts_back() == MK_NOTHING);
        takes_out();
    }
    saw(&told, (const uint8_t[]){MK_NOTHING, MK_SETTING}, 2);
}

// Of a reader as it runs nothing changes but what is forgotten: its flags are 0 and 1 already.
static void test_back_as_it_was(void)
{
    for (int i = 0; i < ROUNDS / 4; i++) {
        mk_reader_send(reader, any_byte(), message, below(600));
        command(pick((const uint8_t[]){MK_OPCODE_AIM_ON, MK_OPCODE_LED_ON, MK_OPCODE_PARAM_DEFAULTS}, 3), 0, message,
            0);
        set(MK_STATUS_PERMANENT, MK_PARAMETER_TRIGGER, any_allowed(2));
        for (size_t events = below(8); events > 0; events--)
            mk_reader_event(reader, events == 7 ? 3 : any_byte());
        mk_table it = table_of_reader();
        remember();
        put_number(was(reader->control) + LINE_LAST, 0);
        put_number(was(reader->control) + READER_ANSWERED, 0);
        CHECK(put_into_reader(&it) == MK_NOTHING && nothing_changed());
        mk_reader_event(reader, MK_MESSAGE_GAP);
    }
}

// Each value of each parameter, present and permanent, alone: 9 where it is not allowed.
static void test_each_value_put(void)
{
    size_t taken = 0;
    for (size_t at = 0; at < 2 * MK_PLACES; at++) {
        for (unsigned value = 0; value < 256; value++) {
            if (value % 16 == 0)
                fill_ground();
            *room.table = altered();
            (at < MK_PLACES ? room.table->present : room.table->permanent)[at % MK_PLACES] = (uint8_t)value;
            taken += puts_back() == MK_NOTHING;
        }
    }
    CHECK(taken == 2 * HOW_MANY_ALLOWED);
}

// 13 before 9, for both calls.
static void test_short_control(void)
{
    for (size_t size = 0; size < MK_READER_CONTROL_SIZE; size++) {
        for (int allowed = 0; allowed < 2; allowed++) {
            fill_ground();
            *room.table = altered();
            room.table->permanent[size % MK_PLACES] = allowed ? settings[size % MK_PLACES][3] : 0xFF;
            remember();
            CHECK(mk_reader_put_table(room.reader, size, room.table) == MK_ROOM && nothing_changed());
            CHECK(mk_reader_table(room.reader, size, room.table) == MK_ROOM && nothing_changed());
        }
    }
}

// A resent equal is answered from memory, also behind a table taken out or refused; not behind one put back.
static void test_forgets_last(void)
{
    mk_table old = table_of_reader(), wrong = altered();
    wrong.present[MK_PLACE_TRIGGER] = 1;
    CHECK(reader_said(reader_takes("07 C6 04 00 FF 8A 08 FD 9E"), MK_ACTED, READER_ACK));
    mk_table it = table_of_reader();
    CHECK(put_into_reader(&wrong) == MK_SETTING);
    CHECK(reader_said(reader_takes("07 C6 04 01 FF 8A 08 FD 9D"), MK_REPEATED, READER_ACK));
    CHECK(put_into_reader(&old) == MK_NOTHING);
    CHECK(mk_reader_parameter(reader, MK_PARAMETER_TRIGGER) == MK_TRIGGER_LEVEL);
    CHECK(reader_said(reader_takes("07 C6 04 01 FF 8A 08 FD 9D"), MK_ACTED, READER_ACK));
    CHECK(mk_reader_parameter(reader, MK_PARAMETER_TRIGGER) == MK_TRIGGER_HOST);
    CHECK(reader_said(reader_takes("07 C6 04 01 FF 8A 08 FD 9D"), MK_REPEATED, READER_ACK));
    CHECK(put_into_reader(&it) == MK_NOTHING); // the same table: forgotten too
    CHECK(reader_said(reader_takes("07 C6 04 01 FF 8A 08 FD 9D"), MK_ACTED, READER_ACK));
}

// A packet begun goes on, a deaf framer stays deaf, a message stays out, what is switched on stays on. So does what a
// start tells: an equal message behind it wants a message gap.
static void test_leaves_the_rest(void)
{
    mk_table it = altered();
    it.present[MK_PLACE_ACK_NAK] = MK_ACK_NAK_ON;
    mk_reader_send(reader, 0x1B, (const uint8_t *)"8", 1);
    CHECK(reader_said(reader_takes("04 E4 04 00 FF 14"), MK_ACTED, READER_ACK));
    CHECK(reader_takes("04 D0 04 00").number == MK_NOTHING);
    CHECK(put_into_reader(&it) == MK_NOTHING && mk_reader_switched(reader).session);
    CHECK(brought(of_sender(reader_takes("FF 28")), MK_DELIVERED, 0));
    CHECK(reader_said(reader_takes("03"), MK_LENGTH, READER_NAK_1));
    CHECK(put_into_reader(&it) == MK_NOTHING);
    CHECK(reader_said(reader_takes("05 E6 04 00 01 FF 10"), MK_NOTHING, ""));
    CHECK(started(mk_reader_send(reader, 0x1B, (const uint8_t *)"8", 1), 8, true));
}

// Present values hold at once, permanent ones from power-up on; locks are the reader's, as those of a set.
static void test_locks_put_back(void)
{
    for (size_t row = 0; row < MK_PLACES; row++) {
        uint8_t number = settings[row][0];
        size_t locked = 2;
        mk_table it = altered();
        it.locked[row] = 1;
        CHECK(put_into_reader(&it) == MK_NOTHING && mk_reader_parameter(reader, number) == it.present[row]);
        CHECK(mk_reader_locked(reader->control, sizeof reader->control, number, &locked) == MK_NOTHING && locked == 1);
        for (unsigned value = 0; value < 256; value++)
            CHECK(set(value % 2 == 0 ? 0 : MK_STATUS_PERMANENT, number, value) == MK_SETTING);
        mk_table after = table_of_reader();
        CHECK(memcmp(&after, &it, sizeof it) == 0);
        mk_reader_restart(reader);
        CHECK(mk_reader_parameter(reader, number) == it.permanent[row]);
        CHECK(set(0, number, settings[row][3]) == MK_SETTING);
        it.locked[row] = 0xFF; // any byte but 1 unlocks
        CHECK(put_into_reader(&it) == MK_NOTHING && table_of_reader().locked[row] == 0);
        CHECK(set(0, number, settings[row][3]) == MK_ACTED);
    }
}

static void test_present_at_once(void)
{
    mk_table it = house();
    it.present[MK_PLACE_ACK_NAK] = MK_ACK_NAK_OFF;
    CHECK(put_into_reader(&it) == MK_NOTHING);
    CHECK(reader_said(reader_takes("05 E6 04 00 01 FF 10"), MK_ACTED, ""));
    mk_reader_restart(reader);
    CHECK(reader_said(reader_takes("05 E6 04 00 01 FF 10"), MK_ACTED, READER_ACK));
}

static const test tests[] = {
    {"made", test_made},
    {"places", test_places},
    {"every pair", test_every_pair},
    {"one is wrong", test_one_is_wrong},
    {"named twice", test_named_twice},
    {"lengths", test_lengths},
    {"long lists", test_long_lists},
    {"every lock", test_every_lock},
    {"every byte as a lock", test_every_lock_byte},
    {"tables of garbage", test_garbage},
    {"each byte garbage", test_each_byte_garbage},
    {"as PARAM_SEND", test_as_param_send},
    {"one after another", test_one_after_another},
    {"there and back", test_there_and_back},
    {"back as it was", test_back_as_it_was},
    {"each value put back", test_each_value_put},
    {"short control values", test_short_control},
    {"last accepted", test_forgets_last},
    {"all else stays", test_leaves_the_rest},
    {"locks put back", test_locks_put_back},
    {"present at once", test_present_at_once},
};

int main(void)
{
    return run_tests(tests, COUNT(tests));
}
