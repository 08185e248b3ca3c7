// Tests of the saved set, through motikhund.h: how it is written, which bytes are read and which are MK_FORM, every
// byte of the control value afterwards, and what a lock does.
#include "ground.h"

enum { PARAMETERS = COUNT(settings), UNLOCKED_SIZE = 3 + 2 * PARAMETERS, LONG = 40, ROUNDS = 2000 };

// ---- the form, laid out here once more

typedef struct {
    uint8_t values[PARAMETERS];
    bool locked[PARAMETERS];
} saved_set;

static size_t form_of(const saved_set *it, uint8_t form[MK_SET_SIZE])
{
    size_t size = UNLOCKED_SIZE;
    form[0] = 1;
    form[1] = PARAMETERS;
    for (size_t row = 0; row < PARAMETERS; row++) {
        form[2 + 2 * row] = settings[row][0];
        form[3 + 2 * row] = it->values[row];
        if (it->locked[row])
            form[size++] = settings[row][0];
    }
    form[UNLOCKED_SIZE - 1] = (uint8_t)(size - UNLOCKED_SIZE);
    return size;
}

// The set that bytes with this size would stand for.
static saved_set read_as_set(const uint8_t *bytes, size_t size)
{
    saved_set it = {{0}, {0}};
    for (size_t row = 0; row < PARAMETERS; row++) {
        it.values[row] = bytes[3 + 2 * row];
        for (size_t i = UNLOCKED_SIZE; i < size; i++)
            it.locked[row] |= bytes[i] == settings[row][0];
    }
    return it;
}

// A form is what that set is written as, and its values are allowed.
static bool is_form(const uint8_t *bytes, size_t size)
{
    uint8_t form[MK_SET_SIZE];
    if (size < UNLOCKED_SIZE)
        return false;
    saved_set it = read_as_set(bytes, size);
    bool allowed = true;
    for (size_t row = 0; row < PARAMETERS; row++)
        allowed &= is_allowed(row, it.values[row]);
    return allowed && form_of(&it, form) == size && memcmp(form, bytes, size) == 0;
}

static saved_set any_set(void)
{
    saved_set it;
    size_t often = below(4);
    for (size_t row = 0; row < PARAMETERS; row++) {
        do {
            it.values[row] = any_byte();
        } while (!is_allowed(row, it.values[row]));
        it.locked[row] = below(3) < often;
    }
    return it;
}

// ---- the calls on what is lent, and what is due of them

static uint32_t save(size_t room_size)
{
    return mk_reader_save(room.reader, MK_READER_CONTROL_SIZE, room.set, room_size, room.values);
}

// The form stands among the lent bytes, so that a change of it is seen too.
static uint32_t load(const uint8_t *bytes, size_t size, size_t control_size)
{
    memcpy(room.bytes, bytes, size);
    remember();
    if (is_form(bytes, size) && control_size >= MK_READER_CONTROL_SIZE) {
        saved_set it = read_as_set(bytes, size);
        uint8_t *control = was(room.reader);
        due_flags(control, reader_flags);
        put_number(control + LINE_LAST, 0);
        put_number(control + READER_ANSWERED, 0);
        memcpy(control + READER_PRESENT, it.values, PARAMETERS);
        memcpy(control + READER_PERMANENT, it.values, PARAMETERS);
        for (size_t row = 0; row < PARAMETERS; row++)
            control[READER_LOCKS + row] = it.locked[row];
    }
    return mk_reader_load(room.reader, control_size, room.bytes, size);
}

// Of a whole control value: which number comes, and every byte.
static void loads(const uint8_t *bytes, size_t size)
{
    uint32_t number = load(bytes, size, MK_READER_CONTROL_SIZE);
    CHECK(number == (is_form(bytes, size) ? MK_NOTHING : MK_FORM));
    CHECK(nothing_changed());
}

static bool has_locked(const uint8_t *control, uint8_t number)
{
    size_t locked = 2;
    CHECK(mk_reader_locked(control, MK_READER_CONTROL_SIZE, number, &locked) == MK_NOTHING && locked <= 1);
    return locked == 1;
}

// The reader takes a set with the values that it has and these locks.
static void lock(const char *numbers)
{
    uint8_t form[MK_SET_SIZE], bytes[EVENTS];
    size_t size, count = read_bytes(numbers, bytes);
    CHECK(mk_reader_save(reader->control, sizeof reader->control, form, sizeof form, &size) == MK_WRITTEN);
    form[UNLOCKED_SIZE - 1] = (uint8_t)count;
    memcpy(form + UNLOCKED_SIZE, bytes, count);
    CHECK(mk_reader_load(reader->control, sizeof reader->control, form, UNLOCKED_SIZE + count) == MK_NOTHING);
}

static bool shows(const char *text)
{
    uint8_t form[MK_SET_SIZE];
    size_t size;
    CHECK(mk_reader_save(reader->control, sizeof reader->control, form, sizeof form, &size) == MK_WRITTEN);
    return reads(form, size, text);
}

// ---- written and read

static void test_house_set(void)
{
    CHECK(shows(HOUSE_SET));
    for (unsigned number = 0; number < 256; number++)
        CHECK(!has_locked(reader->control, (uint8_t)number));
}

// Any set, read over any control value, and written again.
static void test_round_trip(void)
{
    for (int i = 0; i < ROUNDS; i++) {
        saved_set it = any_set();
        uint8_t form[MK_SET_SIZE];
        size_t size = form_of(&it, form);
        fill_ground();
        loads(form, size);
        for (size_t row = 0; row < PARAMETERS; row++) {
            uint8_t number = settings[row][0];
            CHECK(mk_reader_value(room.reader, MK_READER_CONTROL_SIZE, number, room.values) == MK_NOTHING);
            CHECK(room.values[0] == it.values[row] && has_locked(room.reader, number) == it.locked[row]);
        }
        remember();
        memcpy(was(room.set), form, size);
        due_values(1, size);
        CHECK(save(MK_SET_SIZE) == MK_WRITTEN && nothing_changed());
    }
}

// Any control value is written: the permanent values as they stand, a lock where its byte is 1.
static void test_saved_garbage(void)
{
    for (int i = 0; i < ROUNDS; i++) {
        saved_set it;
        fill_ground();
        for (size_t row = 0; row < PARAMETERS; row++) {
            if (below(2) == 0)
                room.reader[READER_LOCKS + row] = 1;
            it.values[row] = room.reader[READER_PERMANENT + row];
            it.locked[row] = room.reader[READER_LOCKS + row] == 1;
        }
        remember();
        due_values(1, form_of(&it, was(room.set)));
        CHECK(save(MK_SET_SIZE) == MK_WRITTEN && nothing_changed());
        for (size_t row = 0; row < PARAMETERS; row++)
            CHECK(has_locked(room.reader, settings[row][0]) == it.locked[row]);
    }
}

// A room of 29 is too small for a form of 21 too.
static void test_save_rooms(void)
{
    fill_ground();
    mk_reader_on(room.reader, MK_READER_CONTROL_SIZE);
    for (size_t size = 0; size < MK_SET_SIZE; size++) {
        remember();
        due_values(1, 0);
        CHECK(save(size) == MK_ROOM && nothing_changed());
    }
    CHECK(save(MK_SET_SIZE) == MK_WRITTEN && reads(room.set, room.values[0], HOUSE_SET));
    CHECK(stays(room.set, room.values[0], MK_SET_SIZE) && guards_stand());
}

// ---- what is no form

// Sets with no, one, five and nine locks.
static saved_set example(size_t which)
{
    static const uint8_t locked[4][PARAMETERS] = {{0}, {0, 0, 0, 0, 1}, {1, 0, 1, 0, 1, 0, 1, 0, 1},
        {1, 1, 1, 1, 1, 1, 1, 1, 1}};
    saved_set it = {{1, 99, 8, 0, 7, 0, 0, 42, 0}, {0}};
    for (size_t row = 0; row < PARAMETERS; row++)
        it.locked[row] = locked[which][row] == 1;
    return it;
}

// Every byte of it in turn every other byte: edition, counts, numbers, values, locks.
static void test_damage(void)
{
    size_t taken = 0, refused = 0;
    for (size_t which = 0; which < 4; which++) {
        saved_set it = example(which);
        uint8_t form[MK_SET_SIZE];
        size_t size = form_of(&it, form);
        fill_ground();
        for (size_t at = 0; at < size; at++) {
            uint8_t right = form[at];
            for (unsigned byte = 0; byte < 256; byte++) {
                form[at] = (uint8_t)byte;
                loads(form, size);
                *(is_form(form, size) ? &taken : &refused) += 1;
            }
            form[at] = right;
        }
    }
    CHECK(taken > 0 && refused > 0);
}

// Every length but its own: cut, or with something behind it.
static void test_lengths(void)
{
    for (size_t which = 0; which < 4; which++) {
        for (unsigned behind = 0; behind < 256; behind += 0x55) {
            saved_set it = example(which);
            uint8_t form[LONG];
            memset(form, (int)behind, sizeof form);
            size_t own = form_of(&it, form);
            fill_ground();
            for (size_t size = 0; size <= LONG; size++) {
                CHECK(is_form(form, size) == (size == own));
                loads(form, size);
            }
        }
    }
}

// Locks that are out of order, double, unknown, or one too many.
static void test_lock_forms(void)
{
    static const char *const tails[] = {"02 89 80", "02 80 80", "01 81", "02 80 FE", "01", "00 80", "03 80 89",
        "0A 80 89 8A 9B 9C 9E 9F ED EE EE", "0A 80 89 8A 9B 9C 9E 9F ED EE EF", "09 80 89 8A 9B 9C 9E 9F ED EE EE"};
    fill_ground();
    for (size_t i = 0; i < COUNT(tails); i++) {
        uint8_t form[EVENTS];
        size_t size = read_bytes(HOUSE_SET, form) - 1;
        size += read_bytes(tails[i], form + size);
        CHECK(!is_form(form, size));
        loads(form, size);
    }
}

// A blank memory, in every length.
static void test_blank(void)
{
    for (unsigned byte = 0; byte < 256; byte += 0xFF) {
        uint8_t blank[LONG];
        memset(blank, (int)byte, sizeof blank);
        for (size_t size = 0; size <= LONG; size++)
            CHECK(mk_reader_load(reader->control, sizeof reader->control, blank, size) == MK_FORM);
        CHECK(shows(HOUSE_SET));
    }
}

// The form is judged before the control value's size.
static void test_form_before_room(void)
{
    saved_set it = example(2);
    uint8_t form[LONG] = {0};
    size_t own = form_of(&it, form);
    fill_ground();
    for (size_t control_size = 0; control_size < MK_READER_CONTROL_SIZE; control_size++) {
        for (size_t size = 0; size <= LONG; size++) {
            CHECK(load(form, size, control_size) == (size == own ? MK_ROOM : MK_FORM));
            CHECK(nothing_changed());
        }
    }
}

// ---- what a lock does

static void test_locks_outlast_power_up(void)
{
    lock("8A 9C");
    mk_reader_restart(reader);
    CHECK(has_locked(reader->control, MK_PARAMETER_TRIGGER) && has_locked(reader->control, MK_PARAMETER_BAUD));
    CHECK(!has_locked(reader->control, MK_PARAMETER_PARITY));
    CHECK(set(0, MK_PARAMETER_BAUD, MK_BAUD_4800) == MK_SETTING);
    lock(""); // a set unlocks, and no command
    CHECK(set(0, MK_PARAMETER_BAUD, MK_BAUD_4800) == MK_ACTED);
}

// The value it has is refused too, and so is all else that the packet names; behind a wrong length and a wrong beep.
static void test_locked_in_send(void)
{
    static const uint8_t mixed[] = {0x01, MK_PARAMETER_PARITY, MK_PARITY_EVEN, MK_PARAMETER_BAUD, MK_BAUD_9600};
    static const uint8_t beep[] = {0x1E, MK_PARAMETER_BAUD, MK_BAUD_9600};
    lock("9C");
    for (uint8_t status = 0; status <= MK_STATUS_PERMANENT; status += MK_STATUS_PERMANENT) {
        for (unsigned value = 0; value < 256; value++)
            CHECK(set(status, MK_PARAMETER_BAUD, value) == MK_SETTING);
        mk_reader_told told = command(MK_OPCODE_PARAM_SEND, status, mixed, sizeof mixed);
        CHECK(reader_said(told, MK_SETTING, READER_NAK_6) && !told.permanent && told.beep.count == 0);
        CHECK(command(MK_OPCODE_PARAM_SEND, status, mixed, sizeof mixed - 1).number == MK_DATA);
        CHECK(command(MK_OPCODE_PARAM_SEND, status, beep, sizeof beep).number == MK_BEEP);
    }
    CHECK(mk_reader_parameter(reader, MK_PARAMETER_PARITY) == MK_PARITY_NONE);
    CHECK(set(0, MK_PARAMETER_PARITY, MK_PARITY_EVEN) == MK_ACTED);
}

// Present 3 and permanent 5 where the default is 20: a locked one keeps both.
static void test_defaults_pass_over(void)
{
    static const uint8_t number = MK_PARAMETER_RESPONSE_TIME_OUT;
    for (int locked = 0; locked < 2; locked++) {
        mk_reader_init(reader);
        CHECK(set(MK_STATUS_PERMANENT, number, 5) == MK_ACTED);
        CHECK(set(MK_STATUS_PERMANENT, MK_PARAMETER_AIM_DURATION, 9) == MK_ACTED);
        CHECK(set(0, number, 3) == MK_ACTED);
        reader->control[READER_LOCKS + 3] = (uint8_t)locked; // a set would make both values one
        mk_reader_told told = command(MK_OPCODE_PARAM_DEFAULTS, 0, message, 0);
        CHECK(reader_said(told, MK_ACTED, READER_ACK) && told.permanent);
        CHECK(mk_reader_parameter(reader, number) == (locked ? 3 : 20));
        CHECK(mk_reader_parameter(reader, MK_PARAMETER_AIM_DURATION) == 0);
        mk_reader_restart(reader);
        CHECK(mk_reader_parameter(reader, number) == (locked ? 5 : 20));
        CHECK(mk_reader_parameter(reader, MK_PARAMETER_AIM_DURATION) == 0);
    }
}

// All nine locked: nothing can change, and the command is acted on all the same.
static void test_all_locked(void)
{
    CHECK(set(MK_STATUS_PERMANENT, MK_PARAMETER_AIM_DURATION, 9) == MK_ACTED);
    lock("80 89 8A 9B 9C 9E 9F ED EE");
    mk_reader_told told = command(MK_OPCODE_PARAM_DEFAULTS, 0, message, 0);
    CHECK(reader_said(told, MK_ACTED, READER_ACK) && !told.permanent);
    CHECK(shows("01 09 80 00 89 0A 8A 00 9B 14 9C 06 9E 04 9F 01 ED 09 EE 01 09 80 89 8A 9B 9C 9E 9F ED EE"));
    CHECK(command(MK_OPCODE_PARAM_SEND, 0, (const uint8_t *)"\xFF", 1).number == MK_ACTED);
}

// ---- what else reading a set does

// The last accepted packet is forgotten by a set, and not by a form that is refused.
static void test_forgets_last(void)
{
    uint8_t form[EVENTS];
    size_t size = read_bytes(HOUSE_SET, form);
    CHECK(reader_said(reader_takes("07 C6 04 00 FF 8A 08 FD 9E"), MK_ACTED, READER_ACK));
    CHECK(mk_reader_load(reader->control, sizeof reader->control, form, size - 1) == MK_FORM);
    CHECK(reader_said(reader_takes("07 C6 04 01 FF 8A 08 FD 9D"), MK_REPEATED, READER_ACK));
    CHECK(mk_reader_load(reader->control, sizeof reader->control, form, size) == MK_NOTHING);
    CHECK(mk_reader_parameter(reader, MK_PARAMETER_TRIGGER) == MK_TRIGGER_LEVEL);
    CHECK(reader_said(reader_takes("07 C6 04 01 FF 8A 08 FD 9D"), MK_ACTED, READER_ACK));
    CHECK(mk_reader_parameter(reader, MK_PARAMETER_TRIGGER) == MK_TRIGGER_HOST);
}

// A packet begun goes on, a deaf framer stays deaf, a message stays out, what is switched on stays on. So does what a
// start tells: an equal message behind it wants a message gap.
static void test_leaves_the_rest(void)
{
    mk_reader_send(reader, 0x1B, (const uint8_t *)"8", 1);
    CHECK(reader_said(reader_takes("04 E4 04 00 FF 14"), MK_ACTED, READER_ACK));
    CHECK(reader_takes("04 D0 04 00").number == MK_NOTHING);
    lock("80");
    CHECK(mk_reader_switched(reader).session);
    CHECK(brought(of_sender(reader_takes("FF 28")), MK_DELIVERED, 0));
    CHECK(reader_said(reader_takes("03"), MK_LENGTH, READER_NAK_1));
    lock("80");
    CHECK(reader_said(reader_takes("05 E6 04 00 01 FF 10"), MK_NOTHING, ""));
    CHECK(started(mk_reader_send(reader, 0x1B, (const uint8_t *)"8", 1), 8, true));
}

// The set's 9Fh holds at once.
static void test_present_at_once(void)
{
    uint8_t form[EVENTS];
    size_t size = read_bytes("01 09 80 00 89 0A 8A 00 9B 14 9C 06 9E 04 9F 00 ED 00 EE 01 00", form);
    CHECK(mk_reader_load(reader->control, sizeof reader->control, form, size) == MK_NOTHING);
    CHECK(reader_said(reader_takes("05 E6 04 00 01 FF 10"), MK_ACTED, ""));
}

// ---- when to save

static bool to_save(uint8_t opcode, uint8_t status, const char *text)
{
    uint8_t data[EVENTS];
    mk_reader_told told = command(opcode, status, data, read_bytes(text, data));
    CHECK(told.number == MK_ACTED || !told.permanent);
    return told.permanent;
}

static void test_when_to_save(void)
{
    const uint8_t send = MK_OPCODE_PARAM_SEND, for_ever = MK_STATUS_PERMANENT;
    CHECK(!to_save(MK_OPCODE_PARAM_DEFAULTS, 0, ""));
    CHECK(!to_save(send, 0, "FF 8A 08"));
    CHECK(to_save(send, for_ever, "FF 8A 08"));
    CHECK(!to_save(send, for_ever | MK_STATUS_RESEND, "FF 8A 08")); // a repeat
    CHECK(!to_save(send, for_ever, "FF 8A 08"));                    // acted on, and nothing changed
    CHECK(!to_save(send, 0, "FF 8A 02"));
    CHECK(!to_save(send, for_ever, "FF 8A 08")); // the present value alone came back
    CHECK(!to_save(send, for_ever, "FF 8A 02 8A 08"));
    CHECK(!to_save(send, for_ever, "FF"));
    CHECK(!to_save(send, for_ever, "FF 8A 01")); // refused
    CHECK(!to_save(MK_OPCODE_BEEP, for_ever, "01"));
    CHECK(to_save(send, for_ever, "FF 89 01 8A 02"));
    CHECK(to_save(MK_OPCODE_PARAM_DEFAULTS, 0, ""));
    CHECK(!to_save(MK_OPCODE_PARAM_DEFAULTS, 0, ""));
}

static const test tests[] = {
    {"house defaults", test_house_set},
    {"round trip", test_round_trip},
    {"saved garbage", test_saved_garbage},
    {"room for saving", test_save_rooms},
    {"damage", test_damage},
    {"lengths", test_lengths},
    {"forms of locks", test_lock_forms},
    {"blank", test_blank},
    {"form before room", test_form_before_room},
    {"locks over power-up", test_locks_outlast_power_up},
    {"locked in PARAM_SEND", test_locked_in_send},
    {"PARAM_DEFAULTS passes over", test_defaults_pass_over},
    {"all locked", test_all_locked},
    {"last accepted", test_forgets_last},
    {"all else stays", test_leaves_the_rest},
    {"present at once", test_present_at_once},
    {"when to save", test_when_to_save},
};

int main(void)
{
    return run_tests(tests, COUNT(tests));
}
