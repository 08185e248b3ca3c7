//! The saved set: how it is written, which bytes are read and which are refusal 12, every byte of the control value
//! afterwards, a set carried to nine readers, and what a lock does.

use std::array;
use std::collections::BTreeSet;

use motikhund::constants::*;
use motikhund::lent::reader;
use motikhund::{Event, Outcome, Reader, ReaderTold, Refusal};

use crate::bare;
use crate::dice::Dice;
use crate::every_byte::{due_flags, put, ANSWERED, LAST, LOCKS, PERMANENT, PRESENT, READER_FLAGS};
use crate::fenced::{Fenced, FILLS};
use crate::notation::{ack, command, nak, packet, reader_ack, reader_hears, sent};
use crate::parameters::{acted, set, values, ROWS};

pub const NUMBERS: [u8; 9] = {
    let mut numbers = [0; 9];
    let mut row = 0;
    while row < ROWS.len() {
        numbers[row] = ROWS[row][0];
        row += 1;
    }
    numbers
};

/// The bytes of a form before its locks: edition, nine, the pairs.
const PAIRS: usize = 20;

/// More bytes than any form has.
const LONG: usize = 40;

// ---- the form, laid out here once more

#[derive(Clone, Copy)]
struct Set {
    values: [u8; 9],
    locked: [bool; 9],
}

impl Set {
    fn locks(&self) -> Vec<u8> {
        NUMBERS.into_iter().zip(self.locked).filter_map(|(number, locked)| locked.then_some(number)).collect()
    }

    fn form(&self) -> Vec<u8> {
        let pairs: Vec<u8> = NUMBERS.into_iter().zip(self.values).flat_map(|(number, value)| [number, value]).collect();
        let locks = self.locks();
        [&[1, 9], &pairs[..], &[locks.len() as u8], &locks[..]].concat()
    }

    /// The set that these bytes stand for: it is written just so, and its values are allowed.
    fn of(bytes: &[u8]) -> Option<Set> {
        let (pairs, locks) = (bytes.get(2..PAIRS)?, bytes.get(PAIRS + 1..)?);
        let set = Set {
            values: array::from_fn(|row| pairs[2 * row + 1]),
            locked: NUMBERS.map(|number| locks.contains(&number)),
        };
        let allowed = (0..9).all(|row| is_allowed(row, set.values[row]));
        (allowed && set.form() == bytes).then_some(set)
    }

    fn any(dice: &mut Dice) -> Set {
        let often = dice.pick(&[0, 30, 70, 100]);
        Set {
            values: array::from_fn(|row| loop {
                let value = dice.byte();
                if is_allowed(row, value) {
                    break value;
                }
            }),
            locked: array::from_fn(|_| dice.chance(often)),
        }
    }
}

pub fn is_allowed(row: usize, value: u8) -> bool {
    let [number, low, high, _] = ROWS[row];
    let gaps = number == PARAMETER_TRIGGER && ![0, 2, 4, 7, 8].contains(&value);
    (low..=high).contains(&value) && !gaps
}

fn house() -> Set {
    Set { values: ROWS.map(|[.., default]| default), locked: [false; 9] }
}

/// The form of the house defaults.
pub fn house_set() -> Vec<u8> {
    house().form()
}

/// No lock, one, five and all nine, with values that are no defaults.
fn examples() -> [Set; 4] {
    let values = [1, 99, 8, 0, 7, 0, 0, 42, 0];
    let locked = |of: fn(usize) -> bool| Set { values, locked: array::from_fn(of) };
    [locked(|_| false), locked(|row| row == 4), locked(|row| row % 2 == 0), locked(|_| true)]
}

// ---- read over any control value

/// What a form gives, with every byte: taken, or refused with nothing changed.
fn loads(control: &mut Fenced, form: &[u8]) {
    control.remember();
    let read = Set::of(form);
    if let Some(set) = read {
        let due = control.due();
        due_flags(due, &READER_FLAGS);
        put(due, LAST, 0);
        put(due, ANSWERED, 0);
        due[PRESENT..][..9].copy_from_slice(&set.values);
        due[PERMANENT..][..9].copy_from_slice(&set.values);
        due[LOCKS..][..9].copy_from_slice(&set.locked.map(u8::from));
    }
    assert_eq!(bare::reader_load(control, form), read.map_or(Refusal::Form.number(), |_| NOTHING), "{form:02X?}");
    assert!(control.unchanged(), "{form:02X?}");
}

/// A control value of each kind of garbage.
fn controls() -> impl Iterator<Item = Fenced> {
    (0..).zip(FILLS).map(|(seed, fill)| Fenced::filled(&mut Dice::new(seed), READER_CONTROL_SIZE, fill))
}

#[test]
fn of_the_house_defaults() {
    let form = [1, 9, 0x80, 0, 0x89, 10, 0x8A, 0, 0x9B, 20, 0x9C, 6, 0x9E, 4, 0x9F, 1, 0xED, 0, 0xEE, 1, 0];
    assert_eq!(Reader::new().save(&mut [0; SET_SIZE]), form);
    assert_eq!(house_set(), form);
    assert!((0..=255).all(|number| !Reader::new().locked(number)));
}

#[test]
fn there_and_back() {
    for seed in 0..2_000 {
        let dice = &mut Dice::new(seed);
        let (set, mut control) = (Set::any(dice), Fenced::new(dice, READER_CONTROL_SIZE));
        let form = set.form();
        loads(&mut control, &form);
        for (row, number) in NUMBERS.into_iter().enumerate() {
            assert_eq!(reader::value(control.lent(), number), Ok(set.values[row]));
            assert_eq!(reader::locked(control.lent(), number), Ok(set.locked[row]));
        }
        let mut room = Fenced::new(dice, SET_SIZE + (seed % 3) as usize);
        room.due()[..form.len()].copy_from_slice(&form);
        assert_eq!(bare::reader_save(&mut control, &mut room), (WRITTEN, form.len()));
        assert!(room.unchanged() && control.unchanged());
    }
}

/// Any bytes are a control value, and it is written: permanent values as they stand, a lock where its byte is 1.
#[test]
fn garbage_is_written() {
    for seed in 0..2_000 {
        let dice = &mut Dice::new(seed);
        let (mut control, mut room) = (Fenced::new(dice, READER_CONTROL_SIZE), Fenced::new(dice, SET_SIZE));
        control.lent()[LOCKS..][..9].fill_with(|| dice.pick(&[0, 1, 1, 2, 0xFF]));
        control.remember();
        let bytes = control.lent();
        let set = Set {
            values: array::from_fn(|row| bytes[PERMANENT + row]),
            locked: array::from_fn(|row| bytes[LOCKS + row] == 1),
        };
        let form = set.form();
        room.due()[..form.len()].copy_from_slice(&form);
        assert_eq!(bare::reader_save(&mut control, &mut room), (WRITTEN, form.len()));
        assert!(room.unchanged() && control.unchanged());
    }
}

/// The longest form's room is asked for, whatever the set.
#[test]
fn a_room_of_29() {
    let control = *Reader::new().control();
    for size in 0..SET_SIZE {
        let mut room = [0xAA; SET_SIZE];
        assert_eq!(reader::save(&control, &mut room[..size]), Err(Refusal::Room));
        assert_eq!(room, [0xAA; SET_SIZE]);
    }
    let mut room = [0xAA; SET_SIZE];
    assert_eq!(reader::save(&control, &mut room), Ok(&house_set()[..]));
    assert_eq!(room[21..], [0xAA; 9]);
}

// ---- what is no form

/// Each byte in turn every other one: edition, counts, numbers, values, locks. Only another value, and another lock
/// that leaves them rising, make another set.
#[test]
fn each_field_damaged() {
    let mut taken = BTreeSet::new();
    for set in examples() {
        let mut control = Fenced::new(&mut Dice::new(7), READER_CONTROL_SIZE);
        let form = set.form();
        for (place, byte) in (0..form.len()).flat_map(|place| (0..=255).map(move |byte| (place, byte))) {
            let mut damaged = form.clone();
            damaged[place] = byte;
            loads(&mut control, &damaged);
            if damaged != form && Set::of(&damaged).is_some() {
                taken.insert(place);
            }
        }
    }
    // Of one lock or five others may stand in their places, of nine none.
    let (values, locks) = ((3..PAIRS).step_by(2), PAIRS + 1..PAIRS + 6);
    assert_eq!(taken, values.chain(locks).collect());
}

/// Cut, or with something behind it.
#[test]
fn each_length() {
    for (set, mut control) in examples().into_iter().flat_map(|set| controls().map(move |control| (set, control))) {
        let form = set.form();
        for (size, behind) in (0..=LONG).flat_map(|size| [0x00, 0x01, 0x80, 0xEE, 0xFF].map(|behind| (size, behind))) {
            let mut other = form.clone();
            other.resize(size, behind);
            assert_eq!(Set::of(&other).is_some(), size == form.len());
            loads(&mut control, &other);
        }
    }
}

/// Out of order, double, unknown, more or fewer than counted; ten.
#[test]
fn locks_of_another_form() {
    let ten = [&[10][..], &NUMBERS, &[0xEE]].concat();
    let other_ten = [&[10][..], &NUMBERS, &[0xEF]].concat();
    let cases: [&[u8]; 10] = [
        &[2, 0x89, 0x80],
        &[2, 0x80, 0x80],
        &[1, 0x81],
        &[2, 0x80, 0xFE],
        &[1],
        &[0, 0x80],
        &[3, 0x80, 0x89],
        &[1, 0x80, 0x89],
        &ten,
        &other_ten,
    ];
    for (tail, mut control) in cases.into_iter().flat_map(|tail| controls().map(move |control| (tail, control))) {
        let form = [&house_set()[..PAIRS], tail].concat();
        assert!(Set::of(&form).is_none(), "{tail:02X?}");
        loads(&mut control, &form);
    }
}

#[test]
fn a_blank_memory() {
    for (byte, size) in [0x00, 0xFF].into_iter().flat_map(|byte| (0..=LONG).map(move |size| (byte, size))) {
        let mut reader = Reader::new();
        assert_eq!(reader.load(&vec![byte; size]), Err(Refusal::Form));
        assert_eq!(reader, Reader::new());
    }
}

/// The form is judged before the control value's size.
#[test]
fn twelve_before_thirteen() {
    let right = examples()[2].form();
    for size in 0..READER_CONTROL_SIZE {
        let mut control = Fenced::new(&mut Dice::new(size as u64), size);
        for length in 0..=LONG {
            let mut form = right.clone();
            form.resize(length, 0);
            let why = if length == right.len() { Refusal::Room } else { Refusal::Form };
            assert_eq!(reader::load(control.lent(), &form), Err(why), "{size} {length}");
        }
        assert!(control.unchanged());
    }
}

// ---- carried

/// One reader is set up, its set with two locks carried to nine others, whatever those were.
#[test]
fn from_one_reader_to_nine() {
    let mut first = Reader::new();
    acted(&mut first, &set(STATUS_PERMANENT, &[0x8A, 8, 0xED, 5]));
    let mut room = [0; SET_SIZE];
    let form = [&first.save(&mut room)[..PAIRS], &[2, 0x8A, 0x9C]].concat();
    assert_eq!(first.load(&form), Ok(()));
    for seed in 0..9 {
        let mut reader = Reader::new();
        assert_eq!(reader.load(&Set::any(&mut Dice::new(seed)).form()), Ok(()));
        assert_eq!(reader.load(first.save(&mut room)), Ok(()));
        assert_eq!(reader.save(&mut [0; SET_SIZE]), form);
        assert_eq!(values(&reader), values(&first));
        // Switched off; what was kept is taken by one just switched on.
        let mut on = Reader::new();
        assert_eq!(on.load(&form), Ok(()));
        assert_eq!(on.save(&mut [0; SET_SIZE]), form);
        assert_eq!(on.control(), reader.control());
    }
}

// ---- what a lock does

/// A reader with these locks and the values that it has.
fn lock(reader: &mut Reader, locks: &[u8]) {
    let mut room = [0; SET_SIZE];
    let form = [&reader.save(&mut room)[..PAIRS], &[locks.len() as u8], locks].concat();
    assert_eq!(reader.load(&form), Ok(()));
}

fn locked(locks: &[u8]) -> Reader {
    let mut reader = Reader::new();
    lock(&mut reader, locks);
    reader
}

#[test]
fn locks_outlast_power_up() {
    let mut reader = locked(&[0x8A, 0x9C]);
    reader.restart();
    let powered_up = Reader::powered_up(*reader.control());
    for reader in [&reader, &powered_up] {
        assert_eq!((0..=255).filter(|number| reader.locked(*number)).collect::<Vec<u8>>(), [0x8A, 0x9C]);
    }
    assert!(matches!(reader_hears(&mut reader, &sent(&set(0, &[0x9C, 7]))), ReaderTold::Refused { .. }));
    // A set unlocks, and no command.
    lock(&mut reader, &[]);
    acted(&mut reader, &set(0, &[0x9C, 7]));
}

/// With the value that it has too, for now or for ever, alone or among others; behind a wrong length or beep.
#[test]
fn a_locked_number_in_param_send() {
    let refused = |reader: &mut Reader, packet: &[u8], why, cause| {
        let before = reader.control()[PRESENT..].to_vec();
        let told = reader_hears(reader, &sent(packet));
        assert_eq!(told, ReaderTold::Refused { why, answer: &nak(SOURCE_READER, cause) }, "{packet:02X?}");
        assert_eq!(reader.control()[PRESENT..], before);
    };
    for (row, number) in NUMBERS.into_iter().enumerate() {
        let mut reader = locked(&[number]);
        for status in [0, STATUS_PERMANENT] {
            for value in 0..=255 {
                refused(&mut reader, &set(status, &[number, value]), Refusal::Setting, CAUSE_DENIED);
            }
            let [other, _, high, _] = ROWS[(row + 1) % 9];
            for pairs in [[number, ROWS[row][3], other, high], [other, high, number, ROWS[row][3]]] {
                refused(&mut reader, &set(status, &pairs), Refusal::Setting, CAUSE_DENIED);
            }
            refused(&mut reader, &set(status, &[number]), Refusal::Data, CAUSE_CONTEXT);
            let beep = packet(OPCODE_PARAM_SEND, SOURCE_HOST, status, &[0x1E, number, ROWS[row][3]]);
            refused(&mut reader, &beep, Refusal::Beep, CAUSE_DENIED);
            acted(&mut reader, &set(status, &[other, high]));
            acted(&mut reader, &command(OPCODE_PARAM_DEFAULTS, &[]));
        }
    }
}

/// A locked one keeps both its values, here other ones; the others get their defaults.
#[test]
fn param_defaults_passes_over() {
    for (row, number) in NUMBERS.into_iter().enumerate() {
        let mut control = *Reader::new().control();
        control[PRESENT..][..9].copy_from_slice(&[1, 3, 8, 3, 7, 0, 1, 3, 0]);
        control[PERMANENT..][..9].copy_from_slice(&[1, 5, 4, 5, 1, 1, 0, 5, 0]);
        control[LOCKS + row] = 1;
        let (present, permanent) = (control[PRESENT + row], control[PERMANENT + row]);
        let mut due = house().values;
        let (mut line, mut answers) = ([0; LINE_SIZE], [0; READER_ANSWER_SIZE]);
        let (mut answer, mut copy) = ([0; READER_ANSWER_SIZE], [0; PACKET_SIZE]);
        for byte in command(OPCODE_PARAM_DEFAULTS, &[]) {
            let (answer, copy) = (&mut answer, &mut copy);
            let told = reader::hear(
                &mut control,
                &mut line,
                &mut answers,
                &[0; MESSAGE_SIZE],
                answer,
                copy,
                Event::Byte(byte),
            );
            if let ReaderTold::Acted { permanent, .. } = told {
                assert!(permanent);
            }
        }
        assert_eq!(answer[..6], reader_ack());
        due[row] = present;
        assert_eq!(control[PRESENT..][..9], due, "{number:02X}");
        due[row] = permanent;
        assert_eq!(control[PERMANENT..][..9], due, "{number:02X}");
    }
}

#[test]
fn all_nine_are_locked() {
    let mut reader = Reader::new();
    assert_eq!(reader.load(&Set { values: [1, 3, 8, 3, 7, 0, 1, 3, 0], locked: [true; 9] }.form()), Ok(()));
    let before = reader.control()[PRESENT..].to_vec();
    let told = reader_hears(&mut reader, &sent(&command(OPCODE_PARAM_DEFAULTS, &[])));
    assert_eq!(told, ReaderTold::Acted { beep: None, permanent: false, answer: &reader_ack() });
    assert_eq!(reader.control()[PRESENT..LOCKS + 9], before[..27]);
    // One that names no parameter is taken.
    acted(&mut reader, &set(STATUS_PERMANENT, &[]));
}

// ---- what else reading a set does, and does not

#[test]
fn the_last_accepted_packet_is_forgotten() {
    let mut reader = Reader::new();
    let again = set(STATUS_RESEND, &[0x8A, 8]);
    acted(&mut reader, &set(0, &[0x8A, 8]));
    assert_eq!(reader.load(&[]), Err(Refusal::Form));
    assert_eq!(reader_hears(&mut reader, &sent(&again)), ReaderTold::Repeated { answer: &reader_ack() });
    assert_eq!(reader.load(&house_set()), Ok(()));
    assert_eq!(reader.parameter(0x8A), 0);
    acted(&mut reader, &again);
    assert_eq!(reader.parameter(0x8A), 8);
}

/// A packet begun, a deaf framer, a message out and the switches stay.
#[test]
fn all_else_stays() {
    let mut reader = Reader::new();
    assert!(matches!(reader.send(0x1B, b"8"), Outcome::Copy { .. }));
    acted(&mut reader, &command(OPCODE_START_SESSION, &[]));
    let (front, rest) = (&ack(SOURCE_HOST)[..3], &ack(SOURCE_HOST)[3..]);
    assert_eq!(reader_hears(&mut reader, &sent(front)), ReaderTold::Nothing);
    lock(&mut reader, &[0x80]);
    assert!(reader.switched().session);
    assert_eq!(reader_hears(&mut reader, &sent(rest)), ReaderTold::Delivered { copies: 0 });
    assert!(matches!(reader.event(Event::Byte(3)), ReaderTold::Refused { why: Refusal::Length, .. }));
    lock(&mut reader, &[]);
    assert_eq!(reader_hears(&mut reader, &sent(&command(OPCODE_AIM_ON, &[]))), ReaderTold::Nothing);
}

#[test]
fn its_values_hold_at_once() {
    let mut reader = Reader::new();
    let silent = Set { values: [0, 10, 0, 20, 6, 4, ACK_NAK_OFF, 0, 1], locked: [false; 9] };
    assert_eq!(reader.load(&silent.form()), Ok(()));
    let told = reader_hears(&mut reader, &sent(&command(OPCODE_AIM_ON, &[])));
    assert_eq!(told, ReaderTold::Acted { beep: None, permanent: false, answer: &[] });
}

// ---- when to save

/// At the events that changed a permanent value, and at no other.
#[test]
fn when_to_save() {
    let defaults = || command(OPCODE_PARAM_DEFAULTS, &[]);
    let for_ever = |pairs: &[u8]| set(STATUS_PERMANENT, pairs);
    let steps = [
        (defaults(), false),
        (set(0, &[0x8A, 8]), false),
        (for_ever(&[0x8A, 8]), true),
        (set(STATUS_PERMANENT | STATUS_RESEND, &[0x8A, 8]), false),
        (for_ever(&[0x8A, 8]), false),
        (set(0, &[0x8A, 2]), false),
        (for_ever(&[0x8A, 8]), false),
        (for_ever(&[0x8A, 2, 0x8A, 8]), false),
        (for_ever(&[]), false),
        (for_ever(&[0x8A, 1]), false),
        (packet(OPCODE_BEEP, SOURCE_HOST, STATUS_PERMANENT, &[1]), false),
        (for_ever(&[0x89, 1, 0x8A, 2]), true),
        (defaults(), true),
        (defaults(), false),
    ];
    let mut reader = Reader::new();
    for (packet, due) in steps {
        let before = *reader.control();
        let told = reader_hears(&mut reader, &sent(&packet));
        assert_eq!(matches!(told, ReaderTold::Acted { permanent: true, .. }), due, "{packet:02X?}");
        assert_eq!(before[PERMANENT..LOCKS] != reader.control()[PERMANENT..LOCKS], due, "{packet:02X?}");
    }
}
