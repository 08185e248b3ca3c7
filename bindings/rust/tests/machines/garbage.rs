//! Any control bytes, any buffers, any events: each safe call beside its raw one on the same bytes. They must tell
//! the same, in the documented numbers, and leave the same; nothing is touched past what is told or outside what is
//! lent. Every documented number must come.

use std::collections::BTreeSet;

use motikhund::constants::{
    ANSWER_SIZE, FRAMER_CONTROL_SIZE, HUB_CONTROL_SIZE, LINE_SIZE, MESSAGE_SIZE, PACKET_SIZE, READER_ANSWER_SIZE,
    READER_CONTROL_SIZE, SENDER_CONTROL_SIZE, SET_SIZE,
};
use motikhund::lent::{framer, hub, reader, sender};
use motikhund::{packet, Heard, Reply};

use crate::bare;
use crate::dice::Dice;
use crate::every_byte::{due_flags, HUB_FLAGS, HUB_NUMBERS, READERS_SENDER, READER_FLAGS};
use crate::fenced::{Fenced, Size, FRAMER, HUB, READER, SENDER, TABLE_SIZE};
use crate::notation;
use crate::streams::{Side, Stream};
use crate::tables::table_in;

const RUNS: u64 = 100;
const EVENTS: usize = 1_000;

/// The same bytes twice, for the safe call and for the raw one.
pub struct Twins<const N: usize> {
    pub safe: [Fenced; N],
    pub bare: [Fenced; N],
}

impl<const N: usize> Twins<N> {
    pub fn new(dice: &mut Dice, sizes: [Size; N]) -> Twins<N> {
        let safe = sizes.map(|size| {
            let size = size.enough(dice);
            Fenced::new(dice, size)
        });
        Twins { bare: safe.clone(), safe }
    }

    /// Any bytes as control value, with numbers and flags that now and then stand for something.
    pub fn garble(&mut self, dice: &mut Dice, numbers: &[usize], flags: &[usize]) {
        let control = self.safe[0].lent();
        control.fill_with(|| dice.byte());
        for place in numbers {
            if dice.chance(80) {
                let small = dice.pick(&[3, 26, 257, 258, 4_097, 5_000]);
                control[*place..place + 8].copy_from_slice(&dice.below(small).to_le_bytes());
            }
        }
        flags.iter().for_each(|place| control[*place] = dice.pick(&[0, 1, 1, 2]));
        let place = 1 + dice.below(N - 1);
        self.safe[place].lent().fill_with(|| dice.byte());
        self.safe.iter_mut().for_each(Fenced::remember);
        self.bare = self.safe.clone();
    }

    /// Both left the same, and nothing past so many bytes of each buffer. In the control value a flag that was read as
    /// not set may be any byte but 1: the short way leaves it, and the call writes what it read.
    pub fn agree(&mut self, flags: &[usize], written: [usize; N]) {
        for control in [&mut self.safe[0], &mut self.bare[0]] {
            due_flags(control.lent(), flags);
        }
        for ((safe, bare), written) in self.safe.iter_mut().zip(&mut self.bare).zip(written) {
            assert!(safe == bare, "left differently");
            assert!(safe.unchanged_past(written), "written past what was told");
            safe.remember();
            bare.remember();
        }
    }
}

fn runs(mut run: impl FnMut(&mut Dice)) {
    (0..RUNS).for_each(|seed| run(&mut Dice::new(seed)));
}

#[test]
fn the_packet() {
    let mut seen = BTreeSet::new();
    let mut built = BTreeSet::new();
    runs(|dice| {
        let mut stream = Stream::new(dice.pick(&[Side::Hub, Side::Reader]));
        let mut rooms = Twins::new(dice, [Size::Room(PACKET_SIZE), Size::Room(ANSWER_SIZE)]);
        for _ in 0..EVENTS {
            let count = dice.pick(&[0, 1, 5, 300]);
            let some = if dice.chance(30) { dice.bytes(count) } else { stream.packet(dice) };
            let told = bare::check(&some);
            assert_eq!(bare::of_checked(packet::check(&some)), told);
            seen.insert(told.0);

            let fields = [dice.byte(), dice.pick(&[0, 4, 4, 5]), dice.pick(&[0, 1, 2, 8, 4])];
            let size = dice.pick(&[0, 1, 251, 252, 400]);
            let data = dice.bytes(size);
            let told = bare::build(&mut rooms.bare[0], fields, &data);
            let [opcode, source, status] = fields;
            let written = packet::build(rooms.safe[0].lent(), opcode, source, status, &data);
            assert_eq!(bare::of_built(written), told);
            if let Ok(written) = written {
                assert_eq!(written, notation::packet(opcode, source, status, &data));
            }
            built.insert(told.0);
            rooms.agree(&[], [told.1, 0]);

            let (reply, number) = match dice.below(512) as u32 {
                cause @ 0..=255 => (Reply::Nak(cause as u8), cause),
                _ => (Reply::Ack, 256),
            };
            let told = bare::answer(&mut rooms.bare[1], source, number);
            assert_eq!(bare::of_built(packet::answer(rooms.safe[1].lent(), source, reply)), told);
            rooms.agree(&[], [0, told.1]);
        }
    });
    assert_eq!(seen, [1, 2, 3, 100].into());
    assert_eq!(built, [4, 5, 7, 101].into());
}

#[test]
fn the_framer() {
    let mut seen = BTreeSet::new();
    runs(|dice| {
        let mut stream = Stream::new(dice.pick(&[Side::Hub, Side::Reader]));
        let mut twins = Twins::new(dice, FRAMER);
        for _ in 0..EVENTS {
            if dice.chance(3) {
                twins.garble(dice, &[0], &[8]);
            }
            let event = stream.next(dice);
            let told = bare::framer(&mut twins.bare, bare::event_number(event));
            let [control, line] = &mut twins.safe;
            assert_eq!(bare::of_found(framer::hear(control.lent(), line.lent(), event)), told);
            seen.insert(told.0);
            twins.agree(&[], [FRAMER_CONTROL_SIZE, PACKET_SIZE]);
        }
    });
    assert_eq!(seen, [0, 1, 2, 3, 100].into());
}

#[test]
fn the_hub() {
    let mut seen = BTreeSet::new();
    runs(|dice| {
        let mut stream = Stream::new(Side::Hub);
        let mut twins = Twins::new(dice, HUB);
        for _ in 0..EVENTS {
            if dice.chance(1) {
                twins.garble(dice, &HUB_NUMBERS, &HUB_FLAGS);
            }
            let event = stream.next(dice);
            let told = bare::hub(&mut twins.bare, bare::event_number(event));
            let [control, line, gather, answer, message] = &mut twins.safe;
            let (line, gather) = (line.array(), gather.array());
            let safe = hub::hear(control.lent(), line, gather, answer.lent(), message.lent(), event);
            assert_eq!(bare::of_hub(safe), told);
            seen.insert(told.0);
            let (_, [answer, _, message]) = told;
            twins.agree(&HUB_FLAGS, [HUB_CONTROL_SIZE, LINE_SIZE, MESSAGE_SIZE, answer, message]);
        }
    });
    assert_eq!(seen, [0, 1, 2, 3, 4, 5, 6, 7, 10, 110, 111, 112].into());
}

/// How many bytes an outcome leaves in the copy room.
fn copied((number, value): (u32, usize)) -> usize {
    if number == 120 {
        value
    } else {
        0
    }
}

/// A message to start; most in a row are equal, as the dice are those of the size.
fn message(dice: &mut Dice) -> (u8, Vec<u8>) {
    let size = dice.pick(&[0, 0, 1, 1, 250, 251, 600, 4_096, 4_097]);
    let code = if dice.chance(80) { 0x1B } else { dice.byte() };
    (code, Dice::new(size as u64).bytes(size))
}

/// Whether a message gap is due before a message, by the sender's control bytes and its buffer before the start.
fn gap_is_due(control: &[u8], buffer: &[u8], code: u8, message: &[u8]) -> bool {
    let number = |at: usize| u64::from_le_bytes(control[at..at + 8].try_into().expect("eight bytes"));
    let (length, at, size) = (number(4), number(12), number(20));
    let kept = control[0] != 1 && control[3] == 1 && length <= 4_096 && at <= length && size == length - at;
    let last = || &buffer[at as usize..length as usize];
    control[2] == 1 || kept && size <= 250 && control[1] == code && last() == message
}

#[test]
fn the_sender() {
    let mut seen = BTreeSet::new();
    let mut gaps = BTreeSet::new();
    runs(|dice| {
        let mut twins = Twins::new(dice, SENDER);
        for _ in 0..EVENTS {
            if dice.chance(10) {
                twins.garble(dice, &[4, 12, 20, 28, 36], &[0, 2, 3]);
            }
            let [control, buffer, copy] = &mut twins.safe;
            let (told, taken) = if dice.chance(20) {
                let (code, message) = message(dice);
                let due = gap_is_due(control.lent(), buffer.lent(), code, &message);
                let told = bare::sender_start(&mut twins.bare, code, &message);
                let safe = sender::start(control.lent(), buffer.array(), copy.lent(), code, &message);
                assert_eq!(bare::of_start(safe), told);
                let (number, [size, gap]) = told;
                assert_eq!(gap == 1, number == 120 && due);
                gaps.insert((number, gap));
                ((number, size), if number == 120 { message.len() } else { 0 })
            } else {
                let (heard, number) = match dice.below(8) {
                    0..=3 => (Heard::Ack, 256),
                    4 => (Heard::Nak(1), 1),
                    5 => (Heard::TimeOut, 257),
                    6 => (Heard::Nothing, 258 + dice.below(1 << 31) as u32),
                    _ => (Heard::Nak(6), 6),
                };
                let told = bare::sender_hear(&mut twins.bare, number);
                assert_eq!(bare::of_outcome(sender::hear(control.lent(), buffer.array(), copy.lent(), heard)), told);
                (told, 0)
            };
            seen.insert(told.0);
            twins.agree(&[], [SENDER_CONTROL_SIZE, taken, copied(told)]);
            let waits = bare::sender_waits(&mut twins.bare[0]);
            assert_eq!(sender::waits(twins.safe[0].lent()).map(|out| if out { 123 } else { 0 }), Ok(waits));
            seen.insert(waits);
        }
    });
    assert_eq!(seen, [0, 11, 120, 121, 122, 123].into());
    assert_eq!(gaps, [(11, 0), (120, 0), (120, 1)].into());
}

#[test]
fn the_reader() {
    let mut seen = BTreeSet::new();
    let mut brought = BTreeSet::new();
    let mut gaps = BTreeSet::new();
    let mut sets = BTreeSet::new();
    let mut tables = BTreeSet::new();
    runs(|dice| {
        let mut stream = Stream::new(Side::Reader);
        let mut twins = Twins::new(dice, READER);
        for _ in 0..EVENTS {
            if dice.chance(1) {
                twins.garble(dice, &[0, 10, 18, 61, 69, 77, 85, 93], &READER_FLAGS);
            }
            // How many bytes of line, kept answer, message, answer room and copy room may be written.
            let mut written = [0; 5];
            let [control, line, answers, buffer, answer, copy] = &mut twins.safe;
            match dice.below(40) {
                0 => {
                    let (code, bytes) = message(dice);
                    let due = gap_is_due(&control.lent()[READERS_SENDER..], buffer.lent(), code, &bytes);
                    let told = bare::reader_start(&mut twins.bare, code, &bytes);
                    let safe = reader::start(control.lent(), buffer.array(), copy.lent(), code, &bytes);
                    assert_eq!(bare::of_start(safe), told);
                    let (number, [size, gap]) = told;
                    assert_eq!(gap == 1, number == 120 && due);
                    gaps.insert((number, gap));
                    brought.insert(number);
                    written[2] = if number == 120 { bytes.len() } else { 0 };
                    written[4] = copied((number, size));
                }
                1 => {
                    let told = bare::reader_time_out(&mut twins.bare);
                    let safe = reader::time_out(control.lent(), buffer.array(), copy.lent());
                    assert_eq!(bare::of_outcome(safe), told);
                    brought.insert(told.0);
                    written[4] = copied(told);
                }
                2 if dice.chance(20) => {
                    assert_eq!(bare::reader_power_up(&mut twins.bare), 0);
                    assert_eq!(reader::power_up(control.lent()), Ok(()));
                }
                3 => {
                    // The set written, and read again as it is or with a byte changed.
                    let mut room = Fenced::new(dice, SET_SIZE);
                    let mut form = reader::save(control.lent(), room.lent()).expect("a room").to_vec();
                    assert!(room.unchanged_past(form.len()));
                    let told = bare::reader_save(&mut twins.bare[0], &mut room);
                    assert_eq!((told, &room.lent()[..form.len()]), ((101, form.len()), &form[..]));
                    let place = dice.below(form.len());
                    form[place] ^= if dice.chance(25) { 1 + dice.byte() % 255 } else { 0 };
                    let told = bare::reader_load(&mut twins.bare[0], &form);
                    let loaded = reader::load(control.lent(), &form);
                    assert_eq!(bare::of_done(loaded), told);
                    sets.insert(told);
                }
                4 => {
                    // The table taken out, and put back as it is or with a byte changed.
                    let mut room = Fenced::new(dice, TABLE_SIZE);
                    assert_eq!(bare::reader_table(&mut twins.bare[0], &mut room), 0);
                    assert_eq!(reader::table(control.lent()), Ok(table_in(&mut room)));
                    room.lent()[dice.below(TABLE_SIZE)] ^= if dice.chance(25) { 1 + dice.byte() % 255 } else { 0 };
                    let told = bare::reader_put_table(&mut twins.bare[0], &mut room);
                    assert_eq!(bare::of_done(reader::put_table(control.lent(), &table_in(&mut room))), told);
                    assert!(room.fences_stand());
                    tables.insert(told);
                }
                _ => {
                    let event = stream.next(dice);
                    let told = bare::reader_hear(&mut twins.bare, bare::event_number(event));
                    let (line, answers, buffer) = (line.array(), answers.array(), buffer.array());
                    let safe = reader::hear(control.lent(), line, answers, buffer, answer.lent(), copy.lent(), event);
                    assert_eq!(bare::of_reader(safe), told);
                    let (number, [answer, _, _, _, value, _]) = told;
                    seen.insert(number);
                    written = [LINE_SIZE, READER_ANSWER_SIZE, 0, answer, copied((number, value))];
                }
            }
            let [line, answers, buffer, answer, copy] = written;
            twins.agree(&READER_FLAGS, [READER_CONTROL_SIZE, line, answers, buffer, answer, copy]);
            let number = dice.pick(&[0x80, 0x89, 0x8A, 0x9B, 0x9C, 0x9E, 0x9F, 0xED, 0xEE, 0x00]);
            let (told, value) = bare::reader_value(&mut twins.bare, number);
            assert_eq!((told, Ok(value as u8)), (0, reader::value(twins.safe[0].lent(), number)));
            let (told, value) = bare::reader_locked(&mut twins.bare[0], number);
            assert_eq!((told, Ok(value == 1)), (0, reader::locked(twins.safe[0].lent(), number)));
            assert!(value <= 1);
        }
    });
    assert_eq!(seen, [0, 1, 2, 3, 4, 5, 6, 7, 8, 9, 111, 120, 121, 122, 130].into());
    assert_eq!(brought, [0, 11, 120, 122].into());
    assert_eq!(gaps, [(11, 0), (120, 0), (120, 1)].into());
    assert_eq!(sets, [0, 12].into());
    assert_eq!(tables, [0, 9].into());
}
