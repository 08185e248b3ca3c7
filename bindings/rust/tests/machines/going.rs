//! The short way with garbage in every byte. What it takes and what it leaves is judged by the framer's own call on the
//! half that receives. Then the machine's call takes the same event on the same bytes: where the short way took it, it
//! tells nothing, touches no room and leaves the same. Both go on from there, one by the raw call alone, one by the
//! safe call, which goes the short way first: every later event tells the same and leaves the same.

use std::collections::BTreeSet;
use std::fmt::Debug;

use motikhund::constants::*;
use motikhund::lent::{hub, reader};
use motikhund::Event;

use crate::bare;
use crate::dice::Dice;
use crate::every_byte::{due_flags, put, COUNT, DEAF, HUB_FLAGS, READER_FLAGS, SECOND};
use crate::fenced::{Fenced, Size, HUB, READER};
use crate::streams::{Side, Stream};

const STARTS: u64 = 4_000;
const LATER: usize = 200;

/// Any number: a byte, a gap, or no event's.
fn any_number(dice: &mut Dice) -> u32 {
    match dice.below(8) {
        0 => bare::event_number(Event::CharacterGap),
        1 => bare::event_number(Event::MessageGap),
        2 => bare::no_event(dice),
        3 => dice.below(8) as u32,
        _ => dice.byte().into(),
    }
}

/// Count and flags that now and then stand for something, and bytes begun that are nearly a packet's. Gives where the
/// half that receives begins.
fn garble(dice: &mut Dice, control: &mut Fenced, line: &mut Fenced) -> usize {
    let bytes = control.lent();
    if dice.chance(85) {
        let count = if dice.chance(25) { 255 + dice.below(4) } else { dice.below(12) };
        put(bytes, COUNT, count as u64);
    }
    for flag in [DEAF, SECOND] {
        if dice.chance(85) {
            bytes[flag] = dice.pick(&[0, 0, 1, 1, 2, 0xFF]);
        }
    }
    let half = if bytes[SECOND] == 1 { PACKET_SIZE } else { 0 };
    if dice.chance(75) {
        line.lent()[half] = if dice.chance(25) { 253 + dice.below(3) as u8 } else { dice.below(12) as u8 };
    }
    half
}

/// What an event was: its kind, whether the framer was deaf, whether a packet was begun, in which half, whether taken.
type Seen = BTreeSet<(u32, bool, bool, bool, bool)>;

/// The short way on a machine's control value and line, and what the framer's call makes of the same. Whether it took
/// the event.
fn goes_on<const N: usize>(dice: &mut Dice, lent: &mut [Fenced; N], half: usize, number: u32, seen: &mut Seen) -> bool {
    let mut framer = [FRAMER_CONTROL_SIZE, PACKET_SIZE].map(|size| Fenced::new(dice, size));
    framer[0].lent().copy_from_slice(&lent[0].lent()[..FRAMER_CONTROL_SIZE]);
    framer[1].lent().copy_from_slice(&lent[1].lent()[half..half + PACKET_SIZE]);
    let count = u64::from_le_bytes(lent[0].lent()[..8].try_into().expect("eight bytes"));
    let (deaf, begun) = (lent[0].lent()[DEAF] == 1, (1..257).contains(&count));

    let (told, head) = bare::framer(&mut framer, number);
    let [control, line, ..] = &mut lent[..] else { panic!("control value and line") };
    let taken = bare::go_on(control, line, number);
    assert_eq!(taken, told == NOTHING && head == [0; HEAD_VALUES] && number <= CHARACTER_GAP, "{number}");
    if taken {
        // Of the framer's bytes the count is written, and the flag where a deaf framer wakes at a gap.
        let written = if deaf && number == CHARACTER_GAP { FRAMER_CONTROL_SIZE } else { DEAF };
        control.due()[..written].copy_from_slice(&framer[0].lent()[..written]);
        line.due()[half..half + PACKET_SIZE].copy_from_slice(framer[1].lent());
    }
    assert!(lent.iter().all(Fenced::unchanged), "{number}");
    seen.insert((number.clamp(255, 258), deaf, begun, half > 0, taken));
    taken
}

/// Both left the same; a flag that was read as not set may be any byte but 1.
fn alike<const N: usize>(mut one: [Fenced; N], mut other: [Fenced; N], flags: &[usize]) -> bool {
    due_flags(one[0].lent(), flags);
    due_flags(other[0].lent(), flags);
    one.iter_mut().zip(&mut other).all(|(one, other)| one.lent() == other.lent())
}

/// A machine from many starts, by its raw call and by its safe one, which gives the same numbers. Its rooms stand
/// behind its control value and line.
fn machine<const N: usize, T: PartialEq + Debug>(
    (sizes, flags, side, nothing): ([Size; N], &[usize], Side, T),
    raw: impl Fn(&mut [Fenced; N], u32) -> T,
    safe: impl Fn(&mut [Fenced; N], Event) -> T,
) {
    let mut seen = Seen::new();
    for seed in 0..STARTS {
        let dice = &mut Dice::new(seed);
        let mut lent = sizes.map(|size| Fenced::new(dice, size.least()));
        let [control, line, ..] = &mut lent[..] else { panic!("control value and line") };
        let half = garble(dice, control, line);
        lent.iter_mut().for_each(Fenced::remember);
        let mut other = lent.clone();

        let number = any_number(dice);
        let taken = goes_on(dice, &mut lent, half, number, &mut seen);
        let told = raw(&mut other, number);
        if taken {
            assert_eq!(told, nothing);
            assert!(other[2..].iter().all(Fenced::unchanged), "a room was touched");
        } else {
            assert_eq!(raw(&mut lent, number), told);
        }
        assert!(alike(lent.clone(), other.clone(), flags), "{number}");

        let mut stream = Stream::new(side);
        for _ in 0..LATER {
            let event = stream.next(dice);
            assert_eq!(safe(&mut lent, event), raw(&mut other, bare::event_number(event)));
        }
        assert!(lent.iter().all(Fenced::fences_stand));
        assert!(alike(lent, other, flags));
    }
    // Of a byte six kinds: ignored by a deaf framer with and without a count, first or inside and taken or left. Of a
    // character gap four; a message gap and no event are always left, in all four states. All that in either half.
    assert_eq!(seen.len(), 2 * (6 + 4 + 4 + 4), "{seen:?}");
}

fn hub_hears([control, line, gather, answer, message]: &mut [Fenced; 5], event: Event) -> (u32, [usize; HUB_VALUES]) {
    let (line, gather) = (line.array(), gather.array());
    bare::of_hub(hub::hear(control.lent(), line, gather, answer.lent(), message.lent(), event))
}

fn reader_hears(lent: &mut bare::Reader, event: Event) -> (u32, [usize; READER_VALUES]) {
    let [control, line, answers, message, answer, copy] = lent;
    let (line, answers, message) = (line.array(), answers.array(), message.array());
    bare::of_reader(reader::hear(control.lent(), line, answers, message, answer.lent(), copy.lent(), event))
}

#[test]
fn of_the_hub() {
    machine((HUB, &HUB_FLAGS, Side::Hub, (NOTHING, [0; HUB_VALUES])), bare::hub, hub_hears);
}

#[test]
fn of_the_reader() {
    machine((READER, &READER_FLAGS, Side::Reader, (NOTHING, [0; READER_VALUES])), bare::reader_hear, reader_hears);
}

/// The safe calls do go it first: where the raw call puts the flags in order, they stay garbage.
fn first<const N: usize, T>(
    sizes: [Size; N],
    raw: impl Fn(&mut [Fenced; N], u32) -> T,
    safe: impl Fn(&mut [Fenced; N], Event) -> T,
) {
    let dice = &mut Dice::new(0);
    let mut lent = sizes.map(|size| Fenced::filled(dice, size.least(), Some(0xFF)));
    lent[0].lent()[..FRAMER_CONTROL_SIZE].fill(0);
    lent.iter_mut().for_each(Fenced::remember);
    let mut other = lent.clone();
    lent[0].due()[COUNT] = 1;
    lent[1].due()[0] = 6;
    safe(&mut lent, Event::Byte(6));
    assert!(lent.iter().all(Fenced::unchanged));
    raw(&mut other, 6);
    assert_eq!(other[0].lent()[SECOND], 0);
}

#[test]
fn first_of_all() {
    first(HUB, bare::hub, hub_hears);
    first(READER, bare::reader_hear, reader_hears);
}
