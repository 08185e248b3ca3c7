//! Blocks beside the same bytes one by one, on the same control bytes and buffers, garbage too. After each call all is
//! as the single events leave it, the answers stand joined at the front of their room, and so many bytes are taken as
//! the rule says: up to a message, or as long as there is room for an answer.

use std::collections::BTreeSet;

use motikhund::constants::*;
use motikhund::lent::hub;
use motikhund::{BlockTold, Event, Hub, HubBlock, HubTold, Refusal};

use crate::bare;
use crate::dice::Dice;
use crate::every_byte::{DEAF, HUB_FLAGS, HUB_NUMBERS};
use crate::fenced::{Fenced, HUB};
use crate::garbage::Twins;
use crate::notation::{bytes, hub_ack, nak};
use crate::streams::{Side, Stream};

const RUNS: u64 = 1_000;
const STRETCHES: usize = 60;
const ROOMS: std::ops::RangeInclusive<usize> = 7..=60;

const PIECE: &str = "06 F3 00 02 1B 38 FE B2"; // more follows
const MESSAGE_OF_ONE: &str = "06 F3 00 00 1B 38 FE B4";
const SPOILED: &str = "06 F3 00 00 1B 38 FE B5";

/// Where the answer room stands in what a hub is lent.
const ANSWERS: usize = 3;

/// Bytes up to a gap, and the gap. Most character gaps of the stream are passed over, so that packets come in a row.
fn stretch(dice: &mut Dice, stream: &mut Stream) -> (Vec<u8>, Event) {
    let mut bytes = Vec::new();
    loop {
        match stream.next(dice) {
            Event::Byte(byte) => bytes.push(byte),
            Event::CharacterGap if dice.chance(75) => {}
            gap => return (bytes, gap),
        }
    }
}

/// What single events make of a block with this answer room: number and values, all answers, the numbers told.
struct Due {
    told: (u32, [usize; BLOCK_VALUES]),
    answers: Vec<u8>,
    numbers: Vec<u32>,
}

fn one_by_one(lent: &mut [Fenced; 5], block: &[u8], room: usize) -> Due {
    let (mut told, mut answers, mut numbers) = ((NOTHING, 0, 0), Vec::new(), Vec::new());
    for byte in block {
        if room - answers.len() < HUB_ANSWER_SIZE {
            break;
        }
        let (number, [answer, code, count]) = bare::hub(lent, (*byte).into());
        answers.extend_from_slice(&lent[ANSWERS].lent()[..answer]);
        numbers.push(number);
        match Refusal::from_number(number) {
            Some(Refusal::Length | Refusal::Checksum) => told = (number, 0, 0),
            None if number == MESSAGE => {
                told = (number, code, count);
                break;
            }
            _ => {}
        }
    }
    let (number, code, count) = told;
    Due { told: (number, [answers.len(), code, count, numbers.len()]), answers, numbers }
}

/// Why a call left: all bytes were taken, a message was whole, or the room was short, of a deaf framer too.
#[derive(Debug, PartialEq, Eq, PartialOrd, Ord)]
enum Left {
    AtEnd,
    AtMessage { last: bool },
    ForRoom { deaf: bool },
}

#[derive(Default)]
struct Seen {
    told: BTreeSet<u32>,
    inside: BTreeSet<u32>,
    left: BTreeSet<Left>,
    answers: BTreeSet<usize>,
}

impl Seen {
    fn see(&mut self, due: &Due, size: usize, deaf: bool) {
        let (number, [.., taken]) = due.told;
        self.told.insert(number);
        self.inside.extend(&due.numbers);
        self.answers.insert(due.numbers.iter().filter(|number| **number != NOTHING).count());
        self.left.insert(match (number, taken == size) {
            (MESSAGE, last) => Left::AtMessage { last },
            (_, true) => Left::AtEnd,
            (_, false) => Left::ForRoom { deaf },
        });
    }
}

/// The same by the safe call, as numbers.
fn hear_block([control, line, gather, answer, message]: &mut [Fenced; 5], block: &[u8]) -> (u32, [usize; 4]) {
    let (line, gather) = (line.array(), gather.array());
    bare::of_block(hub::hear_block(control.lent(), line, gather, answer.lent(), message.lent(), block))
}

/// A block to one hub, its bytes to the other: everything is the same afterwards. How many were taken.
fn alike(dice: &mut Dice, twins: &mut Twins<5>, block: &[u8], room: usize, seen: &mut Seen) -> usize {
    twins.safe[ANSWERS] = Fenced::new(dice, room);
    let told =
        if dice.chance(50) { bare::hub_block(&mut twins.safe, block) } else { hear_block(&mut twins.safe, block) };
    let due = one_by_one(&mut twins.bare, block, room);
    assert_eq!(told, due.told, "a room of {room} for {block:02X?}");
    let answers = &mut twins.safe[ANSWERS];
    assert!(answers.unchanged_past(due.answers.len()) && answers.lent()[..due.answers.len()] == due.answers);
    seen.see(&due, block.len(), twins.bare[0].lent()[DEAF] == 1);
    // From here on both have the room of the single events.
    twins.safe[ANSWERS] = twins.bare[ANSWERS].clone();
    let (_, [_, _, message, taken]) = told;
    twins.agree(&HUB_FLAGS, [HUB_CONTROL_SIZE, LINE_SIZE, MESSAGE_SIZE, HUB_ANSWER_SIZE, message]);
    taken
}

fn any_room(dice: &mut Dice) -> usize {
    ROOMS.start() + dice.below(ROOMS.count())
}

/// How many of the bytes left go into a block: none, one, some, or all of them.
fn any_size(dice: &mut Dice, left: usize) -> usize {
    let size = [0, 1, dice.below(left + 1), left][dice.below(4)];
    size.min(BLOCK_SIZE)
}

#[test]
fn they_do_what_single_events_do() {
    let mut seen = Seen::default();
    for seed in 0..RUNS {
        let dice = &mut Dice::new(seed);
        let mut stream = Stream::new(Side::Hub);
        let mut twins = Twins::new(dice, HUB);
        for _ in 0..STRETCHES {
            if dice.chance(10) {
                twins.garble(dice, &HUB_NUMBERS, &HUB_FLAGS);
            }
            let (bytes, gap) = stretch(dice, &mut stream);
            let mut rest = &bytes[..];
            while !rest.is_empty() {
                let (size, room) = (any_size(dice, rest.len()), any_room(dice));
                rest = &rest[alike(dice, &mut twins, &rest[..size], room, &mut seen)..];
            }
            assert_eq!(bare::hub(&mut twins.safe, gap.number()), bare::hub(&mut twins.bare, gap.number()));
            twins.agree(&HUB_FLAGS, [HUB_CONTROL_SIZE, LINE_SIZE, 0, HUB_ANSWER_SIZE, 0]);
        }
    }
    assert_eq!(seen.told, [0, 1, 2, 112].into());
    assert_eq!(seen.inside, [0, 1, 2, 4, 5, 6, 7, 10, 110, 111, 112].into());
    let messages = [false, true].map(|last| Left::AtMessage { last });
    let rooms = [false, true].map(|deaf| Left::ForRoom { deaf });
    assert_eq!(seen.left, messages.into_iter().chain(rooms).chain([Left::AtEnd]).collect());
    assert!(seen.answers.is_superset(&(0..=8).collect()), "{:?}", seen.answers);
}

/// Every start of the framer with garbage around it, and a block of any bytes.
#[test]
fn they_do_so_from_any_control_bytes() {
    let mut seen = Seen::default();
    for seed in 0..20_000 {
        let dice = &mut Dice::new(seed);
        let mut twins = Twins::new(dice, HUB);
        twins.garble(dice, &HUB_NUMBERS, &HUB_FLAGS);
        let (size, room) = (dice.pick(&[0, 1, 2, 10, 300, BLOCK_SIZE]), any_room(dice));
        // Small lengths, so that packets end.
        let block: Vec<u8> =
            (0..size).map(|_| if dice.chance(80) { dice.below(12) as u8 } else { dice.byte() }).collect();
        alike(dice, &mut twins, &block, room, &mut seen);
    }
    assert!(seen.told.is_subset(&[0, 1, 2, 112].into()) && seen.told.len() > 2, "{:?}", seen.told);
}

/// A hub just switched on, with fences around all that it is lent.
fn fresh(dice: &mut Dice, room: usize) -> [Fenced; 5] {
    let mut lent = HUB.map(|size| Fenced::new(dice, size.least()));
    lent[ANSWERS] = Fenced::new(dice, room);
    assert_eq!(hub::on(lent[0].lent()), Ok(()));
    lent.iter_mut().for_each(Fenced::remember);
    lent
}

/// What a hub just switched on makes of a block: its numbers, and the answers.
fn brought(block: &str, room: usize) -> ((u32, [usize; BLOCK_VALUES]), Vec<u8>) {
    let mut lent = fresh(&mut Dice::new(room as u64), room);
    let told = bare::hub_block(&mut lent, &bytes(block));
    let answers = lent[ANSWERS].lent()[..told.1[BLOCK_VALUE_ANSWER]].to_vec();
    assert!(lent[ANSWERS].unchanged_past(answers.len()) && lent.iter().all(Fenced::fences_stand));
    (told, answers)
}

/// Six pieces, then NAKs: an answer is written as long as seven bytes are left before its packet's first byte.
#[test]
fn there_is_room_for_so_many_answers() {
    let (ack, nak) = (hub_ack(), nak(SOURCE_HOST, CAUSE_CONTEXT));
    for (packet, answer) in [(PIECE, &ack), ("04 F3 00 00 FF 09", &nak)] {
        let size = bytes(packet).len();
        for room in ROOMS {
            let count = (room - HUB_ANSWER_SIZE) / answer.len() + 1;
            let taken = 10.min(count);
            let due = (NOTHING, [taken * answer.len(), 0, 0, taken * size]);
            assert_eq!(brought(&[packet; 10].join(" "), room), (due, answer.repeat(taken)), "{room}");
        }
    }
}

#[test]
fn a_message_ends_a_block() {
    let (ack, two) = (hub_ack(), hub_ack().repeat(2));
    let whole = |count, taken, answers: &[u8]| ((MESSAGE, [answers.len(), 0x1B, count, taken]), answers.to_vec());
    assert_eq!(brought(MESSAGE_OF_ONE, 60), whole(1, 8, &ack));
    assert_eq!(brought(&format!("{MESSAGE_OF_ONE} 03"), 60), whole(1, 8, &ack));
    assert_eq!(brought(&format!("{MESSAGE_OF_ONE} {MESSAGE_OF_ONE}"), 60), whole(1, 8, &ack));
    assert_eq!(brought(&format!("{PIECE} {MESSAGE_OF_ONE} 06"), 60), whole(2, 16, &two));
    // Also where it is the room that would end it, and where the message has no bytes.
    assert_eq!(brought(&format!("{PIECE} {MESSAGE_OF_ONE} 06"), 13), whole(2, 16, &two));
    assert_eq!(brought("05 F3 00 00 1B FE ED 05", 7), whole(0, 7, &ack));
}

/// A deaf framer ignores what follows, but takes it only where there is room.
#[test]
fn a_deaf_framer_eats_the_rest() {
    let nak = nak(SOURCE_HOST, CAUSE_RESEND);
    let refused = |why: Refusal, taken| ((why.number(), [nak.len(), 0, 0, taken]), nak.clone());
    assert_eq!(brought(&format!("03 {MESSAGE_OF_ONE} 00 FF"), 14), refused(Refusal::Length, 11));
    assert_eq!(brought(&format!("{SPOILED} {MESSAGE_OF_ONE} 00 FF"), 60), refused(Refusal::Checksum, 18));
    assert_eq!(brought(&format!("03 {MESSAGE_OF_ONE} 00 FF"), 13), refused(Refusal::Length, 1));
    assert_eq!(brought(&format!("{SPOILED} {MESSAGE_OF_ONE} 00 FF"), 7), refused(Refusal::Checksum, 8));
}

/// 1, 2 and a message alone are told: of all else there are answers.
#[test]
fn only_three_things_are_told() {
    let (nak_2, nak_6) = (nak(SOURCE_HOST, CAUSE_CONTEXT), nak(SOURCE_HOST, CAUSE_DENIED));
    for packet in ["06 F3 04 00 1B 38 FE B0", "06 F3 00 04 1B 38 FE B0", "05 E6 00 00 01 FF 14", "04 F3 00 00 FF 09"] {
        let size = bytes(packet).len();
        assert_eq!(brought(packet, 7), ((NOTHING, [7, 0, 0, size]), nak_2.clone()), "{packet}");
    }
    let (other, marked) = ("06 F3 00 00 1C 38 FE B3", "06 F3 00 03 1B 38 FE B1");
    let answers = [hub_ack(), hub_ack(), nak_6.clone(), nak_6].concat();
    let due = (NOTHING, [answers.len(), 0, 0, 32]);
    assert_eq!(brought(&format!("{PIECE} {marked} {other} {MESSAGE_OF_ONE}"), 60), (due, answers));
    // Its answers and those of others bring nothing at all.
    assert_eq!(brought("04 D0 00 00 FF 2C 05 D1 00 00 01 FF 29", 7), ((NOTHING, [0, 0, 0, 13]), Vec::new()));
}

#[test]
fn no_bytes_and_as_many_as_are_allowed() {
    assert_eq!(brought("", 7), ((NOTHING, [0; 4]), Vec::new()));
    let many = [PIECE; BLOCK_SIZE / 8].join(" ");
    let answers = hub_ack().repeat(BLOCK_SIZE / 8);
    assert_eq!(brought(&many, 4_000), ((NOTHING, [answers.len(), 0, 0, BLOCK_SIZE]), answers));
    // All of them ignored, and all but the last a packet's.
    let nak = nak(SOURCE_HOST, CAUSE_RESEND);
    let deaf = format!("03{}", " 03".repeat(BLOCK_SIZE - 1));
    assert_eq!(brought(&deaf, 14), ((1, [7, 0, 0, BLOCK_SIZE]), nak.clone()));
    let cut = format!("{} 03", "04 D0 00 00 FF 2C ".repeat(682) + "04 D0 00");
    assert_eq!(brought(&cut, 7), ((NOTHING, [0, 0, 0, BLOCK_SIZE]), Vec::new()));
}

// ---- the hub with its buffers

/// What a hub brought: its messages, and its answers in a row.
type Brought = (Vec<(u8, Vec<u8>)>, Vec<u8>);

fn by_events(hub: &mut Hub, bytes: &[u8], (messages, answers): &mut Brought) {
    for byte in bytes {
        let told = hub.event(Event::Byte(*byte));
        answers.extend_from_slice(told.answer());
        if let HubTold::Message { code, message, .. } = told {
            messages.push((code, message.to_vec()));
        }
    }
}

/// Each has an answer, and what it took; what nothing came of is in none.
fn by_blocks(hub: &mut Hub, bytes: &[u8], (messages, answers): &mut Brought) {
    let mut blocks = hub.block(bytes);
    let mut left = bytes.len();
    while let Some(HubBlock { taken, answer, told }) = blocks.next() {
        assert!(taken > 0 && [6, 7].contains(&answer.len()), "one answer");
        answers.extend_from_slice(answer);
        match told {
            BlockTold::Message { code, message } => messages.push((code, message.to_vec())),
            BlockTold::Refused(why) => assert!(matches!(why, Refusal::Length | Refusal::Checksum)),
            BlockTold::Nothing => {}
        }
        left -= taken;
        assert_eq!(blocks.rest(), &bytes[bytes.len() - left..]);
    }
    assert!(blocks.rest().is_empty() && blocks.next().is_none());
}

/// One hub by events, one by blocks of all that came in a row, one by blocks cut anywhere: what they brought is the
/// same, and so is every byte of them.
#[test]
fn however_they_are_cut() {
    let mut messages = 0;
    for seed in 0..RUNS {
        let dice = &mut Dice::new(seed);
        let mut stream = Stream::new(Side::Hub);
        let mut hubs = [const { Hub::new() }; 3];
        let mut brought = <[Brought; 3]>::default();
        for _ in 0..STRETCHES {
            let (bytes, gap) = stretch(dice, &mut stream);
            by_events(&mut hubs[0], &bytes, &mut brought[0]);
            by_blocks(&mut hubs[1], &bytes, &mut brought[1]);
            let mut rest = &bytes[..];
            while !rest.is_empty() {
                let (block, behind) = rest.split_at(any_size(dice, rest.len()));
                by_blocks(&mut hubs[2], block, &mut brought[2]);
                rest = behind;
            }
            let [one, whole, cut] = &mut hubs;
            let told = one.event(gap);
            assert_eq!((whole.event(gap), cut.event(gap)), (told, told));
            assert!(one == whole && one == cut);
        }
        assert!(brought[0] == brought[1] && brought[0] == brought[2]);
        messages += brought[0].0.len();
    }
    assert!(messages > 20_000, "{messages} messages");
}

/// More than a block has: it is cut, nothing is refused.
#[test]
fn there_may_be_any_number() {
    for count in [0, 1, BLOCK_SIZE - 1, BLOCK_SIZE, BLOCK_SIZE + 1, 2 * BLOCK_SIZE, 100_000] {
        let dice = &mut Dice::new(count as u64);
        let mut stream = Stream::new(Side::Hub);
        let mut bytes = Vec::new();
        while bytes.len() < count {
            bytes.extend(stream.packet(dice));
        }
        bytes.truncate(count);
        let (mut hubs, mut brought) = (<[Hub; 2]>::default(), <[Brought; 2]>::default());
        by_events(&mut hubs[0], &bytes, &mut brought[0]);
        by_blocks(&mut hubs[1], &bytes, &mut brought[1]);
        assert!(hubs[0] == hubs[1] && brought[0] == brought[1], "{count}");
    }
    // Long ago deaf: no answer, and all is taken.
    let mut hub = Hub::new();
    let deaf = [3; 3 * BLOCK_SIZE];
    let mut blocks = hub.block(&deaf);
    assert_eq!(blocks.next().map(|block| (block.taken, block.told)), Some((1, BlockTold::Refused(Refusal::Length))));
    assert_eq!(blocks.rest().len(), deaf.len() - 1);
    assert_eq!(blocks.next(), None);
    assert!(blocks.rest().is_empty());
}

/// Dropped before its end it leaves the rest, which comes later or not at all.
#[test]
fn what_is_dropped_is_not_taken() {
    let bytes = bytes(&format!("{MESSAGE_OF_ONE} {MESSAGE_OF_ONE} 06"));
    let mut hub = Hub::new();
    let _ = hub.block(&bytes);
    assert_eq!(hub, Hub::new());
    let mut blocks = hub.block(&bytes);
    let message = HubBlock { taken: 8, answer: &hub_ack(), told: BlockTold::Message { code: 0x1B, message: b"8" } };
    assert_eq!(blocks.next(), Some(message));
    let rest = blocks.rest();
    // The rest is not the hub's: events may come before it is given again.
    assert_eq!(hub.event(Event::CharacterGap), HubTold::Nothing);
    let mut blocks = hub.block(rest);
    assert_eq!(blocks.next(), Some(message));
    assert_eq!((blocks.rest(), blocks.next()), (&[6][..], None));
    assert!(matches!(hub.event(Event::CharacterGap), HubTold::Refused { why: Refusal::Cut, .. }));
}
