//! Every lent byte after a refusal, with garbage of several kinds around what it needs. On 11 to 15 none changes, and
//! the values told are 0 (12 is in `sets.rs`), nor does one on 7 and 9 of a table (`tables.rs`). On 1 to 10 of an event
//! these change and no other: the answer at the front of its room, the byte that came in its place in the line, and the
//! control value as the rules have it (docs/PROTOCOL.md §6).

use motikhund::constants::*;
use motikhund::Refusal;

use crate::bare;
use crate::dice::Dice;
use crate::fenced::{Fenced, Size, FILLS, FRAMER, HUB, READER, SENDER, TABLE_SIZE};
use crate::notation::{bytes, events, nak};
use crate::refusals::{Case, HUB_CASES, READER_CASES};
use crate::rooms::lends;

// Where the parts of a control value stand (crates/motikhund/specs/Control.antt). Who changes this raises the version.
pub const COUNT: usize = 0;
pub const DEAF: usize = 8;
pub const SECOND: usize = 9;
const BARRED: usize = 18;
const BEGUN: usize = 19;
const CODE: usize = 20;
const GATHERED: usize = 21;
pub const LAST: usize = 10;
pub const ANSWERED: usize = 18;
pub const PRESENT: usize = 26;
const HANDSHAKE: usize = 32;
pub const PERMANENT: usize = 35;
pub const LOCKS: usize = 44;
const SWITCHES: usize = 53;
pub const READERS_SENDER: usize = 57;
const OUT_FLAG: usize = 0;
const FAILED_FLAG: usize = 2;
const DELIVERED_FLAG: usize = 3;
const LENGTH: usize = 4;
const PIECE: usize = 20;

/// Where a hub's numbers stand.
pub const HUB_NUMBERS: [usize; 3] = [COUNT, LAST, GATHERED];

/// The flags behind the framer's bytes.
pub const HUB_FLAGS: [usize; 4] = [DEAF, SECOND, BARRED, BEGUN];
pub const READER_FLAGS: [usize; 18] = [
    DEAF,
    SECOND,
    LOCKS,
    LOCKS + 1,
    LOCKS + 2,
    LOCKS + 3,
    LOCKS + 4,
    LOCKS + 5,
    LOCKS + 6,
    LOCKS + 7,
    LOCKS + 8,
    SWITCHES,
    SWITCHES + 1,
    SWITCHES + 2,
    SWITCHES + 3,
    READERS_SENDER + OUT_FLAG,
    READERS_SENDER + FAILED_FLAG,
    READERS_SENDER + DELIVERED_FLAG,
];

pub fn put(control: &mut [u8], at: usize, number: u64) {
    control[at..at + 8].copy_from_slice(&number.to_le_bytes());
}

/// A flag that is not 1 is not set.
fn due_flag(control: &mut [u8], at: usize) {
    control[at] = u8::from(control[at] == 1);
}

/// The flags behind the framer's bytes, each put in order.
pub fn due_flags(control: &mut [u8], flags: &[usize]) {
    flags.iter().for_each(|at| due_flag(control, *at));
}

/// A number over its limit is 0.
fn due_number(control: &mut [u8], at: usize, most: usize) {
    let number = u64::from_le_bytes(control[at..at + 8].try_into().expect("eight bytes"));
    put(control, at, if number <= most as u64 { number } else { 0 });
}

/// 1 to 10 end the packet begun, 1 and 2 make the framer deaf.
fn due_framer(control: &mut [u8], why: Refusal) {
    put(control, COUNT, 0);
    control[DEAF] = u8::from(why <= Refusal::Checksum);
}

/// What was gathered is put in order where the framer tells something; 10 bars the hub, and then nothing is gathered. A
/// message gap clears everything.
fn due_hub(control: &mut [u8], why: Refusal, event: u32) {
    due_framer(control, why);
    due_flags(control, &HUB_FLAGS);
    if why == Refusal::Barred {
        control[BARRED] = 1;
    }
    if why == Refusal::Barred || control[BEGUN] != 1 {
        control[BEGUN..HUB_CONTROL_SIZE].fill(0);
    }
    due_number(control, GATHERED, MESSAGE_SIZE);
    if event == MESSAGE_GAP {
        control[..HUB_CONTROL_SIZE].fill(0);
    }
}

fn due_reader(control: &mut [u8], why: Refusal) {
    due_framer(control, why);
    due_flags(control, &READER_FLAGS);
    due_number(control, ANSWERED, READER_ANSWER_SIZE);
}

/// All events but the last have come: their bytes stand in the half that receives. Where there are none, the count
/// stays garbage, which no packet reaches. Gives the last; the short way of hub and reader leaves it. Its byte is due
/// in its place.
fn come(control: &mut Fenced, line: &mut Fenced, text: &str) -> u32 {
    // A framer's line is one half alone.
    let second = line.lent().len() == LINE_SIZE && control.lent()[SECOND] == 1;
    let half = if second { PACKET_SIZE } else { 0 };
    let mut numbers: Vec<u32> = events(text).into_iter().map(|event| event.number()).collect();
    let last = numbers.pop().expect("an event");
    if !numbers.is_empty() {
        put(control.lent(), COUNT, numbers.len() as u64);
    }
    if control.lent()[DEAF] == 1 {
        control.lent()[DEAF] = 0;
    }
    for (to, from) in line.lent()[half..].iter_mut().zip(&numbers) {
        *to = *from as u8;
    }
    control.remember();
    line.remember();
    if line.lent().len() == LINE_SIZE {
        assert!(!bare::go_on(control, line, last) && control.unchanged() && line.unchanged(), "{text}");
    }
    if let Ok(byte) = u8::try_from(last) {
        line.due()[half + numbers.len()] = byte;
    }
    last
}

/// The answer that is due at the front of its room, and its size.
fn due_answer(room: &mut Fenced, answer: &[u8]) -> usize {
    room.due()[..answer.len()].copy_from_slice(answer);
    answer.len()
}

/// Each kind of garbage, `ways` times, with the number of the way.
fn each<const N: usize>(sizes: [Size; N], ways: usize, mut run: impl FnMut(usize, [Fenced; N], &str)) {
    for (seed, fill) in (0..).zip(FILLS) {
        for way in 0..ways {
            let dice = &mut Dice::new(seed);
            let lent = sizes.map(|size| Fenced::filled(dice, size.least(), fill));
            run(way, lent, &format!("garbage {fill:02X?}, way {way}"));
        }
    }
}

/// The longest packet, with a wrong checksum: its last byte is the last one of its half.
fn longest() -> String {
    format!("FF{}", " 00".repeat(PACKET_SIZE - 1))
}

#[test]
fn of_the_packet() {
    let checked = [("", 3), ("03", 1), ("00 D0", 1), ("04", 3), ("04 D0 04 00 FF", 3), ("04 D0 04 00 FF 29", 2)];
    let built = [(1, 4, DATA_SIZE + 1, 4), (0, 4, DATA_SIZE + 1, 5), (4, 2, 1, 5), (4, 1, DATA_SIZE + 1, 7)];
    each([Size::Room(PACKET_SIZE), Size::Room(PACKET_SIZE)], 1, |_, [mut room, mut data], about| {
        for (text, number) in checked {
            let bytes = bytes(text);
            data.lent()[..bytes.len()].copy_from_slice(&bytes);
            data.remember();
            assert_eq!(bare::check(&data.lent()[..bytes.len()]), (number, [0; HEAD_VALUES]), "{about}, {text}");
        }
        for (source, status, count, number) in built {
            let data = &data.lent()[..count];
            assert_eq!(bare::build(&mut room, [OPCODE_BEEP, source, status], data), (number, 0), "{about}");
        }
        assert_eq!(bare::answer(&mut room, 1, REPLY_ACK), (4, 0), "{about}");
        assert!(room.unchanged() && data.unchanged(), "{about}");
    });
}

#[test]
fn of_the_framer() {
    let longest = longest();
    let cases = [
        ("03", Refusal::Length),
        ("04 D0 04 00 FF 29", Refusal::Checksum),
        (&longest, Refusal::Checksum),
        ("04 D0 .", Refusal::Cut),
        ("FF /", Refusal::Cut),
    ];
    for (text, why) in cases {
        each(FRAMER, 1, |_, mut lent, about| {
            let [control, line] = &mut lent;
            let event = come(control, line, text);
            due_framer(control.due(), why);
            assert_eq!(bare::framer(&mut lent, event), (why.number(), [0; HEAD_VALUES]), "{about}, {text}");
            assert!(lent.iter().all(Fenced::unchanged), "{about}, {text}");
        });
    }
}

/// A refusal of the hub, in either half of the line. What else the control value must have is set in it first.
fn hub_refuses((text, why, cause): (&str, Refusal, u8), set: impl Fn(&mut [u8])) {
    each(HUB, 2, |way, mut lent, about| {
        let [control, line, _, answer, _] = &mut lent;
        set(control.lent());
        if way == 1 {
            control.lent()[SECOND] = 1;
        }
        let event = come(control, line, text);
        due_hub(control.due(), why, event);
        let size = due_answer(answer, &nak(SOURCE_HOST, cause));
        assert_eq!(bare::hub(&mut lent, event), (why.number(), [size, 0, 0]), "{about}, {text}");
        assert!(lent.iter().all(Fenced::unchanged), "{about}, {text}");
    });
}

#[test]
fn of_the_hub() {
    HUB_CASES.into_iter().for_each(|case| hub_refuses(case, |_| {}));
    hub_refuses((&longest(), Refusal::Checksum, CAUSE_RESEND), |_| {});
    let barred = |text| (text, Refusal::Barred, CAUSE_DENIED);
    let (piece, marked) = ("06 F3 00 00 1B 38 FE B4", "06 F3 00 01 1B 38 FE B3");
    hub_refuses(barred(piece), |control| control[BARRED] = 1);
    hub_refuses(barred(marked), |control| control[BARRED] = 1);
    // Not barred; another type, or no place for one more byte.
    hub_refuses(barred(piece), |control| control[BARRED..=CODE].copy_from_slice(&[2, 1, 0x1C]));
    hub_refuses(barred(piece), |control| {
        control[BARRED..=CODE].copy_from_slice(&[2, 1, 0x1B]);
        put(control, GATHERED, MESSAGE_SIZE as u64);
    });
}

/// A message of one byte is out, not yet resent.
fn set_out(sender: &mut [u8]) {
    sender[OUT_FLAG] = 1;
    sender[LENGTH..SENDER_CONTROL_SIZE].fill(0);
    sender[LENGTH] = 1;
    sender[PIECE] = 1;
}

/// A refusal of the reader: in either half, with 9Fh at 1 too, with a message out and with none. What else the control
/// value must have is set in it first.
fn reader_refuses((text, why, cause): (&str, Refusal, u8), set: impl Fn(&mut [u8])) {
    each(READER, 8, |way, mut lent, about| {
        let [control, line, _, _, answer, _] = &mut lent;
        let out = way & 4 != 0;
        set(control.lent());
        if way & 1 != 0 {
            control.lent()[SECOND] = 1;
        }
        if way & 2 != 0 {
            control.lent()[HANDSHAKE] = ACK_NAK_ON;
        }
        if out {
            set_out(&mut control.lent()[READERS_SENDER..]);
        }
        let event = come(control, line, text);
        let answers = control.lent()[HANDSHAKE] == ACK_NAK_ON && !(out && why <= Refusal::Cut);
        due_reader(control.due(), why);
        let size = if answers { due_answer(answer, &nak(SOURCE_READER, cause)) } else { 0 };
        assert_eq!(bare::reader_hear(&mut lent, event), (why.number(), [size, 0, 0, 0, 0, 0]), "{about}, {text}");
        assert!(lent.iter().all(Fenced::unchanged), "{about}, {text}");
    });
}

#[test]
fn of_the_reader() {
    let longest = longest();
    let more: [Case; 2] = [
        ("06 C6 04 00 FF 8A FD A7", Refusal::Data, CAUSE_CONTEXT),
        ("07 C6 04 00 1E 8A 08 FE 7F", Refusal::Beep, CAUSE_DENIED),
    ];
    READER_CASES.into_iter().chain(more).for_each(|case| reader_refuses(case, |_| {}));
    reader_refuses((&longest, Refusal::Checksum, CAUSE_RESEND), |_| {});
    // 8Ah is the third; its value would be allowed.
    let locked = ("07 C6 04 00 FF 8A 00 FD A6", Refusal::Setting, CAUSE_DENIED);
    reader_refuses(locked, |control| control[LOCKS + 2] = 1);
}

/// Over 4,096 bytes, one still out, or both.
#[test]
fn of_a_start() {
    let refused = (Refusal::Start.number(), [0; START_VALUES]);
    let long = [0x38; MESSAGE_SIZE + 1];
    each(SENDER, 3, |way, mut lent, about| {
        if way > 0 {
            set_out(lent[0].lent());
        }
        lent[0].remember();
        let message = if way < 2 { &long[..] } else { &long[..1] };
        assert_eq!(bare::sender_start(&mut lent, 0x1B, message), refused, "{about}");
        assert!(lent.iter().all(Fenced::unchanged), "{about}");
    });
    each(READER, 3, |way, mut lent, about| {
        if way > 0 {
            set_out(&mut lent[0].lent()[READERS_SENDER..]);
        }
        lent[0].remember();
        let message = if way < 2 { &long[..] } else { &long[..1] };
        assert_eq!(bare::reader_start(&mut lent, 0x1B, message), refused, "{about}");
        assert!(lent.iter().all(Fenced::unchanged), "{about}");
    });
}

/// More bytes than a block has; with a room too small that is what is refused.
#[test]
fn of_long_blocks() {
    // The largest two would be small if they were counted in 16 bits.
    let sizes = [BLOCK_SIZE + 1, BLOCK_SIZE + 2, 2 * BLOCK_SIZE, 65_535, 65_536, 65_536 + 8];
    let bytes = Dice::new(15).bytes(sizes[sizes.len() - 1]);
    each(HUB, sizes.len(), |way, mut lent, about| {
        let refused = (Refusal::Long.number(), [0; BLOCK_VALUES]);
        assert_eq!(bare::hub_block(&mut lent, &bytes[..sizes[way]]), refused, "{about}");
        assert!(lent.iter().all(Fenced::unchanged), "{about}");
    });
}

/// Some bytes of any number: none, some, as many as are allowed, more.
fn any_block(dice: &mut Dice) -> Vec<u8> {
    let size = dice.pick(&[0, 0, 1, 8, 300, BLOCK_SIZE, BLOCK_SIZE + 1, 70_000]);
    dice.bytes(size)
}

/// 13, with the values that are told: all 0.
#[test]
fn of_short_rooms() {
    const ROOM: u32 = Refusal::Room as u32;
    let event = |dice: &mut Dice| dice.below(300) as u32;
    lends(FRAMER, (ROOM, [0; HEAD_VALUES]), |dice, lent| bare::framer(lent, event(dice)));
    lends(HUB, (ROOM, [0; HUB_VALUES]), |dice, lent| bare::hub(lent, event(dice)));
    lends(HUB, (ROOM, [0; BLOCK_VALUES]), |dice, lent| bare::hub_block(lent, &any_block(dice)));
    lends(SENDER, (ROOM, 0), |dice, lent| bare::sender_hear(lent, event(dice)));
    lends(SENDER, (ROOM, [0; START_VALUES]), |dice, lent| bare::sender_start(lent, dice.byte(), b"8"));
    lends(READER, (ROOM, [0; READER_VALUES]), |dice, lent| bare::reader_hear(lent, event(dice)));
    let saving = [Size::Room(READER_CONTROL_SIZE), Size::Room(SET_SIZE)];
    lends(saving, (ROOM, 0), |_, [control, room]| bare::reader_save(control, room));
    let tables = [Size::Room(READER_CONTROL_SIZE), Size::Array(TABLE_SIZE)];
    lends(tables, ROOM, |_, [control, table]| bare::reader_table(control, table));
    lends(tables, ROOM, |_, [control, table]| bare::reader_put_table(control, table));
    // A start and a time-out ask for the control value and the copy room, the last three for the control value alone.
    let asks = |places: &[usize]| {
        let mut sizes = READER.map(|size| Size::Array(size.least()));
        places.iter().for_each(|place| sizes[*place] = READER[*place]);
        sizes
    };
    lends(asks(&[0, 5]), (ROOM, [0; START_VALUES]), |dice, lent| bare::reader_start(lent, dice.byte(), b"8"));
    lends(asks(&[0, 5]), (ROOM, 0), |_, lent| bare::reader_time_out(lent));
    lends(asks(&[0]), (ROOM, 0), |dice, lent| bare::reader_locked(&mut lent[0], dice.byte()));
    lends(asks(&[0]), (ROOM, 0), |dice, lent| bare::reader_value(lent, dice.byte()));
    lends(asks(&[0]), (ROOM, [0; SWITCH_VALUES]), |_, lent| bare::reader_switches(lent));
}

/// Numbers above that of a message gap, and replies above that of an ACK, do nothing.
#[test]
fn of_no_events() {
    let above = [258, 512, 1 << 31, u32::MAX - 255, u32::MAX];
    each([Size::Room(ANSWER_SIZE)], above.len(), |way, [mut room], about| {
        for source in [0, 1, 4] {
            assert_eq!(bare::answer(&mut room, source, above[way] - 1), (NOTHING, 0), "{about}");
        }
        assert!(room.unchanged(), "{about}");
    });
    each(FRAMER, above.len(), |way, mut lent, about| {
        assert_eq!(bare::framer(&mut lent, above[way]), (NOTHING, [0; HEAD_VALUES]), "{about}");
        assert!(lent.iter().all(Fenced::unchanged), "{about}");
    });
    each(HUB, above.len(), |way, mut lent, about| {
        let [control, line, ..] = &mut lent;
        assert!(!bare::go_on(control, line, above[way]), "{about}");
        assert_eq!(bare::hub(&mut lent, above[way]), (NOTHING, [0; HUB_VALUES]), "{about}");
        assert!(lent.iter().all(Fenced::unchanged), "{about}");
    });
    each(READER, above.len(), |way, mut lent, about| {
        let [control, line, ..] = &mut lent;
        assert!(!bare::go_on(control, line, above[way]), "{about}");
        assert_eq!(bare::reader_hear(&mut lent, above[way]), (NOTHING, [0; READER_VALUES]), "{about}");
        assert!(lent.iter().all(Fenced::unchanged), "{about}");
    });
}
