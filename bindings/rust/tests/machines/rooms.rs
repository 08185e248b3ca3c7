//! Rooms one byte too small, and of no bytes: 13, with every byte as it was.

use std::fmt::Debug;

use motikhund::constants::{
    ANSWER_SIZE, DATA_SIZE, FRAMER_CONTROL_SIZE, HUB_ANSWER_SIZE, HUB_CONTROL_SIZE, LINE_SIZE, MESSAGE_SIZE,
    OPCODE_BEEP, PACKET_SIZE, READER_CONTROL_SIZE, SENDER_CONTROL_SIZE, SET_SIZE, SOURCE_HOST,
};
use motikhund::lent::{framer, hub, reader, sender};
use motikhund::{packet, Event, Found, Heard, HubTold, Outcome, ReaderTold, Refusal, Reply};

use crate::bare;
use crate::dice::Dice;
use crate::fenced::Size::{self, Array, Room};
use crate::fenced::{Fenced, FILLS, FRAMER, HUB, READER, SENDER, TABLE_SIZE};
use crate::notation::{bytes, hub_ack};
use crate::sets::house_set;
use crate::tables::table_in;

const ROUNDS: u64 = 50;

/// A call that gives its refusal, if it gave one.
fn asks<const N: usize>(sizes: [Size; N], call: impl FnMut(&mut Dice, &mut [Fenced; N]) -> Option<Refusal>) {
    lends(sizes, Some(Refusal::Room), call);
}

/// Lends buffers with garbage to a call: each room in turn too small, which gives `refused`, then all full.
pub fn lends<const N: usize, T: PartialEq + Debug>(
    sizes: [Size; N],
    refused: T,
    mut call: impl FnMut(&mut Dice, &mut [Fenced; N]) -> T,
) {
    let full = sizes.map(Size::least);
    let short = (0..N).filter(|place| matches!(sizes[*place], Room(_)));
    for (seed, place) in (0..ROUNDS).flat_map(|seed| short.clone().map(move |place| (seed, place))) {
        let dice = &mut Dice::new(seed);
        let fill = FILLS.get(seed as usize).copied().flatten();
        for size in [full[place] - 1, dice.below(full[place]), 0] {
            let mut lent = full.map(|size| Fenced::filled(dice, size, fill));
            lent[place] = Fenced::filled(dice, size, fill);
            assert_eq!(call(dice, &mut lent), refused, "{size} bytes in place {place}");
            assert!(lent.iter().all(Fenced::unchanged), "{size} bytes in place {place}");
        }
        let mut lent = full.map(|size| Fenced::filled(dice, size, fill));
        assert_ne!(call(dice, &mut lent), refused);
        assert!(lent.iter().all(Fenced::fences_stand));
    }
}

fn event(dice: &mut Dice) -> Event {
    match dice.below(4) {
        0 => Event::CharacterGap,
        1 => Event::MessageGap,
        _ => Event::Byte(dice.byte()),
    }
}

fn refused(outcome: Outcome<'_>) -> Option<Refusal> {
    match outcome {
        Outcome::Refused(why) => Some(why),
        _ => None,
    }
}

#[test]
fn of_the_packet() {
    asks([Room(PACKET_SIZE), Array(DATA_SIZE)], |dice, [room, data]| {
        let status = dice.pick(&[0, 1, 4]);
        packet::build(room.lent(), OPCODE_BEEP, SOURCE_HOST, status, data.lent()).err()
    });
    asks([Room(ANSWER_SIZE)], |dice, [room]| {
        let reply = if dice.chance(50) { Reply::Ack } else { Reply::Nak(dice.byte()) };
        packet::answer(room.lent(), dice.pick(&[0, 1, 4]), reply).err()
    });
}

#[test]
fn of_the_framer() {
    asks([Room(FRAMER_CONTROL_SIZE)], |_, [control]| framer::idle(control.lent()).err());
    asks(FRAMER, |dice, [control, line]| match framer::hear(control.lent(), line.lent(), event(dice)) {
        Found::Refused(why) => Some(why),
        _ => None,
    });
}

#[test]
fn of_the_hub() {
    asks([Room(HUB_CONTROL_SIZE)], |_, [control]| hub::on(control.lent()).err());
    asks(HUB, |dice, [control, line, gather, answer, message]| {
        match hub::hear(control.lent(), line.array(), gather.array(), answer.lent(), message.lent(), event(dice)) {
            HubTold::Refused { why, answer } => {
                assert_eq!(answer.is_empty(), why == Refusal::Room);
                Some(why)
            }
            _ => None,
        }
    });
    // Of a block too, also of no bytes, and before it is found too long.
    asks(HUB, |dice, [control, line, gather, answer, message]| {
        let size = dice.pick(&[0, 1, 300, 4_096, 4_097]);
        let (line, gather, bytes) = (line.array(), gather.array(), dice.bytes(size));
        hub::hear_block(control.lent(), line, gather, answer.lent(), message.lent(), &bytes).err()
    });
}

#[test]
fn of_the_sender() {
    asks([Room(SENDER_CONTROL_SIZE)], |dice, [control]| sender::idle(control.lent(), dice.chance(50)).err());
    asks([Room(SENDER_CONTROL_SIZE)], |_, [control]| sender::waits(control.lent()).err());
    asks(SENDER, |dice, [control, buffer, copy]| {
        let size = dice.pick(&[0, 1, 300, 4_096, 4_097]);
        refused(sender::start(control.lent(), buffer.array(), copy.lent(), 0x1B, &dice.bytes(size)))
    });
    asks(SENDER, |dice, [control, buffer, copy]| {
        let heard = dice.pick(&[Heard::Ack, Heard::Nak(1), Heard::Nak(6), Heard::TimeOut, Heard::Nothing]);
        refused(sender::hear(control.lent(), buffer.array(), copy.lent(), heard))
    });
}

#[test]
fn of_the_reader() {
    asks([Room(READER_CONTROL_SIZE)], |_, [control]| reader::on(control.lent()).err());
    asks([Room(READER_CONTROL_SIZE)], |_, [control]| reader::power_up(control.lent()).err());
    asks([Room(READER_CONTROL_SIZE), Room(SET_SIZE)], |_, [control, room]| {
        reader::save(control.lent(), room.lent()).err()
    });
    asks([Room(READER_CONTROL_SIZE)], |_, [control]| reader::load(control.lent(), &house_set()).err());
    asks([Room(READER_CONTROL_SIZE)], |dice, [control]| reader::locked(control.lent(), dice.byte()).err());
    asks([Room(READER_CONTROL_SIZE)], |dice, [control]| reader::value(control.lent(), dice.byte()).err());
    asks([Room(READER_CONTROL_SIZE)], |_, [control]| reader::switches(control.lent()).err());
    asks([Room(READER_CONTROL_SIZE)], |_, [control]| reader::table(control.lent()).err());
    // Before 9 for what stands in a table.
    asks([Room(READER_CONTROL_SIZE), Array(TABLE_SIZE)], |_, [control, table]| {
        reader::put_table(control.lent(), &table_in(table)).err()
    });
    let sizes = [Room(READER_CONTROL_SIZE), Array(MESSAGE_SIZE), Room(PACKET_SIZE)];
    asks(sizes, |dice, [control, message, copy]| {
        let size = dice.pick(&[0, 1, 300, 4_096, 4_097]);
        refused(reader::start(control.lent(), message.array(), copy.lent(), 0x1B, &dice.bytes(size)))
    });
    asks(sizes, |_, [control, message, copy]| refused(reader::time_out(control.lent(), message.array(), copy.lent())));
    asks(READER, |dice, [control, line, answers, message, answer, copy]| {
        let (line, answers, message) = (line.array(), answers.array(), message.array());
        match reader::hear(control.lent(), line, answers, message, answer.lent(), copy.lent(), event(dice)) {
            ReaderTold::Refused { why, answer } => {
                assert!(answer.is_empty() || why != Refusal::Room);
                Some(why)
            }
            _ => None,
        }
    });
}

/// The last byte of a packet is refused for want of room, comes again, and brings the message.
#[test]
fn an_event_refused_is_not_taken() {
    let (mut control, mut line, mut gather) = ([0; HUB_CONTROL_SIZE], [0; LINE_SIZE], [0; MESSAGE_SIZE]);
    let (mut answer, mut message) = ([0; HUB_ANSWER_SIZE], [0; MESSAGE_SIZE]);
    let mut hear = |byte, size| {
        let told =
            hub::hear(&mut control, &mut line, &mut gather, &mut answer[..size], &mut message, Event::Byte(byte));
        (bare::of_hub(told), told.answer().to_vec())
    };
    let piece = bytes("06 F3 00 00 1B 38 FE B4");
    piece[..7].iter().for_each(|byte| assert_eq!(hear(*byte, 7).0, (0, [0; 3])));
    for size in [0, 6, 6] {
        assert_eq!(hear(piece[7], size), ((13, [0; 3]), Vec::new()));
    }
    assert_eq!(hear(piece[7], 7), ((112, [6, 0x1B, 1]), hub_ack()));
}
