//! What is few enough to be tried whole: every opcode with every status, every source, every data length, every code
//! and every pair, every byte of a saved set's form and every choice of locks, cards of every size after equal ones,
//! pieces that are unlike in any one place, and blocks cut at every place. These streams have no seed.

use super::from_host::FromHost;
use super::from_reader::FromReader;
use super::Line;
use crate::form::{load, save, LONGEST_FORM, WITHOUT_LOCKS};
use crate::framer::LineEvent;
use crate::hub::{LONGEST_BLOCK, LONGEST_MESSAGE};
use crate::packet::*;
use crate::sender::PIECE;
use crate::table::{allowed, Table, NO_BEEP, ROWS};
use crate::watch_sets::LENGTHS;

/// Data of this length that is right for the opcode if the length is.
fn data_of(opcode: u8, size: usize) -> Vec<u8> {
    let mut data = vec![0x80; size];
    match opcode {
        PARAM_SEND => {
            for (i, byte) in data.iter_mut().enumerate() {
                *byte = [0x80, 1][(i + 1) % 2];
            }
            data.iter_mut().take(1).for_each(|byte| *byte = NO_BEEP);
        }
        BEEP | LED_ON | LED_OFF => data.fill(1),
        _ => {}
    }
    data
}

fn right_size(opcode: u8) -> usize {
    match opcode {
        PARAM_SEND | PARAM_REQUEST | BEEP | LED_ON | LED_OFF | CMD_NAK | DECODE_DATA => 1,
        _ => 0,
    }
}

/// One packet with every other checksum byte in either place, and with every other length byte.
fn wrong_bytes(packet: &[u8]) -> Vec<Vec<u8>> {
    let places = [0, packet.len() - 2, packet.len() - 1];
    let with = |place: usize, byte: u8| {
        let mut bytes = packet.to_vec();
        bytes[place] = byte;
        bytes
    };
    places.iter().flat_map(|place| (0..=255).map(move |byte| with(*place, byte))).collect()
}

/// Everything for a hub, with a message gap after each try.
pub fn hub(stream: &mut FromReader) {
    let mut tell = |packet: &[u8]| {
        stream.send(packet);
        stream.event(LineEvent::MessageGap);
    };
    for opcode in 0..=255 {
        for status in 0..=255 {
            tell(&lay_out(opcode, READER, status, &[0x1B]));
        }
    }
    for opcode in [DECODE_DATA, PARAM_SEND, CMD_ACK, CMD_NAK] {
        (0..=255).for_each(|source| tell(&lay_out(opcode, source, 0, &[0x1B])));
    }
    for opcode in [DECODE_DATA, CMD_ACK, CMD_NAK] {
        for size in 0..=MOST_DATA {
            (0..4).for_each(|status| tell(&lay_out(opcode, READER, status, &data_of(opcode, size))));
        }
    }
    wrong_bytes(&lay_out(DECODE_DATA, READER, 0, &[0x1B, 0x38])).iter().for_each(|bytes| tell(bytes));
    hub_types(stream);
}

/// Every code type after each of three.
fn hub_types(stream: &mut FromReader) {
    for first in [0x00, 0x1B, 0xFF] {
        for second in 0..=255 {
            stream.send(&lay_out(DECODE_DATA, READER, MORE, &[first]));
            stream.send(&lay_out(DECODE_DATA, READER, 0, &[second, 0x38]));
            stream.event(LineEvent::MessageGap);
        }
    }
}

/// Everything for a reader. A PARAM_DEFAULTS after what may have changed a parameter keeps 9Fh on.
pub fn reader(stream: &mut FromHost) {
    let mut tell = |packet: &[u8]| {
        stream.send(packet);
        stream.event(LineEvent::Gap);
    };
    for opcode in 0..=255 {
        for status in 0..=255 {
            tell(&lay_out(opcode, HOST, status, &data_of(opcode, right_size(opcode))));
        }
    }
    for opcode in COMMANDS.into_iter().chain([DECODE_DATA, CMD_ACK, CMD_NAK]) {
        (0..=255).for_each(|source| tell(&lay_out(opcode, source, 0, &data_of(opcode, right_size(opcode)))));
        (0..=MOST_DATA).for_each(|size| tell(&lay_out(opcode, HOST, 0, &data_of(opcode, size))));
    }
    wrong_bytes(&lay_out(BEEP, HOST, 0, &[1])).iter().for_each(|bytes| tell(bytes));
    reader_values(&mut tell);
    reader_answers(stream);
    reader_forms(stream);
    reader_locks(stream);
    reader_cards(stream);
    reader_pieces(stream);
}

/// Every beep code, every number asked for, every pair.
fn reader_values(tell: &mut impl FnMut(&[u8])) {
    for byte in 0..=255 {
        tell(&lay_out(BEEP, HOST, 0, &[byte]));
        tell(&lay_out(PARAM_SEND, HOST, 0, &[byte]));
        tell(&lay_out(PARAM_REQUEST, HOST, 0, &[byte]));
        tell(&lay_out(LED_ON, HOST, 0, &[byte]));
        tell(&lay_out(LED_OFF, HOST, 0, &[byte]));
    }
    for number in 0..=255 {
        for value in 0..=255 {
            tell(&lay_out(PARAM_SEND, HOST, 0, &[NO_BEEP, number, value]));
            if allowed(number, value) {
                tell(&lay_out(PARAM_REQUEST, HOST, 0, &[0xFE]));
                tell(&lay_out(PARAM_DEFAULTS, HOST, 0, &[]));
            }
        }
    }
}

/// Every NAK cause, every status and every source of an answer, each to a message of its own.
fn reader_answers(stream: &mut FromHost) {
    for byte in 0..=255 {
        for packet in [
            lay_out(CMD_NAK, HOST, 0, &[byte]),
            lay_out(CMD_NAK, HOST, byte, &[1]),
            lay_out(CMD_NAK, byte, 0, &[1]),
            lay_out(CMD_ACK, HOST, byte, &[]),
            lay_out(CMD_ACK, byte, 0, &[]),
            lay_out(CMD_ACK, HOST, 0, &data_of(CMD_ACK, usize::from(byte).min(MOST_DATA))),
            lay_out(CMD_NAK, HOST, 0, &data_of(CMD_NAK, usize::from(byte).min(MOST_DATA))),
        ] {
            stream.start_message(&[0x1B, 0x38]);
            stream.send(&packet);
            stream.event(LineEvent::Gap);
            stream.time_out();
            stream.send(&lay_out(CMD_ACK, HOST, 0, &[]));
            stream.event(LineEvent::Gap);
        }
    }
}

/// Starts a message of type 1Bh and acknowledges all of its packets.
fn deliver(stream: &mut FromHost, bytes: &[u8]) {
    stream.start_message(&[&[0x1B], bytes].concat());
    while stream.waits() {
        stream.send(&lay_out(CMD_ACK, HOST, 0, &[]));
    }
}

/// Cards of every size behind an equal one, behind a message that ends in an equal piece, and behind nearly equal ones.
fn reader_cards(stream: &mut FromHost) {
    for size in 0..=PIECE {
        let mut bytes = [[0x37; PIECE], [0x38; PIECE]].concat();
        bytes.truncate(PIECE + size);
        let card = bytes[PIECE..].to_vec();
        deliver(stream, &bytes);
        // A message of 250 bytes is one piece.
        deliver(stream, &card);
        deliver(stream, &card);
        for place in [0, size.saturating_sub(1)].into_iter().filter(|place| *place < size) {
            let mut other = card.clone();
            other[place] ^= 1;
            deliver(stream, &other);
            deliver(stream, &card);
        }
        stream.start_message(&[&[0x1C], &card[..]].concat());
        stream.power_up_alone();
    }
}

/// Three equal blocks and one byte more, with another byte in any one place; then equal bytes of sizes around those at
/// which a piece more begins.
fn reader_pieces(stream: &mut FromHost) {
    for place in 0..=3 * PIECE {
        let mut bytes = [0x38; 3 * PIECE + 1];
        bytes[place] = 0x39;
        deliver(stream, &bytes);
    }
    for pieces in 0..=LONGEST_MESSAGE / PIECE {
        let around = pieces * PIECE..=pieces * PIECE + 2;
        let cut = pieces * PIECE - pieces / 2..=pieces * PIECE - pieces / 2 + 2;
        for size in around.chain(cut).filter(|size| *size <= LONGEST_MESSAGE) {
            deliver(stream, &vec![0x38; size]);
        }
    }
    deliver(stream, &[0x38; LONGEST_MESSAGE]);
}

// Saved sets.

/// A table in which no value is the house default, with these locks.
fn other_table(locks: [bool; ROWS.len()]) -> Table {
    let values = [1, 5, 4, 30, 3, 2, 0, 7, 0];
    Table { present: values, permanent: values, locks }
}

/// The choice of locks in which the parameter in place n is locked where bit n is set.
fn choice(bits: usize) -> [bool; ROWS.len()] {
    std::array::from_fn(|place| bits >> place & 1 == 1)
}

/// Loads the form into a reader with other values and other locks, all of which a refusal has to leave.
fn try_form(stream: &mut FromHost, form: &[u8]) {
    stream.load(form);
    stream.save();
    if load(form).is_ok() {
        stream.send(&lay_out(PARAM_REQUEST, HOST, 0, &[0xFE]));
        stream.load(&save(&other_table(choice(0b0_1010_0110))));
    }
}

/// Each byte of a form with three locks in every place, each length, each count of locks, and each pair of locks.
fn reader_forms(stream: &mut FromHost) {
    stream.load(&save(&other_table(choice(0b0_1010_0110))));
    let forms =
        [0, 0b0_0100_1001, 0b1_1111_1111].map(|bits| save(&Table { locks: choice(bits), ..Table::house_defaults() }));
    for (place, byte) in (0..forms[1].len()).flat_map(|place| (0..=255).map(move |byte| (place, byte))) {
        let mut form = forms[1].clone();
        form[place] = byte;
        try_form(stream, &form);
    }
    for (form, size) in forms.iter().flat_map(|form| (0..=LENGTHS).map(move |size| (form, size))) {
        for more in [0, form[WITHOUT_LOCKS - 1], 0xEE, 0xFF] {
            let mut form = form.clone();
            form.resize(size, more);
            try_form(stream, &form);
        }
    }
    for (count, size) in (0..=255).flat_map(|count| (WITHOUT_LOCKS..=LONGEST_FORM).map(move |size| (count, size))) {
        let mut form = forms[2].clone();
        form[WITHOUT_LOCKS - 1] = count;
        try_form(stream, &form[..size]);
    }
    for (first, second) in ROWS.iter().flat_map(|first| ROWS.iter().map(move |second| (first[0], second[0]))) {
        let mut form = forms[0].clone();
        form[WITHOUT_LOCKS - 1] = 2;
        form.extend([first, second]);
        try_form(stream, &form);
    }
}

/// Every choice of locks: each parameter named with the value that it has and with another, for now and for good; then
/// the house defaults, and a power-up.
fn reader_locks(stream: &mut FromHost) {
    for bits in 0..1 << ROWS.len() {
        let table = other_table(choice(bits));
        stream.load(&save(&table));
        for (place, [number, _, _, default]) in ROWS.into_iter().enumerate() {
            for (status, value) in [(0, table.present[place]), (0, default), (PERMANENT, default)] {
                stream.send(&lay_out(PARAM_SEND, HOST, status, &[NO_BEEP, number, value]));
            }
        }
        stream.save();
        stream.load(&save(&table));
        stream.send(&lay_out(PARAM_DEFAULTS, HOST, 0, &[]));
        stream.send(&lay_out(PARAM_REQUEST, HOST, 0, &[0xFE]));
        stream.save();
        stream.power_up_alone();
        stream.save();
        stream.send(&lay_out(PARAM_SEND, HOST, PERMANENT, &[NO_BEEP, 0x80, 0]));
    }
}

// Desk's own.

/// The rooms that are tried in every state; each of the others once.
fn rooms_to_try() -> impl Iterator<Item = usize> {
    (0..=30).chain([255, 256, 257, 0x0600, 0x0700, 0x1800, 0x1900, 0xFFFF])
}

/// Every room there can be, each with a byte that is answered and a gap.
fn every_room<L: Line>(stream: &mut L) {
    for room in 0..=65_535 {
        stream.set_room(room);
        stream.event(LineEvent::Byte(3));
        stream.event(LineEvent::Gap);
    }
}

/// Rooms around the need in every state, with each kind of event. What comes after it in a room of full size is the
/// event again, or not.
fn rooms_in_states<L: Line>(stream: &mut L, states: &[Vec<u8>], bytes: &[u8], after: &[u8]) {
    for (room, state) in rooms_to_try().flat_map(|room| states.iter().map(move |state| (room, state))) {
        let bytes = bytes.iter().map(|byte| LineEvent::Byte(*byte));
        let events = bytes.chain([LineEvent::Gap, LineEvent::MessageGap]);
        for (event, again) in events.flat_map(|event| [(event, true), (event, false)]) {
            stream.send(state);
            stream.set_room(room);
            stream.event(event);
            stream.set_room(LONGEST);
            if again {
                stream.event(event);
            }
            stream.send(after);
            stream.event(LineEvent::MessageGap);
        }
    }
}

/// A hub with nothing begun, inside a packet, one byte before its end, deaf, inside a message, barred.
pub fn desk_hub(stream: &mut FromReader) {
    // In the room that blocks have until one is set, so before all else.
    cut_in_blocks(stream);
    blocks_of_sizes(stream);
    every_room(stream);
    for room in (7..=33).chain([64, LONGEST]) {
        stream.set_room(room);
        equal_blocks(stream, &medley());
    }
    let piece = lay_out(DECODE_DATA, READER, 0, &[0x1B, 0x38]);
    let first = lay_out(DECODE_DATA, READER, MORE, &[0x1B, 0x37]);
    let other = lay_out(DECODE_DATA, READER, 0, &[0x1C]);
    let almost = &piece[..piece.len() - 1];
    let states = [
        vec![],
        piece[..1].to_vec(),
        almost.to_vec(),
        vec![3],
        first.clone(),
        [&first[..], almost].concat(),
        [&first[..], &other].concat(),
        [&first[..], &other, almost].concat(),
    ];
    let last = piece[piece.len() - 1];
    rooms_in_states(stream, &states, &[3, 4, last], &piece);
    let blocks =
        [vec![], vec![3], vec![last], [&[last], &first[..], &piece, &piece].concat(), vec![0; LONGEST_BLOCK + 1]];
    blocks_in_states(stream, &states, &blocks, &piece);
}

/// All that a hub may hear without a gap: pieces, resends, an ACK, refusals 4 to 7, ends of messages, a bar, and a
/// refusal 2 with a card behind it.
fn medley() -> Vec<u8> {
    let card = lay_out(DECODE_DATA, READER, 0, &[0x1B, 0x38]);
    let mut spoiled = card.clone();
    spoiled[5] ^= 1;
    [
        lay_out(DECODE_DATA, READER, MORE, &[0x1B, 0x37]),
        lay_out(DECODE_DATA, READER, MORE | MARK, &[0x1B, 0x37]),
        lay_out(CMD_ACK, READER, 0, &[]),
        lay_out(DECODE_DATA, HOST, 0, &[0x1B]),
        lay_out(DECODE_DATA, READER, 4, &[0x1B]),
        lay_out(PARAM_SEND, READER, 0, &[NO_BEEP]),
        lay_out(DECODE_DATA, READER, 0, &[]),
        card.clone(),
        lay_out(DECODE_DATA, READER, MARK, &[0x1B, 0x38]),
        lay_out(DECODE_DATA, READER, 0, &[0x1C]),
        lay_out(DECODE_DATA, READER, MORE, &[0x1B]),
        lay_out(DECODE_DATA, READER, 0, &[0x1C]),
        card.clone(),
        lay_out(CMD_NAK, READER, 0, &[1]),
        spoiled,
        card,
    ]
    .concat()
}

/// Bytes in blocks of every size.
fn equal_blocks(stream: &mut FromReader, bytes: &[u8]) {
    for size in 1..=bytes.len() {
        bytes.chunks(size).for_each(|block| stream.block(block));
        stream.event(LineEvent::MessageGap);
    }
}

/// And cut in two at every place, each half in a block or alone.
fn cut_in_blocks(stream: &mut FromReader) {
    let bytes = medley();
    equal_blocks(stream, &bytes);
    for (front, back) in (0..=bytes.len()).map(|place| bytes.split_at(place)) {
        stream.block(front);
        stream.block(back);
        stream.event(LineEvent::MessageGap);
        stream.send(front);
        stream.block(back);
        stream.event(LineEvent::MessageGap);
        stream.block(front);
        stream.send(back);
        stream.event(LineEvent::MessageGap);
        // The back is heard as if nothing had come before.
        stream.block(front);
        stream.event(LineEvent::Gap);
        stream.block(back);
        stream.event(LineEvent::MessageGap);
    }
}

/// Of every size up to some, and around the longest: bytes that are ignored, and cards.
fn blocks_of_sizes(stream: &mut FromReader) {
    let card = lay_out(DECODE_DATA, READER, 0, &[0x1B, 0x38]);
    for size in (0..=300).chain(4_090..=4_100) {
        stream.block(&vec![3; size]);
        stream.event(LineEvent::Gap);
        let cards: Vec<u8> = card.iter().copied().cycle().take(size).collect();
        stream.block(&cards);
        stream.event(LineEvent::MessageGap);
    }
}

/// Blocks in rooms around the need in every state. What comes after each in a room of full size is the block again, or
/// not.
fn blocks_in_states(stream: &mut FromReader, states: &[Vec<u8>], blocks: &[Vec<u8>], after: &[u8]) {
    for (room, state) in rooms_to_try().flat_map(|room| states.iter().map(move |state| (room, state))) {
        for (block, again) in blocks.iter().flat_map(|block| [(block, true), (block, false)]) {
            // Those that are too long say little about a room.
            if block.len() > LONGEST_BLOCK && !(5..=8).contains(&room) {
                continue;
            }
            stream.send(state);
            stream.set_room(room);
            stream.block(block);
            stream.set_room(LONGEST);
            if again {
                stream.block(block);
            }
            stream.send(after);
            stream.event(LineEvent::MessageGap);
        }
    }
}

/// A reader with nothing begun, inside a packet, one byte before the end of several, deaf; with a message out; and with
/// 9Fh off.
pub fn desk_reader(stream: &mut FromHost) {
    every_room(stream);
    let ask = lay_out(PARAM_REQUEST, HOST, 0, &[0xFE]);
    let set = lay_out(PARAM_SEND, HOST, 0, &[0x01, 0x8A, 2, 0xED, 7]);
    let ack = lay_out(CMD_ACK, HOST, 0, &[]);
    let almost = |packet: &[u8]| packet[..packet.len() - 1].to_vec();
    let states = [vec![], ask[..1].to_vec(), almost(&ask), almost(&set), almost(&ack), vec![3]];
    let [ask_end, set_end, ack_end] = [&ask, &set, &ack].map(|packet| packet[packet.len() - 1]);
    let bytes = [3, 4, ask_end, set_end, ack_end];
    rooms_in_states(stream, &states, &bytes, &ask);
    rooms_to_try().for_each(|room| room_with_message_out(stream, room, &set));
    stream.send(&lay_out(PARAM_SEND, HOST, PERMANENT, &[NO_BEEP, 0x9F, 0]));
    rooms_in_states(stream, &states, &bytes, &ask);
}

/// Packets whose last byte comes in that room first, with what does not need it: a time-out, a start, the values shown;
/// and a power-up at the end.
fn room_with_message_out(stream: &mut FromHost, room: usize, set: &[u8]) {
    stream.start_message(&[0x1B, 0x38]);
    for packet in [lay_out(CMD_NAK, HOST, 0, &[1]), set.to_vec(), lay_out(CMD_ACK, HOST, 0, &[])] {
        let (last, front) = packet.split_last().expect("a packet");
        stream.send(front);
        stream.set_room(room);
        stream.event(LineEvent::Byte(*last));
        stream.time_out();
        stream.start_message(&[0x1B, 0x39]);
        stream.show();
        stream.set_room(LONGEST);
        stream.event(LineEvent::Byte(*last));
        stream.event(LineEvent::Gap);
    }
    stream.set_room(room);
    stream.power_up_alone();
    stream.show();
    stream.event(LineEvent::Byte(3));
    stream.set_room(LONGEST);
    stream.event(LineEvent::Gap);
}
