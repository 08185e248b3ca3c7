//! What may come to a hub: decode data and everything that isn't.

use super::blocks::{Begun, Blocks};
use super::damage::{contents, cut, damaged};
use super::{Hand, Line, Stream};
use crate::dice::Dice;
use crate::framer::{Framer, LineEvent};
use crate::hub::{Hub, HubStep, ANSWER_ROOM, LONGEST_BLOCK, LONGEST_MESSAGE};
use crate::listing::BLOCK_ROOM;
use crate::packet::*;
use crate::watch_hub::{HubLook, HubWatch};

const TYPES: [u8; 6] = [0x1B, 0x1B, 0x1C, 0x01, 0x00, 0xFF];

/// For one answer or several, each with a byte to spare, with none, and with one too few.
const RUN_ROOMS: [usize; 14] = [7, 7, 8, 12, 13, 14, 18, 19, 20, 21, 26, 27, 64, 257];

pub struct FromReader {
    dice: Dice,
    hand: Hand,
    hub: Hub,
    watch: HubWatch,
    /// In desk's streams.
    blocks: Option<Blocks>,
}

impl Line for FromReader {
    fn dice(&mut self) -> &mut Dice {
        &mut self.dice
    }

    fn hand(&mut self) -> &mut Hand {
        &mut self.hand
    }

    fn take(&mut self, event: LineEvent) {
        match event {
            LineEvent::Byte(byte) if self.blocks.as_mut().is_some_and(Blocks::next) => self.take_in_block(byte),
            _ => self.take_alone(event),
        }
    }

    fn room_set(&mut self) {
        self.watch.room_set(self.hand.room());
    }

    /// The block under way; and at times, before it, an empty one or one that is refused.
    fn flush(&mut self) {
        let Some(blocks) = self.blocks.as_mut().filter(|blocks| blocks.under_way() > 0) else {
            return;
        };
        let begun = blocks.written();
        match blocks.dice().weigh(&[950, 20, 25, 5]) {
            1 if self.hand.rooms.is_some() => self.in_small_room(&begun.bytes),
            2 => self.give(Begun::default()),
            3 => self.too_long(&begun.bytes),
            _ => {}
        }
        self.give(begun);
        let agreed = self.blocks.as_ref().is_some_and(|blocks| blocks.agrees(&self.hub));
        assert!(agreed, "the hub that takes blocks is not as the one that takes bytes");
    }

    fn draw_nothing(&mut self) {
        self.hand.rooms = None;
        self.blocks.iter_mut().for_each(Blocks::draw_nothing);
    }

    fn framer(&self) -> &Framer {
        self.hub.framer()
    }

    fn last_accepted(&self) -> Option<Vec<u8>> {
        self.hub.last_accepted().map(<[u8]>::to_vec)
    }

    fn rare_state(&self) -> bool {
        self.hub.barred()
    }

    fn fresh(&mut self) {
        self.piece();
    }

    fn alter(&mut self, status: &mut u8, data: &mut Vec<u8>) {
        match self.dice.weigh(&[70, 6, 6, 6, 6, 3, 3]) {
            0 => {}
            1 => *status &= !MARK,
            2 => *status ^= MORE,
            3 => *status ^= PERMANENT,
            4 => {
                let at = self.dice.below(data.len());
                data[at] ^= 1;
            }
            5 => {
                data.pop();
            }
            _ => data.truncate(1),
        }
    }

    fn done(self) -> Stream {
        self.hand.done(self.watch.sights)
    }

    fn step(&mut self) {
        if self.blocks.as_ref().is_some_and(Blocks::any) {
            match self.dice.weigh(&[900, 95, 5]) {
                0 => {}
                1 => return self.in_room_of(&RUN_ROOMS, FromReader::run),
                _ => return self.in_room_of(&[BLOCK_ROOM, 257, 65_535, 65_535], FromReader::full_block),
            }
        }
        if self.hub.barred() {
            self.step_while_barred();
        } else {
            self.step_while_open();
        }
    }
}

impl FromReader {
    /// For desk, rooms and blocks are drawn too. Blocks have a room of their own until one is set, so now and then none
    /// is.
    pub fn new(seed: u64, desk: bool) -> FromReader {
        let mut dice = Dice::new(seed);
        let mut hand = Hand::new(dice.next(), desk.then_some(ANSWER_ROOM));
        let mut blocks = desk.then(|| Blocks::new(seed.rotate_left(32)));
        if blocks.as_mut().is_some_and(|blocks| blocks.any() && blocks.dice().chance(30)) {
            hand.rooms = None;
        }
        FromReader { dice, hand, hub: Hub::default(), watch: HubWatch::new(desk), blocks }
    }

    fn step_while_open(&mut self) {
        match self.dice.weigh(&[300, 130, 30, 30, 40, 30, 90, 70, 50, 60, 30, 40, 15, 4]) {
            0 => self.piece(),
            1 => self.resend_last(),
            2 => self.resend_kept(),
            3 => self.other_type(),
            4 => self.spoiled_then_resent(),
            5 => self.empty_packet(),
            6 => self.damaged(),
            7 => self.cut(),
            8 => self.answer(),
            9 => self.any_packet(),
            10 => self.garbage(),
            11 => self.event(LineEvent::Gap),
            12 => self.gap_then_resend(),
            _ => self.long_message(),
        }
    }

    /// Everything that may follow at a barred hub, and now and then the gap that lifts the bar.
    fn step_while_barred(&mut self) {
        match self.dice.weigh(&[20, 15, 8, 10, 8, 10, 10, 5, 4, 8, 10]) {
            0 => self.piece(),
            1 => self.resend_last(),
            2 => self.resend_kept(),
            3 => self.damaged(),
            4 => self.cut(),
            5 => self.answer(),
            6 => self.any_packet(),
            7 => self.empty_packet(),
            8 => self.garbage(),
            9 => self.event(LineEvent::Gap),
            _ => self.gap_then_resend(),
        }
    }

    // Blocks.

    fn take_alone(&mut self, event: LineEvent) {
        self.flush();
        self.hand.pen.line(event);
        let before = HubLook::at(&self.hub);
        let step = self.hub.take_in_room(event, self.hand.room());
        self.watch.see(before, event, &step, &self.hub);
        if let Some(blocks) = &mut self.blocks {
            blocks.alone(event, self.hand.room());
            self.watch.see_alone(before, event, &step);
            if !matches!(event, LineEvent::Byte(_)) {
                blocks.end();
            }
        }
    }

    /// The stream's hub takes the byte at once, unless the whole block is to be refused.
    fn take_in_block(&mut self, byte: u8) {
        let step = (self.block_room() >= ANSWER_ROOM).then(|| self.heard(byte));
        let blocks = self.blocks.as_mut().expect("a block");
        blocks.add(byte, step);
        if blocks.whole() {
            self.flush();
        }
    }

    fn block_room(&self) -> usize {
        self.hand.room.unwrap_or(BLOCK_ROOM)
    }

    fn heard(&mut self, byte: u8) -> HubStep {
        let before = HubLook::at(&self.hub);
        let event = LineEvent::Byte(byte);
        let step = self.hub.take(event);
        self.watch.see(before, event, &step, &self.hub);
        step
    }

    /// Writes a block that the stream's hub has heard.
    fn give(&mut self, begun: Begun) {
        // One that is refused, or has no byte, is an event all the same.
        self.hand.pen.block(&begun.bytes, begun.steps.len().max(1));
        let blocks = self.blocks.as_mut().expect("blocks are for desk alone");
        blocks.give(&begun, self.hand.room, &mut self.watch);
    }

    /// A block as it is.
    pub fn block(&mut self, bytes: &[u8]) {
        self.flush();
        let refused = self.block_room() < ANSWER_ROOM || bytes.len() > LONGEST_BLOCK;
        let steps = if refused { vec![] } else { bytes.iter().map(|byte| self.heard(*byte)).collect() };
        self.give(Begun { bytes: bytes.to_vec(), steps });
    }

    /// The block, and at times a longer one, in a room in which it is refused.
    fn in_small_room(&mut self, bytes: &[u8]) {
        let room = self.block_room();
        let small = self.dice.pick(&[0, 1, 5, 6, 6]);
        self.set_room(small);
        match self.dice.weigh(&[70, 20, 10]) {
            0 => self.block(bytes),
            1 => self.block(&[]),
            _ => self.too_long(bytes),
        }
        self.set_room(room);
    }

    fn too_long(&mut self, bytes: &[u8]) {
        let bytes = self.blocks.as_mut().expect("a block").too_long(bytes);
        self.block(&bytes);
    }

    /// Does it in one of these rooms, if rooms are drawn, and without another meanwhile.
    fn in_room_of(&mut self, sizes: &[usize], what: fn(&mut FromReader)) {
        let rooms = self.hand.rooms.take();
        if rooms.is_some() {
            let room = self.dice.pick(sizes);
            self.set_room(room);
        }
        self.flush();
        what(self);
        self.hand.rooms = rooms;
        self.after_packet();
    }

    fn begin_block(&mut self, size: usize) {
        self.blocks.iter_mut().for_each(|blocks| blocks.begin(size));
    }

    /// Several packets with no gap between them, most of them in one block.
    fn run(&mut self) {
        self.begin_block(LONGEST_BLOCK);
        self.hand.joined = true;
        for _ in 0..self.dice.between(2, 12) {
            self.packet_of_run();
            if self.hub.framer().deaf() && self.dice.chance(60) {
                break;
            }
        }
        self.hand.joined = false;
    }

    fn packet_of_run(&mut self) {
        match self.dice.weigh(&[50, 15, 4, 2, 4, 3, 3, 10, 8, 2]) {
            0 => self.piece(),
            1 => self.resend_last(),
            2 => self.resend_kept(),
            3 => self.other_type(),
            4 => self.empty_packet(),
            5 => self.damaged(),
            6 => self.cut(),
            7 => self.answer(),
            8 => self.any_packet(),
            _ => self.garbage(),
        }
    }

    /// A block as long as one may be, or a byte shorter: with nothing that is heard, or with pieces of a long message.
    fn full_block(&mut self) {
        let deaf = self.dice.chance(40);
        if deaf {
            self.block(&[3]);
        }
        if deaf && self.dice.chance(30) {
            self.too_long(&[3]);
        }
        let mut left = self.dice.pick(&[LONGEST_BLOCK, LONGEST_BLOCK, LONGEST_BLOCK - 1]);
        self.begin_block(left);
        while left > 0 {
            let bytes = if deaf { contents(&mut self.dice, 250) } else { self.full_packet() };
            let (inside, behind) = bytes.split_at(bytes.len().min(left));
            left -= inside.len();
            self.send(inside);
            self.send(behind);
        }
    }

    /// A long piece that another follows, mostly.
    fn full_packet(&mut self) -> Vec<u8> {
        let code_type = self.open_type();
        match self.dice.weigh(&[95, 1, 4]) {
            0 => self.piece_of(code_type, MORE, 250),
            1 => self.right_piece(),
            _ => lay_out(CMD_ACK, READER, 0, &[]),
        }
    }

    // Decode data.

    fn open_type(&mut self) -> u8 {
        match self.hub.gathered() {
            Some(message) => message.code_type,
            None => self.dice.pick(&TYPES),
        }
    }

    fn piece_size(&mut self) -> usize {
        match self.dice.weigh(&[15, 20, 40, 15, 4, 3]) {
            0 => 0,
            1 => 1,
            2 => self.dice.between(2, 8),
            3 => self.dice.between(9, 40),
            4 => self.dice.pick(&[249, 250, 250]),
            _ => self.dice.between(0, 250),
        }
    }

    fn piece_of(&mut self, code_type: u8, status: u8, size: usize) -> Vec<u8> {
        let mut data = vec![code_type];
        data.extend(contents(&mut self.dice, size));
        lay_out(DECODE_DATA, READER, status, &data)
    }

    fn right_piece(&mut self) -> Vec<u8> {
        let code_type = self.open_type();
        let size = self.piece_size();
        let status = self.dice.pick(&[0, 0, 0, 2, 2, 2, 2, 1, 3, 8, 10, 11]);
        self.piece_of(code_type, status, size)
    }

    fn piece(&mut self) {
        let packet = self.right_piece();
        self.whole(packet);
    }

    fn other_type(&mut self) {
        if self.hub.gathered().is_none() {
            // Opens a message first, at times with an empty piece.
            let code_type = self.dice.pick(&TYPES);
            let size = self.dice.pick(&[0, 0, 1, 5]);
            let first = self.piece_of(code_type, MORE, size);
            self.whole(first);
        }
        let code_type = self.open_type().wrapping_add(self.dice.pick(&[1, 255, 128]));
        let size = self.dice.below(4);
        let status = self.dice.pick(&[0, 1, 2, 3]);
        let packet = self.piece_of(code_type, status, size);
        self.whole(packet);
    }

    /// Pieces up to just under, at, or over the brim.
    fn long_message(&mut self) {
        if self.dice.chance(40) {
            self.event(LineEvent::MessageGap);
        } else {
            self.event(LineEvent::Gap);
        }
        let code_type = self.open_type();
        let target = self.dice.pick(&[
            LONGEST_MESSAGE - 1,
            LONGEST_MESSAGE,
            LONGEST_MESSAGE,
            LONGEST_MESSAGE,
            LONGEST_MESSAGE + 1,
            LONGEST_MESSAGE + 1,
            LONGEST_MESSAGE + 200,
        ]);
        loop {
            let have = self.hub.gathered().map_or(0, |message| message.bytes.len());
            let left = target - have.min(target);
            let size = if self.dice.chance(90) { left.min(250) } else { left.min(self.dice.below(251)) };
            let last = size == left;
            let status = if last { self.dice.pick(&[0, 0, 2, 2, 1, 3]) } else { self.dice.pick(&[2, 2, 2, 3]) };
            let packet = self.piece_of(code_type, status, size);
            self.send(&packet);
            self.event(LineEvent::Gap);
            if self.dice.chance(8) {
                self.resend_last();
                self.event(LineEvent::Gap);
            }
            if last || self.hub.barred() {
                break;
            }
        }
        if self.hub.gathered().is_some() {
            self.at_the_brim(code_type);
        }
    }

    fn at_the_brim(&mut self, code_type: u8) {
        for _ in 0..self.dice.between(1, 3) {
            let size = self.dice.pick(&[0, 0, 0, 1, 2, 250]);
            let status = self.dice.pick(&[0, 2, 2, 3]);
            let packet = self.piece_of(code_type, status, size);
            self.send(&packet);
            self.event(LineEvent::Gap);
            if self.dice.chance(50) {
                self.resend_last();
            }
        }
    }

    // Resends.

    /// As a sender does it: a spoiled copy, then the marked one.
    fn spoiled_then_resent(&mut self) {
        let code_type = self.open_type();
        let size = self.piece_size();
        let status = self.dice.pick(&[0, 2]);
        let packet = self.piece_of(code_type, status, size);
        let spoiled =
            if self.dice.chance(50) { damaged(&mut self.dice, &packet) } else { cut(&mut self.dice, &packet) };
        self.send(&spoiled);
        self.event(LineEvent::Gap);
        let again = lay_out(packet[1], packet[2], packet[3] | MARK, &packet[HEADER..packet.len() - CHECKSUM]);
        self.whole(again);
    }

    /// A message gap, then what was accepted before it, marked.
    fn gap_then_resend(&mut self) {
        let last = self.last_accepted();
        self.event(LineEvent::MessageGap);
        self.resend_forgotten(last);
    }

    // Everything else.

    /// Decode data without even a code type.
    fn empty_packet(&mut self) {
        let status = self.dice.pick(&[0, 1, 2]);
        let packet = lay_out(DECODE_DATA, READER, status, &[]);
        self.packet(&packet);
    }

    fn damaged(&mut self) {
        let packet = self.right_piece();
        let packet = damaged(&mut self.dice, &packet);
        self.packet(&packet);
    }

    fn cut(&mut self) {
        let packet = self.right_piece();
        let packet = cut(&mut self.dice, &packet);
        self.packet(&packet);
    }

    fn answer(&mut self) {
        let opcode = self.dice.pick(&[CMD_ACK, CMD_NAK]);
        let source = self.dice.pick(&[READER, READER, READER, HOST, 1, 255]);
        let status = self.dice.pick(&[0, 0, 0, 1, 2, 4, 8, 0x80, 255]);
        let data = [1, 6, 0];
        let size = self.dice.below(4);
        let packet = lay_out(opcode, source, status, &data[..size]);
        self.packet(&packet);
    }

    /// A right checksum around any fields.
    fn any_packet(&mut self) {
        let near = [DECODE_DATA, DECODE_DATA, 0xF2, 0xF4, PARAM_SEND, PARAM_REQUEST, BEEP, 0xD2, 0xCF, 0xB1, 0xB4, 0];
        let opcode = if self.dice.chance(80) { self.dice.pick(&near) } else { self.dice.byte() };
        let source = self.dice.pick(&[0, 0, 0, 0, 4, 1, 2, 255]);
        let status = self.dice.pick(&[0, 0, 1, 2, 3, 4, 8, 0x10, 0x20, 0x40, 0x80, 255]);
        let size = self.dice.pick(&[0, 1, 2, 3, 7]);
        let data = contents(&mut self.dice, size);
        let packet = lay_out(opcode, source, status, &data);
        self.packet(&packet);
    }
}
