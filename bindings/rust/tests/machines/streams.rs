//! Seeded events for a hub or a reader: mostly right packets and their resends, some damage, gaps.

use std::collections::VecDeque;

use motikhund::constants::*;
use motikhund::Event;

use crate::dice::Dice;
use crate::notation::{packet, sent};

const COMMANDS: [u8; 14] = [
    OPCODE_PARAM_SEND,
    OPCODE_PARAM_REQUEST,
    OPCODE_PARAM_DEFAULTS,
    OPCODE_BEEP,
    OPCODE_LED_ON,
    OPCODE_LED_OFF,
    OPCODE_START_SESSION,
    OPCODE_STOP_SESSION,
    OPCODE_SCAN_ENABLE,
    OPCODE_SCAN_DISABLE,
    OPCODE_AIM_ON,
    OPCODE_AIM_OFF,
    OPCODE_CMD_ACK,
    OPCODE_CMD_NAK,
];

/// Numbers around those of the parameters, and FEh for all.
const NUMBERS: [u8; 7] = [0x80, 0x89, 0x8A, 0x9F, 0xEE, 0xEF, 0xFE];

/// Who listens.
#[derive(Clone, Copy, PartialEq, Eq)]
pub enum Side {
    Hub,
    Reader,
}

pub struct Stream {
    side: Side,
    waiting: VecDeque<Event>,
    /// Opcode, source, status and data of the last packet.
    last: (u8, u8, u8, Vec<u8>),
}

impl Stream {
    pub fn new(side: Side) -> Stream {
        Stream { side, waiting: VecDeque::new(), last: (OPCODE_CMD_ACK, SOURCE_HOST, 0, Vec::new()) }
    }

    pub fn next(&mut self, dice: &mut Dice) -> Event {
        loop {
            if let Some(event) = self.waiting.pop_front() {
                return event;
            }
            self.fill(dice);
        }
    }

    fn fill(&mut self, dice: &mut Dice) {
        let count = dice.below(12);
        let bytes = match dice.below(20) {
            0 => dice.bytes(count),
            1 => self.fresh(dice)[..count.min(5)].to_vec(),
            2..=5 => self.again(),
            _ => self.packet(dice),
        };
        self.waiting.extend(sent(&bytes));
        match dice.below(20) {
            0 => self.waiting.push_back(Event::MessageGap),
            1..=15 => self.waiting.push_back(Event::CharacterGap),
            _ => {}
        }
    }

    /// A packet, perhaps with a byte changed.
    pub fn packet(&mut self, dice: &mut Dice) -> Vec<u8> {
        let mut packet = self.fresh(dice);
        if dice.chance(10) {
            let place = dice.below(packet.len());
            packet[place] ^= 1 + dice.byte() % 255;
        }
        packet
    }

    /// The last packet, marked.
    fn again(&self) -> Vec<u8> {
        let (opcode, source, status, data) = &self.last;
        packet(*opcode, *source, status | STATUS_RESEND, data)
    }

    fn fresh(&mut self, dice: &mut Dice) -> Vec<u8> {
        let (opcode, source, status, data) = match self.side {
            Side::Hub => (
                OPCODE_DECODE_DATA,
                SOURCE_READER,
                dice.pick(&[0, 0, STATUS_MORE, STATUS_MORE, STATUS_MORE, STATUS_RESEND]),
                piece(dice),
            ),
            Side::Reader => {
                let opcode = dice.pick(&COMMANDS);
                (opcode, SOURCE_HOST, dice.pick(&[0, 0, 0, STATUS_RESEND, STATUS_PERMANENT]), data(dice, opcode))
            }
        };
        let opcode = if dice.chance(4) { dice.byte() } else { opcode };
        let source = if dice.chance(4) { dice.byte() } else { source };
        let status = if dice.chance(4) { dice.byte() } else { status };
        self.last = (opcode, source, status, data);
        packet(opcode, source, status, &self.last.3)
    }
}

/// Code type and a piece; now and then neither.
fn piece(dice: &mut Dice) -> Vec<u8> {
    let size = dice.pick(&[0, 1, 2, 3, 20, 251]);
    let mut piece = dice.bytes(size);
    if let Some(code) = piece.first_mut() {
        *code = if dice.chance(90) { 0x1B } else { 0x1C };
    }
    piece
}

fn data(dice: &mut Dice, opcode: u8) -> Vec<u8> {
    if dice.chance(5) {
        let size = dice.below(252);
        return dice.bytes(size);
    }
    match opcode {
        OPCODE_PARAM_SEND => {
            let beep = if dice.chance(70) { 0xFF } else { dice.byte() % 0x20 };
            let pairs = (0..dice.below(3)).flat_map(|_| [dice.pick(&NUMBERS[..5]), dice.byte() % 3]).collect();
            [vec![beep], pairs].concat()
        }
        OPCODE_PARAM_REQUEST => (0..dice.below(4)).map(|_| dice.pick(&NUMBERS)).collect(),
        OPCODE_BEEP => vec![dice.byte() % 0x20],
        OPCODE_LED_ON | OPCODE_LED_OFF => vec![dice.byte()],
        OPCODE_CMD_NAK => vec![dice.pick(&[1, 1, 2, 6])],
        _ => Vec::new(),
    }
}
