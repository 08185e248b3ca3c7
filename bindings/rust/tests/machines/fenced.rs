//! A lent buffer between two fences, by which a write past its ends is seen.

use motikhund::constants::{
    FRAMER_CONTROL_SIZE, HUB_ANSWER_SIZE, HUB_CONTROL_SIZE, LINE_SIZE, MESSAGE_SIZE, PACKET_SIZE, PLACES,
    READER_ANSWER_SIZE, READER_CONTROL_SIZE, SENDER_CONTROL_SIZE,
};

use crate::dice::Dice;

const FENCE: usize = 16;

/// The size of a lent buffer: a room has at least what the call asks for, an array has its size.
#[derive(Clone, Copy, PartialEq, Eq)]
pub enum Size {
    Room(usize),
    Array(usize),
}
use Size::{Array, Room};

/// A table's bytes.
pub const TABLE_SIZE: usize = 3 * PLACES;

/// What each machine is lent at an event, the sender at a start too.
pub const FRAMER: [Size; 2] = [Room(FRAMER_CONTROL_SIZE), Room(PACKET_SIZE)];
pub const HUB: [Size; 5] =
    [Room(HUB_CONTROL_SIZE), Array(LINE_SIZE), Array(MESSAGE_SIZE), Room(HUB_ANSWER_SIZE), Room(MESSAGE_SIZE)];
pub const SENDER: [Size; 3] = [Room(SENDER_CONTROL_SIZE), Array(MESSAGE_SIZE), Room(PACKET_SIZE)];
pub const READER: [Size; 6] = [
    Room(READER_CONTROL_SIZE),
    Array(LINE_SIZE),
    Array(READER_ANSWER_SIZE),
    Array(MESSAGE_SIZE),
    Room(READER_ANSWER_SIZE),
    Room(PACKET_SIZE),
];

impl Size {
    pub fn least(self) -> usize {
        match self {
            Room(size) | Array(size) => size,
        }
    }

    /// Enough, and of a room perhaps more.
    pub fn enough(self, dice: &mut Dice) -> usize {
        match self {
            Room(size) => size + dice.below(3),
            Array(size) => size,
        }
    }
}

#[derive(Clone, PartialEq, Eq)]
pub struct Fenced {
    bytes: Vec<u8>,
    before: Vec<u8>,
}

/// Garbage of several kinds: one byte everywhere, or bytes from the dice.
pub const FILLS: [Option<u8>; 8] = [Some(0x00), Some(0x01), Some(0x02), Some(0xAA), Some(0xFF), None, None, None];

impl Fenced {
    /// So many bytes, they and their fences from the dice.
    pub fn new(dice: &mut Dice, size: usize) -> Fenced {
        Fenced::filled(dice, size, None)
    }

    /// So many bytes, they and their fences of this kind.
    pub fn filled(dice: &mut Dice, size: usize, fill: Option<u8>) -> Fenced {
        let size = size + 2 * FENCE;
        let bytes = fill.map_or_else(|| dice.bytes(size), |byte| vec![byte; size]);
        Fenced { before: bytes.clone(), bytes }
    }

    pub fn lent(&mut self) -> &mut [u8] {
        let end = self.bytes.len() - FENCE;
        &mut self.bytes[FENCE..end]
    }

    pub fn array<const N: usize>(&mut self) -> &mut [u8; N] {
        self.lent().try_into().expect("the array's size")
    }

    /// What stands here now is what later changes are measured by.
    pub fn remember(&mut self) {
        self.before.clone_from(&self.bytes);
    }

    /// The lent bytes as they were, to be written over with what is due.
    pub fn due(&mut self) -> &mut [u8] {
        let end = self.before.len() - FENCE;
        &mut self.before[FENCE..end]
    }

    /// Whether everything is as it was, or as it is due, fences too.
    pub fn unchanged(&self) -> bool {
        self.bytes == self.before
    }

    /// Whether everything but the first `size` bytes is as it was, fences too.
    pub fn unchanged_past(&self, size: usize) -> bool {
        let rest = FENCE + size;
        self.bytes[..FENCE] == self.before[..FENCE] && self.bytes[rest..] == self.before[rest..]
    }

    pub fn fences_stand(&self) -> bool {
        self.unchanged_past(self.bytes.len() - 2 * FENCE)
    }
}
