//! Watches the answer room of either side: which sizes came, and in which states an event was refused for want of room.

use crate::framer::{Framer, LineEvent};
use crate::packet::Refusal;
use crate::sights::{Name, Sights};

/// The sizes that every run has to try.
const SIZES: [usize; 10] = [0, 6, 7, 8, 24, 25, 26, 255, 256, 65_535];

pub const ROOM_NAMES: [Name; 7] = [
    ("room of 0, 6, 7, 8, 24, 25, 26, 255, 256, 65,535 bytes", SIZES.len()),
    ("other room inside a packet", 1),
    ("13 for a byte: nothing begun, inside a packet, deaf", 3),
    ("13 for a character gap: nothing begun, inside a packet, deaf", 3),
    ("13 for a message gap: nothing begun, inside a packet, deaf", 3),
    ("13, then the same event taken", 1),
    ("13, then the same byte ends a packet", 1),
];

/// How the framer stands before an event.
#[derive(Clone, Copy)]
pub struct FramerLook {
    pub begun: usize,
    pub deaf: bool,
}

impl FramerLook {
    pub fn at(framer: &Framer) -> FramerLook {
        FramerLook { begun: framer.begun(), deaf: framer.deaf() }
    }
}

#[derive(Default)]
pub struct RoomWatch {
    /// The event that was refused last, until one is taken.
    refused: Option<LineEvent>,
    changed: bool,
}

impl RoomWatch {
    pub fn set(&mut self, room: usize, sights: &mut Sights) {
        self.changed = true;
        if let Some(member) = SIZES.iter().position(|size| *size == room) {
            sights.see_member(ROOM_NAMES[0].0, member);
        }
    }

    pub fn refused(&mut self, before: FramerLook, event: LineEvent, sights: &mut Sights) {
        sights.refusal(Refusal::Room);
        let (name, _) = match event {
            LineEvent::Byte(_) => ROOM_NAMES[2],
            LineEvent::Gap => ROOM_NAMES[3],
            LineEvent::MessageGap => ROOM_NAMES[4],
        };
        let member = if before.deaf { 2 } else { usize::from(before.begun > 0) };
        sights.see_member(name, member);
        self.seen_change(before, sights);
        self.refused = Some(event);
    }

    pub fn taken(&mut self, before: FramerLook, event: LineEvent, packet: bool, sights: &mut Sights) {
        if self.refused.take() == Some(event) {
            sights.see(ROOM_NAMES[5].0);
            sights.see_if(packet, ROOM_NAMES[6].0);
        }
        self.seen_change(before, sights);
    }

    fn seen_change(&mut self, before: FramerLook, sights: &mut Sights) {
        if std::mem::take(&mut self.changed) {
            sights.see_if(before.begun > 0, ROOM_NAMES[1].0);
        }
    }
}
