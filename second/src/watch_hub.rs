//! Watches a hub and tells which of the states worth reaching an event reached.

use crate::framer::LineEvent;
use crate::hub::{Done, Hub, HubStep, LONGEST_MESSAGE};
use crate::packet::{Packet, Refusal, LONGEST, MORE, PERMANENT};
use crate::sights::{bit_alone, Name, Sights};
use crate::watch_blocks::{BlockWatch, Call, BLOCK_NAMES};
use crate::watch_room::{FramerLook, RoomWatch, ROOM_NAMES};

const NAMES: [Name; 32] = [
    ("message handed out", 1),
    ("message of one packet handed out", 1),
    ("empty message handed out", 1),
    ("message of 4,096 bytes handed out", 1),
    ("piece added to a brim of 4,096", 1),
    ("empty piece accepted at the brim", 1),
    ("total of 4,097 refused", 1),
    ("total over 4,097 refused", 1),
    ("other type refused after bytes", 1),
    ("other type refused after empty pieces", 1),
    ("barred: piece refused", 1),
    ("barred: resent equal of the last accepted refused", 1),
    ("barred: refusals 1 to 7 as ever", 7),
    ("barred: ACK or NAK ignored", 1),
    ("barred: kept over a character gap", 1),
    ("bar lifted by a message gap", 1),
    ("resent equal inside a message", 1),
    ("resent equal after the message's end", 1),
    ("resent equal after refusals between", 1),
    ("resent equal twice", 1),
    ("marked, unlike the last, added", 1),
    ("marked, unlike the last in bit 1 or 3 only, added", 1),
    ("unmarked equal of the last, added", 1),
    ("resent equal after a message gap is new", 1),
    ("message gap drops gathered pieces", 1),
    ("message gap cuts a packet", 1),
    ("message gap while deaf", 1),
    ("byte ignored while deaf", 1),
    ("packet joined to the one before", 1),
    ("longest packet, 257 bytes", 1),
    ("ACK or NAK ignored inside a message", 1),
    ("status bit 2, 4, 5, 6 or 7 alone refused", 5),
];

/// What only desk can reach.
const DESK_NAMES: [Name; 2] = [("13 while barred", 1), ("13 inside a message", 1)];

/// What can be seen of the hub before an event.
#[derive(Clone, Copy)]
pub struct HubLook {
    pub barred: bool,
    /// Bytes gathered, where a message is open.
    pub open: Option<usize>,
    pub framer: FramerLook,
}

impl HubLook {
    pub fn at(hub: &Hub) -> HubLook {
        HubLook {
            barred: hub.barred(),
            open: hub.gathered().map(|message| message.bytes.len()),
            framer: FramerLook::at(hub.framer()),
        }
    }
}

pub struct HubWatch {
    pub sights: Sights,
    last: Option<Vec<u8>>,
    /// The last accepted packet before the message gap, until another is accepted.
    forgotten: Option<Vec<u8>>,
    refused_since: bool,
    repeated: bool,
    joined: bool,
    room: RoomWatch,
    blocks: BlockWatch,
}

impl HubWatch {
    pub fn new(desk: bool) -> HubWatch {
        let desks = ROOM_NAMES.iter().chain(&DESK_NAMES).chain(&BLOCK_NAMES).filter(|_| desk);
        HubWatch {
            sights: Sights::new(NAMES.iter().chain(desks)),
            last: None,
            forgotten: None,
            refused_since: false,
            repeated: false,
            joined: false,
            room: RoomWatch::default(),
            blocks: BlockWatch::default(),
        }
    }

    pub fn room_set(&mut self, room: usize) {
        self.room.set(room, &mut self.sights);
    }

    pub fn see(&mut self, before: HubLook, event: LineEvent, step: &HubStep, hub: &Hub) {
        if step.done == Done::Refused(Refusal::Room) {
            return self.no_room(before, event);
        }
        self.room.taken(before.framer, event, step.packet.is_some(), &mut self.sights);
        match event {
            LineEvent::Byte(_) => self.byte(before),
            LineEvent::Gap => self.sights.see_if(before.barred, "barred: kept over a character gap"),
            LineEvent::MessageGap => self.message_gap(before),
        }
        // Gaps come without a packet, so they part the next one from the one before.
        self.joined = step.packet.is_some();
        if let Done::Refused(refusal) = step.done {
            self.refused(before, refusal, step, hub);
        }
        if let Some(packet) = &step.packet {
            self.packet(before, packet, &step.done);
        }
    }

    /// An event outside of a block, in desk's streams.
    pub fn see_alone(&mut self, before: HubLook, event: LineEvent, step: &HubStep) {
        if step.done != Done::Refused(Refusal::Room) {
            self.blocks.alone(before.framer, event, &mut self.sights);
        }
    }

    /// A call of a block. What its bytes came to has been seen as events.
    pub fn see_call(&mut self, call: &Call, first: bool) {
        self.blocks.call(call, first, &mut self.sights);
    }

    fn no_room(&mut self, before: HubLook, event: LineEvent) {
        self.room.refused(before.framer, event, &mut self.sights);
        self.sights.see_if(before.barred, "13 while barred");
        self.sights.see_if(before.open.is_some(), "13 inside a message");
    }

    fn byte(&mut self, before: HubLook) {
        self.sights.see_if(before.framer.deaf, "byte ignored while deaf");
        self.sights.see_if(self.joined, "packet joined to the one before");
    }

    fn message_gap(&mut self, before: HubLook) {
        self.sights.see_if(before.barred, "bar lifted by a message gap");
        self.sights.see_if(before.open.is_some(), "message gap drops gathered pieces");
        self.sights.see_if(before.framer.begun > 0, "message gap cuts a packet");
        self.sights.see_if(before.framer.deaf, "message gap while deaf");
        if self.last.is_some() {
            self.forgotten = self.last.take();
        }
    }

    fn refused(&mut self, before: HubLook, refusal: Refusal, step: &HubStep, hub: &Hub) {
        self.sights.refusal(refusal);
        self.refused_since = true;
        if let Some(member) = step.packet.as_ref().and_then(|packet| bit_alone(packet.status())) {
            self.sights.see_member("status bit 2, 4, 5, 6 or 7 alone refused", member);
        }
        match (refusal, &step.packet) {
            (Refusal::Hub, Some(packet)) if before.barred => {
                self.sights.see("barred: piece refused");
                let repeat = hub.is_repeat(packet);
                self.sights.see_if(repeat, "barred: resent equal of the last accepted refused");
            }
            (Refusal::Hub, Some(packet)) => self.bar(before, packet),
            _ if before.barred => {
                self.sights.see_member("barred: refusals 1 to 7 as ever", refusal.number() - 1);
            }
            _ => {}
        }
    }

    fn bar(&mut self, before: HubLook, packet: &Packet) {
        // The type that the open message had is the one of the packet last accepted.
        let other_type = self.last.as_ref().is_some_and(|last| last[4] != packet.data()[0]);
        let total = before.open.unwrap_or(0) + packet.data().len() - 1;
        self.sights.see(match (other_type, before.open, total) {
            (true, Some(0), _) => "other type refused after empty pieces",
            (true, _, _) => "other type refused after bytes",
            (false, _, 4_097) => "total of 4,097 refused",
            (false, _, _) => "total over 4,097 refused",
        });
    }

    fn packet(&mut self, before: HubLook, packet: &Packet, done: &Done) {
        self.sights.see_if(packet.bytes().len() == LONGEST, "longest packet, 257 bytes");
        match done {
            Done::Ignored => {
                self.sights.see_if(before.barred, "barred: ACK or NAK ignored");
                self.sights.see_if(before.open.is_some(), "ACK or NAK ignored inside a message");
            }
            Done::Repeated => self.repeat(before),
            Done::Added => {
                let total = before.open.unwrap_or(0) + packet.data().len() - 1;
                self.sights.see_if(total == LONGEST_MESSAGE, "piece added to a brim of 4,096");
                self.accepted(before, packet);
            }
            Done::HandedOut(message) => {
                self.sights.see("message handed out");
                self.sights.see_if(before.open.is_none(), "message of one packet handed out");
                self.sights.see_if(message.bytes.is_empty(), "empty message handed out");
                let brim = message.bytes.len() == LONGEST_MESSAGE;
                self.sights.see_if(brim, "message of 4,096 bytes handed out");
                self.accepted(before, packet);
            }
            Done::Nothing | Done::Refused(_) => {}
        }
    }

    fn repeat(&mut self, before: HubLook) {
        self.sights.see_if(before.open.is_some(), "resent equal inside a message");
        self.sights.see_if(before.open.is_none(), "resent equal after the message's end");
        self.sights.see_if(self.refused_since, "resent equal after refusals between");
        self.sights.see_if(self.repeated, "resent equal twice");
        self.repeated = true;
    }

    fn accepted(&mut self, before: HubLook, packet: &Packet) {
        let brim = before.open == Some(LONGEST_MESSAGE);
        self.sights.see_if(brim, "empty piece accepted at the brim");
        let body = packet.without_mark();
        if packet.marked() {
            self.sights.see("marked, unlike the last, added");
            let near = self.last.as_deref().is_some_and(|last| unlike_in_bits_only(last, &body));
            self.sights.see_if(near, "marked, unlike the last in bit 1 or 3 only, added");
            let forgotten = self.forgotten.as_ref() == Some(&body);
            self.sights.see_if(forgotten, "resent equal after a message gap is new");
        } else {
            let equal = self.last.as_ref() == Some(&body);
            self.sights.see_if(equal, "unmarked equal of the last, added");
        }
        self.last = Some(body);
        self.forgotten = None;
        self.refused_since = false;
        self.repeated = false;
    }
}

/// Two bodies that differ, in status bits 1 and 3 alone.
fn unlike_in_bits_only(one: &[u8], other: &[u8]) -> bool {
    let bits = one[3] ^ other[3];
    one.len() == other.len() && one[..3] == other[..3] && one[4..] == other[4..] && bits & !(MORE | PERMANENT) == 0
}
