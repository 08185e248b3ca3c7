//! Watches a hub's block calls: of which sizes and in which rooms they were, what their bytes came to, where each was
//! left, and in which states one was refused.

use crate::framer::LineEvent;
use crate::hub::{Block, Done, HubStep, Message, ANSWER_ROOM, LONGEST_BLOCK, LONGEST_MESSAGE};
use crate::listing::BLOCK_ROOM;
use crate::packet::{Refusal, CMD_ACK};
use crate::sights::{Name, Sights};
use crate::watch_hub::HubLook;
use crate::watch_room::FramerLook;

/// The sizes and rooms that every run has to try.
const SIZES: [usize; 5] = [0, 1, 2, LONGEST_BLOCK - 1, LONGEST_BLOCK];
const ROOMS: [usize; 7] = [7, 12, 13, 14, 19, 20, 21];

const SIZE: &str = "block of 0, 1, 2, 4,095, 4,096 bytes";
const ROOM: &str = "block in a room of 7, 12, 13, 14, 19, 20, 21 bytes";
const NO_BYTE: &str = "block with no byte: nothing begun, inside a packet, deaf";
const AT_ONE_GO: &str = "4,096 bytes taken at one go: deaf all through, with answers";
const BEFORE_K: &str = "block in the room of 20 bytes before any K";
const SMALL: &str = "13 for a block of 0, 1, more bytes";
const SMALL_STATE: &str = "13 for a block: nothing begun, inside a packet, deaf";
const SMALL_RARE: &str = "13 for a block: barred, inside a message";
const SMALL_AND_LONG: &str = "13 for a block of over 4,096 bytes";
const LONG: &str = "15 for 4,097, more bytes";
const LONG_STATE: &str = "15: nothing begun, inside a packet, deaf";
const LONG_RARE: &str = "15: barred, inside a message";
const SMALL_THEN: &str = "13, then the same block taken";
const LONG_THEN: &str = "15, then a front of that block taken";
const MESSAGE_INSIDE: &str = "left for a message with bytes still to come";
const MESSAGE_LAST: &str = "left for a message at the last byte";
const MESSAGE_ROOM: &str = "left for a message: room for another answer, none";
const ROOM_INSIDE: &str = "left for room with bytes still to come: to be heard, deaf";
const ROOM_LAST: &str = "room used up at the last byte";
const ROOM_BRINK: &str = "bytes still to come and 6, 7 bytes of room left";
const REFUSED: &str = "refusal 1, 2 in a block";
const REFUSED_AFTER: &str = "refusal 1, 2 behind other answers of the same call";
const NOT_SHOWN: &str = "refusal 4, 5, 6, 7, 10 in a block, not shown";
const ANSWERS: &str = "2, 3, more answers of one call";
const MIXED: &str = "ACK and NAK of one call";
const REPEAT: &str = "resent equal in a block";
const REPEAT_BEHIND: &str = "resent equal behind its packet in one call";
const IGNORED: &str = "ACK or NAK ignored in a block";
const BAR: &str = "bar inside a block";
const BARRED: &str = "barred all through a block";
const DEAF: &str = "deaf all through a block";
const JOINED: &str = "message of several packets joined by one call";
const BRIM: &str = "message of 0, 4,096 bytes ended in a block";
const CUT: &str = "packet cut between two blocks";
const CUT_ALONE: &str = "packet cut between a byte alone and a block, a block and a byte alone";
const CUT_GAP: &str = "packet begun in a block cut by a character gap, a message gap";
const WOKEN: &str = "deaf in a block, then a character gap, a message gap";
const CALLS: &str = "block given in 1, 2, 3, more calls";
const MESSAGES: &str = "several messages in one block";

pub const BLOCK_NAMES: [Name; 39] = [
    (SIZE, SIZES.len()),
    (ROOM, ROOMS.len()),
    (BEFORE_K, 1),
    (NO_BYTE, 3),
    (AT_ONE_GO, 2),
    (SMALL, 3),
    (SMALL_STATE, 3),
    (SMALL_RARE, 2),
    (SMALL_AND_LONG, 1),
    (SMALL_THEN, 1),
    (LONG, 2),
    (LONG_STATE, 3),
    (LONG_RARE, 2),
    (LONG_THEN, 1),
    (MESSAGE_INSIDE, 1),
    (MESSAGE_LAST, 1),
    (MESSAGE_ROOM, 2),
    (ROOM_INSIDE, 2),
    (ROOM_LAST, 1),
    (ROOM_BRINK, 2),
    (REFUSED, 2),
    (REFUSED_AFTER, 2),
    (NOT_SHOWN, 5),
    (ANSWERS, 3),
    (MIXED, 1),
    (REPEAT, 1),
    (REPEAT_BEHIND, 1),
    (IGNORED, 1),
    (BAR, 1),
    (BARRED, 1),
    (DEAF, 1),
    (JOINED, 1),
    (BRIM, 2),
    (CUT, 1),
    (CUT_ALONE, 2),
    (CUT_GAP, 2),
    (WOKEN, 2),
    (CALLS, 4),
    (MESSAGES, 1),
];

/// A block call.
pub struct Call<'a> {
    pub before: HubLook,
    pub bytes: &'a [u8],
    /// The room that a `K` has set.
    pub room: Option<usize>,
    pub told: &'a Result<Block, Refusal>,
    /// What the bytes taken came to, one by one.
    pub steps: &'a [HubStep],
}

impl Call<'_> {
    fn room(&self) -> usize {
        self.room.unwrap_or(BLOCK_ROOM)
    }
}

#[derive(Default)]
pub struct BlockWatch {
    /// The block that was refused last, until something is taken.
    refused: Option<(Refusal, Vec<u8>)>,
    /// The byte before came in a block.
    in_block: bool,
    /// Calls and messages of the block so far.
    calls: usize,
    messages: usize,
}

/// Which of three ways the framer stands.
fn state(framer: FramerLook) -> usize {
    if framer.deaf {
        2
    } else {
        usize::from(framer.begun > 0)
    }
}

fn see_place(places: &[usize], size: usize, name: &str, sights: &mut Sights) {
    if let Some(member) = places.iter().position(|place| *place == size) {
        sights.see_member(name, member);
    }
}

impl BlockWatch {
    /// An event that was taken outside of a block.
    pub fn alone(&mut self, before: FramerLook, event: LineEvent, sights: &mut Sights) {
        if self.in_block && before.begun > 0 {
            match event {
                LineEvent::Byte(_) => sights.see_member(CUT_ALONE, 1),
                LineEvent::Gap => sights.see_member(CUT_GAP, 0),
                LineEvent::MessageGap => sights.see_member(CUT_GAP, 1),
            }
        }
        if self.in_block && before.deaf {
            match event {
                LineEvent::Byte(_) => {}
                LineEvent::Gap => sights.see_member(WOKEN, 0),
                LineEvent::MessageGap => sights.see_member(WOKEN, 1),
            }
        }
        self.in_block = false;
        self.refused = None;
    }

    /// A call of a block, of which `first` is the first.
    pub fn call(&mut self, call: &Call, first: bool, sights: &mut Sights) {
        if first {
            (self.calls, self.messages) = (0, 0);
        }
        match call.told {
            Err(refusal) => self.refused(call, *refusal, sights),
            Ok(block) => {
                if first {
                    self.given(call, sights);
                }
                inside(call, block, sights);
                left(call, block, sights);
                self.counted(call, block, sights);
            }
        }
    }

    fn refused(&mut self, call: &Call, refusal: Refusal, sights: &mut Sights) {
        sights.refusal(refusal);
        let (size, before) = (call.bytes.len(), call.before);
        let (state_name, rare_name) = if refusal == Refusal::Room {
            sights.see_member(SMALL, size.min(2));
            sights.see_if(size > LONGEST_BLOCK, SMALL_AND_LONG);
            (SMALL_STATE, SMALL_RARE)
        } else {
            sights.see_member(LONG, usize::from(size > LONGEST_BLOCK + 1));
            (LONG_STATE, LONG_RARE)
        };
        sights.see_member(state_name, state(before.framer));
        if before.barred {
            sights.see_member(rare_name, 0);
        }
        if before.open.is_some() {
            sights.see_member(rare_name, 1);
        }
        self.refused = Some((refusal, call.bytes.to_vec()));
    }

    /// The first call of a block that is not refused.
    fn given(&mut self, call: &Call, sights: &mut Sights) {
        see_place(&SIZES, call.bytes.len(), SIZE, sights);
        match call.room {
            Some(room) => see_place(&ROOMS, room, ROOM, sights),
            None => sights.see(BEFORE_K),
        }
        if call.bytes.is_empty() {
            return sights.see_member(NO_BYTE, state(call.before.framer));
        }
        match self.refused.take() {
            Some((Refusal::Room, bytes)) => sights.see_if(bytes == call.bytes, SMALL_THEN),
            Some((_, bytes)) => sights.see_if(bytes.starts_with(call.bytes), LONG_THEN),
            None => {}
        }
        if call.before.framer.begun > 0 {
            sights.see_if(self.in_block, CUT);
            if !self.in_block {
                sights.see_member(CUT_ALONE, 0);
            }
        }
        self.in_block = true;
    }

    fn counted(&mut self, call: &Call, block: &Block, sights: &mut Sights) {
        self.calls += 1;
        self.messages += usize::from(block.message.is_some());
        if block.taken == call.bytes.len() {
            sights.see_member(CALLS, self.calls.min(4) - 1);
            sights.see_if(self.messages > 1, MESSAGES);
        }
    }
}

/// What the bytes taken came to.
fn inside(call: &Call, block: &Block, sights: &mut Sights) {
    let mut accepted = false;
    for step in call.steps {
        match &step.done {
            Done::Ignored => sights.see(IGNORED),
            Done::Repeated => {
                sights.see(REPEAT);
                sights.see_if(accepted, REPEAT_BEHIND);
            }
            Done::Refused(refusal) => see_place(&[4, 5, 6, 7, 10], refusal.number(), NOT_SHOWN, sights),
            Done::Nothing | Done::Added | Done::HandedOut(_) => {}
        }
        accepted |= step.done == Done::Added;
    }
    let barred = call.steps.iter().any(|step| step.done == Done::Refused(Refusal::Hub));
    sights.see_if(barred && !call.before.barred, BAR);
    sights.see_if(call.before.barred && !call.steps.is_empty(), BARRED);
    sights.see_if(call.before.framer.deaf && !call.steps.is_empty(), DEAF);
    if let Some(Message { bytes, .. }) = &block.message {
        sights.see_if(accepted, JOINED);
        see_place(&[0, LONGEST_MESSAGE], bytes.len(), BRIM, sights);
    }
    answers(call, block, sights);
}

fn answers(call: &Call, block: &Block, sights: &mut Sights) {
    let all: Vec<Vec<u8>> = call.steps.iter().filter_map(HubStep::answer).collect();
    if all.len() > 1 {
        sights.see_member(ANSWERS, all.len().min(4) - 2);
        let acks = all.iter().filter(|answer| answer[1] == CMD_ACK).count();
        sights.see_if(0 < acks && acks < all.len(), MIXED);
    }
    if let Some(refusal) = block.refusal {
        sights.see_member(REFUSED, refusal.number() - 1);
        if all.len() > 1 {
            sights.see_member(REFUSED_AFTER, refusal.number() - 1);
        }
    }
}

/// Where the call was left, and why.
fn left(call: &Call, block: &Block, sights: &mut Sights) {
    let more = block.taken < call.bytes.len();
    let full = call.room() - block.answers.len() < ANSWER_ROOM;
    if block.taken == LONGEST_BLOCK {
        sights.see_if(call.before.framer.deaf, AT_ONE_GO);
        if block.answers.len() > ANSWER_ROOM {
            sights.see_member(AT_ONE_GO, 1);
        }
    }
    if block.message.is_some() {
        sights.see(if more { MESSAGE_INSIDE } else { MESSAGE_LAST });
        sights.see_member(MESSAGE_ROOM, usize::from(full));
    } else if more {
        sights.see_member(ROOM_INSIDE, usize::from(block.refusal.is_some()));
    } else {
        sights.see_if(full, ROOM_LAST);
    }
    brink(call, sights);
}

/// Whether the room came to just what one answer needs, or to one byte less, with bytes still to come.
fn brink(call: &Call, sights: &mut Sights) {
    let mut left = call.room();
    for (at, step) in call.steps.iter().enumerate() {
        let Some(answer) = step.answer() else { continue };
        left -= answer.len();
        if at + 1 < call.bytes.len() {
            see_place(&[ANSWER_ROOM - 1, ANSWER_ROOM], left, ROOM_BRINK, sights);
        }
    }
}
