//! The hub: joins decode data into messages and answers each packet.

use crate::framer::{Framed, Framer, LineEvent};
use crate::packet::{ack, nak, Packet, Refusal, DECODE_DATA, HOST, MORE, READER};

/// The least answer room that an event is taken with: the longest answer is a NAK.
pub const ANSWER_ROOM: usize = 7;

/// The longest message, its code type not counted.
pub const LONGEST_MESSAGE: usize = 4_096;

/// The most bytes that a block may have.
pub const LONGEST_BLOCK: usize = 4_096;

#[derive(Clone, PartialEq, Eq, Debug)]
pub struct Message {
    pub code_type: u8,
    pub bytes: Vec<u8>,
}

/// What an event came to.
#[derive(Clone, PartialEq, Eq, Debug)]
pub enum Done {
    Nothing,
    /// The reader's ACK or NAK, right or wrong.
    Ignored,
    Refused(Refusal),
    /// A resent equal of the last accepted packet: answered, not added.
    Repeated,
    Added,
    HandedOut(Message),
}

pub struct HubStep {
    /// The packet that the framer let through at this event, for those who watch.
    pub packet: Option<Packet>,
    pub done: Done,
}

impl HubStep {
    pub fn answer(&self) -> Option<Vec<u8>> {
        match &self.done {
            Done::Nothing | Done::Ignored => None,
            Done::Refused(refusal) => refusal.cause().map(|cause| nak(HOST, cause)),
            Done::Repeated | Done::Added | Done::HandedOut(_) => Some(ack(HOST)),
        }
    }
}

/// What a block came to.
#[derive(Clone, Default, PartialEq, Eq, Debug)]
pub struct Block {
    /// So many bytes of its front were taken.
    pub taken: usize,
    /// All that goes out, one after the other.
    pub answers: Vec<u8>,
    /// The message at which it was left.
    pub message: Option<Message>,
    /// 1 or 2, of which there can be only one, as the framer is deaf behind it. 4 to 7 and 10 are answered and no more.
    pub refusal: Option<Refusal>,
}

impl Block {
    /// Whether a further byte is to be taken, if there is one: no message is complete, and any answer has room.
    fn goes_on(&self, room: usize) -> bool {
        self.message.is_none() && room - self.answers.len() >= ANSWER_ROOM
    }

    fn add(&mut self, step: HubStep) {
        self.answers.extend(step.answer().unwrap_or_default());
        match step.done {
            Done::Refused(refusal @ (Refusal::Length | Refusal::Checksum)) => self.refusal = Some(refusal),
            Done::HandedOut(message) => self.message = Some(message),
            _ => {}
        }
    }
}

#[derive(Default, PartialEq, Eq, Debug)]
pub struct Hub {
    framer: Framer,
    /// The last accepted packet, without mark and checksum.
    last: Option<Vec<u8>>,
    barred: bool,
    /// The pieces gathered so far. An empty piece opens a message too: it fixes the type.
    gathered: Option<Message>,
}

impl Hub {
    /// An event with an answer room of this size. Where that is too small, it is as if nothing had come.
    pub fn take_in_room(&mut self, event: LineEvent, room: usize) -> HubStep {
        if room < ANSWER_ROOM {
            return HubStep { packet: None, done: Done::Refused(Refusal::Room) };
        }
        self.take(event)
    }

    /// Bytes with no gap among them, with an answer room of this size: each does what it would do alone. What is not
    /// taken is the caller's to give again, be it only what a deaf framer would ignore.
    pub fn take_block(&mut self, bytes: &[u8], room: usize) -> Result<Block, Refusal> {
        if room < ANSWER_ROOM {
            return Err(Refusal::Room);
        }
        if bytes.len() > LONGEST_BLOCK {
            return Err(Refusal::Long);
        }
        let mut block = Block::default();
        // Inside a stretch nothing is answered and no message ends, so a test before each is one before each byte.
        while block.taken < bytes.len() && block.goes_on(room) {
            let (taken, framed) = self.framer.take_stretch(&bytes[block.taken..]);
            block.taken += taken;
            block.add(self.framed(framed));
        }
        Ok(block)
    }

    pub fn take(&mut self, event: LineEvent) -> HubStep {
        let framed = self.framer.take(event);
        let step = self.framed(framed);
        if event == LineEvent::MessageGap {
            // Only after the refusal 3 that may have been due.
            *self = Hub::default();
        }
        step
    }

    fn framed(&mut self, framed: Framed) -> HubStep {
        match framed {
            Framed::Nothing => HubStep { packet: None, done: Done::Nothing },
            Framed::Refused(refusal) => HubStep { packet: None, done: Done::Refused(refusal) },
            Framed::Packet(packet) => {
                let done = self.packet(&packet);
                HubStep { packet: Some(packet), done }
            }
        }
    }

    fn packet(&mut self, packet: &Packet) -> Done {
        if packet.is_answer() {
            return Done::Ignored;
        }
        match judge(packet) {
            Err(refusal) => Done::Refused(refusal),
            Ok(()) => self.decode_data(packet),
        }
    }

    /// In this order: bar, repeat, type, total.
    fn decode_data(&mut self, packet: &Packet) -> Done {
        if self.barred {
            return Done::Refused(Refusal::Hub);
        }
        if self.is_repeat(packet) {
            return Done::Repeated;
        }
        let code_type = packet.data()[0];
        let piece = &packet.data()[1..];
        let mut message = self.gathered.take().unwrap_or(Message { code_type, bytes: Vec::new() });
        if message.code_type != code_type || message.bytes.len() + piece.len() > LONGEST_MESSAGE {
            // What was gathered is dropped here with `message`; the last accepted packet is kept.
            self.barred = true;
            return Done::Refused(Refusal::Hub);
        }
        message.bytes.extend_from_slice(piece);
        self.last = Some(packet.without_mark());
        if packet.status() & MORE == 0 {
            return Done::HandedOut(message);
        }
        self.gathered = Some(message);
        Done::Added
    }

    /// A marked packet that is equal to the last accepted one apart from the mark.
    pub fn is_repeat(&self, packet: &Packet) -> bool {
        packet.marked() && self.last == Some(packet.without_mark())
    }

    pub fn framer(&self) -> &Framer {
        &self.framer
    }

    pub fn last_accepted(&self) -> Option<&[u8]> {
        self.last.as_deref()
    }

    pub fn barred(&self) -> bool {
        self.barred
    }

    pub fn gathered(&self) -> Option<&Message> {
        self.gathered.as_ref()
    }
}

/// Refusals 4 to 7.
fn judge(packet: &Packet) -> Result<(), Refusal> {
    packet.judge_header(READER, |opcode| opcode == DECODE_DATA)?;
    if packet.data().is_empty() {
        return Err(Refusal::DataLength);
    }
    Ok(())
}
