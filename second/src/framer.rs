//! The framer: one event of the line at a time, a packet or a refusal now and then.

use crate::packet::{check, Packet, Refusal, CHECKSUM, HEADER};

#[derive(Clone, Copy, PartialEq, Eq, Debug)]
pub enum LineEvent {
    Byte(u8),
    Gap,
    MessageGap,
}

#[derive(Clone, PartialEq, Eq, Debug)]
pub enum Framed {
    Nothing,
    Packet(Packet),
    Refused(Refusal),
}

#[derive(Default, PartialEq, Eq, Debug)]
pub struct Framer {
    begun: Vec<u8>,
    deaf: bool,
}

impl Framer {
    /// A message gap is also a character gap, and no more than that here.
    pub fn take(&mut self, event: LineEvent) -> Framed {
        match event {
            LineEvent::Byte(byte) => self.byte(byte),
            LineEvent::Gap | LineEvent::MessageGap => self.gap(),
        }
    }

    fn byte(&mut self, byte: u8) -> Framed {
        if self.deaf {
            return Framed::Nothing;
        }
        self.begun.push(byte);
        let length = usize::from(self.begun[0]);
        if length >= HEADER && self.begun.len() < length + CHECKSUM {
            return Framed::Nothing;
        }
        // Either the length byte is too low, or the last checksum byte has come.
        self.judged()
    }

    /// Takes bytes that come without a gap, up to the one at which there is something to tell. Gives how many these
    /// were: all of them, where nothing is told.
    pub fn take_stretch(&mut self, bytes: &[u8]) -> (usize, Framed) {
        let Some(&length) = self.begun.first().or(bytes.first()).filter(|_| !self.deaf) else {
            return (bytes.len(), Framed::Nothing);
        };
        let length = usize::from(length);
        // Too low a length is judged at its own byte, all else at the last checksum byte.
        let whole = if length < HEADER { 1 } else { length + CHECKSUM };
        let missing = whole - self.begun.len();
        let taken = missing.min(bytes.len());
        self.begun.extend_from_slice(&bytes[..taken]);
        (taken, if taken < missing { Framed::Nothing } else { self.judged() })
    }

    /// Judges what was begun, and ends it.
    fn judged(&mut self) -> Framed {
        let judged = check(&self.begun);
        self.begun.clear();
        match judged {
            Ok(packet) => Framed::Packet(packet),
            Err(refusal) => {
                self.deaf = true;
                Framed::Refused(refusal)
            }
        }
    }

    fn gap(&mut self) -> Framed {
        self.deaf = false;
        if self.begun.is_empty() {
            return Framed::Nothing;
        }
        self.begun.clear();
        Framed::Refused(Refusal::Cut)
    }

    pub fn deaf(&self) -> bool {
        self.deaf
    }

    /// How many bytes of a packet begun have come.
    pub fn begun(&self) -> usize {
        self.begun.len()
    }
}
