//! What goes in: events of a line, what a sender hears, replies; and the numbers that the library takes for them.

use crate::constants::{CHARACTER_GAP, HEARD_ACK, HEARD_NOTHING, HEARD_TIME_OUT, MESSAGE_GAP, REPLY_ACK};

/// What happens on a line.
#[derive(Clone, Copy, Debug, PartialEq, Eq, Hash)]
pub enum Event {
    /// A byte.
    Byte(u8),
    /// A character gap.
    CharacterGap,
    /// A message gap, which is also a character gap.
    MessageGap,
}

impl Event {
    /// The library's number: 0 to 255 that byte, 256 a character gap, 257 a message gap.
    #[inline]
    pub fn number(self) -> u32 {
        match self {
            Event::Byte(byte) => byte.into(),
            Event::CharacterGap => CHARACTER_GAP,
            Event::MessageGap => MESSAGE_GAP,
        }
    }
}

/// What a sender hears of the host.
#[derive(Clone, Copy, Debug, PartialEq, Eq, Hash)]
pub enum Heard {
    /// CMD_ACK.
    Ack,
    /// CMD_NAK with its cause.
    Nak(u8),
    /// No answer came in time.
    TimeOut,
    /// Nothing that a sender heeds.
    Nothing,
}

impl Heard {
    /// The library's number: 0 to 255 a NAK with that cause, 256 an ACK, 257 a time-out, 258 nothing.
    pub fn number(self) -> u32 {
        match self {
            Heard::Nak(cause) => cause.into(),
            Heard::Ack => HEARD_ACK,
            Heard::TimeOut => HEARD_TIME_OUT,
            Heard::Nothing => HEARD_NOTHING,
        }
    }

    /// What a number stands for. As in the library, every number above 257 is nothing.
    pub fn from_number(number: u32) -> Heard {
        match (u8::try_from(number), number) {
            (Ok(cause), _) => Heard::Nak(cause),
            (_, HEARD_ACK) => Heard::Ack,
            (_, HEARD_TIME_OUT) => Heard::TimeOut,
            _ => Heard::Nothing,
        }
    }
}

/// An answer on the line.
#[derive(Clone, Copy, Debug, PartialEq, Eq, Hash)]
pub enum Reply {
    /// CMD_ACK.
    Ack,
    /// CMD_NAK with its cause, one of `CAUSE_..` in [`constants`](crate::constants).
    Nak(u8),
}

impl Reply {
    /// The library's number: 0 to 255 a NAK with that cause, 256 an ACK.
    pub fn number(self) -> u32 {
        match self {
            Reply::Nak(cause) => cause.into(),
            Reply::Ack => REPLY_ACK,
        }
    }
}
