//! Refusals by name and number.

use core::error::Error;
use core::fmt;

/// Why a call or a packet is refused, and its number (docs/PROTOCOL.md §6). With 11 and above no lent byte changes, nor
/// where a table refuses a list, or a reader a table ([`Table`](crate::Table)).
#[derive(Clone, Copy, Debug, PartialEq, Eq, PartialOrd, Ord, Hash)]
pub enum Refusal {
    /// Length below 4.
    Length = 1,
    /// Checksum wrong.
    Checksum = 2,
    /// Cut by a gap, or too few bytes.
    Cut = 3,
    /// Wrong source for this side.
    Source = 4,
    /// A status bit not allowed.
    Status = 5,
    /// Opcode unknown to this side.
    Opcode = 6,
    /// Data length wrong for the opcode. Table: a list that ends inside a pair.
    Data = 7,
    /// Beep code not allowed.
    Beep = 8,
    /// Parameter or value not allowed, or parameter locked.
    Setting = 9,
    /// Hub: barred, other code type, or too long.
    Barred = 10,
    /// Sender: message over 4,096 bytes, or one still out.
    Start = 11,
    /// Reader: not the form of a set, or a value in it not allowed.
    Form = 12,
    /// Lent room too small; the event is not taken.
    Room = 13,
    /// More bytes than a call takes; none is taken.
    Long = 15,
}

impl Refusal {
    /// The refusal's number.
    pub fn number(self) -> u32 {
        self as u32
    }

    /// The refusal with this number, if it is one's.
    pub fn from_number(number: u32) -> Option<Refusal> {
        Some(match number {
            1 => Refusal::Length,
            2 => Refusal::Checksum,
            3 => Refusal::Cut,
            4 => Refusal::Source,
            5 => Refusal::Status,
            6 => Refusal::Opcode,
            7 => Refusal::Data,
            8 => Refusal::Beep,
            9 => Refusal::Setting,
            10 => Refusal::Barred,
            11 => Refusal::Start,
            12 => Refusal::Form,
            13 => Refusal::Room,
            15 => Refusal::Long,
            _ => return None,
        })
    }
}

impl fmt::Display for Refusal {
    fn fmt(&self, to: &mut fmt::Formatter<'_>) -> fmt::Result {
        let why = match self {
            Refusal::Length => "a length below 4",
            Refusal::Checksum => "a wrong checksum",
            Refusal::Cut => "cut by a gap, or too few bytes",
            Refusal::Source => "a source that is wrong for this side",
            Refusal::Status => "a status bit that is not allowed",
            Refusal::Opcode => "an opcode that this side does not know",
            Refusal::Data => "a data length that is wrong for the opcode, or a list that ends inside a pair",
            Refusal::Beep => "a beep code that is not allowed",
            Refusal::Setting => "a parameter or value that is not allowed, or a parameter that is locked",
            Refusal::Barred => "the hub is barred, another code type, or too long a message",
            Refusal::Start => "a message over 4,096 bytes, or one still out",
            Refusal::Form => "bytes that are not the form of a set, or a value in it that is not allowed",
            Refusal::Room => "a lent room that is too small",
            Refusal::Long => "more bytes than a call takes",
        };
        write!(to, "refusal {}: {why}", self.number())
    }
}

impl Error for Refusal {}
