//! The packet: length, opcode, source, status, data, and a checksum of two bytes.

use crate::constants::{HEAD_LENGTH, HEAD_OPCODE, HEAD_SOURCE, HEAD_STATUS, HEAD_VALUES};
use crate::numbers::{byte, done, front};
use crate::{calls, Refusal, Reply};

/// What stands before the data.
#[derive(Clone, Copy, Debug, PartialEq, Eq, Hash)]
pub struct Head {
    /// Bytes of the packet without its checksum, 4 to 255.
    pub length: usize,
    /// What the packet is, one of `OPCODE_..` in [`constants`](crate::constants).
    pub opcode: u8,
    /// Who sent it; of a right packet one of `SOURCE_..`.
    pub source: u8,
    /// Of a right packet only bits `STATUS_..`.
    pub status: u8,
}

impl Head {
    /// The data of the packet with this head at the front of the bytes: from the fifth byte on, as far as the length
    /// says and the bytes reach.
    pub fn data<'a>(&self, bytes: &'a [u8]) -> &'a [u8] {
        front(bytes, self.length).get(4..).unwrap_or(&[])
    }

    pub(crate) fn from_values(head: [usize; HEAD_VALUES]) -> Head {
        Head {
            length: head[HEAD_LENGTH],
            opcode: byte(head[HEAD_OPCODE]),
            source: byte(head[HEAD_SOURCE]),
            status: byte(head[HEAD_STATUS]),
        }
    }
}

/// Judges the front of some bytes: the head of the packet there, or refusal 1, 2 or 3.
pub fn check(bytes: &[u8]) -> Result<Head, Refusal> {
    let (number, head) = calls::check(bytes);
    done(number)?;
    Ok(Head::from_values(head))
}

/// Writes a packet at the front of the room and gives its bytes, or refusal 13 (a room under
/// [`PACKET_SIZE`](crate::constants::PACKET_SIZE)), 4, 5 or 7.
pub fn build<'a>(room: &'a mut [u8], opcode: u8, source: u8, status: u8, data: &[u8]) -> Result<&'a [u8], Refusal> {
    let (number, size) = calls::build(room, opcode, source, status, data);
    done(number)?;
    Ok(front(room, size))
}

/// Writes an ACK or a NAK at the front of the room and gives its bytes, or refusal 13 (a room under
/// [`ANSWER_SIZE`](crate::constants::ANSWER_SIZE)) or 4.
pub fn answer(room: &mut [u8], source: u8, reply: Reply) -> Result<&[u8], Refusal> {
    let (number, size) = calls::answer(room, source, reply.number());
    done(number)?;
    Ok(front(room, size))
}
