//! The framer with its buffers.

use core::mem::{align_of, size_of};

use crate::buffer::Buffer;
use crate::constants::{FRAMER_CONTROL_SIZE, PACKET_SIZE};
use crate::lent::framer;
use crate::packet::Head;
use crate::{Event, Refusal};

/// What an event ended.
#[must_use]
#[derive(Clone, Copy, Debug, PartialEq, Eq)]
pub enum Found<'a> {
    /// Nothing.
    Nothing,
    /// A packet.
    Packet {
        /// Its head.
        head: Head,
        /// All its bytes, checksum too.
        packet: &'a [u8],
    },
    /// 1, 2 or 3; of a lent framer also 13.
    Refused(Refusal),
}

/// Bytes and gaps of a line into packets, one event at a time. It has 266 bytes and an alignment of 1.
#[derive(Clone, Debug, PartialEq, Eq)]
pub struct Framer {
    control: [u8; FRAMER_CONTROL_SIZE],
    line: Buffer<PACKET_SIZE>,
}

const _: () = assert!(size_of::<Framer>() == 266 && align_of::<Framer>() == 1);

impl Framer {
    /// A framer with nothing begun.
    pub const fn new() -> Self {
        Framer { control: [0; FRAMER_CONTROL_SIZE], line: Buffer::new() }
    }

    /// One event.
    pub fn event(&mut self, event: Event) -> Found<'_> {
        framer::hear(&mut self.control, &mut self.line.0, event)
    }
}

impl Default for Framer {
    fn default() -> Self {
        Self::new()
    }
}
