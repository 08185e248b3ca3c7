//! The sender with its buffers.

use core::mem::{align_of, size_of};

use crate::buffer::Buffer;
use crate::constants::{MESSAGE_SIZE, PACKET_SIZE, SENDER_CONTROL_SIZE};
use crate::lent::sender;
use crate::{Heard, Refusal};

/// What a call brought a sender.
#[must_use = "a copy goes on the line"]
#[derive(Clone, Copy, Debug, PartialEq, Eq)]
pub enum Outcome<'a> {
    /// Nothing.
    Nothing,
    /// A copy of a packet, to be sent with a character gap after it.
    Copy {
        /// The packet.
        copy: &'a [u8],
        /// A message gap is due before it: it waits until nothing was sent for so long. Only a start says so, after a
        /// failed message and where the message is one packet, equal to the last one of the message before.
        gap: bool,
    },
    /// The message was delivered: the hub has it.
    Delivered {
        /// Its marked copies.
        copies: usize,
    },
    /// The message failed; a message gap is due before the next one, whose start says so. The hub may have it all the
    /// same, where only its answers were lost.
    Failed {
        /// Its marked copies.
        copies: usize,
    },
    /// 11 at a start; of a lent sender also 13.
    Refused(Refusal),
}

/// Where the control value says that the message before failed; all else in an idle one is 0.
const FAILED_BEFORE: usize = 2;

/// A message cut into packets, each copied to the line until it is acknowledged. It has 4,397 bytes and an alignment of
/// 1.
#[derive(Clone, Debug, PartialEq, Eq)]
pub struct Sender {
    control: [u8; SENDER_CONTROL_SIZE],
    message: Buffer<MESSAGE_SIZE>,
    copy: Buffer<PACKET_SIZE>,
}

const _: () = assert!(size_of::<Sender>() == 4_397 && align_of::<Sender>() == 1);

impl Sender {
    /// A sender with nothing out.
    pub const fn new() -> Self {
        Self::idle(false)
    }

    /// A sender with nothing out and no packet before, after a message that failed or not.
    pub const fn idle(failed: bool) -> Self {
        let mut control = [0; SENDER_CONTROL_SIZE];
        control[FAILED_BEFORE] = failed as u8;
        Sender { control, message: Buffer::new(), copy: Buffer::new() }
    }

    /// Starts a message with its code type. It is copied, so it need not be kept. The copy says whether a message gap is
    /// due before it; a start that is refused says nothing and forgets nothing.
    pub fn send(&mut self, code: u8, message: &[u8]) -> Outcome<'_> {
        sender::start(&mut self.control, &mut self.message.0, &mut self.copy.0, code, message)
    }

    /// One thing heard of the host.
    pub fn heard(&mut self, heard: Heard) -> Outcome<'_> {
        sender::hear(&mut self.control, &self.message.0, &mut self.copy.0, heard)
    }

    /// Whether a message is out.
    pub fn out(&self) -> bool {
        sender::waits(&self.control) == Ok(true)
    }
}

impl Default for Sender {
    fn default() -> Self {
        Self::new()
    }
}
