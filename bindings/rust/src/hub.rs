//! The hub with its buffers.

mod blocks;

use core::mem::{align_of, size_of};

use crate::buffer::Buffer;
use crate::constants::{HUB_ANSWER_SIZE, HUB_CONTROL_SIZE, LINE_SIZE, MESSAGE_SIZE};
use crate::lent::hub;
use crate::{Event, Refusal};

pub use blocks::{BlockTold, HubBlock, HubBlocks};

/// What an event brought a hub, with the answer that goes on the line.
#[must_use = "the answer goes on the line"]
#[derive(Clone, Copy, Debug, PartialEq, Eq)]
pub enum HubTold<'a> {
    /// Nothing, and no answer.
    Nothing,
    /// A piece was added.
    Added {
        /// An ACK.
        answer: &'a [u8],
    },
    /// A resent equal of the last accepted packet, acknowledged and not added.
    Repeated {
        /// An ACK.
        answer: &'a [u8],
    },
    /// A message is whole.
    Message {
        /// Its code type.
        code: u8,
        /// Its bytes, 0 to 4,096.
        message: &'a [u8],
        /// An ACK.
        answer: &'a [u8],
    },
    /// 1 to 7 or 10; of a lent hub also 13.
    Refused {
        /// Why.
        why: Refusal,
        /// A NAK; no bytes for 13.
        answer: &'a [u8],
    },
}

impl<'a> HubTold<'a> {
    /// What goes on the line, whatever was told: an ACK, a NAK, or no bytes.
    pub fn answer(&self) -> &'a [u8] {
        match *self {
            HubTold::Nothing => &[],
            HubTold::Added { answer }
            | HubTold::Repeated { answer }
            | HubTold::Message { answer, .. }
            | HubTold::Refused { answer, .. } => answer,
        }
    }
}

/// Decode data of a reader joined to messages, one event or one block of bytes at a time. It has 8,742 bytes and an
/// alignment of 1.
#[derive(Clone, Debug, PartialEq, Eq)]
pub struct Hub {
    control: [u8; HUB_CONTROL_SIZE],
    line: Buffer<LINE_SIZE>,
    gather: Buffer<MESSAGE_SIZE>,
    answer: [u8; HUB_ANSWER_SIZE],
    message: Buffer<MESSAGE_SIZE>,
}

const _: () = assert!(size_of::<Hub>() == 8_742 && align_of::<Hub>() == 1);

impl Hub {
    /// A hub just switched on.
    pub const fn new() -> Self {
        Hub {
            control: [0; HUB_CONTROL_SIZE],
            line: Buffer::new(),
            gather: Buffer::new(),
            answer: [0; HUB_ANSWER_SIZE],
            message: Buffer::new(),
        }
    }

    /// One event.
    #[inline]
    pub fn event(&mut self, event: Event) -> HubTold<'_> {
        let Hub { control, line, gather, answer, message } = self;
        hub::hear(control, &mut line.0, &mut gather.0, answer, &mut message.0, event)
    }

    /// Bytes with no gap among them, as many as a serial port or DMA hands over at once. What they bring comes answer
    /// by answer, as the hub has room for one:
    ///
    /// ```
    /// use motikhund::{BlockTold, Event, Hub};
    ///
    /// let mut hub = Hub::new();
    /// let (mut sent, mut filed) = (Vec::new(), Vec::new());
    /// // A message, its resend, and the first byte of the next packet.
    /// let received = [6, 0xF3, 0, 0, 0x1B, 0x38, 0xFE, 0xB4, 6, 0xF3, 0, 1, 0x1B, 0x38, 0xFE, 0xB3, 6];
    /// let mut blocks = hub.block(&received);
    /// while let Some(block) = blocks.next() {
    ///     sent.extend_from_slice(block.answer); // first: the reader waits for it
    ///     if let BlockTold::Message { code, message } = block.told {
    ///         filed.push((code, message.to_vec()));
    ///     }
    /// }
    /// assert!(blocks.rest().is_empty());
    /// assert_eq!(sent, [[0x04, 0xD0, 0x04, 0x00, 0xFF, 0x28]; 2].concat());
    /// assert_eq!(filed, [(0x1B, b"8".to_vec())]);
    /// // Where the line fell idle behind them, that is an event as ever: here it cuts the packet begun.
    /// assert_eq!(hub.event(Event::CharacterGap).answer(), [0x05, 0xD1, 0x04, 0x00, 0x01, 0xFF, 0x25]);
    /// ```
    ///
    /// There may be any number of bytes, and nothing is refused. Who wants several answers in one go lends
    /// [`hear_block`](crate::lent::hub::hear_block) a larger room.
    pub fn block<'bytes>(&mut self, bytes: &'bytes [u8]) -> HubBlocks<'_, 'bytes> {
        HubBlocks::new(self, bytes)
    }
}

impl Default for Hub {
    fn default() -> Self {
        Self::new()
    }
}
