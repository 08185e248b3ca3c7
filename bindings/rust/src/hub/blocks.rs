//! Blocks of received bytes at the hub.

use crate::calls;
use crate::constants::{BLOCK_SIZE, BLOCK_VALUES, BLOCK_VALUE_ANSWER, BLOCK_VALUE_TAKEN, NOTHING};
use crate::hub::Hub;
use crate::lent::hub;
use crate::numbers::front;
use crate::Refusal;

/// What a block of bytes brought a hub.
#[must_use = "the answers go on the line, and bytes that were not taken are given again"]
#[derive(Clone, Copy, Debug, PartialEq, Eq)]
pub struct HubBlock<'a> {
    /// So many bytes were taken; those behind them are for a next call.
    pub taken: usize,
    /// What goes on the line: all answers, one after the other.
    pub answer: &'a [u8],
    /// The message that is whole, or the refusal that made the framer deaf.
    pub told: BlockTold<'a>,
}

/// What a block tells by name, one thing at most. Pieces added, repeats and refusals 4 to 10 are answered and not told.
#[derive(Clone, Copy, Debug, PartialEq, Eq)]
pub enum BlockTold<'a> {
    /// Nothing.
    Nothing,
    /// A message is whole; its ACK is the last of the answers. The block was left here.
    Message {
        /// Its code type.
        code: u8,
        /// Its bytes, 0 to 4,096.
        message: &'a [u8],
    },
    /// 1 or 2; its NAK is the last of the answers. What came behind it was taken and ignored.
    Refused(Refusal),
}

/// What a buffer of received bytes brings a [`Hub`], answer by answer; [`Hub::block`] makes it. It takes bytes as
/// [`next`](HubBlocks::next) is called, and none else: dropped before its end, it leaves the [`rest`](HubBlocks::rest).
#[must_use = "bytes are taken as `next` is called"]
#[derive(Debug)]
pub struct HubBlocks<'hub, 'bytes> {
    hub: &'hub mut Hub,
    rest: &'bytes [u8],
}

impl<'hub, 'bytes> HubBlocks<'hub, 'bytes> {
    pub(super) fn new(hub: &'hub mut Hub, bytes: &'bytes [u8]) -> Self {
        HubBlocks { hub, rest: bytes }
    }

    /// The next answer, with the message or the refusal that it is for; `None` once all bytes are taken. A message and
    /// an answer stand in the hub's rooms until the next call, so this is no [`Iterator`]. `taken` counts the bytes
    /// since the answer before.
    #[allow(clippy::should_implement_trait)]
    pub fn next(&mut self) -> Option<HubBlock<'_>> {
        let before = self.rest.len();
        let (number, values) = self.hear()?;
        let taken = before - self.rest.len();
        let Hub { answer, message, .. } = &*self.hub;
        // The rooms and the block have their sizes: nothing to refuse.
        let block = hub::block(number, values, answer, &message.0).ok()?;
        Some(HubBlock { taken, ..block })
    }

    /// The bytes that are still to come. They are the caller's own, so they may be given to the hub again later.
    pub fn rest(&self) -> &'bytes [u8] {
        self.rest
    }

    /// Calls up to one that brings something. Each takes a byte at least, so they end.
    fn hear(&mut self) -> Option<(u32, [usize; BLOCK_VALUES])> {
        while !self.rest.is_empty() {
            let Hub { control, line, gather, answer, message } = &mut *self.hub;
            let bytes = front(self.rest, BLOCK_SIZE);
            let heard = calls::hub_hear_block(control, &mut line.0, &mut gather.0, answer, &mut message.0, bytes);
            let (number, values) = heard;
            self.rest = self.rest.get(values[BLOCK_VALUE_TAKEN]..).unwrap_or_default();
            if number != NOTHING || values[BLOCK_VALUE_ANSWER] > 0 {
                return Some(heard);
            }
        }
        None
    }
}
