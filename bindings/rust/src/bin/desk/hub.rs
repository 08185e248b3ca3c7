//! The hub's end of the line.

use motikhund::constants::{BLOCK_SIZE, HUB_ANSWER_SIZE, HUB_CONTROL_SIZE, LINE_SIZE, MESSAGE_SIZE};
use motikhund::lent::hub;
use motikhund::{BlockTold, Event, HubBlock, HubTold, Refusal};

use crate::lines::Lines;
use crate::notation::{size, End, Further, Shape, Token, ROOM};

/// `[ bb .. ]`: a block, and one byte more than the longest has, so that a longer one is refused.
const BLOCK: Shape = Shape { letter: b'[', closing: b']', least: 0, most: BLOCK_SIZE + 1, further: Further::Dropped };

/// The answer room of a block call, until a `K`: three ACKs, or two NAKs.
const BLOCK_ROOM: usize = 20;

/// A hub with answer rooms of any size, for an event and for a block call.
pub struct Hub {
    control: [u8; HUB_CONTROL_SIZE],
    line: [u8; LINE_SIZE],
    gather: [u8; MESSAGE_SIZE],
    answer: Vec<u8>,
    answers: Vec<u8>,
    message: [u8; MESSAGE_SIZE],
}

impl Hub {
    pub fn new() -> Self {
        let mut control = [0; HUB_CONTROL_SIZE];
        // The control bytes have their size, so nothing is refused.
        let _ = hub::on(&mut control);
        let (line, gather, message) = ([0; LINE_SIZE], [0; MESSAGE_SIZE], [0; MESSAGE_SIZE]);
        Hub { control, line, gather, answer: vec![0; HUB_ANSWER_SIZE], answers: vec![0; BLOCK_ROOM], message }
    }

    fn lend(&mut self, bytes: &[u8], _: &mut Lines) {
        self.answer.resize(size(bytes), 0);
        self.answers.resize(size(bytes), 0);
    }

    /// In one call and, as long as bytes are left, in further ones. A call that is refused is the last.
    fn block(&mut self, bytes: &[u8], lines: &mut Lines) {
        let mut rest = bytes;
        loop {
            match self.hear_block(rest) {
                Ok(block) => {
                    rest = &rest[block.taken..];
                    brought(block, lines);
                }
                Err(why) => return lines.refusal(why),
            }
            if rest.is_empty() {
                return;
            }
        }
    }

    fn hear_block(&mut self, bytes: &[u8]) -> Result<HubBlock<'_>, Refusal> {
        let Hub { control, line, gather, answers, message, .. } = self;
        hub::hear_block(control, line, gather, answers, message, bytes)
    }
}

impl End for Hub {
    const TOKENS: &'static [Token<Hub>] = &[Token::With(ROOM, Hub::lend), Token::With(BLOCK, Hub::block)];

    fn hear(&mut self, event: Event, lines: &mut Lines) {
        let Hub { control, line, gather, answer, message, .. } = self;
        let told = hub::hear(control, line, gather, answer, message, event);
        match told {
            HubTold::Nothing | HubTold::Added { .. } | HubTold::Repeated { .. } => {}
            HubTold::Refused { why, .. } => lines.refusal(why),
            HubTold::Message { code, message, .. } => handed_out(code, message, lines),
        }
        lines.answer(told.answer());
    }
}

/// What a block call did.
fn brought(block: HubBlock, lines: &mut Lines) {
    match block.told {
        BlockTold::Nothing => {}
        BlockTold::Refused(why) => lines.refusal(why),
        BlockTold::Message { code, message } => handed_out(code, message, lines),
    }
    lines.answer(block.answer);
    lines.numbers(b'L', [block.taken]);
}

fn handed_out(code: u8, message: &[u8], lines: &mut Lines) {
    lines.bytes(b'M', [code].iter().chain(message));
}
