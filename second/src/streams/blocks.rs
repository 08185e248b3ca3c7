//! Draws which bytes of desk's streams come in blocks, and has a hub take them so.

use crate::dice::Dice;
use crate::framer::LineEvent;
use crate::hub::{Block, Done, Hub, HubStep, ANSWER_ROOM, LONGEST_BLOCK};
use crate::listing::BLOCK_ROOM;
use crate::packet::Refusal;
use crate::watch_blocks::Call;
use crate::watch_hub::{HubLook, HubWatch};

/// Sizes of blocks that are too long.
const TOO_LONG: [usize; 5] = [LONGEST_BLOCK + 1, LONGEST_BLOCK + 1, LONGEST_BLOCK + 2, 5_000, 2 * LONGEST_BLOCK];

pub struct Blocks {
    dice: Dice,
    /// Of a hundred stretches of bytes, so many come in blocks.
    share: usize,
    /// Whether the present stretch does, and how many of its bytes are still to come.
    in_block: bool,
    left: usize,
    /// The block that has not been written yet.
    begun: Begun,
    /// Takes by blocks what the stream's own hub takes byte by byte.
    hub: Hub,
}

/// Bytes of a block, and what each came to at the stream's hub.
#[derive(Default)]
pub struct Begun {
    pub bytes: Vec<u8>,
    pub steps: Vec<HubStep>,
}

impl Blocks {
    /// The dice are its own, so that without blocks a stream is drawn as ever.
    pub fn new(seed: u64) -> Blocks {
        let mut dice = Dice::new(seed);
        let share = dice.pick(&[0, 40, 90, 100]);
        Blocks { dice, share, in_block: false, left: 0, begun: Begun::default(), hub: Hub::default() }
    }

    /// From here on none comes that is not asked for.
    pub fn draw_nothing(&mut self) {
        self.share = 0;
    }

    pub fn any(&self) -> bool {
        self.share > 0
    }

    pub fn dice(&mut self) -> &mut Dice {
        &mut self.dice
    }

    /// Whether the next byte goes into a block.
    pub fn next(&mut self) -> bool {
        if self.left == 0 {
            self.draw();
        }
        self.left -= 1;
        self.in_block
    }

    fn draw(&mut self) {
        self.in_block = self.dice.chance(self.share);
        self.left = match self.dice.weigh(&[8, 12, 20, 15, 45]) {
            0 => 1,
            1 => self.dice.between(2, 4),
            2 => self.dice.between(5, 20),
            3 => self.dice.between(21, 600),
            // Up to the next gap.
            _ if self.in_block => LONGEST_BLOCK,
            _ => 10,
        };
    }

    /// A block of so many bytes begins, if no gap and no other room comes before its end.
    pub fn begin(&mut self, size: usize) {
        (self.in_block, self.left) = (true, size);
    }

    /// A stretch ends at a gap.
    pub fn end(&mut self) {
        self.left = 0;
    }

    pub fn add(&mut self, byte: u8, step: Option<HubStep>) {
        self.begun.bytes.push(byte);
        self.begun.steps.extend(step);
    }

    /// Whether the block under way is to be written.
    pub fn whole(&self) -> bool {
        self.left == 0 || self.begun.bytes.len() == LONGEST_BLOCK
    }

    pub fn under_way(&self) -> usize {
        self.begun.bytes.len()
    }

    pub fn written(&mut self) -> Begun {
        std::mem::take(&mut self.begun)
    }

    /// A block with these bytes in front that is refused for its length.
    pub fn too_long(&mut self, bytes: &[u8]) -> Vec<u8> {
        let size = self.dice.pick(&TOO_LONG);
        bytes.iter().copied().cycle().take(size).collect()
    }

    /// An event outside of a block.
    pub fn alone(&mut self, event: LineEvent, room: usize) {
        self.hub.take_in_room(event, room);
    }

    /// A block, in as many calls as it takes. Where one tells something else than its bytes one by one, this program is
    /// wrong itself, and there is nothing to compare with.
    pub fn give(&mut self, begun: &Begun, room: Option<usize>, watch: &mut HubWatch) {
        let Begun { bytes, steps } = begun;
        let mut at = 0;
        loop {
            let before = HubLook::at(&self.hub);
            let told = self.hub.take_block(&bytes[at..], room.unwrap_or(BLOCK_ROOM));
            let due = one_by_one(&bytes[at..], &steps[at..], room.unwrap_or(BLOCK_ROOM));
            assert_eq!(told, due, "a block call differs from its bytes one by one");
            let taken = told.as_ref().map_or(0, |block| block.taken);
            let steps = &steps[at..at + taken];
            watch.see_call(&Call { before, bytes: &bytes[at..], room, told: &told, steps }, at == 0);
            at += taken;
            if told.is_err() || at == bytes.len() {
                return;
            }
        }
    }

    /// Whether the hub that takes blocks is as the one that takes bytes.
    pub fn agrees(&self, hub: &Hub) -> bool {
        self.hub == *hub
    }
}

/// What a call is due to tell of these bytes, by what each came to alone: before each it is asked whether to leave.
fn one_by_one(bytes: &[u8], steps: &[HubStep], room: usize) -> Result<Block, Refusal> {
    if room < ANSWER_ROOM {
        return Err(Refusal::Room);
    }
    if bytes.len() > LONGEST_BLOCK {
        return Err(Refusal::Long);
    }
    let mut block = Block::default();
    for step in steps {
        if block.message.is_some() || block.answers.len() + ANSWER_ROOM > room {
            break;
        }
        block.taken += 1;
        block.answers.extend(step.answer().unwrap_or_default());
        match &step.done {
            Done::HandedOut(message) => block.message = Some(message.clone()),
            Done::Refused(refusal) if refusal.number() < 3 => block.refusal = Some(*refusal),
            _ => {}
        }
    }
    Ok(block)
}
