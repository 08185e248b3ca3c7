//! Draws other answer rooms for desk's streams. It has dice of its own, so that the rest of a stream is drawn as ever.

use crate::dice::Dice;

/// Sizes around every need, also that of several answers in a block; and two where one byte alone would tell the wrong
/// size.
const SIZES: [usize; 21] =
    [0, 1, 6, 7, 8, 12, 13, 14, 19, 20, 21, 24, 25, 26, 255, 256, 257, 0x0600, 0x1800, 0xFF00, 65_535];

pub struct Rooms {
    dice: Dice,
    /// The least room that an event is taken with.
    need: usize,
    room: usize,
    /// How many more events a room that is too small has to last for.
    left: usize,
}

/// What comes before an event.
#[derive(Default)]
pub struct Change {
    /// Rooms too small, in each of which the event is tried in vain.
    pub refused: Vec<usize>,
    /// The room after them.
    pub room: Option<usize>,
}

impl Rooms {
    pub fn new(seed: u64, need: usize) -> Rooms {
        Rooms { dice: Dice::new(seed), need, room: need, left: 0 }
    }

    pub fn dice(&mut self) -> &mut Dice {
        &mut self.dice
    }

    /// `chance` is how likely a change is, of a thousand.
    pub fn before_event(&mut self, chance: usize) -> Change {
        if self.room < self.need {
            return self.in_small_room();
        }
        if self.dice.below(1_000) >= chance {
            return Change::default();
        }
        match self.dice.weigh(&[50, 25, 25]) {
            0 => {
                let tries = self.dice.pick(&[1, 1, 2]);
                let refused = (0..tries).map(|_| self.small()).collect();
                Change { refused, room: Some(self.enough()) }
            }
            1 => {
                self.left = self.dice.pick(&[0, 0, 1, 2, 6, 20]);
                self.changed(Rooms::small)
            }
            _ => self.changed(Rooms::enough),
        }
    }

    fn in_small_room(&mut self) -> Change {
        if self.left == 0 {
            return self.changed(Rooms::enough);
        }
        self.left -= 1;
        if self.dice.chance(10) {
            return self.changed(Rooms::small);
        }
        Change::default()
    }

    fn changed(&mut self, draw: fn(&mut Rooms) -> usize) -> Change {
        self.room = draw(self);
        Change { refused: Vec::new(), room: Some(self.room) }
    }

    fn small(&mut self) -> usize {
        self.among(0, self.need - 1)
    }

    fn enough(&mut self) -> usize {
        self.among(self.need, 65_535)
    }

    /// Mostly one of the sizes worth trying.
    fn among(&mut self, low: usize, high: usize) -> usize {
        if self.dice.chance(10) {
            return self.dice.between(low, high);
        }
        let sizes: Vec<usize> = SIZES.into_iter().filter(|size| (low..=high).contains(size)).collect();
        self.dice.pick(&sizes)
    }
}
