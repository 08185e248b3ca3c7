//! Characters into tokens: bytes, gaps, letters, and letters with bytes up to `;`; a block has brackets for both.

use motikhund::Event;

use crate::lines::Lines;
use crate::wrong::{Place, Trouble, Wrong};

/// One end of the line, as tokens drive it.
pub trait End: Sized + 'static {
    /// All that it takes besides bytes and gaps.
    const TOKENS: &'static [Token<Self>];

    fn hear(&mut self, event: Event, lines: &mut Lines);
}

/// A letter, and what it does.
pub enum Token<E> {
    /// The letter alone.
    Alone(u8, fn(&mut E, &mut Lines)),
    /// With bytes after it, as many as its shape lets through.
    With(Shape, Acts<E>),
}

/// What a token does with its bytes.
pub type Acts<E> = fn(&mut E, &[u8], &mut Lines);

/// The shape of a letter with bytes.
#[derive(Clone, Copy)]
pub struct Shape {
    pub letter: u8,
    /// The sign that ends its bytes.
    pub closing: u8,
    /// Fewer bytes are wrong.
    pub least: usize,
    /// So many are let through.
    pub most: usize,
    pub further: Further,
}

/// What becomes of the bytes after those.
#[derive(Clone, Copy, PartialEq, Eq)]
pub enum Further {
    Dropped,
    Wrong,
}

impl Shape {
    /// So many bytes are kept: one more tells that there were too many.
    fn kept(&self) -> usize {
        self.most + usize::from(self.further == Further::Wrong)
    }
}

/// `K hh ll ;`, at either end: the size of the answer room.
pub const ROOM: Shape = Shape { letter: b'K', closing: b';', least: 2, most: 2, further: Further::Wrong };

/// The size that the bytes of a `K` name, high byte first.
pub fn size(bytes: &[u8]) -> usize {
    bytes.iter().fold(0, |size, byte| size << 8 | usize::from(*byte))
}

/// Where a text stands that comes in parts, and the end that it drives.
pub struct Notation<E: End> {
    end: E,
    place: Place,
    /// The first digit of a byte, while its second is awaited.
    digit: Option<u8>,
    /// A letter whose end is awaited.
    opened: Option<(Shape, Acts<E>)>,
    /// Its bytes so far.
    bytes: Vec<u8>,
}

impl<E: End> Notation<E> {
    pub fn new(end: E) -> Self {
        Notation { end, place: Place::default(), digit: None, opened: None, bytes: Vec::new() }
    }

    /// The next part of the text, up to the first wrong character.
    pub fn read(&mut self, text: &[u8], lines: &mut Lines) -> Result<(), Wrong> {
        for (at, character) in text.iter().enumerate() {
            self.take(*character, lines).map_err(|trouble| self.place.wrong(trouble, &text[at..]))?;
            self.place.pass(*character);
        }
        Ok(())
    }

    /// The text has ended. A token that has not ended does nothing.
    pub fn finish(&self) -> Result<(), Wrong> {
        match self.digit {
            Some(digit) => Err(self.place.wrong(Trouble::Lone(digit), &[])),
            None => Ok(()),
        }
    }

    fn take(&mut self, character: u8, lines: &mut Lines) -> Result<(), Trouble> {
        match (self.digit, value(character)) {
            (Some(first), Some(low)) => {
                self.digit = None;
                self.byte(value(first).unwrap_or(0) << 4 | low, lines);
                Ok(())
            }
            (Some(digit), None) => Err(Trouble::Lone(digit)),
            (None, Some(_)) => {
                self.digit = Some(character);
                Ok(())
            }
            (None, None) => self.sign(character, lines),
        }
    }

    fn byte(&mut self, byte: u8, lines: &mut Lines) {
        match self.opened {
            None => self.end.hear(Event::Byte(byte), lines),
            Some((shape, _)) if self.bytes.len() < shape.kept() => self.bytes.push(byte),
            Some(_) => {}
        }
    }

    fn sign(&mut self, sign: u8, lines: &mut Lines) -> Result<(), Trouble> {
        match (self.opened, sign) {
            (_, b' ' | b'\n' | b'\r') => {}
            (None, b'.') => self.end.hear(Event::CharacterGap, lines),
            (None, b'/') => self.end.hear(Event::MessageGap, lines),
            (None, letter) => match E::TOKENS.iter().find(|token| token.letter() == letter) {
                Some(Token::Alone(_, act)) => act(&mut self.end, lines),
                Some(Token::With(shape, acts)) => {
                    self.opened = Some((*shape, *acts));
                    self.bytes.clear();
                }
                None => return Err(Trouble::Outside),
            },
            (Some((shape, _)), sign) if sign != shape.closing => return Err(Trouble::Inside(shape)),
            (Some((shape, _)), _) if self.bytes.len() < shape.least => return Err(Trouble::Few(shape)),
            (Some((shape, _)), _) if self.bytes.len() > shape.most => return Err(Trouble::Many(shape)),
            (Some((_, acts)), _) => {
                self.opened = None;
                acts(&mut self.end, &self.bytes, lines);
            }
        }
        Ok(())
    }
}

impl<E> Token<E> {
    fn letter(&self) -> u8 {
        match self {
            Token::Alone(letter, _) => *letter,
            Token::With(shape, _) => shape.letter,
        }
    }
}

/// What a hex digit of either case stands for. A table, as this is asked of every character.
fn value(character: u8) -> Option<u8> {
    const NONE: u8 = 16;
    const VALUES: [u8; 256] = {
        let mut values = [NONE; 256];
        let mut value = 0;
        while value < 16 {
            values[b"0123456789ABCDEF"[value] as usize] = value as u8;
            values[b"0123456789abcdef"[value] as usize] = value as u8;
            value += 1;
        }
        values
    };
    let value = VALUES[usize::from(character)];
    (value < NONE).then_some(value)
}
