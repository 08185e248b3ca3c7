//! Writes a stream in the listings' notation, in changing spacing and case, and ends it rightly or wrongly.

use super::endings::Endings;
use crate::dice::Dice;
use crate::framer::LineEvent;

pub struct Pen {
    pub text: Vec<u8>,
    pub events: u64,
    dice: Dice,
    /// One of three spacings for the whole stream: none, one space, mixed.
    spacing: usize,
    small_letters: bool,
}

impl Pen {
    pub fn new(seed: u64) -> Pen {
        let mut dice = Dice::new(seed);
        let spacing = dice.below(3);
        let small_letters = dice.chance(50);
        Pen { text: Vec::new(), events: 0, dice, spacing, small_letters }
    }

    pub fn line(&mut self, event: LineEvent) {
        match event {
            LineEvent::Byte(byte) => {
                self.events += 1;
                self.pair(byte);
            }
            LineEvent::Gap => self.sign(b'.'),
            LineEvent::MessageGap => self.sign(b'/'),
        }
    }

    pub fn sign(&mut self, sign: u8) {
        self.events += 1;
        self.aside(sign);
    }

    /// A sign that is no event.
    pub fn aside(&mut self, sign: u8) {
        self.text.push(sign);
        self.space();
    }

    /// `S`, the code type and the bytes, `;`.
    pub fn start(&mut self, message: &[u8]) {
        self.events += 1;
        self.token(b'S', message);
    }

    /// `K`, the size, `;`. That is no event.
    pub fn room(&mut self, size: usize) {
        self.token(b'K', &[(size >> 8) as u8, size as u8]);
    }

    /// `L`, the form, `;`.
    pub fn load(&mut self, form: &[u8]) {
        self.events += 1;
        self.token(b'L', form);
    }

    /// `[`, the bytes, `]`: so many events.
    pub fn block(&mut self, bytes: &[u8], events: usize) {
        self.events += events as u64;
        self.enclosed(b'[', bytes, b']');
    }

    fn token(&mut self, letter: u8, bytes: &[u8]) {
        self.enclosed(letter, bytes, b';');
    }

    fn enclosed(&mut self, first: u8, bytes: &[u8], last: u8) {
        self.aside(first);
        for byte in bytes {
            self.pair(*byte);
        }
        self.aside(last);
    }

    fn pair(&mut self, byte: u8) {
        let digits: &[u8; 16] = if self.small_letters { b"0123456789abcdef" } else { b"0123456789ABCDEF" };
        self.text.push(digits[usize::from(byte >> 4)]);
        self.text.push(digits[usize::from(byte & 15)]);
        self.space();
    }

    fn space(&mut self) {
        match self.spacing {
            0 => {}
            1 => self.text.push(b' '),
            _ => self.mixed_space(),
        }
    }

    fn mixed_space(&mut self) {
        match self.dice.weigh(&[60, 30, 4, 2, 2, 2]) {
            0 => {}
            1 => self.text.push(b' '),
            2 => self.text.push(b'\n'),
            3 => self.text.extend_from_slice(b"\r\n"),
            4 => self.text.extend_from_slice(b"   "),
            _ => self.small_letters = !self.small_letters,
        }
    }

    /// Ends the stream: as it is, or with something wrong and more after it that must not be acted on.
    pub fn ending(&mut self, endings: Endings) {
        let number = self.dice.below(endings.len());
        self.text.extend_from_slice(endings[number]);
        if self.dice.chance(50) {
            // Not right after the ending: a digit there could make a pair of a lone one.
            self.text.extend_from_slice(b" 03 . 04 D0 04 00 FF 28 / 03 .\n");
        }
    }
}
