//! The lines that are written: a capital letter, the values, each after one space, a line feed.

use std::io::{self, Write};

use motikhund::Refusal;

/// Lines that are due and not yet written out.
#[derive(Default)]
pub struct Lines(Vec<u8>);

impl Lines {
    /// A line of bytes, two capital hex digits each.
    pub fn bytes<'a>(&mut self, letter: u8, bytes: impl IntoIterator<Item = &'a u8>) {
        self.0.push(letter);
        for byte in bytes {
            self.0.extend([b' ', digit(byte >> 4), digit(byte & 15)]);
        }
        self.0.push(b'\n');
    }

    /// A line of decimal numbers.
    pub fn numbers<const N: usize>(&mut self, letter: u8, numbers: [usize; N]) {
        self.0.push(letter);
        for number in numbers {
            // Bytes in memory take all that is written.
            let _ = write!(self.0, " {number}");
        }
        self.0.push(b'\n');
    }

    /// `R`, at either end.
    pub fn refusal(&mut self, why: Refusal) {
        self.numbers(b'R', [why.number() as usize]);
    }

    /// `A`, at either end; an answer of no bytes is none.
    pub fn answer(&mut self, answer: &[u8]) {
        if !answer.is_empty() {
            self.bytes(b'A', answer);
        }
    }

    /// `E`: something is wrong.
    pub fn wrong(&mut self) {
        self.bytes(b'E', []);
    }

    pub fn write_out(&mut self, to: &mut impl Write) -> io::Result<()> {
        to.write_all(&self.0)?;
        self.0.clear();
        to.flush()
    }
}

fn digit(value: u8) -> u8 {
    b"0123456789ABCDEF"[usize::from(value)]
}
