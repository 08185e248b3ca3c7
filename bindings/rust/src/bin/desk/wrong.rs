//! What is wrong with a text, and where, in words.

use std::fmt::{self, Display, Formatter};

use crate::notation::Shape;

/// Line and column of a character, from 1 on. A carriage return is a column like any other.
#[derive(Clone, Copy)]
pub struct Place {
    line: u64,
    column: u64,
}

/// Why a character is wrong.
pub enum Trouble {
    /// No token begins with it.
    Outside,
    /// It stands between a letter and the sign that ends its bytes.
    Inside(Shape),
    /// It is that sign, and bytes are missing before it.
    Few(Shape),
    /// It is that sign, and more bytes stand before it than may.
    Many(Shape),
    /// It comes after one digit of a byte. That digit is what is wrong: this character might be right elsewhere.
    Lone(u8),
}

/// The trouble, where it is, and the character that it is with; none where the text ended.
pub struct Wrong {
    place: Place,
    trouble: Trouble,
    character: Option<Shown>,
}

impl Default for Place {
    fn default() -> Self {
        Place { line: 1, column: 1 }
    }
}

impl Place {
    pub fn pass(&mut self, character: u8) {
        self.column += 1;
        if character == b'\n' {
            *self = Place { line: self.line + 1, column: 1 };
        }
    }

    /// The trouble with the first character of a text that goes on here.
    pub fn wrong(self, trouble: Trouble, text: &[u8]) -> Wrong {
        // A lone digit stands one column back, in the same line as no digit ends a line.
        let back = u64::from(matches!(trouble, Trouble::Lone(_)));
        Wrong { place: Place { column: self.column - back, ..self }, trouble, character: Shown::first(text) }
    }
}

impl Display for Wrong {
    fn fmt(&self, to: &mut Formatter) -> fmt::Result {
        let Place { line, column } = self.place;
        write!(to, "line {line}, column {column}: ")?;
        let this: &dyn Display = match &self.character {
            Some(character) => character,
            None => &"the end of the input",
        };
        match &self.trouble {
            Trouble::Outside => write!(to, "{this} is no hex digit, gap or token here"),
            Trouble::Inside(Shape { letter, closing, .. }) => {
                write!(to, "{this} is wrong between '{}' and its '{}': ", char::from(*letter), char::from(*closing))?;
                write!(to, "only bytes stand there, two hex digits each")
            }
            Trouble::Few(shape) => write!(to, "{this} comes too early: {shape}"),
            Trouble::Many(shape) => write!(to, "{this} comes too late: {shape}"),
            Trouble::Lone(digit) => {
                write!(to, "'{}' is a lone digit: a byte is two hex digits together, ", char::from(*digit))?;
                write!(to, "but {this} comes after it")
            }
        }
    }
}

impl Display for Shape {
    fn fmt(&self, to: &mut Formatter) -> fmt::Result {
        let Shape { letter, closing, least, most, .. } = *self;
        let limit = if least == most { "" } else { "at least " };
        let bytes = if least == 1 { "byte" } else { "bytes" };
        write!(to, "'{}' takes {limit}{least} {bytes}, then '{}'", char::from(letter), char::from(closing))
    }
}

/// A character as a person would name it.
enum Shown {
    Character(char),
    /// No character begins with this byte, or the rest of it has not come.
    Byte(u8),
}

impl Shown {
    fn first(text: &[u8]) -> Option<Shown> {
        let whole = text.utf8_chunks().next().and_then(|chunk| chunk.valid().chars().next());
        whole.map(Shown::Character).or(text.first().copied().map(Shown::Byte))
    }
}

impl Display for Shown {
    fn fmt(&self, to: &mut Formatter) -> fmt::Result {
        match self {
            Shown::Character(' ') => write!(to, "a space"),
            Shown::Character('\t') => write!(to, "a tab"),
            Shown::Character('\n' | '\r') => write!(to, "the end of the line"),
            Shown::Character('\'') => write!(to, "\"'\""),
            // Signs that cannot be seen are told by their number.
            Shown::Character(character) => write!(to, "{character:?}"),
            Shown::Byte(byte) => write!(to, "the byte {byte:02X}"),
        }
    }
}
