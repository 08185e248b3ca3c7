//! From standard input to standard output: what has come is acted on and told before more is awaited.

use std::io::{ErrorKind, Read, Write};

use crate::lines::Lines;
use crate::notation::{End, Notation};
use crate::Stop;

/// What is read at once, at most. The lines due for it wait in memory; no character has more than those of a block.
const PART: usize = 1 << 13;

/// Drives an end until the input ends or is wrong.
pub fn run(end: impl End, input: &mut impl Read, output: &mut impl Write) -> Result<(), Stop> {
    let mut notation = Notation::new(end);
    let mut lines = Lines::default();
    let mut part = [0; PART];
    loop {
        let size = match input.read(&mut part) {
            Ok(size) => size,
            Err(why) if why.kind() == ErrorKind::Interrupted => continue,
            Err(why) => return Err(Stop::Read(why)),
        };
        let read = match size {
            0 => notation.finish(),
            _ => notation.read(&part[..size], &mut lines),
        };
        if read.is_err() {
            lines.wrong();
        }
        lines.write_out(output).map_err(Stop::Write)?;
        read.map_err(Stop::Wrong)?;
        if size == 0 {
            return Ok(());
        }
    }
}
