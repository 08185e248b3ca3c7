//! What comes out: the one rule by which all numbers of the library are read.

use crate::Refusal;

/// A refusal's number is that refusal; any other number stands for itself. A caller that has no name for it reads it
/// as nothing told. The library's promises name every number of every call, so none such comes
/// (tests/machines/garbage.rs); nothing would panic if it did.
pub(crate) fn told(number: u32) -> Result<u32, Refusal> {
    match Refusal::from_number(number) {
        Some(why) => Err(why),
        None => Ok(number),
    }
}

/// The same where a number that is no refusal's says only that it was done.
pub(crate) fn done(number: u32) -> Result<(), Refusal> {
    told(number).map(|_| ())
}

/// The first bytes of a room. A size told is never more than the room has; all of it is given if it were.
pub(crate) fn front(room: &[u8], size: usize) -> &[u8] {
    room.get(..size).unwrap_or(room)
}

/// A value told that is a byte.
pub(crate) fn byte(value: usize) -> u8 {
    value as u8
}
