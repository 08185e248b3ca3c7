//! The sender over lent buffers.

use crate::constants::{COPY, DELIVERED, FAILED, MESSAGE_SIZE, OUT, START_VALUES, START_VALUE_GAP, START_VALUE_SIZE};
use crate::numbers::{done, front, told};
use crate::sender::Outcome;
use crate::{calls, Heard, Refusal};

/// A sender with nothing out and no packet before, after a message that failed or not. Its control value has
/// [`SENDER_CONTROL_SIZE`](crate::constants::SENDER_CONTROL_SIZE).
pub fn idle(control: &mut [u8], failed: bool) -> Result<(), Refusal> {
    done(calls::sender_idle(control, failed))
}

/// Starts a message: it is copied to the buffer, and the first copy of its first packet is written to the copy room
/// ([`PACKET_SIZE`](crate::constants::PACKET_SIZE)). The last packet of the message before is read in the buffer, which
/// is the sender's own also with nothing out.
pub fn start<'a>(
    control: &mut [u8],
    buffer: &mut [u8; MESSAGE_SIZE],
    copy: &'a mut [u8],
    code: u8,
    message: &[u8],
) -> Outcome<'a> {
    let (number, values) = calls::sender_start(control, buffer, copy, code, message);
    started(number, values, copy)
}

/// One thing heard of the host.
pub fn hear<'a>(control: &mut [u8], buffer: &[u8; MESSAGE_SIZE], copy: &'a mut [u8], heard: Heard) -> Outcome<'a> {
    let (number, value) = calls::sender_hear(control, buffer, copy, heard.number());
    outcome(number, value, copy)
}

/// Whether a message is out.
pub fn waits(control: &[u8]) -> Result<bool, Refusal> {
    told(calls::sender_waits(control)).map(|number| number == OUT)
}

/// What a sender hears of a packet with these fields and data. It heeds only a host's ACK without data or NAK with one
/// byte, status 0 or 1.
pub fn heed(opcode: u8, source: u8, status: u8, data: &[u8]) -> Heard {
    Heard::from_number(calls::sender_heed(opcode, source, status, data))
}

/// What a start brought, of its number, its values and the copy room. The reader's sender tells the same.
pub(crate) fn started(number: u32, values: [usize; START_VALUES], copy: &[u8]) -> Outcome<'_> {
    match outcome(number, values[START_VALUE_SIZE], copy) {
        Outcome::Copy { copy, .. } => Outcome::Copy { copy, gap: values[START_VALUE_GAP] == 1 },
        other => other,
    }
}

/// What a sender brought of what it heard, of its number, its value and the copy room. The reader's sender tells the
/// same.
pub(crate) fn outcome(number: u32, value: usize, copy: &[u8]) -> Outcome<'_> {
    match told(number) {
        Ok(COPY) => Outcome::Copy { copy: front(copy, value), gap: false },
        Ok(DELIVERED) => Outcome::Delivered { copies: value },
        Ok(FAILED) => Outcome::Failed { copies: value },
        Ok(_) => Outcome::Nothing,
        Err(why) => Outcome::Refused(why),
    }
}
