//! The reader's whole end over lent buffers.

use crate::constants::{
    ACTED, COPY, DELIVERED, FAILED, LINE_SIZE, MESSAGE_SIZE, PACKET_SIZE, READER_ANSWER_SIZE, READER_CONTROL_SIZE,
    READER_VALUE_ANSWER, READER_VALUE_PERMANENT, READER_VALUE_SENT, REPEATED,
};
use crate::lent::sender::{outcome, started};
use crate::numbers::{byte, done, front, told};
use crate::reader::{Beep, ReaderTold, Switches};
use crate::sender::Outcome;
use crate::{calls, Event, Refusal, Table};

/// A reader switched on with the house defaults. A message gap is due before the first message, though its start says
/// none. Its control value has [`READER_CONTROL_SIZE`].
pub fn on(control: &mut [u8]) -> Result<(), Refusal> {
    done(calls::reader_on(control))
}

/// Power-up: permanent values are copied to present ones, locks stay; framer, sender and the last accepted packet are
/// forgotten. So are whether the message before failed and what its last packet was: a message gap is due before the
/// first message after it, though its start says none.
pub fn power_up(control: &mut [u8]) -> Result<(), Refusal> {
    done(calls::reader_power_up(control))
}

/// Starts a message: it is copied to the buffer, and the first copy of its first packet is written to the copy room
/// ([`PACKET_SIZE`]). The last packet of the message before is read in the buffer, which is the reader's own also with
/// nothing out.
pub fn start<'a>(
    control: &mut [u8],
    message: &mut [u8; MESSAGE_SIZE],
    copy: &'a mut [u8],
    code: u8,
    bytes: &[u8],
) -> Outcome<'a> {
    let (number, values) = calls::reader_start(control, message, copy, code, bytes);
    started(number, values, copy)
}

/// The sender's response time-out.
pub fn time_out<'a>(control: &mut [u8], message: &[u8; MESSAGE_SIZE], copy: &'a mut [u8]) -> Outcome<'a> {
    let (number, value) = calls::reader_time_out(control, message, copy);
    outcome(number, value, copy)
}

/// One event of the line. `answers` keeps the last answer for a resend; the answer then stands at the front of the
/// answer room ([`READER_ANSWER_SIZE`]), a copy at the front of the copy room ([`PACKET_SIZE`]).
#[inline]
pub fn hear<'a>(
    control: &mut [u8],
    line: &mut [u8; LINE_SIZE],
    answers: &mut [u8; READER_ANSWER_SIZE],
    message: &[u8; MESSAGE_SIZE],
    answer: &'a mut [u8],
    copy: &'a mut [u8],
    event: Event,
) -> ReaderTold<'a> {
    // The short way knows no rooms and stands for an event with rooms of full size, so their sizes are looked at first.
    let full = control.len() >= READER_CONTROL_SIZE && answer.len() >= READER_ANSWER_SIZE && copy.len() >= PACKET_SIZE;
    if full && calls::go_on(control, line, event.number()) {
        return ReaderTold::Nothing;
    }
    hear_whole(control, line, answers, message, answer, copy, event)
}

/// The event by the call that takes every event, and refuses rooms.
fn hear_whole<'a>(
    control: &mut [u8],
    line: &mut [u8; LINE_SIZE],
    answers: &mut [u8; READER_ANSWER_SIZE],
    message: &[u8; MESSAGE_SIZE],
    answer: &'a mut [u8],
    copy: &'a mut [u8],
    event: Event,
) -> ReaderTold<'a> {
    let (number, values) = calls::reader_hear(control, line, answers, message, answer, copy, event.number());
    let answer = front(answer, values[READER_VALUE_ANSWER]);
    let sent = values[READER_VALUE_SENT];
    match told(number) {
        Ok(ACTED) => {
            let permanent = values[READER_VALUE_PERMANENT] == 1;
            ReaderTold::Acted { beep: Beep::from_values(values), permanent, answer }
        }
        Ok(REPEATED) => ReaderTold::Repeated { answer },
        Ok(COPY) => ReaderTold::Copy(front(copy, sent)),
        Ok(DELIVERED) => ReaderTold::Delivered { copies: sent },
        Ok(FAILED) => ReaderTold::Failed { copies: sent },
        Ok(_) => ReaderTold::Nothing,
        Err(why) => ReaderTold::Refused { why, answer },
    }
}

/// Writes the permanent values and the locks as the form of a set, at the front of the room
/// ([`SET_SIZE`](crate::constants::SET_SIZE)), and gives its bytes.
pub fn save<'a>(control: &[u8], room: &'a mut [u8]) -> Result<&'a [u8], Refusal> {
    let (number, size) = calls::reader_save(control, room);
    done(number)?;
    Ok(front(room, size))
}

/// Reads the form of a set: permanent values, present values and locks become those of the set, and the last accepted
/// packet is forgotten; all else stays, what a start says of a gap too. A form that is not right is refusal 12, before a
/// control value that is too small.
pub fn load(control: &mut [u8], form: &[u8]) -> Result<(), Refusal> {
    done(calls::reader_load(control, form))
}

/// Whether a parameter is locked; one that is not supported is not.
pub fn locked(control: &[u8], number: u8) -> Result<bool, Refusal> {
    let (number, value) = calls::reader_locked(control, number);
    done(number)?;
    Ok(value == 1)
}

/// The present value of a parameter; 0 where it is not supported.
pub fn value(control: &[u8], number: u8) -> Result<u8, Refusal> {
    let (number, value) = calls::reader_value(control, number);
    done(number)?;
    Ok(byte(value))
}

/// What the commands have switched on.
pub fn switches(control: &[u8]) -> Result<Switches, Refusal> {
    let (number, values) = calls::reader_switches(control);
    done(number)?;
    Ok(Switches::from_values(values))
}

/// The reader's table, taken out; the reader keeps its own. Each lock is 1 or 0.
pub fn table(control: &[u8]) -> Result<Table, Refusal> {
    let mut table = Table::new();
    done(calls::reader_table(control, &mut table))?;
    Ok(table)
}

/// Puts a table into the reader: values and locks become those of the table, and the last accepted packet is forgotten;
/// all else stays, what a start says of a gap too. A control value that is too small is refusal 13, before 9 for a
/// value, present or permanent, that its parameter does not take; then every control byte stays.
pub fn put_table(control: &mut [u8], table: &Table) -> Result<(), Refusal> {
    done(calls::reader_put_table(control, table))
}
