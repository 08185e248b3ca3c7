//! The raw calls over fenced buffers, and what the safe ones told as the numbers that the raw ones give, to be
//! compared.

use motikhund::constants::{BLOCK_VALUES, READER_VALUES, START_VALUES, SWITCH_VALUES};
use motikhund::packet::Head;
use motikhund::{raw, BlockTold, Event, Found, HubBlock, HubTold, Outcome, ReaderTold, Refusal};

use crate::dice::Dice;
use crate::fenced::{Fenced, TABLE_SIZE};

/// What no call leaves in the values.
const JUNK: usize = usize::MAX;

/// The number of an event, and any number that is none's.
pub fn event_number(event: Event) -> u32 {
    match event {
        Event::Byte(byte) => byte.into(),
        Event::CharacterGap => 256,
        Event::MessageGap => 257,
    }
}

pub fn no_event(dice: &mut Dice) -> u32 {
    258 + dice.below(4_294_967_038) as u32
}

// ---- the raw calls

pub fn check(bytes: &[u8]) -> (u32, [usize; 4]) {
    let mut head = [JUNK; 4];
    let number = unsafe { raw::mk_check(bytes.as_ptr(), bytes.len(), &mut head) };
    (number, head)
}

pub fn build(room: &mut Fenced, [opcode, source, status]: [u8; 3], data: &[u8]) -> (u32, usize) {
    let (room, mut size) = (room.lent(), JUNK);
    let (to, from) = (room.as_mut_ptr(), data.as_ptr());
    let number = unsafe { raw::mk_build(to, room.len(), opcode, source, status, from, data.len(), &mut size) };
    (number, size)
}

pub fn answer(room: &mut Fenced, source: u8, reply: u32) -> (u32, usize) {
    let (room, mut size) = (room.lent(), JUNK);
    let number = unsafe { raw::mk_answer(room.as_mut_ptr(), room.len(), source, reply, &mut size) };
    (number, size)
}

pub fn framer([control, line]: &mut [Fenced; 2], event: u32) -> (u32, [usize; 4]) {
    let (control, line, mut head) = (control.lent(), line.lent(), [JUNK; 4]);
    let (state, to) = (control.as_mut_ptr(), line.as_mut_ptr());
    let number = unsafe { raw::mk_framer_hear(state, control.len(), to, line.len(), event, &mut head) };
    (number, head)
}

/// Of a hub or a reader: its control value and its line.
pub fn go_on(control: &mut Fenced, line: &mut Fenced, event: u32) -> bool {
    let front = control.lent().first_chunk_mut().expect("a control value");
    unsafe { raw::mk_go_on(front, line.array(), event) }
}

pub fn hub([control, line, gather, answer, message]: &mut [Fenced; 5], event: u32) -> (u32, [usize; 3]) {
    let (control, answer, message, mut values) = (control.lent(), answer.lent(), message.lent(), [JUNK; 3]);
    let number = unsafe {
        raw::mk_hub_hear(
            control.as_mut_ptr(),
            control.len(),
            line.array(),
            gather.array(),
            answer.as_mut_ptr(),
            answer.len(),
            message.as_mut_ptr(),
            message.len(),
            event,
            &mut values,
        )
    };
    (number, values)
}

pub fn hub_block(
    [control, line, gather, answer, message]: &mut [Fenced; 5],
    bytes: &[u8],
) -> (u32, [usize; BLOCK_VALUES]) {
    let (control, answer, message, mut values) = (control.lent(), answer.lent(), message.lent(), [JUNK; BLOCK_VALUES]);
    let number = unsafe {
        raw::mk_hub_hear_block(
            control.as_mut_ptr(),
            control.len(),
            line.array(),
            gather.array(),
            answer.as_mut_ptr(),
            answer.len(),
            message.as_mut_ptr(),
            message.len(),
            bytes.as_ptr(),
            bytes.len(),
            &mut values,
        )
    };
    (number, values)
}

pub fn sender_start(
    [control, buffer, copy]: &mut [Fenced; 3],
    code: u8,
    message: &[u8],
) -> (u32, [usize; START_VALUES]) {
    let (control, copy, mut values) = (control.lent(), copy.lent(), [JUNK; START_VALUES]);
    let (state, room, from) = (control.as_mut_ptr(), copy.as_mut_ptr(), message.as_ptr());
    let buffer = buffer.array();
    let number = unsafe {
        raw::mk_sender_start(state, control.len(), buffer, room, copy.len(), code, from, message.len(), &mut values)
    };
    (number, values)
}

pub fn sender_hear([control, buffer, copy]: &mut [Fenced; 3], heard: u32) -> (u32, usize) {
    let (control, copy, mut value) = (control.lent(), copy.lent(), JUNK);
    let (state, room) = (control.as_mut_ptr(), copy.as_mut_ptr());
    let buffer = buffer.array();
    let number = unsafe { raw::mk_sender_hear(state, control.len(), buffer, room, copy.len(), heard, &mut value) };
    (number, value)
}

pub fn sender_waits(control: &mut Fenced) -> u32 {
    let control = control.lent();
    unsafe { raw::mk_sender_waits(control.as_ptr(), control.len()) }
}

/// Control bytes, line, kept answer, message, answer room, copy room.
pub type Reader = [Fenced; 6];

pub fn reader_start(
    [control, _, _, message, _, copy]: &mut Reader,
    code: u8,
    bytes: &[u8],
) -> (u32, [usize; START_VALUES]) {
    let (control, copy, mut values) = (control.lent(), copy.lent(), [JUNK; START_VALUES]);
    let (state, room, from) = (control.as_mut_ptr(), copy.as_mut_ptr(), bytes.as_ptr());
    let message = message.array();
    let number = unsafe {
        raw::mk_reader_start(state, control.len(), message, room, copy.len(), code, from, bytes.len(), &mut values)
    };
    (number, values)
}

pub fn reader_time_out([control, _, _, message, _, copy]: &mut Reader) -> (u32, usize) {
    let (control, copy, mut value) = (control.lent(), copy.lent(), JUNK);
    let (state, room) = (control.as_mut_ptr(), copy.as_mut_ptr());
    let message = message.array();
    let number = unsafe { raw::mk_reader_time_out(state, control.len(), message, room, copy.len(), &mut value) };
    (number, value)
}

pub fn reader_power_up([control, ..]: &mut Reader) -> u32 {
    let control = control.lent();
    unsafe { raw::mk_reader_power_up(control.as_mut_ptr(), control.len()) }
}

pub fn reader_hear(
    [control, line, answers, message, answer, copy]: &mut Reader,
    event: u32,
) -> (u32, [usize; READER_VALUES]) {
    let (control, answer, copy, mut values) = (control.lent(), answer.lent(), copy.lent(), [JUNK; READER_VALUES]);
    let number = unsafe {
        raw::mk_reader_hear(
            control.as_mut_ptr(),
            control.len(),
            line.array(),
            answers.array(),
            message.array(),
            answer.as_mut_ptr(),
            answer.len(),
            copy.as_mut_ptr(),
            copy.len(),
            event,
            &mut values,
        )
    };
    (number, values)
}

pub fn reader_save(control: &mut Fenced, room: &mut Fenced) -> (u32, usize) {
    let (control, room, mut size) = (control.lent(), room.lent(), JUNK);
    let (state, to) = (control.as_ptr(), room.as_mut_ptr());
    let number = unsafe { raw::mk_reader_save(state, control.len(), to, room.len(), &mut size) };
    (number, size)
}

pub fn reader_load(control: &mut Fenced, form: &[u8]) -> u32 {
    let control = control.lent();
    unsafe { raw::mk_reader_load(control.as_mut_ptr(), control.len(), form.as_ptr(), form.len()) }
}

pub fn reader_locked(control: &mut Fenced, number: u8) -> (u32, usize) {
    let (control, mut value) = (control.lent(), JUNK);
    let told = unsafe { raw::mk_reader_locked(control.as_ptr(), control.len(), number, &mut value) };
    (told, value)
}

pub fn reader_value([control, ..]: &mut Reader, number: u8) -> (u32, usize) {
    let (control, mut value) = (control.lent(), JUNK);
    let told = unsafe { raw::mk_reader_value(control.as_ptr(), control.len(), number, &mut value) };
    (told, value)
}

pub fn reader_switches([control, ..]: &mut Reader) -> (u32, [usize; SWITCH_VALUES]) {
    let (control, mut values) = (control.lent(), [JUNK; SWITCH_VALUES]);
    let told = unsafe { raw::mk_reader_switches(control.as_ptr(), control.len(), &mut values) };
    (told, values)
}

pub fn reader_table(control: &mut Fenced, table: &mut Fenced) -> u32 {
    let (control, table) = (control.lent(), table.array::<TABLE_SIZE>());
    unsafe { raw::mk_reader_table(control.as_ptr(), control.len(), table.as_mut_ptr().cast()) }
}

pub fn reader_put_table(control: &mut Fenced, table: &mut Fenced) -> u32 {
    let (control, table) = (control.lent(), table.array::<TABLE_SIZE>());
    unsafe { raw::mk_reader_put_table(control.as_mut_ptr(), control.len(), table.as_ptr().cast()) }
}

pub fn table_set(table: &mut Fenced, pairs: &[u8], permanent: bool) -> u32 {
    let table = table.array::<TABLE_SIZE>().as_mut_ptr().cast();
    unsafe { raw::mk_table_set(table, pairs.as_ptr(), pairs.len(), permanent) }
}

pub fn table_set_defaults(table: &mut Fenced) {
    unsafe { raw::mk_table_set_defaults(table.array::<TABLE_SIZE>().as_mut_ptr().cast()) }
}

pub fn table_power_up(table: &mut Fenced) {
    unsafe { raw::mk_table_power_up(table.array::<TABLE_SIZE>().as_mut_ptr().cast()) }
}

// ---- the same numbers, of what the safe calls told

/// Of a call that has done what it was asked, or refused it.
pub fn of_done(done: Result<(), Refusal>) -> u32 {
    done.map_or_else(Refusal::number, |()| 0)
}

fn of_head(head: Head) -> [usize; 4] {
    [head.length, head.opcode.into(), head.source.into(), head.status.into()]
}

pub fn of_checked(checked: Result<Head, Refusal>) -> (u32, [usize; 4]) {
    match checked {
        Ok(head) => (100, of_head(head)),
        Err(why) => (why.number(), [0; 4]),
    }
}

pub fn of_built(built: Result<&[u8], Refusal>) -> (u32, usize) {
    match built {
        Ok(written) => (101, written.len()),
        Err(why) => (why.number(), 0),
    }
}

pub fn of_found(found: Found<'_>) -> (u32, [usize; 4]) {
    match found {
        Found::Nothing => (0, [0; 4]),
        Found::Packet { head, packet } => {
            assert_eq!(packet.len(), head.length + 2);
            (100, of_head(head))
        }
        Found::Refused(why) => (why.number(), [0; 4]),
    }
}

pub fn of_hub(told: HubTold<'_>) -> (u32, [usize; 3]) {
    let answer = told.answer().len();
    match told {
        HubTold::Nothing => (0, [0; 3]),
        HubTold::Added { .. } => (110, [answer, 0, 0]),
        HubTold::Repeated { .. } => (111, [answer, 0, 0]),
        HubTold::Message { code, message, .. } => (112, [answer, code.into(), message.len()]),
        HubTold::Refused { why, .. } => (why.number(), [answer, 0, 0]),
    }
}

pub fn of_block(block: Result<HubBlock<'_>, Refusal>) -> (u32, [usize; BLOCK_VALUES]) {
    match block {
        Ok(HubBlock { taken, answer, told }) => {
            let (number, code, count) = match told {
                BlockTold::Nothing => (0, 0, 0),
                BlockTold::Message { code, message } => (112, code.into(), message.len()),
                BlockTold::Refused(why) => (why.number(), 0, 0),
            };
            (number, [answer.len(), code, count, taken])
        }
        Err(why) => (why.number(), [0; BLOCK_VALUES]),
    }
}

/// Of a start.
pub fn of_start(outcome: Outcome<'_>) -> (u32, [usize; START_VALUES]) {
    match outcome {
        Outcome::Copy { copy, gap } => (120, [copy.len(), gap.into()]),
        Outcome::Refused(why) => (why.number(), [0; START_VALUES]),
        outcome => panic!("{outcome:?} of a start"),
    }
}

/// Of what a sender heard.
pub fn of_outcome(outcome: Outcome<'_>) -> (u32, usize) {
    match outcome {
        Outcome::Nothing => (0, 0),
        Outcome::Copy { copy, gap } => {
            assert!(!gap);
            (120, copy.len())
        }
        Outcome::Delivered { copies } => (121, copies),
        Outcome::Failed { copies } => (122, copies),
        Outcome::Refused(why) => (why.number(), 0),
    }
}

pub fn of_reader(told: ReaderTold<'_>) -> (u32, [usize; READER_VALUES]) {
    let outgoing = told.outgoing().len();
    match told {
        ReaderTold::Nothing => (0, [0; READER_VALUES]),
        ReaderTold::Acted { beep, permanent, answer } => {
            let row = beep.map_or([0; 3], |beep| [beep.duration, beep.pitch, beep.count]).map(usize::from);
            assert_eq!(answer.len(), outgoing);
            (130, [outgoing, row[0], row[1], row[2], 0, permanent.into()])
        }
        ReaderTold::Repeated { .. } => (111, [outgoing, 0, 0, 0, 0, 0]),
        ReaderTold::Refused { why, .. } => (why.number(), [outgoing, 0, 0, 0, 0, 0]),
        ReaderTold::Copy(copy) => {
            assert_eq!(copy.len(), outgoing);
            (120, [0, 0, 0, 0, copy.len(), 0])
        }
        ReaderTold::Delivered { copies } => (121, [outgoing, 0, 0, 0, copies, 0]),
        ReaderTold::Failed { copies } => (122, [outgoing, 0, 0, 0, copies, 0]),
    }
}
