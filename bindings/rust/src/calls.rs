//! Each call of the library once, over slices and arrays. This is the only unsafe code of the crate.
//!
//! Why it is sound (the rule that each SAFETY comment names): every pointer comes from a reference that lives through
//! the call, with the slice's own length; `&mut` says that no two of them overlap. A table is bytes alone, in the order
//! that C has them. The library takes any bytes, and reads and writes only what it is lent; that is proved of it in
//! `crates/motikhund`. It keeps no pointer.
//!
//! Each gives the library's number, and the values that were told with it.

use crate::constants::{
    BLOCK_VALUES, GOING_SIZE, HEAD_VALUES, HUB_VALUES, LINE_SIZE, MESSAGE_SIZE, READER_ANSWER_SIZE, READER_VALUES,
    START_VALUES, SWITCH_VALUES,
};
use crate::{raw, Table};

pub(crate) fn check(bytes: &[u8]) -> (u32, [usize; HEAD_VALUES]) {
    let mut head = [0; HEAD_VALUES];
    // SAFETY: the rule above.
    let number = unsafe { raw::mk_check(bytes.as_ptr(), bytes.len(), &mut head) };
    (number, head)
}

pub(crate) fn build(room: &mut [u8], opcode: u8, source: u8, status: u8, data: &[u8]) -> (u32, usize) {
    let mut size = 0;
    let (to, from) = (room.as_mut_ptr(), data.as_ptr());
    // SAFETY: the rule above.
    let number = unsafe { raw::mk_build(to, room.len(), opcode, source, status, from, data.len(), &mut size) };
    (number, size)
}

pub(crate) fn answer(room: &mut [u8], source: u8, reply: u32) -> (u32, usize) {
    let mut size = 0;
    // SAFETY: the rule above.
    let number = unsafe { raw::mk_answer(room.as_mut_ptr(), room.len(), source, reply, &mut size) };
    (number, size)
}

pub(crate) fn framer_idle(control: &mut [u8]) -> u32 {
    // SAFETY: the rule above.
    unsafe { raw::mk_framer_idle(control.as_mut_ptr(), control.len()) }
}

pub(crate) fn framer_hear(control: &mut [u8], line: &mut [u8], event: u32) -> (u32, [usize; HEAD_VALUES]) {
    let mut head = [0; HEAD_VALUES];
    let (state, to) = (control.as_mut_ptr(), line.as_mut_ptr());
    // SAFETY: the rule above.
    let number = unsafe { raw::mk_framer_hear(state, control.len(), to, line.len(), event, &mut head) };
    (number, head)
}

/// The short way of hub and reader. Too few control bytes are left to the call, which refuses them.
#[inline]
pub(crate) fn go_on(control: &mut [u8], line: &mut [u8; LINE_SIZE], event: u32) -> bool {
    let Some(front) = control.first_chunk_mut::<GOING_SIZE>() else { return false };
    // SAFETY: the rule above.
    unsafe { raw::mk_go_on(front, line, event) }
}

pub(crate) fn hub_on(control: &mut [u8]) -> u32 {
    // SAFETY: the rule above.
    unsafe { raw::mk_hub_on(control.as_mut_ptr(), control.len()) }
}

pub(crate) fn hub_hear(
    control: &mut [u8],
    line: &mut [u8; LINE_SIZE],
    gather: &mut [u8; MESSAGE_SIZE],
    answer: &mut [u8],
    message: &mut [u8],
    event: u32,
) -> (u32, [usize; HUB_VALUES]) {
    let mut values = [0; HUB_VALUES];
    // SAFETY: the rule above.
    let number = unsafe {
        raw::mk_hub_hear(
            control.as_mut_ptr(),
            control.len(),
            line,
            gather,
            answer.as_mut_ptr(),
            answer.len(),
            message.as_mut_ptr(),
            message.len(),
            event,
            &mut values,
        )
    };
    (number, values)
}

pub(crate) fn hub_hear_block(
    control: &mut [u8],
    line: &mut [u8; LINE_SIZE],
    gather: &mut [u8; MESSAGE_SIZE],
    answer: &mut [u8],
    message: &mut [u8],
    bytes: &[u8],
) -> (u32, [usize; BLOCK_VALUES]) {
    let mut values = [0; BLOCK_VALUES];
    // SAFETY: the rule above.
    let number = unsafe {
        raw::mk_hub_hear_block(
            control.as_mut_ptr(),
            control.len(),
            line,
            gather,
            answer.as_mut_ptr(),
            answer.len(),
            message.as_mut_ptr(),
            message.len(),
            bytes.as_ptr(),
            bytes.len(),
            &mut values,
        )
    };
    (number, values)
}

pub(crate) fn sender_idle(control: &mut [u8], failed: bool) -> u32 {
    // SAFETY: the rule above.
    unsafe { raw::mk_sender_idle(control.as_mut_ptr(), control.len(), failed) }
}

pub(crate) fn sender_start(
    control: &mut [u8],
    buffer: &mut [u8; MESSAGE_SIZE],
    room: &mut [u8],
    code: u8,
    message: &[u8],
) -> (u32, [usize; START_VALUES]) {
    let mut values = [0; START_VALUES];
    // SAFETY: the rule above.
    let number = unsafe {
        raw::mk_sender_start(
            control.as_mut_ptr(),
            control.len(),
            buffer,
            room.as_mut_ptr(),
            room.len(),
            code,
            message.as_ptr(),
            message.len(),
            &mut values,
        )
    };
    (number, values)
}

pub(crate) fn sender_hear(
    control: &mut [u8],
    buffer: &[u8; MESSAGE_SIZE],
    room: &mut [u8],
    heard: u32,
) -> (u32, usize) {
    let mut value = 0;
    let (state, to) = (control.as_mut_ptr(), room.as_mut_ptr());
    // SAFETY: the rule above.
    let number = unsafe { raw::mk_sender_hear(state, control.len(), buffer, to, room.len(), heard, &mut value) };
    (number, value)
}

pub(crate) fn sender_waits(control: &[u8]) -> u32 {
    // SAFETY: the rule above.
    unsafe { raw::mk_sender_waits(control.as_ptr(), control.len()) }
}

pub(crate) fn sender_heed(opcode: u8, source: u8, status: u8, data: &[u8]) -> u32 {
    // SAFETY: the rule above.
    unsafe { raw::mk_sender_heed(opcode, source, status, data.as_ptr(), data.len()) }
}

pub(crate) fn reader_on(control: &mut [u8]) -> u32 {
    // SAFETY: the rule above.
    unsafe { raw::mk_reader_on(control.as_mut_ptr(), control.len()) }
}

pub(crate) fn reader_power_up(control: &mut [u8]) -> u32 {
    // SAFETY: the rule above.
    unsafe { raw::mk_reader_power_up(control.as_mut_ptr(), control.len()) }
}

pub(crate) fn reader_start(
    control: &mut [u8],
    message: &mut [u8; MESSAGE_SIZE],
    copy: &mut [u8],
    code: u8,
    bytes: &[u8],
) -> (u32, [usize; START_VALUES]) {
    let mut values = [0; START_VALUES];
    // SAFETY: the rule above.
    let number = unsafe {
        raw::mk_reader_start(
            control.as_mut_ptr(),
            control.len(),
            message,
            copy.as_mut_ptr(),
            copy.len(),
            code,
            bytes.as_ptr(),
            bytes.len(),
            &mut values,
        )
    };
    (number, values)
}

pub(crate) fn reader_time_out(control: &mut [u8], message: &[u8; MESSAGE_SIZE], copy: &mut [u8]) -> (u32, usize) {
    let mut value = 0;
    let (state, to) = (control.as_mut_ptr(), copy.as_mut_ptr());
    // SAFETY: the rule above.
    let number = unsafe { raw::mk_reader_time_out(state, control.len(), message, to, copy.len(), &mut value) };
    (number, value)
}

pub(crate) fn reader_hear(
    control: &mut [u8],
    line: &mut [u8; LINE_SIZE],
    answers: &mut [u8; READER_ANSWER_SIZE],
    message: &[u8; MESSAGE_SIZE],
    answer: &mut [u8],
    copy: &mut [u8],
    event: u32,
) -> (u32, [usize; READER_VALUES]) {
    let mut values = [0; READER_VALUES];
    // SAFETY: the rule above.
    let number = unsafe {
        raw::mk_reader_hear(
            control.as_mut_ptr(),
            control.len(),
            line,
            answers,
            message,
            answer.as_mut_ptr(),
            answer.len(),
            copy.as_mut_ptr(),
            copy.len(),
            event,
            &mut values,
        )
    };
    (number, values)
}

pub(crate) fn reader_save(control: &[u8], room: &mut [u8]) -> (u32, usize) {
    let mut size = 0;
    let (state, to) = (control.as_ptr(), room.as_mut_ptr());
    // SAFETY: the rule above.
    let number = unsafe { raw::mk_reader_save(state, control.len(), to, room.len(), &mut size) };
    (number, size)
}

pub(crate) fn reader_load(control: &mut [u8], form: &[u8]) -> u32 {
    // SAFETY: the rule above.
    unsafe { raw::mk_reader_load(control.as_mut_ptr(), control.len(), form.as_ptr(), form.len()) }
}

pub(crate) fn reader_locked(control: &[u8], number: u8) -> (u32, usize) {
    let mut value = 0;
    // SAFETY: the rule above.
    let told = unsafe { raw::mk_reader_locked(control.as_ptr(), control.len(), number, &mut value) };
    (told, value)
}

pub(crate) fn reader_value(control: &[u8], number: u8) -> (u32, usize) {
    let mut value = 0;
    // SAFETY: the rule above.
    let told = unsafe { raw::mk_reader_value(control.as_ptr(), control.len(), number, &mut value) };
    (told, value)
}

pub(crate) fn reader_switches(control: &[u8]) -> (u32, [usize; SWITCH_VALUES]) {
    let mut values = [0; SWITCH_VALUES];
    // SAFETY: the rule above.
    let told = unsafe { raw::mk_reader_switches(control.as_ptr(), control.len(), &mut values) };
    (told, values)
}

pub(crate) fn reader_table(control: &[u8], table: &mut Table) -> u32 {
    // SAFETY: the rule above.
    unsafe { raw::mk_reader_table(control.as_ptr(), control.len(), table) }
}

pub(crate) fn reader_put_table(control: &mut [u8], table: &Table) -> u32 {
    // SAFETY: the rule above.
    unsafe { raw::mk_reader_put_table(control.as_mut_ptr(), control.len(), table) }
}

pub(crate) fn table_set(table: &mut Table, pairs: &[u8], permanent: bool) -> u32 {
    // SAFETY: the rule above.
    unsafe { raw::mk_table_set(table, pairs.as_ptr(), pairs.len(), permanent) }
}

pub(crate) fn table_set_defaults(table: &mut Table) {
    // SAFETY: the rule above.
    unsafe { raw::mk_table_set_defaults(table) }
}

pub(crate) fn table_power_up(table: &mut Table) {
    // SAFETY: the rule above.
    unsafe { raw::mk_table_power_up(table) }
}
