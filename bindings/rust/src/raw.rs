//! The library's calls as they stand in the archive, for those who want them bare. [`lent`](crate::lent) has the same
//! calls by the same names over slices, without `unsafe`; [`constants`](crate::constants) names every number here.
//!
//! Each takes a slice as a pointer and a length; a fixed array or a table is a pointer alone. Each gives 0
//! ([`NOTHING`](crate::constants::NOTHING)), a refusal's number ([`Refusal`](crate::Refusal)), or a number of 100 and
//! above, and tells its values beside it; with a refusal they are 0, but for the size of an answer and the bytes taken
//! of a block. Two that refuse nothing give nothing ([`mk_table_set_defaults`], [`mk_table_power_up`]). What each promises
//! is proved where it is written, in `crates/motikhund`: it ends, and reads and writes only what it is lent, whatever
//! the bytes in it are.
//!
//! # Safety
//!
//! For every call: each pointer is valid for reads, and a `*mut` also for writes, of the length that comes with it, or
//! of its array or table; it is not null, even where the length is 0; and nothing else uses those bytes while the call
//! runs, nor do two pointers of one call overlap. Alignment is asked for only of the numbers told (`head`, `size`,
//! `value`, `values`). No call keeps a pointer.

use crate::constants::{
    BLOCK_VALUES, GOING_SIZE, HEAD_VALUES, HUB_VALUES, LINE_SIZE, MESSAGE_SIZE, READER_ANSWER_SIZE, READER_VALUES,
    START_VALUES, SWITCH_VALUES,
};
use crate::Table;

extern "C" {
    /// Judges the front of some bytes: `PACKET` and its head (`HEAD_..`), or `Cut`, `Length`, `Checksum`.
    ///
    /// # Safety
    /// As [above](self#safety).
    pub fn mk_check(bytes: *const u8, bytes_len: usize, head: *mut [usize; HEAD_VALUES]) -> u32;

    /// Builds a packet at the front of a room of `PACKET_SIZE`: `WRITTEN` and its size, or `Room`, `Source`, `Status`,
    /// `Data`.
    ///
    /// # Safety
    /// As [above](self#safety).
    pub fn mk_build(
        room: *mut u8,
        room_len: usize,
        opcode: u8,
        source: u8,
        status: u8,
        data: *const u8,
        data_len: usize,
        size: *mut usize,
    ) -> u32;

    /// Builds an ACK (`REPLY_ACK`) or a NAK (its cause) at the front of a room of `ANSWER_SIZE`: `WRITTEN` and its
    /// size. Or, in this order, `Room`; `NOTHING` for any other reply; `Source`.
    ///
    /// # Safety
    /// As [above](self#safety).
    pub fn mk_answer(room: *mut u8, room_len: usize, source: u8, reply: u32, size: *mut usize) -> u32;

    /// Makes the control value (`FRAMER_CONTROL_SIZE`) of a framer with nothing begun: `NOTHING` or `Room`.
    ///
    /// # Safety
    /// As [above](self#safety).
    pub fn mk_framer_idle(control: *mut u8, control_len: usize) -> u32;

    /// One event of a line, whose buffer has `PACKET_SIZE`: `PACKET` and the head of the packet at its front,
    /// `NOTHING`, or `Length`, `Checksum`, `Cut`, `Room`.
    ///
    /// # Safety
    /// As [above](self#safety).
    pub fn mk_framer_hear(
        control: *mut u8,
        control_len: usize,
        line: *mut u8,
        line_len: usize,
        event: u32,
        head: *mut [usize; HEAD_VALUES],
    ) -> u32;

    /// The short way of hub and reader: a byte or a character gap of which the framer tells nothing. `control` is the
    /// front of a hub's or a reader's control value. `true`: taken, with nothing to tell, as [`mk_hub_hear`] or
    /// [`mk_reader_hear`] does it with rooms of full size. `false`: nothing was changed, and the event is for that
    /// call. It is lent no rooms and cannot tell `Room`: who lends rooms to those calls looks at their sizes first. It
    /// is not for a framer alone, whose control value and line are smaller.
    ///
    /// # Safety
    /// As [above](self#safety).
    pub fn mk_go_on(control: *mut [u8; GOING_SIZE], line: *mut [u8; LINE_SIZE], event: u32) -> bool;

    /// Makes the control value (`HUB_CONTROL_SIZE`) of a hub just switched on: `NOTHING` or `Room`.
    ///
    /// # Safety
    /// As [above](self#safety).
    pub fn mk_hub_on(control: *mut u8, control_len: usize) -> u32;

    /// One event at the hub: `ADDED`, `REPEATED`, `MESSAGE`, `NOTHING`, or a refusal; the values are `HUB_VALUE_..`.
    /// The answer room has `HUB_ANSWER_SIZE`, the message room `MESSAGE_SIZE`.
    ///
    /// # Safety
    /// As [above](self#safety).
    pub fn mk_hub_hear(
        control: *mut u8,
        control_len: usize,
        line: *mut [u8; LINE_SIZE],
        gather: *mut [u8; MESSAGE_SIZE],
        answer: *mut u8,
        answer_len: usize,
        message: *mut u8,
        message_len: usize,
        event: u32,
        values: *mut [usize; HUB_VALUES],
    ) -> u32;

    /// A block of up to `BLOCK_SIZE` bytes with no gap among them at the hub, as [`mk_hub_hear`] takes them one by one:
    /// `MESSAGE`, `Length`, `Checksum` or `NOTHING`; the values are `BLOCK_VALUE_..`. It leaves where a message is
    /// whole, and where fewer than `HUB_ANSWER_SIZE` bytes of the answer room are left; bytes that were not taken are
    /// for a next call. Or, in this order, `Room`; `Long`. The rooms are those of an event; an answer room of more
    /// bytes has room for more answers.
    ///
    /// # Safety
    /// As [above](self#safety).
    pub fn mk_hub_hear_block(
        control: *mut u8,
        control_len: usize,
        line: *mut [u8; LINE_SIZE],
        gather: *mut [u8; MESSAGE_SIZE],
        answer: *mut u8,
        answer_len: usize,
        message: *mut u8,
        message_len: usize,
        bytes: *const u8,
        bytes_len: usize,
        values: *mut [usize; BLOCK_VALUES],
    ) -> u32;

    /// Makes the control value (`SENDER_CONTROL_SIZE`) of a sender with nothing out, after a message that failed or
    /// not: `NOTHING` or `Room`.
    ///
    /// # Safety
    /// As [above](self#safety).
    pub fn mk_sender_idle(control: *mut u8, control_len: usize, failed: bool) -> u32;

    /// Starts a message, which is copied into the buffer: `COPY`, with the size of the packet in the room
    /// (`PACKET_SIZE`) and whether a message gap is due before it; or `Room`, `Start`. The values are `START_VALUE_..`.
    /// The buffer is the sender's own between calls, also with nothing out: the last packet of the message before stands
    /// in it, by which the gap is told.
    ///
    /// # Safety
    /// As [above](self#safety).
    pub fn mk_sender_start(
        control: *mut u8,
        control_len: usize,
        buffer: *mut [u8; MESSAGE_SIZE],
        room: *mut u8,
        room_len: usize,
        code: u8,
        message: *const u8,
        message_len: usize,
        values: *mut [usize; START_VALUES],
    ) -> u32;

    /// One thing heard of the host (`HEARD_..` or a NAK's cause): `COPY` and its size, `DELIVERED` or `FAILED` and the
    /// message's marked copies, `NOTHING` or `Room`.
    ///
    /// # Safety
    /// As [above](self#safety).
    pub fn mk_sender_hear(
        control: *mut u8,
        control_len: usize,
        buffer: *const [u8; MESSAGE_SIZE],
        room: *mut u8,
        room_len: usize,
        heard: u32,
        value: *mut usize,
    ) -> u32;

    /// `OUT` where a message is out, `NOTHING` where none is, or `Room`.
    ///
    /// # Safety
    /// As [above](self#safety).
    pub fn mk_sender_waits(control: *const u8, control_len: usize) -> u32;

    /// What a sender hears of a packet with these fields and data, as [`mk_sender_hear`] takes it.
    ///
    /// # Safety
    /// As [above](self#safety).
    pub fn mk_sender_heed(opcode: u8, source: u8, status: u8, data: *const u8, data_len: usize) -> u32;

    /// Makes the control value (`READER_CONTROL_SIZE`) of a reader switched on with the house defaults: `NOTHING` or
    /// `Room`.
    ///
    /// # Safety
    /// As [above](self#safety).
    pub fn mk_reader_on(control: *mut u8, control_len: usize) -> u32;

    /// Power-up: permanent values become present ones, locks stay, all that came or was out is forgotten. `NOTHING` or
    /// `Room`.
    ///
    /// # Safety
    /// As [above](self#safety).
    pub fn mk_reader_power_up(control: *mut u8, control_len: usize) -> u32;

    /// As [`mk_sender_start`], by the reader's sender.
    ///
    /// # Safety
    /// As [above](self#safety).
    pub fn mk_reader_start(
        control: *mut u8,
        control_len: usize,
        message: *mut [u8; MESSAGE_SIZE],
        copy: *mut u8,
        copy_len: usize,
        code: u8,
        bytes: *const u8,
        bytes_len: usize,
        values: *mut [usize; START_VALUES],
    ) -> u32;

    /// As [`mk_sender_hear`] with `HEARD_TIME_OUT`, by the reader's sender.
    ///
    /// # Safety
    /// As [above](self#safety).
    pub fn mk_reader_time_out(
        control: *mut u8,
        control_len: usize,
        message: *const [u8; MESSAGE_SIZE],
        copy: *mut u8,
        copy_len: usize,
        value: *mut usize,
    ) -> u32;

    /// One event at the reader: of a command `ACTED`, `REPEATED` or a refusal; of an ACK or NAK that the sender heeds
    /// `COPY`, `DELIVERED` or `FAILED`; else `NOTHING` or `Room`. The values are `READER_VALUE_..`. The answer room has
    /// `READER_ANSWER_SIZE`, the copy room `PACKET_SIZE`; `answers` keeps the last answer for a resend.
    ///
    /// # Safety
    /// As [above](self#safety).
    pub fn mk_reader_hear(
        control: *mut u8,
        control_len: usize,
        line: *mut [u8; LINE_SIZE],
        answers: *mut [u8; READER_ANSWER_SIZE],
        message: *const [u8; MESSAGE_SIZE],
        answer: *mut u8,
        answer_len: usize,
        copy: *mut u8,
        copy_len: usize,
        event: u32,
        values: *mut [usize; READER_VALUES],
    ) -> u32;

    /// Writes the permanent values and the locks as the form of a set, at the front of a room of `SET_SIZE`: `WRITTEN`
    /// and its size (21 to 30), or `Room`.
    ///
    /// # Safety
    /// As [above](self#safety).
    pub fn mk_reader_save(
        control: *const u8,
        control_len: usize,
        room: *mut u8,
        room_len: usize,
        size: *mut usize,
    ) -> u32;

    /// Reads the form of a set, of just so many bytes: `NOTHING`, and permanent values, present values and locks are
    /// those of the set, the last accepted packet is forgotten, and all else stays. Or, in this order, `Form`; `Room`.
    ///
    /// # Safety
    /// As [above](self#safety).
    pub fn mk_reader_load(control: *mut u8, control_len: usize, form: *const u8, form_len: usize) -> u32;

    /// Whether a parameter is locked, 1 or 0; 0 where there is no such parameter: `NOTHING` or `Room`.
    ///
    /// # Safety
    /// As [above](self#safety).
    pub fn mk_reader_locked(control: *const u8, control_len: usize, number: u8, value: *mut usize) -> u32;

    /// The present value of a parameter, 0 where there is no such parameter: `NOTHING` or `Room`.
    ///
    /// # Safety
    /// As [above](self#safety).
    pub fn mk_reader_value(control: *const u8, control_len: usize, number: u8, value: *mut usize) -> u32;

    /// What the commands have switched on; the values are `SWITCH_..`, each 1 or 0. `NOTHING` or `Room`.
    ///
    /// # Safety
    /// As [above](self#safety).
    pub fn mk_reader_switches(control: *const u8, control_len: usize, values: *mut [usize; SWITCH_VALUES]) -> u32;

    /// Takes a reader's table out, each lock as 1 or 0: `NOTHING`; or `Room`, and the table is left as it was.
    ///
    /// # Safety
    /// As [above](self#safety).
    pub fn mk_reader_table(control: *const u8, control_len: usize, table: *mut Table) -> u32;

    /// Puts a table into a reader: `NOTHING`, and values and locks are those of the table, the last accepted packet is
    /// forgotten, and all else stays. Or, in this order, `Room`; `Setting` for a value that its parameter does not
    /// take. Then every control byte stays.
    ///
    /// # Safety
    /// As [above](self#safety).
    pub fn mk_reader_put_table(control: *mut u8, control_len: usize, table: *const Table) -> u32;

    /// Sets a list of pairs, number and value, all or nothing, the present values or both: `NOTHING`; or, in this
    /// order, `Data` for an odd number of bytes; `Setting`. Then not a byte of the table changes.
    ///
    /// # Safety
    /// As [above](self#safety).
    pub fn mk_table_set(table: *mut Table, pairs: *const u8, pairs_len: usize, permanent: bool) -> u32;

    /// Every parameter that is not locked gets its house default, present and permanent.
    ///
    /// # Safety
    /// As [above](self#safety).
    pub fn mk_table_set_defaults(table: *mut Table);

    /// The permanent values become the present ones.
    ///
    /// # Safety
    /// As [above](self#safety).
    pub fn mk_table_power_up(table: *mut Table);
}
