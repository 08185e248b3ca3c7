//! The proved library through its crate's own types, as a firmware in Rust uses it: whatever short way these take is
//! timed too. Packets are here through the raw calls as well, as a firmware in C makes them, and through these alone
//! blocks, as they lend a room for the answers, and a board's table, as any bytes are one.

use std::mem::MaybeUninit;

use motikhund::constants::{BLOCK_VALUES, HEAD_VALUES, HUB_CONTROL_SIZE, HUB_VALUES, LINE_SIZE};
use motikhund::packet::Head;
use motikhund::raw::{mk_build, mk_check, mk_hub_hear, mk_hub_hear_block, mk_hub_on};
use motikhund::raw::{mk_table_power_up, mk_table_set, mk_table_set_defaults};
use motikhund::{packet, Heard, HubTold, Outcome, ReaderTold};

use crate::calls::{self, Event, Fields, Told, HUB_ANSWER, MESSAGE, PACKET};
use crate::calls::{ACTED, ADDED, COPY, DELIVERED, FAILED, FOUND, HANDED_OUT, REPEATED, WRITTEN};

pub struct Packets([u8; PACKET]);

pub struct Hub(motikhund::Hub);

pub struct Sender(motikhund::Sender);

pub struct Reader(motikhund::Reader);

fn refused<'a>(why: motikhund::Refusal, packet: &'a [u8]) -> Told<'a> {
    Told { number: why.number(), packet, ..Told::default() }
}

impl calls::Packets for Packets {
    fn new() -> Packets {
        Packets([0; PACKET])
    }

    #[inline(always)]
    fn check(&self, bytes: &[u8]) -> Told<'_> {
        match packet::check(bytes) {
            Ok(Head { length, opcode, source, status }) => {
                Told { number: FOUND, values: [length as u8, opcode, source, status], ..Told::default() }
            }
            Err(why) => refused(why, &[]),
        }
    }

    #[inline(always)]
    fn build(&mut self, Fields { opcode, source, status, data }: Fields) -> Told<'_> {
        match packet::build(&mut self.0, opcode, source, status, data) {
            Ok(packet) => Told { number: WRITTEN, packet, ..Told::default() },
            Err(why) => refused(why, &[]),
        }
    }
}

/// What a call is lent for the numbers that it tells is not filled first, as in C.
pub struct RawPackets([u8; PACKET]);

// SAFETY, for both calls: each pointer is that of a live reference, with its own length where the call takes one; and
// each writes all the numbers that it is lent room for, whatever it tells.
impl calls::Packets for RawPackets {
    fn new() -> RawPackets {
        RawPackets([0; PACKET])
    }

    #[inline(always)]
    fn check(&self, bytes: &[u8]) -> Told<'_> {
        let mut head = MaybeUninit::<[usize; HEAD_VALUES]>::uninit();
        let number = unsafe { mk_check(bytes.as_ptr(), bytes.len(), head.as_mut_ptr()) };
        let values = unsafe { head.assume_init() }.map(|value| value as u8);
        Told { number, values, ..Told::default() }
    }

    #[inline(always)]
    fn build(&mut self, Fields { opcode, source, status, data }: Fields) -> Told<'_> {
        let RawPackets(room) = self;
        let (at, count) = (room.as_mut_ptr(), room.len());
        let mut size = MaybeUninit::uninit();
        let number =
            unsafe { mk_build(at, count, opcode, source, status, data.as_ptr(), data.len(), size.as_mut_ptr()) };
        Told { number, packet: &room[..unsafe { size.assume_init() }], ..Told::default() }
    }
}

impl calls::Machine for Hub {
    fn new() -> Hub {
        Hub(motikhund::Hub::new())
    }

    /// A message gap does it, and does not fill the buffers anew.
    fn switch_on(&mut self) {
        let _ = self.0.event(Event::MessageGap);
    }

    #[inline(always)]
    fn event(&mut self, event: Event) -> Told<'_> {
        match self.0.event(event) {
            HubTold::Nothing => Told::default(),
            HubTold::Added { answer } => Told { number: ADDED, packet: answer, ..Told::default() },
            HubTold::Repeated { answer } => Told { number: REPEATED, packet: answer, ..Told::default() },
            HubTold::Message { code, message, answer } => {
                Told { number: HANDED_OUT, values: [code, 0, 0, 0], packet: answer, message, taken: 0 }
            }
            HubTold::Refused { why, answer } => refused(why, answer),
        }
    }
}

/// A hub through the raw calls.
pub struct RawHub {
    pub control: [u8; HUB_CONTROL_SIZE],
    pub line: [u8; LINE_SIZE],
    pub gather: [u8; MESSAGE],
    answer: [u8; HUB_ANSWER],
    pub message: [u8; MESSAGE],
}

// SAFETY, for every call here: each pointer is that of a live reference, with its own length where the call takes one.

impl calls::Machine for RawHub {
    fn new() -> RawHub {
        let mut hub = RawHub {
            control: [0; HUB_CONTROL_SIZE],
            line: [0; LINE_SIZE],
            gather: [0; MESSAGE],
            answer: [0; HUB_ANSWER],
            message: [0; MESSAGE],
        };
        hub.switch_on();
        hub
    }

    fn switch_on(&mut self) {
        unsafe { mk_hub_on(self.control.as_mut_ptr(), self.control.len()) };
    }

    fn event(&mut self, event: Event) -> Told<'_> {
        let RawHub { control, line, gather, answer, message } = self;
        let mut values = [0; HUB_VALUES];
        let number = unsafe {
            mk_hub_hear(
                control.as_mut_ptr(),
                control.len(),
                line,
                gather,
                answer.as_mut_ptr(),
                answer.len(),
                message.as_mut_ptr(),
                message.len(),
                event.number(),
                &mut values,
            )
        };
        let [size, code, count] = values;
        let (packet, message) = (&answer[..size], &message[..count]);
        Told { number, values: [code as u8, 0, 0, 0], packet, message, taken: 0 }
    }
}

impl calls::Blocks for RawHub {
    fn block<'a>(&'a mut self, bytes: &[u8], room: &'a mut [u8]) -> Told<'a> {
        let RawHub { control, line, gather, message, .. } = self;
        let mut values = [0; BLOCK_VALUES];
        let number = unsafe {
            mk_hub_hear_block(
                control.as_mut_ptr(),
                control.len(),
                line,
                gather,
                room.as_mut_ptr(),
                room.len(),
                message.as_mut_ptr(),
                message.len(),
                bytes.as_ptr(),
                bytes.len(),
                &mut values,
            )
        };
        let [size, code, count, taken] = values;
        let (packet, message) = (&room[..size], &message[..count]);
        Told { number, values: [code as u8, 0, 0, 0], packet, message, taken }
    }
}

calls::table_through!(mk_table_set, mk_table_set_defaults, mk_table_power_up);

fn ended(number: u32, copies: usize) -> Told<'static> {
    Told { number, values: [copies as u8, 0, 0, 0], ..Told::default() }
}

#[inline(always)]
fn sent(outcome: Outcome<'_>) -> Told<'_> {
    match outcome {
        Outcome::Nothing => Told::default(),
        Outcome::Copy { copy, gap } => {
            Told { number: COPY, values: [gap.into(), 0, 0, 0], packet: copy, ..Told::default() }
        }
        Outcome::Delivered { copies } => ended(DELIVERED, copies),
        Outcome::Failed { copies } => ended(FAILED, copies),
        Outcome::Refused(why) => refused(why, &[]),
    }
}

impl calls::Sender for Sender {
    fn new() -> Sender {
        Sender(motikhund::Sender::new())
    }

    fn idle(&mut self) {
        if self.0.out() {
            self.0 = motikhund::Sender::new();
        }
    }

    #[inline(always)]
    fn start(&mut self, code: u8, message: &[u8]) -> Told<'_> {
        sent(self.0.send(code, message))
    }

    #[inline(always)]
    fn hear(&mut self, heard: u32) -> Told<'_> {
        sent(self.0.heard(Heard::from_number(heard)))
    }
}

impl calls::Machine for Reader {
    fn new() -> Reader {
        Reader(motikhund::Reader::new())
    }

    fn switch_on(&mut self) {
        self.0 = motikhund::Reader::new();
    }

    #[inline(always)]
    fn event(&mut self, event: Event) -> Told<'_> {
        match self.0.event(event) {
            ReaderTold::Nothing => Told::default(),
            ReaderTold::Acted { beep, permanent, answer } => {
                let [duration, pitch, count] = beep.map_or([0; 3], |beep| [beep.duration, beep.pitch, beep.count]);
                let values = [duration, pitch, count, permanent.into()];
                Told { number: ACTED, values, packet: answer, ..Told::default() }
            }
            ReaderTold::Repeated { answer } => Told { number: REPEATED, packet: answer, ..Told::default() },
            ReaderTold::Refused { why, answer } => refused(why, answer),
            ReaderTold::Copy(packet) => Told { number: COPY, packet, ..Told::default() },
            ReaderTold::Delivered { copies } => ended(DELIVERED, copies),
            ReaderTold::Failed { copies } => ended(FAILED, copies),
        }
    }
}
