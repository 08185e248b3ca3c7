//! The peer's calls, as peer/peer.h declares them.

use std::mem::{size_of, MaybeUninit};
use std::slice;

use crate::calls::{self, Event, Fields, Told, HUB_ANSWER, MESSAGE, PACKET, READER_ANSWER, SET, TABLE};

const PARAMETERS: usize = 9;

#[repr(C)]
pub struct CFramer {
    at: u32,
    last: u32,
    sum: u32,
    start: u32,
    deaf: bool,
    accepted: bool,
    line: [u8; 2 * PACKET],
}

#[repr(C)]
pub struct CHub {
    framer: CFramer,
    barred: bool,
    open: bool,
    code: u8,
    count: u16,
    gather: [u8; MESSAGE],
    pub answer: [u8; HUB_ANSWER],
    pub message: [u8; MESSAGE],
}

#[repr(C)]
pub struct CSender {
    out: bool,
    before: u8,
    code: u8,
    resends: u8,
    marked: u8,
    piece: u8,
    size: u16,
    place: u16,
    message: [u8; MESSAGE],
    pub copy: [u8; PACKET],
}

#[repr(C)]
pub struct CTable {
    pub present: [u8; PARAMETERS],
    pub permanent: [u8; PARAMETERS],
    pub locked: [u8; PARAMETERS],
}

#[repr(C)]
pub struct CReader {
    framer: CFramer,
    pub table: CTable,
    /// Scanning, session, aim, LED.
    pub switches: [bool; 4],
    kept_size: u8,
    kept: [u8; READER_ANSWER],
    pub answer: [u8; READER_ANSWER],
    pub sender: CSender,
}

#[repr(C)]
pub struct Checked {
    pub number: u32,
    head: [u8; 4],
}

#[repr(C)]
pub struct Built {
    pub number: u8,
    size: u16,
}

#[repr(C)]
pub struct CHubTold {
    pub number: u32,
    answer: u8,
    code: u8,
    count: u16,
}

#[repr(C)]
pub struct CBlockTold {
    pub number: u8,
    code: u8,
    answers: u16,
    count: u16,
    taken: u16,
}

#[repr(C)]
pub struct CSent {
    pub number: u8,
    gap: bool,
    value: u16,
}

#[repr(C)]
pub struct CReaderTold {
    pub number: u8,
    answer: u8,
    beep: [u8; 3],
    changed: bool,
    value: u16,
}

extern "C" {
    pub fn peer_check(bytes: *const u8, count: usize) -> Checked;
    pub fn peer_build(
        room: *mut u8,
        room_size: usize,
        opcode: u8,
        source: u8,
        status: u8,
        data: *const u8,
        count: usize,
    ) -> Built;
    fn peer_hub_init(hub: *mut CHub);
    pub fn peer_hub_event(hub: *mut CHub, event: u32) -> CHubTold;
    pub fn peer_hub_block(hub: *mut CHub, bytes: *const u8, size: usize, answers: *mut u8, room: usize) -> CBlockTold;
    fn peer_sender_init(sender: *mut CSender);
    pub fn peer_sender_send(sender: *mut CSender, code: u8, bytes: *const u8, count: usize) -> CSent;
    pub fn peer_sender_heard(sender: *mut CSender, heard: u32) -> CSent;
    pub fn peer_table_set(table: *mut CTable, pairs: *const u8, count: usize, permanently: bool) -> u32;
    pub fn peer_table_defaults(table: *mut CTable);
    pub fn peer_table_power_up(table: *mut CTable);
    fn peer_reader_init(reader: *mut CReader);
    fn peer_reader_restart(reader: *mut CReader);
    pub fn peer_reader_event(reader: *mut CReader, event: u32) -> CReaderTold;
    pub fn peer_reader_send(reader: *mut CReader, code: u8, bytes: *const u8, count: usize) -> CSent;
    pub fn peer_reader_expire(reader: *mut CReader) -> CSent;
    pub fn peer_reader_save(reader: *const CReader, room: *mut u8, room_size: usize) -> Built;
    pub fn peer_reader_load(reader: *mut CReader, form: *const u8, count: usize) -> u32;
    static peer_hub_size: usize;
    static peer_sender_size: usize;
    static peer_table_size: usize;
    static peer_reader_size: usize;
}

/// Whether the structs above are as large as those of C.
pub fn laid_out_alike() -> bool {
    // SAFETY: they are numbers that are never written to.
    let sizes = unsafe { [peer_hub_size, peer_sender_size, peer_table_size, peer_reader_size] };
    sizes == [size_of::<CHub>(), size_of::<CSender>(), TABLE, size_of::<CReader>()]
}

pub struct Packets(pub [u8; PACKET]);

pub struct Hub(pub Box<CHub>);

pub struct Sender(pub Box<CSender>);

pub struct Reader(pub Box<CReader>);

/// All of it 0: a value of each struct above, in which every field is a number or an array of them.
fn zeroed<T>() -> Box<T> {
    // SAFETY: it is used for the structs above alone.
    Box::new(unsafe { MaybeUninit::zeroed().assume_init() })
}

/// The front of a buffer. What the peer tells is never more than the buffer has, as it is compared before it is timed.
#[inline(always)]
fn front(bytes: &[u8], size: usize) -> &[u8] {
    debug_assert!(size <= bytes.len());
    // SAFETY: the above.
    unsafe { slice::from_raw_parts(bytes.as_ptr(), size) }
}

// SAFETY, for every call here: each pointer is that of a live reference, with its own length where the call takes one.

impl calls::Packets for Packets {
    fn new() -> Packets {
        Packets([0; PACKET])
    }

    #[inline(always)]
    fn check(&self, bytes: &[u8]) -> Told<'_> {
        let Checked { number, head } = unsafe { peer_check(bytes.as_ptr(), bytes.len()) };
        Told { number, values: head, ..Told::default() }
    }

    #[inline(always)]
    fn build(&mut self, Fields { opcode, source, status, data }: Fields) -> Told<'_> {
        let room = &mut self.0;
        let built =
            unsafe { peer_build(room.as_mut_ptr(), room.len(), opcode, source, status, data.as_ptr(), data.len()) };
        Told { number: built.number.into(), packet: front(room, built.size.into()), ..Told::default() }
    }
}

impl calls::Machine for Hub {
    fn new() -> Hub {
        let mut hub = Hub(zeroed());
        hub.switch_on();
        hub
    }

    fn switch_on(&mut self) {
        unsafe { peer_hub_init(&mut *self.0) };
    }

    #[inline(always)]
    fn event(&mut self, event: Event) -> Told<'_> {
        let CHubTold { number, answer, code, count } = unsafe { peer_hub_event(&mut *self.0, event.number()) };
        Told {
            number,
            values: [code, 0, 0, 0],
            packet: front(&self.0.answer, answer.into()),
            message: front(&self.0.message, count.into()),
            taken: 0,
        }
    }
}

impl calls::Blocks for Hub {
    fn block<'a>(&'a mut self, bytes: &[u8], room: &'a mut [u8]) -> Told<'a> {
        let told = unsafe { peer_hub_block(&mut *self.0, bytes.as_ptr(), bytes.len(), room.as_mut_ptr(), room.len()) };
        Told {
            number: told.number.into(),
            values: [told.code, 0, 0, 0],
            packet: &room[..told.answers.into()],
            message: &self.0.message[..told.count.into()],
            taken: told.taken.into(),
        }
    }
}

/// A copy's size is told in the same place as the number of resends.
#[inline(always)]
fn sent(sender: &CSender, CSent { number, gap, value }: CSent) -> Told<'_> {
    match number.into() {
        calls::COPY => {
            let packet = front(&sender.copy, value.into());
            Told { number: calls::COPY, values: [gap.into(), 0, 0, 0], packet, ..Told::default() }
        }
        number => Told { number, values: [value as u8, 0, 0, 0], ..Told::default() },
    }
}

impl calls::Sender for Sender {
    fn new() -> Sender {
        let mut sender = Sender(zeroed());
        sender.idle();
        sender
    }

    fn idle(&mut self) {
        unsafe { peer_sender_init(&mut *self.0) };
    }

    #[inline(always)]
    fn start(&mut self, code: u8, message: &[u8]) -> Told<'_> {
        let told = unsafe { peer_sender_send(&mut *self.0, code, message.as_ptr(), message.len()) };
        sent(&self.0, told)
    }

    #[inline(always)]
    fn hear(&mut self, heard: u32) -> Told<'_> {
        let told = unsafe { peer_sender_heard(&mut *self.0, heard) };
        sent(&self.0, told)
    }
}

calls::table_through!(peer_table_set, peer_table_defaults, peer_table_power_up);

impl calls::Machine for Reader {
    fn new() -> Reader {
        let mut reader = Reader(zeroed());
        reader.switch_on();
        reader
    }

    fn switch_on(&mut self) {
        unsafe { peer_reader_init(&mut *self.0) };
    }

    #[inline(always)]
    fn event(&mut self, event: Event) -> Told<'_> {
        let CReaderTold { number, answer, beep, changed, value } =
            unsafe { peer_reader_event(&mut *self.0, event.number()) };
        // What the sender made of an ACK or NAK comes with no answer and no beep.
        if value != 0 {
            return sent(&self.0.sender, CSent { number, gap: false, value });
        }
        let [duration, pitch, count] = beep;
        Told {
            number: number.into(),
            values: [duration, pitch, count, changed.into()],
            packet: front(&self.0.answer, answer.into()),
            ..Told::default()
        }
    }
}

/// What a reader's firmware does besides: these are compared, not timed.
impl Reader {
    pub fn power_up(&mut self) {
        unsafe { peer_reader_restart(&mut *self.0) };
    }

    /// The saved set stands at the front of the room.
    pub fn save<'a>(&self, room: &'a mut [u8; SET]) -> Told<'a> {
        let built = unsafe { peer_reader_save(&*self.0, room.as_mut_ptr(), room.len()) };
        Told { number: built.number.into(), packet: front(room, built.size.into()), ..Told::default() }
    }

    pub fn load(&mut self, form: &[u8]) -> Told<'_> {
        let number = unsafe { peer_reader_load(&mut *self.0, form.as_ptr(), form.len()) };
        Told { number, ..Told::default() }
    }

    pub fn start(&mut self, code: u8, message: &[u8]) -> Told<'_> {
        let told = unsafe { peer_reader_send(&mut *self.0, code, message.as_ptr(), message.len()) };
        sent(&self.0.sender, told)
    }

    pub fn time_out(&mut self) -> Told<'_> {
        let told = unsafe { peer_reader_expire(&mut *self.0) };
        sent(&self.0.sender, told)
    }
}
