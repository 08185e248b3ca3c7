//! The calls that are timed, in the shape in which a firmware makes them. Three programs stand behind them: the proved
//! library (proved.rs), the peer (peer.rs) and the second program (other.rs).

pub use motikhund::Event;

/// What a sender hears.
pub const NAK_RESEND: u32 = 1;
pub const ACK: u32 = 256;
pub const TIME_OUT: u32 = 257;

/// The numbers that are told: a refusal's, or one of these.
pub const FOUND: u32 = 100;
pub const WRITTEN: u32 = 101;
pub const ADDED: u32 = 110;
pub const REPEATED: u32 = 111;
pub const HANDED_OUT: u32 = 112;
pub const COPY: u32 = 120;
pub const DELIVERED: u32 = 121;
pub const FAILED: u32 = 122;
pub const ACTED: u32 = 130;

pub const MESSAGE: usize = 4_096;
/// The longest block, and the room for answers that one is lent where it is timed, as in passes.c.
pub const BLOCK: usize = 4_096;
pub const BLOCK_ANSWERS: usize = 64;
pub const PACKET: usize = 257;
pub const HUB_ANSWER: usize = 7;
pub const READER_ANSWER: usize = 25;
pub const SET: usize = 30;
/// A parameter table: present values, permanent values and locks, nine of each.
pub const TABLE: usize = 27;

/// What a call brought, of whichever kind. What a call has none of is empty or 0.
#[derive(Clone, Copy, Default, PartialEq)]
pub struct Told<'a> {
    pub number: u32,
    /// The head that the check found; a message's code type; a beep, and 1 where a permanent value changed; 1 where a
    /// message gap is due before a copy; how often a message was resent.
    pub values: [u8; 4],
    /// What goes on the line: an answer, those of a block, a copy, a packet that was built. Or a saved set.
    pub packet: &'a [u8],
    /// A message that was handed out, or all bytes of the table that was altered.
    pub message: &'a [u8],
    /// How many bytes a block call took.
    pub taken: usize,
}

/// A packet's fields, to build it.
#[derive(Clone, Copy)]
pub struct Fields<'a> {
    pub opcode: u8,
    pub source: u8,
    pub status: u8,
    pub data: &'a [u8],
}

pub trait Packets {
    fn new() -> Self;
    fn check(&self, bytes: &[u8]) -> Told<'_>;
    fn build(&mut self, fields: Fields) -> Told<'_>;
}

/// A hub or a reader, whose buffers are its own.
pub trait Machine {
    fn new() -> Self;
    fn switch_on(&mut self);
    fn event(&mut self, event: Event) -> Told<'_>;
}

/// A hub that takes blocks, with its answers in a room that is lent.
pub trait Blocks: Machine {
    fn block<'a>(&'a mut self, bytes: &[u8], room: &'a mut [u8]) -> Told<'a>;
}

/// A parameter table that a board keeps, altered where it stands. Any bytes are one.
pub trait Table {
    fn of(bytes: [u8; TABLE]) -> Self;
    fn bytes(&self) -> &[u8; TABLE];
    /// Tells the number.
    fn set(&mut self, pairs: &[u8], permanent: bool) -> u32;
    fn defaults(&mut self);
    fn power_up(&mut self);
}

/// A table as its bytes, through foreign calls that alter it: the library's, or the peer's.
///
/// SAFETY, of every call: a table of either is these bytes and no others, and pairs have their own length.
macro_rules! table_through {
    ($set:ident, $defaults:ident, $power_up:ident) => {
        pub struct Table([u8; $crate::calls::TABLE]);

        impl $crate::calls::Table for Table {
            fn of(bytes: [u8; $crate::calls::TABLE]) -> Table {
                Table(bytes)
            }

            fn bytes(&self) -> &[u8; $crate::calls::TABLE] {
                &self.0
            }

            #[inline(always)]
            fn set(&mut self, pairs: &[u8], permanent: bool) -> u32 {
                unsafe { $set(self.0.as_mut_ptr().cast(), pairs.as_ptr(), pairs.len(), permanent) }
            }

            fn defaults(&mut self) {
                unsafe { $defaults(self.0.as_mut_ptr().cast()) };
            }

            fn power_up(&mut self) {
                unsafe { $power_up(self.0.as_mut_ptr().cast()) };
            }
        }
    };
}
pub(crate) use table_through;

pub trait Sender {
    fn new() -> Self;
    fn idle(&mut self);
    fn start(&mut self, code: u8, message: &[u8]) -> Told<'_>;
    fn hear(&mut self, heard: u32) -> Told<'_>;
}
