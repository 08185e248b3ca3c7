//! The serial protocol core of a card reader for cupping tables and of the hub behind it, in Simple Serial Interface.
//! The core is proved where it is written (`crates/`); these are safe types over the static library made of it.
//! Nothing is allocated, nothing panics, and no call trusts its caller.
//!
//! [`Framer`], [`Hub`], [`Sender`] and [`Reader`] own their buffers: give them events, and send the answers and copies
//! that they hand out. [`Table`] is a reader's parameter table that a board keeps itself. [`lent`] has the same machines
//! over buffers that the caller keeps, [`packet`] the packet alone, [`constants`] every number by its name, [`raw`] the
//! archive's calls. Names are those of C: `Hub::event` is `mk_hub_event`, `lent::hub::hear` is `mk_hub_hear`.
//!
//! ```
//! use motikhund::{Event, Hub, HubTold};
//!
//! let mut hub = Hub::new();
//! let (mut sent, mut filed) = (Vec::new(), Vec::new());
//! for byte in [0x06, 0xF3, 0x00, 0x00, 0x1B, 0x38, 0xFE, 0xB4] {
//!     let told = hub.event(Event::Byte(byte));
//!     // The answer goes out first: filing may be slow, and the reader waits for no longer than its time-out.
//!     sent.extend_from_slice(told.answer());
//!     if let HubTold::Message { code, message, .. } = told {
//!         filed.push((code, message.to_vec()));
//!     }
//! }
//! assert_eq!(sent, [0x04, 0xD0, 0x04, 0x00, 0xFF, 0x28]);
//! assert_eq!(filed, [(0x1B, b"8".to_vec())]);
//! ```
//!
//! A hub whose bytes come by DMA takes them as they are handed over, a block at a time ([`Hub::block`]).
//!
//! A reader's sender speaks at a start, at a time-out and at an event; a copy goes on the line each time:
//!
//! ```
//! use motikhund::{Event, Outcome, Reader, ReaderTold};
//!
//! let mut reader = Reader::new();
//! let Outcome::Copy { copy, gap } = reader.send(0x1B, b"8") else { panic!("nothing was out") };
//! assert!(!gap); // else nothing is sent for a message gap before the copy is
//! let mut sent = copy.to_vec();
//! for byte in [0x05, 0xD1, 0x04, 0x00, 0x01, 0xFF, 0x25] { // the host's NAK 1: send it again
//!     let told = reader.event(Event::Byte(byte));
//!     sent.extend_from_slice(told.outgoing());
//!     match told {
//!         ReaderTold::Copy(_) => {} // start the response time-out behind it
//!         ReaderTold::Delivered { .. } | ReaderTold::Failed { .. } => {} // the message has ended
//!         ReaderTold::Acted { .. } => {} // sound the beep, read switches and parameters, save where it says so
//!         ReaderTold::Nothing | ReaderTold::Repeated { .. } | ReaderTold::Refused { .. } => {}
//!     }
//! }
//! let copies = [[0x06, 0xF3, 0, 0, 0x1B, 0x38, 0xFE, 0xB4], [0x06, 0xF3, 0, 1, 0x1B, 0x38, 0xFE, 0xB3]];
//! assert_eq!(sent, copies.concat());
//! ```
//!
//! # Linking
//!
//! The archive is for x86-64 Linux. The build script takes it from the directory that `MOTIKHUND_LIB` names, else from
//! `target/staticlib` of the repository that this crate stands in. Its calls stand in sections of their own, and
//! `rustc` drops what is not used: a program with a hub alone has no code of the reader.
//!
//! # Threads and interrupts
//!
//! Each machine is a value of bytes, 266 to 8,742 of them with an alignment of 1, and may be a `static`: `new` is a
//! `const fn`. They share nothing. That one machine is used from one context at a time is what `&mut` says; who shares
//! one with an interrupt puts it behind a lock that masks the interrupt, or lets the interrupt queue what came and the
//! main loop give the events, in order. Most events of a line are a call of some thirty instructions without a loop
//! ([`raw::mk_go_on`]); the last byte of a packet takes a hub some 2,500 at most, a reader some 10,000. With `raw` the
//! short way alone in the interrupt and the rest in the main loop is wrong: an event that it left must be taken before
//! any later one. It is right only where no event is queued and the main loop is in no call of that machine. Where DMA
//! receives, what it has filled is such a queue: the main loop gives it to the hub as a block ([`Hub::block`]). No gap
//! is among the bytes of a block, so it ends where the line falls idle, and the gap is given behind it.
//!
//! # Timing and duties
//!
//! More in `docs/PROTOCOL.md` §15. Three silences are the firmware's to measure, each shorter than the next: the
//! character gap, the reader's response time-out (parameter 9Bh) and the message gap.
//!
//! - The time-out runs from the last byte of a copy. It is longer than the hub's longest delay before an answer, the
//!   answer itself (up to [`ANSWER_SIZE`](constants::ANSWER_SIZE) bytes of 10 bits, 11 with parity; 10 bits take
//!   1.04 ms at 9,600 baud) and the character gap behind it. These are the floor: wait no less, even where 9Bh is 0.
//! - The message gap is longer than the longest silence that a hub hears inside a message: two time-outs, for two
//!   copies of a packet may be lost in a row, with these copies and the delays between them (§15 reckons it). One that
//!   came sooner would make the hub forget the packet, and file its resend as a second message. Who changes 9Bh keeps
//!   the message gap longer.
//! - An answer comes before its copy's time-out or not at all. A late ACK would count for the next packet, and the loss
//!   of that one go unseen. So a hub that is late sends nothing, and a reader drops all that it hears while it sends.
//! - At [`HubTold::Message`] the message is whole, and its ACK is not yet sent. Send it, then do slow work. Where
//!   filing surely ends before the time-out, file first: then a power cut loses nothing that was called delivered.
//! - Both ends keep silent for a character gap after all that they send. A reader keeps silent for a message gap before
//!   the first copy of a message in just two cases: where the start says that one is due ([`Outcome::Copy`]), and before
//!   the first message after power-up, as power-up forgets what a start says it by. A start says it after a failed
//!   message, as the hub may hold pieces of that one; and where the message is one packet, equal to the one sent before
//!   it: were its first copy lost, the hub would take the resend for one of the packet before. No packets need be
//!   compared for it, and two equal cards in a row come out as two. Inside a message no piece equals the one before it:
//!   where it would, it is cut one byte shorter.
//! - That silence counts from the last byte that the reader sent, whatever it was: where that is long ago, nothing is
//!   left to wait. The message is out already. So while it waits the reader drops what it hears, as while it sends: an
//!   ACK would count for a packet that nobody has seen, and an answer to a command would end the silence.
//! - [`ReaderTold::Delivered`]: the hub has the message. [`ReaderTold::Failed`]: it may have it all the same, and only
//!   its answers were lost.
//! - A silence that grows may be given again. A second character gap does nothing; a message gap behind a character gap
//!   does what it does alone, and a second one nothing more.
//! - A reader's permanent values and locks outlast power-off as a saved set, 21 to 30 bytes: [`Reader::save`] whenever
//!   [`ReaderTold::Acted`] says that a permanent value changed, and after each [`Reader::load`] that brought a new set;
//!   at switch-on [`Reader::new`], then [`Reader::load`]. A memory that is blank (all FFh, or all 0) is
//!   [`Refusal::Form`], and the house defaults stay. A set is not bound to [`VERSION`], as control bytes are. It has no
//!   checksum of its own: where the power may fail while it is written, keep two, each with a checksum. A hub keeps
//!   nothing.

#![no_std]
#![warn(missing_docs)]
#![deny(unsafe_code, unsafe_op_in_unsafe_fn)]

mod buffer;
#[allow(unsafe_code)]
mod calls;
pub mod constants;
mod framer;
mod heard;
mod hub;
pub mod lent;
mod numbers;
pub mod packet;
pub mod raw;
mod reader;
mod refusal;
mod sender;
mod table;

pub use framer::{Found, Framer};
pub use heard::{Event, Heard, Reply};
pub use hub::{BlockTold, Hub, HubBlock, HubBlocks, HubTold};
pub use lent::sender::heed;
pub use reader::{Beep, Reader, ReaderTold, Switches};
pub use refusal::Refusal;
pub use sender::{Outcome, Sender};
pub use table::Table;

/// The version of this crate and of the archive, as `MK_VERSION` in C. Its first two numbers rise with each change of
/// what stands where in a control value, the last with every other landing. So whoever stores a control value stores
/// this with it, and puts it back only where the first two are the same.
pub const VERSION: &str = env!("CARGO_PKG_VERSION");
