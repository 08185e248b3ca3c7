//! The machines over buffers that the caller keeps, for boards where each has its place.
//!
//! A machine's state is its control bytes and its buffers, all lent to every call. Any bytes are a control value. The
//! buffers are the machine's own between calls, also where nothing is begun or out: by the last packet of the message
//! before, which stands in the message buffer, a start says whether a message gap is due.
//! Control bytes or a room of too small a size give [`Refusal::Room`](crate::Refusal::Room), with nothing changed;
//! that is looked at first, at every event, before the short way too, and at every block; only a set that is read
//! ([`reader::load`]) is looked at before it. Buffers of fixed size are arrays. Bytes past what is written stay as they
//! were in every room.
//!
//! ```
//! use motikhund::constants::{HUB_ANSWER_SIZE, HUB_CONTROL_SIZE, LINE_SIZE, MESSAGE_SIZE};
//! use motikhund::{lent::hub, Event, HubTold};
//!
//! let (mut control, mut line, mut gather) = ([0; HUB_CONTROL_SIZE], [0; LINE_SIZE], [0; MESSAGE_SIZE]);
//! let (mut answer, mut message) = ([0; HUB_ANSWER_SIZE], [0; MESSAGE_SIZE]);
//! hub::on(&mut control)?;
//! let told = hub::hear(&mut control, &mut line, &mut gather, &mut answer, &mut message, Event::Byte(4));
//! assert_eq!(told, HubTold::Nothing);
//! # Ok::<(), motikhund::Refusal>(())
//! ```

pub mod framer;
pub mod hub;
pub mod reader;
pub mod sender;
