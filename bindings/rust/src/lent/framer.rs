//! The framer over lent buffers.

use crate::constants::PACKET;
use crate::framer::Found;
use crate::numbers::{done, front, told};
use crate::packet::Head;
use crate::{calls, Event, Refusal};

/// A framer with nothing begun. Its control value has [`FRAMER_CONTROL_SIZE`](crate::constants::FRAMER_CONTROL_SIZE).
pub fn idle(control: &mut [u8]) -> Result<(), Refusal> {
    done(calls::framer_idle(control))
}

/// One event. The line buffer has [`PACKET_SIZE`](crate::constants::PACKET_SIZE); a packet found stands at its front.
pub fn hear<'a>(control: &mut [u8], line: &'a mut [u8], event: Event) -> Found<'a> {
    let (number, head) = calls::framer_hear(control, line, event.number());
    match told(number) {
        Ok(PACKET) => {
            let head = Head::from_values(head);
            Found::Packet { head, packet: front(line, head.length.saturating_add(2)) }
        }
        Ok(_) => Found::Nothing,
        Err(why) => Found::Refused(why),
    }
}
