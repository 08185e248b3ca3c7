//! Events in the notation of the listings, packets laid out once more, and whole packets fed to a machine.

use motikhund::constants::{OPCODE_CMD_ACK, OPCODE_CMD_NAK, SOURCE_HOST, SOURCE_READER};
use motikhund::{Event, Hub, HubTold, Reader, ReaderTold};

/// Two digits a byte, `.` a character gap, `/` a message gap.
pub fn events(text: &str) -> Vec<Event> {
    let event = |word| match word {
        "." => Event::CharacterGap,
        "/" => Event::MessageGap,
        digits => Event::Byte(u8::from_str_radix(digits, 16).expect("two digits")),
    };
    text.split_whitespace().map(event).collect()
}

pub fn sent(bytes: &[u8]) -> Vec<Event> {
    bytes.iter().map(|byte| Event::Byte(*byte)).collect()
}

pub fn bytes(text: &str) -> Vec<u8> {
    let byte = |event| match event {
        Event::Byte(byte) => byte,
        gap => panic!("{gap:?} among bytes"),
    };
    events(text).into_iter().map(byte).collect()
}

/// A packet with its checksum, of any fields.
pub fn packet(opcode: u8, source: u8, status: u8, data: &[u8]) -> Vec<u8> {
    let mut packet = vec![(4 + data.len()) as u8, opcode, source, status];
    packet.extend_from_slice(data);
    let sum: u32 = packet.iter().map(|byte| u32::from(*byte)).sum();
    packet.extend_from_slice(&((65_536 - sum) as u16).to_be_bytes());
    packet
}

pub fn command(opcode: u8, data: &[u8]) -> Vec<u8> {
    packet(opcode, SOURCE_HOST, 0, data)
}

pub fn ack(source: u8) -> Vec<u8> {
    packet(OPCODE_CMD_ACK, source, 0, &[])
}

pub fn nak(source: u8, cause: u8) -> Vec<u8> {
    packet(OPCODE_CMD_NAK, source, 0, &[cause])
}

pub fn hub_ack() -> Vec<u8> {
    ack(SOURCE_HOST)
}

pub fn reader_ack() -> Vec<u8> {
    ack(SOURCE_READER)
}

/// What the last event brings; those before it bring nothing.
pub fn hub_hears<'a>(hub: &'a mut Hub, events: &[Event]) -> HubTold<'a> {
    let (last, first) = events.split_last().expect("an event");
    for event in first {
        assert_eq!(hub.event(*event), HubTold::Nothing);
    }
    hub.event(*last)
}

pub fn reader_hears<'a>(reader: &'a mut Reader, events: &[Event]) -> ReaderTold<'a> {
    let (last, first) = events.split_last().expect("an event");
    for event in first {
        assert_eq!(reader.event(*event), ReaderTold::Nothing);
    }
    reader.event(*last)
}
