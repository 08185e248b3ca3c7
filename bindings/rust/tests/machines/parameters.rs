//! Present and permanent values.

use motikhund::constants::*;
use motikhund::{Event, Reader, ReaderTold, Refusal};

use crate::notation::{command, nak, packet, reader_ack, reader_hears, sent};

/// Parameter, lowest, highest, house default.
pub const ROWS: [[u8; 4]; 9] = [
    [PARAMETER_POWER_MODE, POWER_CONTINUOUS, POWER_LOW, POWER_CONTINUOUS],
    [PARAMETER_SAME_SYMBOL_TIME, 0, 99, 10],
    [PARAMETER_TRIGGER, TRIGGER_LEVEL, TRIGGER_HOST, TRIGGER_LEVEL],
    [PARAMETER_RESPONSE_TIME_OUT, 0, 99, 20],
    [PARAMETER_BAUD, BAUD_300, BAUD_19200, BAUD_9600],
    [PARAMETER_PARITY, PARITY_ODD, PARITY_NONE, PARITY_NONE],
    [PARAMETER_ACK_NAK, ACK_NAK_OFF, ACK_NAK_ON, ACK_NAK_ON],
    [PARAMETER_AIM_DURATION, 0, 99, 0],
    [PARAMETER_PACKETED_DATA, DATA_RAW, DATA_PACKETED, DATA_PACKETED],
];

/// A PARAM_SEND without a beep.
pub fn set(status: u8, pairs: &[u8]) -> Vec<u8> {
    packet(OPCODE_PARAM_SEND, SOURCE_HOST, status, &[&[0xFF], pairs].concat())
}

/// An ACK was the answer.
pub fn acted(reader: &mut Reader, packet: &[u8]) {
    let told = reader_hears(reader, &sent(packet));
    assert!(matches!(told, ReaderTold::Acted { beep: None, .. }), "{told:?}");
    assert_eq!(told.outgoing(), reader_ack());
}

pub fn values(reader: &Reader) -> [u8; 9] {
    ROWS.map(|[number, ..]| reader.parameter(number))
}

#[test]
fn the_house_defaults() {
    let mut reader = Reader::new();
    let defaults = ROWS.map(|[.., default]| default);
    assert_eq!(values(&reader), defaults);
    let others = (0..=255).filter(|number| ROWS.iter().all(|row| row[0] != *number));
    assert!(others.clone().count() == 247 && others.clone().all(|number| reader.parameter(number) == 0));
    let pairs: Vec<u8> = ROWS.iter().flat_map(|[number, _, _, default]| [*number, *default]).collect();
    let all = packet(OPCODE_PARAM_SEND, SOURCE_READER, 0, &[&[0xFF], &pairs[..]].concat());
    assert_eq!(all.len(), 25);
    let told = reader_hears(&mut reader, &sent(&command(OPCODE_PARAM_REQUEST, &[0xFE])));
    assert_eq!(told, ReaderTold::Acted { beep: None, permanent: false, answer: &all });
}

#[test]
fn present_and_permanent_over_a_power_up() {
    let mut reader = Reader::new();
    acted(&mut reader, &set(0, &[0x89, 5, 0x89, 7]));
    assert_eq!(reader.parameter(0x89), 7);
    reader.restart();
    assert_eq!(reader.parameter(0x89), 10);
    acted(&mut reader, &set(STATUS_PERMANENT, &[0x89, 9]));
    acted(&mut reader, &set(0, &[0x89, 7]));
    assert_eq!(reader.parameter(0x89), 7);
    assert_eq!(Reader::powered_up(*reader.control()).parameter(0x89), 9);
    reader.restart();
    assert_eq!(reader.parameter(0x89), 9);
    acted(&mut reader, &command(OPCODE_PARAM_DEFAULTS, &[]));
    reader.restart();
    assert_eq!(reader.parameter(0x89), 10);
}

#[test]
fn power_up_forgets_the_last_accepted_packet_and_the_packet_begun() {
    let mut reader = Reader::new();
    let again = set(STATUS_RESEND, &[0x89, 5]);
    acted(&mut reader, &set(0, &[0x89, 5]));
    assert_eq!(reader_hears(&mut reader, &sent(&again)), ReaderTold::Repeated { answer: &reader_ack() });
    assert_eq!(reader_hears(&mut reader, &sent(&again[..4])), ReaderTold::Nothing);
    reader.restart();
    acted(&mut reader, &again);
}

/// Each range's ends and their outer neighbours; one bad pair refuses the packet.
#[test]
fn all_or_nothing() {
    let refused = ReaderTold::Refused { why: Refusal::Setting, answer: &nak(SOURCE_READER, 6) };
    let bad = ROWS.iter().flat_map(|[number, low, high, _]| [(*number, low.wrapping_sub(1)), (*number, high + 1)]);
    for (number, value) in bad.chain([(0x8A, 1), (0x81, 0)]) {
        let mut reader = Reader::new();
        let told = reader_hears(&mut reader, &sent(&set(STATUS_PERMANENT, &[0x89, 5, number, value, 0x9B, 3])));
        assert_eq!(told, refused, "{number:02X} {value}");
        assert_eq!(reader.control()[26..44], Reader::new().control()[26..44]);
    }
    for [number, low, high, _] in ROWS {
        for value in [low, high] {
            let mut reader = Reader::new();
            acted(&mut reader, &set(0, &[number, value]));
            assert_eq!(reader.parameter(number), value);
        }
    }
}

/// ACK and NAK go out only if 9Fh was 1 before the packet; a resend is answered with the bytes of then.
#[test]
fn without_handshaking() {
    let mut reader = Reader::new();
    acted(&mut reader, &set(0, &[0x9F, 0]));
    let again = reader_hears(&mut reader, &sent(&set(STATUS_RESEND, &[0x9F, 0])));
    assert_eq!(again, ReaderTold::Repeated { answer: &reader_ack() });
    let short = reader.event(Event::Byte(3));
    assert_eq!(short, ReaderTold::Refused { why: Refusal::Length, answer: &[] });
    assert_eq!(reader.event(Event::CharacterGap), ReaderTold::Nothing);
    let on = reader_hears(&mut reader, &sent(&set(0, &[0x9F, 1])));
    assert_eq!(on, ReaderTold::Acted { beep: None, permanent: false, answer: &[] });
    let again = reader_hears(&mut reader, &sent(&set(STATUS_RESEND, &[0x9F, 1])));
    assert_eq!(again, ReaderTold::Repeated { answer: &[] });
}
