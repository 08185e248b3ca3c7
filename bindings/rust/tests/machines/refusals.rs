//! Each refusal by name, with its answer on the line.

use motikhund::constants::{CAUSE_CONTEXT, CAUSE_DENIED, CAUSE_RESEND, OPCODE_DECODE_DATA, SOURCE_HOST, SOURCE_READER};
use motikhund::packet::{answer, build, check};
use motikhund::{Event, Found, Framer, Hub, HubTold, Outcome, Reader, ReaderTold, Refusal, Reply, Sender};

use crate::notation::{bytes, events, hub_hears, nak, reader_hears};

/// A piece of type 1Bh with more to come.
const PIECE: &str = "06 F3 00 02 1B 38 FE B2";

/// Events, the refusal at the last of them, and the cause of its NAK.
pub type Case = (&'static str, Refusal, u8);

pub const HUB_CASES: [Case; 8] = [
    ("03", Refusal::Length, CAUSE_RESEND),
    ("06 F3 00 00 1B 38 FE B5", Refusal::Checksum, CAUSE_RESEND),
    ("06 F3 00 00 1B 38 FE .", Refusal::Cut, CAUSE_RESEND),
    ("06 /", Refusal::Cut, CAUSE_RESEND),
    ("06 F3 04 00 1B 38 FE B0", Refusal::Source, CAUSE_CONTEXT),
    ("06 F3 00 04 1B 38 FE B0", Refusal::Status, CAUSE_CONTEXT),
    ("05 E6 00 00 01 FF 14", Refusal::Opcode, CAUSE_CONTEXT),
    ("04 F3 00 00 FF 09", Refusal::Data, CAUSE_CONTEXT),
];

pub const READER_CASES: [Case; 10] = [
    ("03", Refusal::Length, CAUSE_RESEND),
    ("04 C8 04 00 FF 31", Refusal::Checksum, CAUSE_RESEND),
    ("04 C8 04 .", Refusal::Cut, CAUSE_RESEND),
    ("04 /", Refusal::Cut, CAUSE_RESEND),
    ("04 C8 00 00 FF 34", Refusal::Source, CAUSE_CONTEXT),
    ("05 E6 04 02 01 FF 0E", Refusal::Status, CAUSE_CONTEXT),
    ("06 F3 04 00 1B 38 FE B0", Refusal::Opcode, CAUSE_CONTEXT),
    ("04 E6 04 00 FF 12", Refusal::Data, CAUSE_CONTEXT),
    ("05 E6 04 00 1E FE F3", Refusal::Beep, CAUSE_DENIED),
    ("07 C6 04 00 FF 8A 01 FD A5", Refusal::Setting, CAUSE_DENIED),
];

#[test]
fn of_a_hub() {
    for (text, why, cause) in HUB_CASES {
        let told = HubTold::Refused { why, answer: &nak(SOURCE_HOST, cause) };
        assert_eq!(hub_hears(&mut Hub::new(), &events(text)), told, "{text}");
    }
    let mut hub = Hub::new();
    assert!(matches!(hub_hears(&mut hub, &events(PIECE)), HubTold::Added { .. }));
    let told = HubTold::Refused { why: Refusal::Barred, answer: &nak(SOURCE_HOST, CAUSE_DENIED) };
    assert_eq!(hub_hears(&mut hub, &events("06 F3 00 00 1C 38 FE B3")), told);
}

#[test]
fn of_a_reader() {
    for (text, why, cause) in READER_CASES {
        let told = ReaderTold::Refused { why, answer: &nak(SOURCE_READER, cause) };
        assert_eq!(reader_hears(&mut Reader::new(), &events(text)), told, "{text}");
        // While its sender waits, nothing goes out for 1 to 3.
        let mut waiting = Reader::new();
        assert!(matches!(waiting.send(0x1B, b"8"), Outcome::Copy { .. }));
        let answer = if cause == CAUSE_RESEND { Vec::new() } else { nak(SOURCE_READER, cause) };
        let told = ReaderTold::Refused { why, answer: &answer };
        assert_eq!(reader_hears(&mut waiting, &events(text)), told, "{text}");
    }
}

#[test]
fn of_a_sender() {
    let refused = Outcome::Refused(Refusal::Start);
    assert_eq!(Sender::new().send(0x1B, &[0; 4_097]), refused);
    assert_eq!(Reader::new().send(0x1B, &[0; 4_097]), refused);
    let (mut sender, mut reader) = (Sender::new(), Reader::new());
    assert!(matches!(sender.send(0x1B, b"8"), Outcome::Copy { .. }));
    assert!(matches!(reader.send(0x1B, b"8"), Outcome::Copy { .. }));
    let (sender_out, reader_out) = (sender.clone(), reader.clone());
    assert_eq!(sender.send(0x1B, b"9"), refused);
    assert_eq!(reader.send(0x1B, b"9"), refused);
    assert_eq!((sender, reader), (sender_out, reader_out));
}

#[test]
fn of_a_framer() {
    let mut framer = Framer::new();
    let mut last = |text: &str| {
        let mut found = events(text);
        let last = found.pop().expect("an event");
        found.into_iter().for_each(|event| assert_eq!(framer.event(event), Found::Nothing));
        match framer.event(last) {
            Found::Packet { head, packet } => Ok((head, packet.to_vec())),
            Found::Refused(why) => Err(Some(why)),
            Found::Nothing => Err(None),
        }
    };
    assert_eq!(last("03"), Err(Some(Refusal::Length)));
    // Deaf until the gap, which gives nothing further.
    assert_eq!(last("04 D0 04 00 FF 28 03 ."), Err(None));
    assert_eq!(last("04 D0 04 00 FF 29"), Err(Some(Refusal::Checksum)));
    assert_eq!(last("04 D0 04 00 FF 28 /"), Err(None));
    assert_eq!(last(". / 04 D0 ."), Err(Some(Refusal::Cut)));
    let ack = bytes("04 D0 04 00 FF 28");
    let head = check(&ack).expect("an ACK");
    assert_eq!(last("04 D0 04 00 FF 28"), Ok((head, ack.clone())));
    assert_eq!(last("04 D0 04 00 FF 28"), Ok((head, ack)));
}

#[test]
fn of_the_packet() {
    assert_eq!(check(&[]), Err(Refusal::Cut));
    assert_eq!(check(&[3]), Err(Refusal::Length));
    assert_eq!(check(&[4]), Err(Refusal::Cut));
    assert_eq!(check(&bytes("04 D0 04 00 FF")), Err(Refusal::Cut));
    assert_eq!(check(&bytes("04 D0 04 00 FF 29")), Err(Refusal::Checksum));
    assert!(check(&bytes("04 D0 04 00 FF 28 03 03")).is_ok());
    let mut room = [9; 257];
    let long = [0; 252];
    assert_eq!(build(&mut room, OPCODE_DECODE_DATA, 1, 4, &long), Err(Refusal::Source));
    assert_eq!(build(&mut room, OPCODE_DECODE_DATA, SOURCE_READER, 4, &long), Err(Refusal::Status));
    assert_eq!(build(&mut room, OPCODE_DECODE_DATA, SOURCE_READER, 2, &long), Err(Refusal::Data));
    assert_eq!(answer(&mut room, 1, Reply::Ack), Err(Refusal::Source));
    assert_eq!(room, [9; 257]);
    assert_eq!(build(&mut room, OPCODE_DECODE_DATA, SOURCE_READER, 2, &long[..251]).map(<[u8]>::len), Ok(257));
}

/// Their own answers and those of the other side are never refused or answered, right or wrong.
#[test]
fn acks_and_naks_are_not_refused() {
    for text in ["04 D0 00 00 FF 2C", "04 D0 04 00 FF 28", "05 D0 00 FF 00 FE 2C", "05 D1 09 00 06 FF 1B"] {
        assert_eq!(hub_hears(&mut Hub::new(), &events(text)), HubTold::Nothing);
        let mut reader = Reader::new();
        assert_eq!(reader_hears(&mut reader, &events(text)), ReaderTold::Nothing);
        assert_eq!(reader.event(Event::CharacterGap), ReaderTold::Nothing);
    }
}
