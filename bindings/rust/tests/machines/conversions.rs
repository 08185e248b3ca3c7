//! Names and numbers.

use std::collections::BTreeSet;
use std::error::Error;

use motikhund::{heed, Event, Heard, Refusal, Reply};

#[test]
fn each_refusal_has_its_number() {
    let named = [
        (Refusal::Length, 1),
        (Refusal::Checksum, 2),
        (Refusal::Cut, 3),
        (Refusal::Source, 4),
        (Refusal::Status, 5),
        (Refusal::Opcode, 6),
        (Refusal::Data, 7),
        (Refusal::Beep, 8),
        (Refusal::Setting, 9),
        (Refusal::Barred, 10),
        (Refusal::Start, 11),
        (Refusal::Form, 12),
        (Refusal::Room, 13),
        (Refusal::Long, 15),
    ];
    for number in (0..=1_000).chain([u32::MAX]) {
        let name = named.iter().find(|(_, of)| *of == number).map(|(name, _)| *name);
        assert_eq!(Refusal::from_number(number), name);
    }
    assert!(named.iter().all(|(name, number)| name.number() == *number));
}

/// A refusal is an error like others: `?` takes it, and it says its number and why.
#[test]
fn each_refusal_is_an_error() {
    fn refused() -> Result<(), Box<dyn Error>> {
        motikhund::lent::hub::on(&mut [])?;
        Ok(())
    }
    let why = refused().expect_err("no room");
    assert_eq!(why.to_string(), "refusal 13: a lent room that is too small");
    assert_eq!(why.downcast_ref(), Some(&Refusal::Room));
    let all: Vec<Refusal> = (0..20).filter_map(Refusal::from_number).collect();
    let texts: BTreeSet<String> = all.iter().map(Refusal::to_string).collect();
    assert!(
        texts.len() == 14 && all.iter().all(|why| why.to_string().starts_with(&format!("refusal {}: ", *why as u8)))
    );
    let reasons: BTreeSet<&str> = texts.iter().filter_map(|text| Some(text.split_once(": ")?.1)).collect();
    assert_eq!(reasons.len(), 14);
}

#[test]
fn each_event_heard_and_reply_has_its_number() {
    for byte in 0..=255 {
        let number = u32::from(byte);
        assert_eq!(Event::Byte(byte).number(), number);
        assert_eq!(Heard::Nak(byte).number(), number);
        assert_eq!(Reply::Nak(byte).number(), number);
        assert_eq!(Heard::from_number(number), Heard::Nak(byte));
    }
    assert_eq!([Event::CharacterGap, Event::MessageGap].map(Event::number), [256, 257]);
    assert_eq!([Heard::Ack, Heard::TimeOut, Heard::Nothing].map(Heard::number), [256, 257, 258]);
    assert_eq!([256, 257, 258].map(Heard::from_number), [Heard::Ack, Heard::TimeOut, Heard::Nothing]);
    assert_eq!([259, 512, u32::MAX].map(Heard::from_number), [Heard::Nothing; 3]);
    assert_eq!(Reply::Ack.number(), 256);
}

/// The rule of docs/PROTOCOL.md §10, for every opcode, and the fields around those that are right.
#[test]
fn a_sender_heeds_right_answers_of_the_host() {
    for opcode in 0..=255 {
        for (source, status) in (0..=5).flat_map(|source| (0..=9).map(move |status| (source, status))) {
            for data in [&[][..], &[1], &[6], &[1, 1]] {
                let heard = match (opcode, source, status, data) {
                    (0xD0, 4, 0 | 1, []) => Heard::Ack,
                    (0xD1, 4, 0 | 1, [cause]) => Heard::Nak(*cause),
                    _ => Heard::Nothing,
                };
                assert_eq!(heed(opcode, source, status, data), heard, "{opcode:02X} {source} {status} {data:?}");
            }
        }
    }
}
