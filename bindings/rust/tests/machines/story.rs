//! The story of sample 8: the ACK of its packet is lost, the packet comes again, and the message has its one 8.

use motikhund::constants::SOURCE_HOST;
use motikhund::packet::check;
use motikhund::{Event, Hub, HubTold, Outcome, Reader, ReaderTold};

use crate::notation::{ack, events, hub_ack, hub_hears, reader_hears, sent};

/// The three copies on the line: 250 characters, the 8, the 8 again.
fn copies() -> [Vec<u8>; 3] {
    let text = include_str!("../../../../examples/88.txt");
    let mut copies = Vec::new();
    let mut copy = Vec::new();
    for event in events(&text.replace('.', " . ")) {
        match event {
            Event::Byte(byte) => copy.push(byte),
            _ => copies.push(core::mem::take(&mut copy)),
        }
    }
    copies.try_into().expect("three copies, a gap after each")
}

/// The whole message: the data of both packets without their type.
fn card() -> Vec<u8> {
    let [first, last, _] = copies();
    let data = [first, last].map(|packet| check(&packet).expect("a packet").data(&packet)[1..].to_vec());
    assert_eq!([data[0].len(), data[1].len()], [250, 1]);
    data.concat()
}

#[test]
fn the_hub_adds_the_8_once() {
    let [first, last, again] = copies();
    let (ack, card) = (hub_ack(), card());
    let expected = [
        (first, HubTold::Added { answer: &ack }),
        (last, HubTold::Message { code: 0x1B, message: &card, answer: &ack }),
        (again, HubTold::Repeated { answer: &ack }),
    ];
    let mut hub = Hub::new();
    for (copy, told) in expected {
        assert_eq!(hub_hears(&mut hub, &sent(&copy)), told);
        assert_eq!(hub.event(Event::CharacterGap), HubTold::Nothing);
    }
}

#[test]
fn the_reader_sends_it_again() {
    let [first, last, again] = copies();
    let answered = sent(&ack(SOURCE_HOST));
    let mut reader = Reader::new();
    assert_eq!(reader.send(0x1B, &card()), Outcome::Copy { copy: &first, gap: false });
    assert_eq!(reader_hears(&mut reader, &answered), ReaderTold::Copy(&last));
    assert_eq!(reader.expire(), Outcome::Copy { copy: &again, gap: false });
    assert_eq!(reader_hears(&mut reader, &answered), ReaderTold::Delivered { copies: 1 });
    assert_eq!(reader.expire(), Outcome::Nothing);
}

/// If the first copy was lost, the marked one is the piece.
#[test]
fn a_marked_copy_that_is_no_repeat_is_joined() {
    let [first, _, again] = copies();
    let (ack, card) = (hub_ack(), card());
    let mut hub = Hub::new();
    assert_eq!(hub_hears(&mut hub, &sent(&first)), HubTold::Added { answer: &ack });
    let whole = HubTold::Message { code: 0x1B, message: &card, answer: &ack };
    assert_eq!(hub_hears(&mut hub, &sent(&again)), whole);
    assert_eq!(hub_hears(&mut hub, &sent(&again)), HubTold::Repeated { answer: &ack });
    // A message gap forgets the last accepted packet.
    assert_eq!(hub.event(Event::MessageGap), HubTold::Nothing);
    assert_eq!(hub_hears(&mut hub, &sent(&again)), HubTold::Message { code: 0x1B, message: b"8", answer: &ack });
}

/// One card read twice: both count where both first copies come. A lost first copy of the second looks like a resend of
/// the first, but behind a message gap: so the reader's start says that one is due.
#[test]
fn two_equal_cards() {
    let [_, card, again] = copies();
    let ack = hub_ack();
    let whole = HubTold::Message { code: 0x1B, message: b"8", answer: &ack };
    let mut hub = Hub::new();
    assert_eq!(hub_hears(&mut hub, &sent(&card)), whole);
    assert_eq!(hub_hears(&mut hub, &sent(&card)), whole);
    assert_eq!(hub_hears(&mut hub, &sent(&again)), HubTold::Repeated { answer: &ack });
    assert_eq!(hub.event(Event::MessageGap), HubTold::Nothing);
    assert_eq!(hub_hears(&mut hub, &sent(&again)), whole);
    let mut reader = Reader::new();
    for gap in [false, true, true] {
        assert_eq!(reader.send(0x1B, b"8"), Outcome::Copy { copy: &card, gap });
        assert_eq!(reader_hears(&mut reader, &sent(&ack)), ReaderTold::Delivered { copies: 0 });
    }
}
