//! Messages through both ends, and how a message ends.

use motikhund::constants::{OPCODE_AIM_ON, OPCODE_DECODE_DATA, SOURCE_HOST, SOURCE_READER, STATUS_MORE};
use motikhund::packet::check;
use motikhund::{Event, Heard, Hub, HubTold, Outcome, Reader, ReaderTold, Refusal, Sender};

use crate::dice::Dice;
use crate::notation::{ack, hub_ack, hub_hears, nak, packet, reader_hears, sent};

/// What a start brings: the copy, and whether a message gap is due before it.
fn started(outcome: Outcome<'_>) -> (Vec<u8>, bool) {
    match outcome {
        Outcome::Copy { copy, gap } => (copy.to_vec(), gap),
        outcome => panic!("{outcome:?}"),
    }
}

/// A message carried whole from reader to hub, behind a message gap where one is due: the pieces, and what was handed
/// out.
fn carried(reader: &mut Reader, hub: &mut Hub, card: &[u8]) -> (usize, Vec<u8>) {
    let (mut copy, gap) = started(reader.send(0x1B, card));
    if gap {
        assert_eq!(hub.event(Event::MessageGap), HubTold::Nothing);
    }
    let mut pieces = 0;
    let mut handed = None;
    loop {
        pieces += 1;
        let answer = match hub_hears(hub, &sent(&copy)) {
            HubTold::Added { answer } => answer.to_vec(),
            HubTold::Message { code: 0x1B, message, answer } => {
                assert_eq!(handed.replace(message.to_vec()), None);
                answer.to_vec()
            }
            told => panic!("{told:?}"),
        };
        match reader_hears(reader, &sent(&answer)) {
            ReaderTold::Copy(next) => copy = next.to_vec(),
            ReaderTold::Delivered { copies: 0 } => return (pieces, handed.expect("a message")),
            told => panic!("{told:?}"),
        }
    }
}

#[test]
fn messages_of_every_length_that_matters() {
    let (mut reader, mut hub) = (Reader::new(), Hub::new());
    for (size, pieces) in
        [(4_096, 17), (0, 1), (1, 1), (250, 1), (251, 2), (500, 2), (501, 3), (4_000, 16), (4_001, 17)]
    {
        let card = Dice::new(size as u64).bytes(size);
        assert_eq!(carried(&mut reader, &mut hub, &card), (pieces, card));
    }
    assert_eq!(reader.send(0x1B, &[0x38; 4_097]), Outcome::Refused(Refusal::Start));
}

#[test]
fn the_hub_refuses_4097_and_is_barred_until_a_message_gap() {
    let ack = hub_ack();
    let barred = HubTold::Refused { why: Refusal::Barred, answer: &nak(SOURCE_HOST, 6) };
    let mut hub = Hub::new();
    for _ in 0..16 {
        let piece = packet(OPCODE_DECODE_DATA, SOURCE_READER, STATUS_MORE, &[0x1B; 251]);
        assert_eq!(hub_hears(&mut hub, &sent(&piece)), HubTold::Added { answer: &ack });
    }
    let last = |size: usize| sent(&packet(OPCODE_DECODE_DATA, SOURCE_READER, 0, &vec![0x1B; 1 + size]));
    assert_eq!(hub_hears(&mut hub.clone(), &last(96)), {
        HubTold::Message { code: 0x1B, message: &[0x1B; 4_096], answer: &ack }
    });
    assert_eq!(hub_hears(&mut hub, &last(97)), barred);
    assert_eq!(hub.event(Event::CharacterGap), HubTold::Nothing);
    assert_eq!(hub_hears(&mut hub, &last(0)), barred);
    assert_eq!(hub.event(Event::MessageGap), HubTold::Nothing);
    assert_eq!(hub_hears(&mut hub, &last(0)), HubTold::Message { code: 0x1B, message: &[], answer: &ack });
}

#[test]
fn a_message_gap_drops_what_was_gathered_and_a_character_gap_does_not() {
    let ack = hub_ack();
    let piece = sent(&packet(OPCODE_DECODE_DATA, SOURCE_READER, STATUS_MORE, b"\x1BSAMPLE "));
    let last = sent(&packet(OPCODE_DECODE_DATA, SOURCE_READER, 0, b"\x1B8"));
    for (gap, message) in [(Event::CharacterGap, &b"SAMPLE 8"[..]), (Event::MessageGap, b"8")] {
        let mut hub = Hub::new();
        assert_eq!(hub_hears(&mut hub, &piece), HubTold::Added { answer: &ack });
        assert_eq!(hub.event(gap), HubTold::Nothing);
        assert_eq!(hub_hears(&mut hub, &last), HubTold::Message { code: 0x1B, message, answer: &ack });
    }
}

/// At most two resends of a packet; the number told at the end is the message's.
#[test]
fn a_sender_gives_up() {
    let mut sender = Sender::new();
    for (heard, marks) in [(Heard::TimeOut, 2), (Heard::Nak(1), 2), (Heard::Nak(6), 0)] {
        let (mut marked, _) = started(sender.send(0x1B, b"8"));
        marked[3] |= 1;
        marked[7] -= 1;
        for _ in 0..marks {
            assert_eq!(sender.heard(heard), Outcome::Copy { copy: &marked, gap: false });
        }
        assert!(sender.out());
        assert_eq!(sender.heard(Heard::Nothing), Outcome::Nothing);
        assert_eq!(sender.heard(heard), Outcome::Failed { copies: marks });
        assert!(!sender.out());
    }
    assert_eq!(sender.heard(Heard::TimeOut), Outcome::Nothing);
    assert_eq!(sender.heard(Heard::Ack), Outcome::Nothing);
}

#[test]
fn resends_are_counted_over_the_whole_message() {
    let mut sender = Sender::idle(true);
    let mut outcome = sender.send(0x1B, &[0x38; 4_096]);
    for piece in 0..17 {
        for marked in 0..3 {
            let Outcome::Copy { copy, gap } = outcome else { panic!("{piece} {marked}: {outcome:?}") };
            // The message before failed, and only the start says so.
            assert_eq!(gap, piece == 0 && marked == 0);
            let resend = check(copy).expect("a packet").status & 1 == 1;
            assert_eq!(resend, marked > 0);
            outcome = sender.heard(if marked < 2 { Heard::TimeOut } else { Heard::Ack });
        }
    }
    assert_eq!(outcome, Outcome::Delivered { copies: 34 });
}

#[test]
fn a_reader_sends_and_takes_commands_at_once() {
    let mut reader = Reader::new();
    assert!(matches!(reader.send(0x1B, b"8"), Outcome::Copy { .. }));
    let aim = packet(OPCODE_AIM_ON, SOURCE_HOST, 0, &[]);
    let acted = ReaderTold::Acted { beep: None, permanent: false, answer: &ack(SOURCE_READER) };
    assert_eq!(reader_hears(&mut reader, &sent(&aim)), acted);
    let delivered = ReaderTold::Delivered { copies: 0 };
    assert_eq!(reader_hears(&mut reader, &sent(&ack(SOURCE_HOST))), delivered);
}
