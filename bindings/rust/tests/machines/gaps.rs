//! The message gap that a start says is due: after a failed message, and where the message is one packet, equal to the
//! last one of the message before. Heeded on a line that loses, two equal cards in a row come out as two.

use motikhund::constants::{OPCODE_BEEP, OPCODE_PARAM_REQUEST, PACKET_SIZE, SOURCE_HOST, STATUS_PERMANENT};
use motikhund::lent::{reader, sender};
use motikhund::{Event, Heard, Hub, HubTold, Outcome, Reader, ReaderTold, Refusal, Sender};

use crate::dice::Dice;
use crate::notation::{ack, command, nak, reader_hears, sent};
use crate::parameters::{acted, set};
use crate::sets::house_set;

/// A start that is not refused: whether a message gap is due.
fn gap(outcome: Outcome<'_>) -> bool {
    match outcome {
        Outcome::Copy { gap, .. } => gap,
        outcome => panic!("{outcome:?}"),
    }
}

/// A sender and a reader that send the same.
struct Both {
    sender: Sender,
    reader: Reader,
}

impl Both {
    fn new() -> Both {
        Both { sender: Sender::new(), reader: Reader::new() }
    }

    /// Starts a message at both: whether a message gap is due.
    fn start(&mut self, code: u8, message: &[u8]) -> bool {
        let outcome = self.sender.send(code, message);
        assert_eq!(self.reader.send(code, message), outcome);
        gap(outcome)
    }

    /// The same, each packet acknowledged at once.
    fn tells(&mut self, code: u8, message: &[u8]) -> bool {
        let gap = self.start(code, message);
        loop {
            let told = reader_hears(&mut self.reader, &sent(&ack(SOURCE_HOST)));
            match self.sender.heard(Heard::Ack) {
                Outcome::Copy { copy, gap: false } => assert_eq!(told, ReaderTold::Copy(copy)),
                Outcome::Delivered { copies: 0 } => {
                    assert_eq!(told, ReaderTold::Delivered { copies: 0 });
                    return gap;
                }
                outcome => panic!("{outcome:?}"),
            }
        }
    }

    fn fails(&mut self) {
        assert_eq!(self.sender.heard(Heard::Nak(6)), Outcome::Failed { copies: 0 });
        let failed = ReaderTold::Failed { copies: 0 };
        assert_eq!(reader_hears(&mut self.reader, &sent(&nak(SOURCE_HOST, 6))), failed);
    }
}

#[test]
fn before_an_equal_packet() {
    let message = &Dice::new(3).bytes(4_096)[..];
    let mut both = Both::new();
    let steps: [(u8, &[u8], bool); 18] = [
        (0x1B, &message[..5], false),
        (0x1B, &message[..5], true),
        (0x1B, &message[..5], true),
        (0x1C, &message[..5], false),  // another type
        (0x1C, &message[..4], false),  // the front of it
        (0x1C, &message[..5], false),  // the same and one byte more
        (0x1C, &message[1..6], false), // other bytes
        (0x1C, &[], false),
        (0x1C, &[], true),
        (0x1C, &message[..250], false),
        (0x1C, &message[..250], true),
        (0x1C, &message[..251], false), // its first packet has more to come
        (0x1C, &message[..251], false),
        (0x1C, &message[..250], false), // the first piece of the one before, not its last
        (0x1C, &message[..251], false),
        (0x1C, &message[250..251], true), // its last piece
        (0x1C, message, false),
        (0x1C, &message[4_000..], true),
    ];
    for (at, (code, message, due)) in steps.into_iter().enumerate() {
        assert_eq!(both.tells(code, message), due, "step {at}");
    }
}

/// Whatever the next one is; and before that one only.
#[test]
fn after_a_failed_message() {
    let mut both = Both::new();
    for next in [&b""[..], b"8", b"9"] {
        assert!(!both.tells(0x1C, b"8"));
        assert!(!both.start(0x1B, b"8"));
        both.fails();
        assert_eq!(both.sender.send(0x1B, &[0; 4_097]), Outcome::Refused(Refusal::Start));
        assert_eq!(both.reader.send(0x1B, &[0; 4_097]), Outcome::Refused(Refusal::Start));
        assert!(both.tells(0x1B, next));
    }
    assert!(!both.tells(0x1C, b"8"));
    assert!(gap(Sender::idle(true).send(0x1B, b"8")));
}

/// Commands, a saved set and refused starts change nothing of it.
#[test]
fn kept() {
    let mut both = Both::new();
    assert!(!both.tells(0x1B, b"8"));
    let reader = &mut both.reader;
    assert!(matches!(reader_hears(reader, &sent(&command(OPCODE_BEEP, &[]))), ReaderTold::Refused { .. }));
    acted(reader, &set(STATUS_PERMANENT, &[0xED, 5]));
    assert!(matches!(reader_hears(reader, &sent(&command(OPCODE_PARAM_REQUEST, &[0xFE]))), ReaderTold::Acted { .. }));
    assert_eq!(reader.load(&house_set()), Ok(()));
    assert_eq!(reader.load(&[]), Err(Refusal::Form));
    assert_eq!(reader.expire(), Outcome::Nothing);
    assert_eq!(reader_hears(reader, &sent(&ack(SOURCE_HOST))), ReaderTold::Nothing);
    assert_eq!(reader.send(0x1B, &[0; 4_097]), Outcome::Refused(Refusal::Start));
    assert_eq!(both.sender.send(0x1B, &[0; 4_097]), Outcome::Refused(Refusal::Start));
    assert!(both.start(0x1B, b"8"));
    // One that is out is no start, and says nothing.
    assert_eq!(both.sender.send(0x1B, b"8"), Outcome::Refused(Refusal::Start));
    assert_eq!(both.reader.send(0x1B, b"8"), Outcome::Refused(Refusal::Start));
}

#[test]
fn power_up_forgets_it() {
    let mut both = Both::new();
    assert!(!both.tells(0x1B, b"8"));
    both.reader.restart();
    assert!(!gap(both.reader.send(0x1B, b"8")));
    assert!(gap(both.sender.send(0x1B, b"8")));
    both.fails();
    both.reader.restart();
    assert!(!gap(both.reader.send(0x1B, b"9")));
    assert!(!gap(Reader::powered_up(*both.reader.control()).send(0x1B, b"9")));
}

/// The last packet of the message before is read in the lent buffer: another one there is another answer.
#[test]
fn it_is_read_in_the_buffer() {
    let (mut control, mut copy) = (*Reader::new().control(), [0; PACKET_SIZE]);
    let (mut line, mut answers, mut answer) = ([0; 514], [0; 25], [0; 25]);
    let mut message = [0; 4_096];
    assert!(!gap(reader::start(&mut control, &mut message, &mut copy, 0x1B, b"88")));
    let mut told = 0;
    for event in sent(&ack(SOURCE_HOST)) {
        let heard = reader::hear(&mut control, &mut line, &mut answers, &message, &mut answer, &mut copy, event);
        told += usize::from(heard == ReaderTold::Delivered { copies: 0 });
    }
    assert_eq!(told, 1);
    let mut another = message;
    another[1] = b'9';
    assert!(!gap(reader::start(&mut control.clone(), &mut another, &mut copy, 0x1B, b"88")));
    another[..2].copy_from_slice(b"89");
    assert!(gap(reader::start(&mut control.clone(), &mut another, &mut copy, 0x1B, b"89")));
    assert!(gap(reader::start(&mut control, &mut message, &mut copy, 0x1B, b"88")));
}

/// Control bytes that no run leaves have nothing out and no packet before: their start is a first one.
#[test]
fn of_control_bytes_that_no_run_leaves() {
    let message = Dice::new(3).bytes(4_096);
    let cases: [(u8, u8, [u64; 3], bool); 13] = [
        (0, 1, [5, 0, 5], true),
        (0, 1, [255, 250, 5], true),
        (2, 1, [5, 0, 5], true),
        (0, 2, [5, 0, 5], false),
        (0, 0, [5, 0, 5], false),
        (1, 1, [5, 0, 4], false),
        (0, 1, [5, 0, 4], false),
        (0, 1, [255, 0, 5], false),
        (0, 1, [600, 0, 250], false), // as of a piece that is not the last
        (0, 1, [600, 0, 249], false),
        (0, 1, [4_097, 4_096, 1], false),
        (0, 1, [5, 6, u64::MAX], false),
        (0, 1, [u64::MAX, u64::MAX - 5, 5], false),
    ];
    for (out, delivered, [length, at, size], due) in cases {
        let numbers = [length, at, size, 0, 0].map(u64::to_le_bytes).concat();
        let mut control = [&[out, 0x1B, 0, delivered], &numbers[..]].concat();
        let from = if at < 3_846 { at as usize } else { 0 };
        let card = &message[from..from + if size <= 250 { size as usize } else { 0 }];
        let (mut buffer, mut copy) = ([0; 4_096], [0; PACKET_SIZE]);
        buffer.copy_from_slice(&message);
        let outcome = sender::start(&mut control, &mut buffer, &mut copy, 0x1B, card);
        assert_eq!(gap(outcome), due, "{out} {delivered} {length} {at} {size}");
    }
}

/// Cards over a line that loses copies and answers, most of them equal to the one before, some with equal pieces. How
/// many were not handed out as they were called: a delivered one once and whole, a failed one at most once.
fn misfiled(heeds: bool) -> usize {
    let (mut reader, mut hub, dice) = (Reader::new(), Hub::new(), &mut Dice::new(88));
    let mut wrong = 0;
    for _ in 0..2_000 {
        let card = vec![if dice.chance(75) { b'8' } else { b'9' }; dice.pick(&[0, 1, 1, 1, 250, 500, 750])];
        let (mut handed, mut delivered) = (Vec::new(), false);
        let Outcome::Copy { copy, gap } = reader.send(0x1B, &card) else { panic!("one is out") };
        let mut next = Some(copy.to_vec());
        if gap && heeds {
            assert_eq!(hub.event(Event::MessageGap), HubTold::Nothing);
        }
        while let Some(copy) = next.take() {
            let mut answer = Vec::new();
            let arrives = if dice.chance(65) { sent(&copy) } else { Vec::new() };
            for event in arrives.into_iter().chain([Event::CharacterGap]) {
                let told = hub.event(event);
                answer.extend_from_slice(told.answer());
                if let HubTold::Message { message, .. } = told {
                    handed.push(message.to_vec());
                }
            }
            if answer.is_empty() || dice.chance(35) {
                if let Outcome::Copy { copy, gap: false } = reader.expire() {
                    next = Some(copy.to_vec());
                }
                continue;
            }
            for event in sent(&answer) {
                match reader.event(event) {
                    ReaderTold::Copy(copy) => next = Some(copy.to_vec()),
                    ReaderTold::Delivered { .. } => delivered = true,
                    _ => {}
                }
            }
        }
        let right = if delivered { handed == [card] } else { handed.is_empty() || handed == [card] };
        wrong += usize::from(!right);
    }
    wrong
}

#[test]
fn heeded_on_a_line_that_loses() {
    assert_eq!(misfiled(true), 0);
    assert!(misfiled(false) > 0);
}
