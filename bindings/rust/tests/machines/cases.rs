//! Ten cases worked by hand: answers (docs/PROTOCOL.md §7), packets built and checked (§4), a parameter set and asked
//! for (§12), messages cut into pieces (§8).

use motikhund::constants::{
    OPCODE_DECODE_DATA, OPCODE_PARAM_REQUEST, OPCODE_PARAM_SEND, SOURCE_HOST, SOURCE_READER, STATUS_MORE,
};
use motikhund::packet::{answer, build, check, Head};
use motikhund::{Heard, Hub, HubTold, Outcome, Reader, ReaderTold, Refusal, Reply, Sender};

use crate::dice::Dice;
use crate::notation::{bytes, hub_ack, hub_hears, reader_ack, reader_hears, sent};

const CASE_5: &str = "06 F3 00 00 1B 38 FE B4";
const CASE_6: &str = "05 F3 00 00 1B FE ED";
const CASE_7: &str = "07 C6 04 00 FF 8A 08 FD 9E";
const CASE_8: &str = "05 C7 04 00 8A FE A6";
const ANSWER_8: &str = "07 C6 00 00 FF 8A 08 FD A2";

#[test]
fn cases_1_to_4_are_the_answers() {
    let cases = [
        ("04 D0 04 00 FF 28", SOURCE_HOST, Reply::Ack),
        ("04 D0 00 00 FF 2C", SOURCE_READER, Reply::Ack),
        ("05 D1 04 00 01 FF 25", SOURCE_HOST, Reply::Nak(1)),
        ("05 D1 00 00 06 FF 24", SOURCE_READER, Reply::Nak(6)),
    ];
    for (text, source, reply) in cases {
        assert_eq!(answer(&mut [0; 7], source, reply), Ok(&bytes(text)[..]));
    }
}

#[test]
fn cases_5_to_8_are_built_and_checked() {
    let cases: [(&str, u8, u8, &[u8]); 5] = [
        (CASE_5, OPCODE_DECODE_DATA, SOURCE_READER, &[0x1B, 0x38]),
        (CASE_6, OPCODE_DECODE_DATA, SOURCE_READER, &[0x1B]),
        (CASE_7, OPCODE_PARAM_SEND, SOURCE_HOST, &[0xFF, 0x8A, 8]),
        (CASE_8, OPCODE_PARAM_REQUEST, SOURCE_HOST, &[0x8A]),
        (ANSWER_8, OPCODE_PARAM_SEND, SOURCE_READER, &[0xFF, 0x8A, 8]),
    ];
    for (text, opcode, source, data) in cases {
        let whole = bytes(text);
        assert_eq!(build(&mut [0; 257], opcode, source, 0, data), Ok(&whole[..]));
        let head = Head { length: whole.len() - 2, opcode, source, status: 0 };
        assert_eq!(check(&whole), Ok(head));
        assert_eq!(head.data(&whole), data);
        assert_eq!(head.data(&whole[..3]), []);
    }
}

#[test]
fn cases_5_and_6_are_sent_and_handed_out() {
    for (text, card) in [(CASE_5, &b"8"[..]), (CASE_6, b"")] {
        assert_eq!(Sender::new().send(0x1B, card), Outcome::Copy { copy: &bytes(text), gap: false });
        let whole = HubTold::Message { code: 0x1B, message: card, answer: &hub_ack() };
        assert_eq!(hub_hears(&mut Hub::new(), &sent(&bytes(text))), whole);
    }
}

#[test]
fn case_8_is_answered_after_case_7() {
    let mut reader = Reader::new();
    let accepted = ReaderTold::Acted { beep: None, permanent: false, answer: &reader_ack() };
    assert_eq!(reader_hears(&mut reader, &sent(&bytes(CASE_7))), accepted);
    let answered = ReaderTold::Acted { beep: None, permanent: false, answer: &bytes(ANSWER_8) };
    assert_eq!(reader_hears(&mut reader, &sent(&bytes(CASE_8))), answered);
}

/// The status and the size of the piece of each packet, each acknowledged at once.
fn pieces(message: &[u8]) -> Vec<(u8, usize)> {
    let mut sender = Sender::new();
    let mut pieces = Vec::new();
    let mut joined = Vec::new();
    let mut outcome = sender.send(0x1B, message);
    while let Outcome::Copy { copy, gap: false } = outcome {
        let head = check(copy).expect("a packet");
        let piece = &head.data(copy)[1..];
        pieces.push((head.status, piece.len()));
        joined.extend_from_slice(piece);
        outcome = sender.heard(Heard::Ack);
    }
    assert_eq!(outcome, Outcome::Delivered { copies: 0 });
    assert!(!sender.out());
    assert_eq!(joined, message);
    pieces
}

#[test]
fn cases_9_and_10_are_cut_into_pieces() {
    let message = Dice::new(9).bytes(4_096);
    assert_eq!(pieces(&message[..250]), [(0, 250)]);
    assert_eq!(pieces(&message[..251]), [(STATUS_MORE, 250), (0, 1)]);
    let long = pieces(&message);
    assert_eq!(long.len(), 17);
    assert_eq!(long[..16], [(STATUS_MORE, 250); 16]);
    assert_eq!(long[16], (0, 96));
    assert_eq!(Sender::new().send(0x1B, &[0x38; 4_097]), Outcome::Refused(Refusal::Start));
}

/// A piece that would equal the one before it is cut one byte shorter, the last one never is.
#[test]
fn equal_pieces_are_cut() {
    let sizes = |message: &[u8]| -> Vec<usize> {
        let pieces = pieces(message);
        let (last, first) = pieces.split_last().expect("a piece");
        assert!(last.0 == 0 && first.iter().all(|(status, _)| *status == STATUS_MORE));
        pieces.into_iter().map(|(_, size)| size).collect()
    };
    let equal = [0x38; 4_096];
    let cuts: [(usize, &[usize]); 8] = [
        (250, &[250]),
        (251, &[250, 1]),
        (500, &[250, 250]),
        (501, &[250, 249, 2]),
        (749, &[250, 249, 250]),
        (750, &[250, 249, 250, 1]),
        (999, &[250, 249, 250, 250]),
        (1_000, &[250, 249, 250, 249, 2]),
    ];
    for (count, due) in cuts {
        assert_eq!(sizes(&equal[..count]), due);
    }
    assert_eq!(sizes(&equal), [[250, 249].repeat(8), vec![104]].concat());
    // Two equal pieces among others: those behind the cut one start a byte sooner.
    let mut message = Dice::new(9).bytes(4_096);
    message.copy_within(250..500, 500);
    assert_eq!(sizes(&message), [vec![250, 250, 249], vec![250; 13], vec![97]].concat());
}
