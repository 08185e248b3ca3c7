//! Messages of every length around the limits: `S`.

use motikhund::constants::{OPCODE_DECODE_DATA, PACKET_SIZE, SOURCE_READER, STATUS_MORE};
use motikhund::packet::build;

use crate::run::{hex, lines};

const ACK: &str = "04 D0 04 00 FF 28 .";

fn message(size: usize) -> Vec<u8> {
    (0..size).map(|place| (place % 251) as u8).collect()
}

fn start(size: usize) -> String {
    format!("S 1B {} ;", hex(&message(size)))
}

/// The copies of a message that is acknowledged at once, and that it is delivered.
fn delivered(size: usize) -> String {
    copied(message(size).chunks(250))
}

/// The same of the message of these pieces; one of no bytes has none, and one empty packet.
fn copied<'a>(pieces: impl Iterator<Item = &'a [u8]>) -> String {
    let mut pieces: Vec<&[u8]> = pieces.collect();
    if pieces.is_empty() {
        pieces.push(&[]);
    }
    let last = pieces.len() - 1;
    let copy = |(number, piece): (usize, &&[u8])| {
        let status = if number == last { 0 } else { STATUS_MORE };
        let mut room = [0; PACKET_SIZE];
        let packet = build(&mut room, OPCODE_DECODE_DATA, SOURCE_READER, status, &[&[0x1B], *piece].concat());
        format!("C {}\n", hex(packet.expect("a packet")))
    };
    pieces.iter().enumerate().map(copy).chain(["D 0\n".to_string()]).collect()
}

#[test]
fn up_to_4096_bytes_are_sent() {
    for (size, pieces) in [(0, 1), (1, 1), (250, 1), (251, 2), (4_095, 17), (4_096, 17)] {
        let due = delivered(size);
        assert_eq!(due.lines().count(), pieces + 1);
        assert_eq!(lines("reader", &format!("{}{}", start(size), ACK.repeat(pieces))), due);
    }
}

/// A piece that would equal the one before it is a byte shorter, the last one never is.
#[test]
fn equal_pieces_are_cut() {
    let long: Vec<usize> = [250, 249].into_iter().cycle().take(16).chain([104]).collect();
    for sizes in [&[250, 250][..], &[250, 249, 2], &[250, 249, 250, 1], &long] {
        let message = vec![0x38; sizes.iter().sum()];
        let due = copied(sizes.iter().map(|size| &message[..*size]));
        let text = format!("S 1B {} ; {}", hex(&message), ACK.repeat(sizes.len()));
        assert_eq!(lines("reader", &text), due, "{sizes:?}");
    }
}

/// A refused start is no start: the next one goes out.
#[test]
fn longer_ones_are_refused() {
    for size in [4_097, 4_098, 10_000] {
        assert_eq!(lines("reader", &format!("{} {} {ACK}", start(size), start(1))), format!("R 11\n{}", delivered(1)));
    }
}

#[test]
fn one_at_a_time() {
    let due = format!("{}R 11\nD 0\n", delivered(1).replace("D 0\n", ""));
    assert_eq!(lines("reader", &format!("{} {} {ACK}", start(1), start(0))), due);
}
