//! One call for a whole receive buffer (4/14): the listing of blocks, and blocks against the same bytes one by one.

use super::*;
use crate::dice::Dice;
use crate::hub::{Hub, Message, ANSWER_ROOM, LONGEST_BLOCK};
use crate::streams::open_stream;

/// An answer's bytes without the line's letter and end.
fn of_line(line: &str) -> &str {
    line.strip_prefix('A').expect("an answer").trim_end()
}

/// The line of several answers.
fn joined(lines: &[&str]) -> String {
    let bytes: String = lines.iter().map(|line| of_line(line)).collect();
    format!("A{bytes}\n")
}

/// A packet's notation without a gap.
fn packet(opcode: u8, source: u8, status: u8, data: &[u8]) -> String {
    sent(opcode, source, status, data).trim_end_matches(" . ").to_string()
}

fn piece() -> String {
    packet(DECODE_DATA, READER, MORE, &[0x1B, 0x37])
}

const CARD: &str = "06 F3 00 00 1B 38 FE B4 ";
const AGAIN: &str = "06 F3 00 01 1B 38 FE B3 ";
const OUT: &str = "M 1B 38\n";

#[test]
fn the_example_of_blocks() {
    let input = format!("06 F3 00 00 1B 38 FE B5 . [ {CARD} {AGAIN} ]");
    assert_eq!(desk_hub(&input), format!("R 2\n{HUB_NAK_1}{OUT}{HUB_ACK}L 8\n{HUB_ACK}L 8\n"));
}

#[test]
fn a_block_is_one_call_or_several() {
    assert_eq!(desk_hub("[ ]"), "L 0\n");
    assert_eq!(desk_hub("[ 06 ] [ ] [F3]"), "L 1\nL 0\nL 1\n");
    assert_eq!(desk_hub(&format!("[ {CARD} ]")), format!("{OUT}{HUB_ACK}L 8\n"));
    // In 20 bytes three ACKs have room, or two and a NAK; and what is left is given again.
    let [two, three] = [2, 3].map(|n| joined(&vec![HUB_ACK; n]));
    assert_eq!(desk_hub(&format!("[ {} {} ]", piece(), piece())), format!("{two}L 16\n"));
    assert_eq!(desk_hub(&format!("[ {} ]", piece().repeat(4))), format!("{three}L 24\n{HUB_ACK}L 8\n"));
    let nak = packet(DECODE_DATA, READER, 0, &[]);
    let all = joined(&[HUB_ACK, HUB_NAK_2, HUB_ACK]);
    assert_eq!(desk_hub(&format!("[ {} {nak} {} {nak} ]", piece(), piece())), format!("{all}L 22\n{HUB_NAK_2}L 6\n"));
    // Pieces that come in one block are joined, and the message is told before the answers.
    assert_eq!(desk_hub(&format!("[ {} {CARD} ]", piece())), format!("M 1B 37 38\n{two}L 16\n"));
    assert_eq!(desk_hub(&format!("{} [ {CARD} ] .", piece())), format!("{HUB_ACK}M 1B 37 38\n{HUB_ACK}L 8\n"));
    assert_eq!(desk_hub(&format!("[ {CARD} {CARD} ]")), format!("{OUT}{HUB_ACK}L 8\n").repeat(2));
}

#[test]
fn a_block_is_left_where_room_runs_short() {
    let pieces = format!("[ {} ]", piece().repeat(4));
    let ack_calls = |calls: &[usize]| -> String {
        calls.iter().map(|n| format!("{}L {}\n", joined(&vec![HUB_ACK; *n]), 8 * n)).collect()
    };
    for (room, calls) in [
        ("07", &[1, 1, 1, 1][..]),
        ("0C", &[1, 1, 1, 1]),
        ("0D", &[2, 2]),
        ("12", &[2, 2]),
        ("13", &[3, 1]),
        ("14", &[3, 1]),
        ("18", &[3, 1]),
        ("19", &[4]),
    ] {
        assert_eq!(desk_hub(&format!("K 00 {room} ; {pieces}")), ack_calls(calls), "{room}");
    }
    // After a NAK of 7 bytes as well, though a deaf hub needs no more room: then the rest is ignored by another call.
    assert_eq!(desk_hub("K 00 0D ; [ 03 04 05 ]"), format!("R 1\n{HUB_NAK_1}L 1\nL 2\n"));
    assert_eq!(desk_hub("K 00 0E ; [ 03 04 05 ]"), format!("R 1\n{HUB_NAK_1}L 3\n"));
    // A room set holds for blocks and events alike, and lasts.
    assert_eq!(desk_hub("K 00 0D ; [ 03 04 ] . 03 . [ 03 04 ]"), {
        let call = format!("R 1\n{HUB_NAK_1}L 1\nL 1\n");
        format!("{call}R 1\n{HUB_NAK_1}{call}")
    });
}

#[test]
fn only_refusals_1_and_2_are_shown_in_a_block() {
    for (opcode, source, status, data) in [
        (DECODE_DATA, HOST, 0, &[0x1B][..]),
        (DECODE_DATA, READER, 4, &[0x1B]),
        (PARAM_SEND, READER, 0, &[0xFF]),
        (DECODE_DATA, READER, 0, &[]),
    ] {
        let bytes = packet(opcode, source, status, data);
        assert_eq!(desk_hub(&format!("[ {bytes} ]")), format!("{HUB_NAK_2}L {}\n", data.len() + 6));
    }
    let other = packet(DECODE_DATA, READER, 0, &[0x1C]);
    let barred = format!("[ {} {other} ]", piece());
    assert_eq!(desk_hub(&barred), format!("{}L 15\n", joined(&[HUB_ACK, HUB_NAK_6])));
    // It stays barred behind the block, over character gaps.
    assert_eq!(desk_hub(&format!("{barred} . {CARD} / {CARD}")), {
        let first = format!("{}L 15\n", joined(&[HUB_ACK, HUB_NAK_6]));
        format!("{first}R 10\n{HUB_NAK_6}{OUT}{HUB_ACK}")
    });
    // 1 and 2 stand before the answers, though these came first; a gap outside of the block gives 3.
    let late = format!("R 1\n{}L 11\n", joined(&[HUB_ACK, HUB_NAK_1]));
    assert_eq!(desk_hub(&format!("[ {} 03 {} ]", piece(), "06 F3")), late);
    assert_eq!(desk_hub(&format!("[ {} 06 F3 ] .", piece())), format!("{HUB_ACK}L 10\nR 3\n{HUB_NAK_1}"));
    // The reader's ACK and NAK are ignored.
    assert_eq!(desk_hub("[ 04 D0 00 00 FF 2C 05 D1 00 00 06 FF 24 ]"), "L 13\n");
}

#[test]
fn a_block_is_refused_by_13_then_15() {
    assert_eq!(desk_hub(&format!("K 00 06 ; [ ] [ {CARD} ] [ 03 ]")), "R 13\n".repeat(3));
    let long = |n: usize| format!("[ {} ]", "03 ".repeat(n));
    assert_eq!(desk_hub(&long(4_096)), format!("R 1\n{HUB_NAK_1}L 4096\n"));
    for size in [4_097, 4_098, 4_099, 8_192, 70_000] {
        assert_eq!(desk_hub(&long(size)), "R 15\n");
        assert_eq!(desk_hub(&format!("K 00 06 ; {}", long(size))), "R 13\n");
    }
    // Neither changes anything: a packet begun goes on, a deaf hub stays deaf, a barred one barred.
    let both = format!("{} K 00 06 ; {} [ 03 ] K 00 07 ; ", long(4_097), long(4_097));
    let refused = "R 15\nR 13\nR 13\n";
    assert_eq!(desk_hub(&format!("06 F3 00 {both} 00 1B 38 FE B4")), format!("{refused}{OUT}{HUB_ACK}"));
    assert_eq!(desk_hub(&format!("03 {both} {CARD}")), format!("R 1\n{HUB_NAK_1}{refused}"));
    let other = packet(DECODE_DATA, READER, 0, &[0x1C]);
    let barred = desk_hub(&format!("{} {other} {both} {CARD}", piece()));
    assert_eq!(barred, format!("{HUB_ACK}R 10\n{HUB_NAK_6}{refused}R 10\n{HUB_NAK_6}"));
    // Nor does a call without a byte, where it is not refused.
    assert_eq!(desk_hub("06 F3 00 [ ] 00 1B 38 [] FE B4"), format!("L 0\nL 0\n{OUT}{HUB_ACK}"));
}

#[test]
fn the_notation_of_blocks() {
    for wrong in [
        "[ .", "[ 03 . ]", "[ 03 / ]", "[ ;", "[ 03 ; ]", "[ K", "[ [", "[ 0 3 ]", "[ 0]", "[ 0", "[ 03 0", "[\t]",
        "{ 03 }", "( 03 )", "]", "3[ 03 ]",
    ] {
        assert_eq!(desk_hub(&format!("03 . {wrong}")), format!("R 1\n{HUB_NAK_1}E\n"), "{wrong:?}");
    }
    for unended in ["[", "[ 03", "[ 03 04\r\n", &format!("[ {}", "03 ".repeat(5_000))] {
        assert_eq!(desk_hub(unended), "");
    }
    assert_eq!(desk_hub("[06f3\r\n0000\n1b]38 fe b4"), format!("L 5\n{OUT}{HUB_ACK}"));
    // Only desk's hub knows them.
    assert_eq!(hub("03 . [ 03 ]"), format!("{HUB_NAK_1}E\n"));
    assert_eq!(reader("03 . [ 03 ]"), format!("R 1\n{READER_NAK_1}E\n"));
}

// Blocks against bytes.

/// The bytes up to each gap of a stream, and that gap; and the bytes behind the last one.
fn stretches(text: &[u8]) -> Vec<(Vec<u8>, Option<LineEvent>)> {
    let mut stretches = vec![(Vec::new(), None)];
    let mut characters = text.iter().filter(|character| !character.is_ascii_whitespace());
    while let Some(first) = characters.next() {
        let (bytes, gap) = stretches.last_mut().expect("one");
        match first {
            b'.' => *gap = Some(LineEvent::Gap),
            b'/' => *gap = Some(LineEvent::MessageGap),
            _ => {
                let pair = [*first, *characters.next().expect("a second digit")];
                bytes.push(u8::from_str_radix(std::str::from_utf8(&pair).expect("digits"), 16).expect("a pair"));
            }
        }
        if gap.is_some() {
            stretches.push((Vec::new(), None));
        }
    }
    stretches
}

/// A hub, and all that it has told.
#[derive(Default, PartialEq, Debug)]
struct Told {
    hub: Hub,
    messages: Vec<Message>,
    answers: Vec<u8>,
    /// 1 to 3.
    refusals: Vec<Refusal>,
}

impl Told {
    fn event(&mut self, event: LineEvent) {
        let step = self.hub.take(event);
        self.answers.extend(step.answer().unwrap_or_default());
        match step.done {
            crate::hub::Done::HandedOut(message) => self.messages.push(message),
            crate::hub::Done::Refused(refusal) if refusal.number() <= 3 => self.refusals.push(refusal),
            _ => {}
        }
    }

    /// In as many calls as it takes.
    fn block(&mut self, bytes: &[u8], room: usize) {
        let mut left = bytes;
        loop {
            let block = self.hub.take_block(left, room).expect("room, and few bytes");
            assert!(block.taken > 0 || left.is_empty());
            assert!(block.answers.len() <= room);
            let full = block.message.is_some() || room - block.answers.len() < ANSWER_ROOM;
            assert!(full || block.taken == left.len(), "left early");
            self.answers.extend(block.answers);
            self.messages.extend(block.message);
            self.refusals.extend(block.refusal);
            left = &left[block.taken..];
            if left.is_empty() {
                return;
            }
        }
    }
}

/// Both ways beside each other: they agree at every gap. `draw` gives a block's size and its room.
fn hold_against_bytes(stretches: &[(Vec<u8>, Option<LineEvent>)], mut draw: impl FnMut() -> (usize, usize)) {
    let (mut alone, mut in_blocks) = (Told::default(), Told::default());
    for (bytes, gap) in stretches {
        bytes.iter().for_each(|byte| alone.event(LineEvent::Byte(*byte)));
        let mut left = &bytes[..];
        while !left.is_empty() {
            let (size, room) = draw();
            let (block, rest) = left.split_at(size.min(left.len()));
            in_blocks.block(block, room);
            left = rest;
        }
        assert_eq!(alone, in_blocks);
        gap.iter().for_each(|gap| [&mut alone, &mut in_blocks].into_iter().for_each(|told| told.event(*gap)));
    }
    assert_eq!(alone, in_blocks);
}

#[test]
fn blocks_of_every_size_agree_with_bytes() {
    for seed in 1..=4 {
        let stream = stretches(&open_stream(Kind::Hub, seed, 3_000).text);
        for (size, room) in (1..=300).zip((7..=27).cycle()) {
            hold_against_bytes(&stream, || (size, room));
        }
        hold_against_bytes(&stream, || (LONGEST_BLOCK, 65_535));
    }
}

#[test]
fn blocks_cut_at_random_agree_with_bytes() {
    for seed in 1..=150 {
        let stream = stretches(&open_stream(Kind::Hub, seed, 3_000).text);
        let dice = &mut Dice::new(seed);
        let most = dice.pick(&[3, 20, 300, LONGEST_BLOCK]);
        hold_against_bytes(&stream, || (dice.between(0, most), dice.between(7, 40)));
    }
}

/// Without a gap anywhere, so that whole messages and long deaf spells come in a call.
#[test]
fn blocks_without_gaps_agree_with_bytes() {
    for seed in 1..=150 {
        let stream = stretches(&open_stream(Kind::Hub, seed, 3_000).text);
        let dice = &mut Dice::new(!seed);
        // Packets that are whole, one behind the other, with something else in one place of fifty.
        let whole: Vec<u8> = stream
            .iter()
            .filter(|(bytes, _)| {
                check(bytes).is_ok_and(|packet| packet.bytes().len() == bytes.len()) || dice.below(50) == 0
            })
            .flat_map(|(bytes, _)| bytes.clone())
            .collect();
        hold_against_bytes(&[(whole, Some(LineEvent::Gap))], || (dice.between(1, LONGEST_BLOCK), dice.between(7, 99)));
    }
}

#[test]
fn a_refused_call_changes_nothing() {
    let stream = stretches(&open_stream(Kind::Hub, 5, 3_000).text);
    let (mut told, mut other) = (Hub::default(), Hub::default());
    for (bytes, gap) in stream {
        for byte in bytes {
            assert_eq!(told.take_block(&[byte; 9], ANSWER_ROOM - 1), Err(Refusal::Room));
            assert_eq!(told.take_block(&[byte; LONGEST_BLOCK + 1], ANSWER_ROOM - 1), Err(Refusal::Room));
            assert_eq!(told.take_block(&[byte; LONGEST_BLOCK + 1], ANSWER_ROOM), Err(Refusal::Long));
            assert_eq!(told.take_block(&[], ANSWER_ROOM).map(|block| block.taken), Ok(0));
            assert_eq!(told, other);
            [&mut told, &mut other].into_iter().for_each(|hub| drop(hub.take(LineEvent::Byte(byte))));
        }
        gap.iter().for_each(|gap| [&mut told, &mut other].into_iter().for_each(|hub| drop(hub.take(*gap))));
    }
}
