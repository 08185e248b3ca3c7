//! The packets of docs/PROTOCOL.md (§2, §17), of the published guides, and the readings of the open points.

mod blocks;
mod kept;

use crate::form::{self, Fault};
use crate::framer::{Framed, Framer, LineEvent};
use crate::listing::{output, Side};
use crate::packet::*;
use crate::sender::{End, Sent};
use crate::streams::Kind;
use crate::table::{allowed, beep, Table, ROWS};

/// Bytes from spaced digits.
fn bytes(text: &str) -> Vec<u8> {
    text.split_whitespace().map(|pair| u8::from_str_radix(pair, 16).expect("two digits")).collect()
}

/// The notation of a packet built here, with `.` after it.
fn sent(opcode: u8, source: u8, status: u8, data: &[u8]) -> String {
    let mut text = Vec::new();
    crate::listing::push_bytes(&lay_out(opcode, source, status, data), &mut text);
    String::from_utf8(text).expect("digits") + " . "
}

fn hub(input: &str) -> String {
    String::from_utf8(output(Side::Hub, input.as_bytes())).expect("plain lines")
}

fn desk_hub(input: &str) -> String {
    String::from_utf8(output(Side::DeskHub, input.as_bytes())).expect("plain lines")
}

fn reader(input: &str) -> String {
    String::from_utf8(output(Side::DeskReader, input.as_bytes())).expect("plain lines")
}

/// The lines that one more piece of input adds.
fn reader_after(before: &str, input: &str) -> String {
    let whole = reader(&format!("{before} {input}"));
    whole.strip_prefix(&reader(before)).expect("streaming").to_string()
}

fn hub_after(before: &str, input: &str) -> String {
    let whole = hub(&format!("{before} {input}"));
    whole.strip_prefix(&hub(before)).expect("streaming").to_string()
}

const HUB_ACK: &str = "A 04 D0 04 00 FF 28\n";
const HUB_NAK_1: &str = "A 05 D1 04 00 01 FF 25\n";
const HUB_NAK_2: &str = "A 05 D1 04 00 02 FF 24\n";
const HUB_NAK_6: &str = "A 05 D1 04 00 06 FF 20\n";
const READER_ACK: &str = "A 04 D0 00 00 FF 2C\n";
const READER_NAK_1: &str = "A 05 D1 00 00 01 FF 29\n";
const READER_NAK_2: &str = "A 05 D1 00 00 02 FF 28\n";
const READER_NAK_6: &str = "A 05 D1 00 00 06 FF 24\n";
const QUIET: &str = "G 1 0 0 0\n";
/// 9Fh off, and on again.
const OFF: &str = "07 C6 04 00 FF 9F 00 FD 91 . ";
const ON: &str = "07 C6 04 00 FF 9F 01 FD 90 . ";

// The packet.

#[test]
fn cases_1_to_8_are_built_and_checked() {
    let cases: [(&str, u8, u8, &[u8]); 9] = [
        ("04 D0 04 00 FF 28", CMD_ACK, HOST, &[]),
        ("04 D0 00 00 FF 2C", CMD_ACK, READER, &[]),
        ("05 D1 04 00 01 FF 25", CMD_NAK, HOST, &[1]),
        ("05 D1 00 00 06 FF 24", CMD_NAK, READER, &[6]),
        ("06 F3 00 00 1B 38 FE B4", DECODE_DATA, READER, &[0x1B, 0x38]),
        ("05 F3 00 00 1B FE ED", DECODE_DATA, READER, &[0x1B]),
        ("07 C6 04 00 FF 8A 08 FD 9E", PARAM_SEND, HOST, &[0xFF, 0x8A, 8]),
        ("05 C7 04 00 8A FE A6", PARAM_REQUEST, HOST, &[0x8A]),
        ("07 C6 00 00 FF 8A 08 FD A2", PARAM_SEND, READER, &[0xFF, 0x8A, 8]),
    ];
    for (text, opcode, source, data) in cases {
        assert_eq!(written(opcode, source, 0, data), bytes(text));
        let packet = check(&bytes(text)).expect(text);
        assert_eq!((packet.opcode(), packet.source(), packet.status()), (opcode, source, 0));
        assert_eq!(packet.data(), data);
    }
}

#[test]
fn packets_of_the_sources_pass_the_check() {
    let whole = [
        "05 C7 04 00 FE FE 32",
        "0D C6 00 00 FF 01 00 02 01 9C 07 E6 63 FC 3E",
        "06 C7 04 00 01 9C FE 92",
        "09 C6 00 00 FF 01 00 9C 07 FD 8E",
        "07 C7 04 00 FE 01 9C FD 93",
        "07 C7 04 00 01 9C FE FD 93",
        "05 C7 04 00 04 FF 2C",
        "05 C6 00 00 FF FE 36",
        "07 C7 04 00 FE FE FE FC 34",
        "07 C7 04 00 01 01 01 FF 2B",
        "0B C6 00 00 FF 01 00 01 00 01 00 FE 2D",
        "1D C6 00 00 FF F7 F1 15 12 00 00 44 53 34 33 30 38 2D 53 52 30 30 30 30 37 5A 5A 57 57 F7 7E",
        "06 C7 04 80 F0 3E FD 81",
        "0A C6 00 00 FF F4 F0 3E 04 FF FB 0C",
        "07 C7 04 80 F8 04 5E FD 54",
        "0B C6 00 00 FF F4 F8 04 5E 00 00 FB E2",
        "14 F3 00 00 99 1A 02 00 00 03 41 42 43 00 00 04 44 45 46 47 FC 61",
    ];
    for text in whole {
        let all = bytes(text);
        let packet = check(&all).expect(text);
        assert_eq!(packet.bytes(), all);
        let again = lay_out(packet.opcode(), packet.source(), packet.status(), packet.data());
        assert_eq!(again, all);
    }
    assert_eq!(check(&bytes("06 C7 04 80 F1 15 FD")), Err(Refusal::Cut));
}

#[test]
fn the_check_reads_only_the_front() {
    assert_eq!(check(&[]), Err(Refusal::Cut));
    assert_eq!(check(&[3]), Err(Refusal::Length));
    assert_eq!(check(&[4]), Err(Refusal::Cut));
    assert_eq!(check(&bytes("04 D0 04 00 FF")), Err(Refusal::Cut));
    assert_eq!(check(&bytes("04 D0 04 00 FF 29")), Err(Refusal::Checksum));
    let long = bytes("04 D0 04 00 FF 28 03 03");
    assert_eq!(check(&long).expect("whole").bytes(), &long[..6]);
}

#[test]
fn build_refuses_in_its_order() {
    let mut room = [9; 257];
    let big = [0; 252];
    assert_eq!(build(&mut room[..256], 0, 1, 0xFF, &big), Err(Refusal::Room));
    assert_eq!(build(&mut room, 0, 1, 0xFF, &big), Err(Refusal::Source));
    assert_eq!(build(&mut room, 0, HOST, MORE, &big), Err(Refusal::Status));
    assert_eq!(build(&mut room, 0, HOST, 4, &big), Err(Refusal::Status));
    assert_eq!(build(&mut room, 0, HOST, MARK | PERMANENT, &big), Err(Refusal::DataLength));
    assert_eq!(room, [9; 257]);
    assert_eq!(build(&mut room, DECODE_DATA, READER, MORE, &big[..251]), Ok(257));
    assert_eq!(build(&mut room, 0, HOST, 0, &[]), Ok(6));
}

#[test]
fn the_framer_goes_deaf_after_1_and_2() {
    let mut framer = Framer::default();
    let mut feed = |text: &str| -> Vec<Framed> {
        let events = text.split_whitespace().map(|word| match word {
            "." => LineEvent::Gap,
            "/" => LineEvent::MessageGap,
            _ => LineEvent::Byte(u8::from_str_radix(word, 16).expect("a pair")),
        });
        events.map(|event| framer.take(event)).filter(|framed| *framed != Framed::Nothing).collect()
    };
    assert_eq!(feed("03"), [Framed::Refused(Refusal::Length)]);
    assert_eq!(feed("04 D0 04 00 FF 28 03 . . /"), []);
    assert_eq!(feed("04 D0 04 00 FF 29"), [Framed::Refused(Refusal::Checksum)]);
    assert_eq!(feed("04 D0 04 00 FF 28 /"), []);
    assert_eq!(feed("04 D0 ."), [Framed::Refused(Refusal::Cut)]);
    let ack = Framed::Packet(check(&bytes("04 D0 04 00 FF 28")).expect("an ACK"));
    assert_eq!(feed("04 D0 04 00 FF 28 04 D0 04 00 FF 28"), [ack.clone(), ack]);
}

// The hub.

#[test]
fn the_hub_listing_of_document_01() {
    let input = "06 F3 00 00 1B 38 FE B4 . 06 F3 00 01 1B 38 FE B3 .";
    let lines = "M 1B 38\nA 04 D0 04 00 FF 28\nA 04 D0 04 00 FF 28\n";
    assert_eq!(hub(input), lines);
    assert_eq!(hub(&input.to_lowercase().replace(' ', "")), lines);
}

#[test]
fn the_hub_refuses_1_to_7() {
    assert_eq!(hub("03 04 D0 . 06 F3 . 06 F3 00 00 1B 38 FE B5"), HUB_NAK_1.repeat(3));
    for (opcode, source, status, data) in [
        (DECODE_DATA, HOST, 0, &[0x1B][..]),
        (DECODE_DATA, READER, 4, &[0x1B]),
        (PARAM_SEND, READER, MORE, &[0xFF]),
        (PARAM_SEND, READER, 0, &[0xFF]),
        (DECODE_DATA, READER, 0, &[]),
    ] {
        assert_eq!(hub(&sent(opcode, source, status, data)), HUB_NAK_2);
    }
    assert_eq!(
        hub("14 F3 00 00 99 1A 02 00 00 03 41 42 43 00 00 04 44 45 46 47 FC 61"),
        format!("M 99 1A 02 00 00 03 41 42 43 00 00 04 44 45 46 47\n{HUB_ACK}")
    );
    assert_eq!(hub("05 F3 00 00 1B FE ED"), format!("M 1B\n{HUB_ACK}"));
}

#[test]
fn the_hub_ignores_answers_right_or_wrong() {
    let odd = [sent(CMD_ACK, READER, 0, &[]), sent(CMD_ACK, HOST, 0xFF, &[1, 2]), sent(CMD_NAK, 9, 2, &[])];
    assert_eq!(hub(&odd.concat()), "");
    // They don't count as the last accepted packet either.
    let piece = "06 F3 00 00 1B 38 FE B4 . ";
    let again = "06 F3 00 01 1B 38 FE B3 . ";
    assert_eq!(hub_after(&(piece.to_string() + &odd.concat()), again), HUB_ACK);
}

#[test]
fn another_type_bars_the_hub_until_a_message_gap() {
    let first = sent(DECODE_DATA, READER, MORE, &[0x1B]);
    let other = sent(DECODE_DATA, READER, 0, &[0x1C, 1]);
    let again = sent(DECODE_DATA, READER, MORE | MARK, &[0x1B]);
    let opener = first.clone() + &other;
    assert_eq!(hub(&opener), format!("{HUB_ACK}{HUB_NAK_6}"));
    assert_eq!(hub_after(&opener, &other), HUB_NAK_6);
    assert_eq!(hub_after(&opener, &again), HUB_NAK_6);
    assert_eq!(hub_after(&opener, &sent(CMD_ACK, READER, 0, &[])), "");
    assert_eq!(hub_after(&opener, &sent(DECODE_DATA, READER, 0, &[])), HUB_NAK_2);
    assert_eq!(hub_after(&opener, &format!(". . {other}")), HUB_NAK_6);
    assert_eq!(hub_after(&opener, &format!("/ {other}")), format!("M 1C 01\n{HUB_ACK}"));
    assert_eq!(hub_after(&opener, "03"), HUB_NAK_1);
    assert_eq!(hub_after(&format!("{opener} 03"), &format!("/ {other}")), format!("M 1C 01\n{HUB_ACK}"));
    assert_eq!(hub_after(&format!("{opener} 06 F3"), "/"), HUB_NAK_1);
}

#[test]
fn a_total_of_4096_passes_and_one_more_bars() {
    let mut long = String::new();
    for i in 0..16u8 {
        long += &sent(DECODE_DATA, READER, MORE, &[&[0x1B][..], &[i; 250]].concat());
    }
    let last = |n: usize| sent(DECODE_DATA, READER, 0, &[&[0x1B][..], &vec![7; n]].concat());
    let ended = hub_after(&long, &last(96));
    assert!(ended.starts_with("M 1B 00 00") && ended.ends_with(&format!(" 07\n{HUB_ACK}")));
    assert_eq!(ended.len(), 1 + 3 * 4_097 + 1 + HUB_ACK.len());
    assert_eq!(hub_after(&long, &last(97)), HUB_NAK_6);
    assert_eq!(hub_after(&(long + &last(97)), &last(0)), HUB_NAK_6);
}

#[test]
fn a_message_gap_forgets_the_last_accepted_packet() {
    let piece = "06 F3 00 00 1B 38 FE B4 . ";
    let again = "06 F3 00 01 1B 38 FE B3 . ";
    assert_eq!(hub_after(piece, again), HUB_ACK);
    assert_eq!(hub_after(&(piece.to_string() + "/"), again), format!("M 1B 38\n{HUB_ACK}"));
    // A marked packet whose first copy was lost is a new one, an unmarked equal too.
    assert_eq!(hub(again), format!("M 1B 38\n{HUB_ACK}"));
    assert_eq!(hub_after(piece, piece), format!("M 1B 38\n{HUB_ACK}"));
    // Bit 3 counts in the equality, a refusal between doesn't matter.
    assert_eq!(hub_after(piece, &sent(DECODE_DATA, READER, 9, &[0x1B, 0x38])), format!("M 1B 38\n{HUB_ACK}"));
    assert_eq!(hub_after(&(piece.to_string() + "03 . "), again), HUB_ACK);
}

// The reader's commands.

#[test]
fn the_first_example_of_the_listings_page() {
    let input = "05 E6 04 00 01 FF 10 .  07 C6 04 00 FF 8A 08 FD 9E .  05 C7 04 00 8A FE A6 .";
    let lines = "B 0 0 2\nG 1 0 0 0\nA 04 D0 00 00 FF 2C\nG 1 0 0 0\nA 04 D0 00 00 FF 2C\n\
                 G 1 0 0 0\nA 07 C6 00 00 FF 8A 08 FD A2\n";
    assert_eq!(reader(input), lines);
}

#[test]
fn requests_of_the_sources() {
    let all = "A 17 C6 00 00 FF 80 00 89 0A 8A 00 9B 14 9C 06 9E 04 9F 01 ED 00 EE 01 F8 18\n";
    let none = "A 05 C6 00 00 FF FE 36\n";
    for (request, answer) in [
        ("05 C7 04 00 FE FE 32", all),
        ("06 C7 04 00 01 9C FE 92", "A 07 C6 00 00 FF 9C 06 FD 92\n"),
        ("07 C7 04 00 FE 01 9C FD 93", all),
        ("07 C7 04 00 01 9C FE FD 93", all),
        ("05 C7 04 00 04 FF 2C", none),
        ("07 C7 04 00 FE FE FE FC 34", all),
        ("07 C7 04 00 01 01 01 FF 2B", none),
    ] {
        assert_eq!(reader(request), format!("{QUIET}{answer}"));
    }
    let set = sent(PARAM_SEND, HOST, 0, &[0xFF, 0x9C, 7]);
    assert_eq!(reader_after(&set, "06 C7 04 00 01 9C FE 92"), format!("{QUIET}A 07 C6 00 00 FF 9C 07 FD 91\n"));
    assert_eq!(reader("06 C7 04 80 F1 15 FD ."), format!("R 3\n{READER_NAK_1}"));
    assert_eq!(reader("06 C7 04 80 F0 3E FD 81"), format!("R 5\n{READER_NAK_2}"));
    assert_eq!(reader("07 C7 04 80 F8 04 5E FD 54"), format!("R 5\n{READER_NAK_2}"));
    let reply = "0D C6 00 00 FF 01 00 02 01 9C 07 E6 63 FC 3E";
    assert_eq!(reader(reply), format!("R 4\n{READER_NAK_2}"));
    assert_eq!(hub(reply), HUB_NAK_2);
}

#[test]
fn the_reader_refuses_in_rising_order() {
    for (number, opcode, source, status, data) in [
        (4, PARAM_SEND, READER, 0xFF, &[][..]),
        (5, 0x00, HOST, 4, &[]),
        (5, 0x00, HOST, MORE, &[]),
        (5, BEEP, HOST, MORE, &[]),
        (6, DECODE_DATA, HOST, MORE, &[]),
        (6, 0xF0, HOST, 0, &[]),
        (7, PARAM_SEND, HOST, 0, &[]),
        (7, PARAM_SEND, HOST, 0, &[0x1E, 0x80]),
        (7, PARAM_REQUEST, HOST, 0, &[]),
        (7, BEEP, HOST, 0, &[0x1E, 0]),
        (7, START_SESSION, HOST, 0, &[0]),
    ] {
        assert_eq!(reader(&sent(opcode, source, status, data)), format!("R {number}\n{READER_NAK_2}"));
    }
    for (number, opcode, data) in [
        (8, BEEP, &[0x1E][..]),
        (8, BEEP, &[0xFF]),
        (8, PARAM_SEND, &[0x1E, 0x80, 2]),
        (9, PARAM_SEND, &[0x00, 0x80, 2]),
        (9, PARAM_SEND, &[0xFF, 0x81, 0]),
        (9, PARAM_SEND, &[0xFF, 0x8A, 1]),
        (9, PARAM_SEND, &[0xFF, 0x80, 2, 0x80, 1]),
    ] {
        assert_eq!(reader(&sent(opcode, HOST, 0, data)), format!("R {number}\n{READER_NAK_6}"));
    }
}

#[test]
fn every_range_has_its_ends() {
    for [number, low, high, default] in ROWS {
        assert!(allowed(number, low) && allowed(number, high) && allowed(number, default));
        assert!(!allowed(number, high + 1));
        assert!(low == 0 || !allowed(number, low - 1));
    }
    let triggers: Vec<u8> = (0..=255).filter(|value| allowed(0x8A, *value)).collect();
    assert_eq!(triggers, [0, 2, 4, 7, 8]);
    assert_eq!((0..=255u8).filter(|number| allowed(*number, 1)).count(), 8);
    assert_eq!(Table::house_defaults().present, [0, 10, 0, 20, 6, 4, 1, 0, 1]);
}

#[test]
fn beeps_end_at_1dh() {
    for (code, row) in [
        (0x00, [0, 0, 1]),
        (0x13, [1, 1, 5]),
        (0x1A, [1, 7, 4]),
        (0x1B, [0, 8, 13]),
        (0x1C, [8, 0, 1]),
        (0x1D, [9, 9, 1]),
    ] {
        assert_eq!(beep(code), Some(row));
    }
    assert_eq!(beep(0x1E), None);
    assert_eq!(reader("05 E6 04 00 1C FE F5"), format!("B 8 0 1\n{QUIET}{READER_ACK}"));
    for code in 0..=0xFF {
        let row = beep(code).map(|[duration, pitch, count]| format!("B {duration} {pitch} {count}\n"));
        let told = |row: Option<String>| row.map_or(format!("R 8\n{READER_NAK_6}"), |row| row + QUIET + READER_ACK);
        assert_eq!(reader(&sent(BEEP, HOST, 0, &[code])), told(row.clone()));
        let silence = (code == 0xFF).then(String::new);
        assert_eq!(reader(&sent(PARAM_SEND, HOST, 0, &[code])), told(row.or(silence)));
    }
}

#[test]
fn switches() {
    let steps = [
        ("04 E4 04 00 FF 14", "G 1 1 0 0\n"),
        ("04 C5 04 00 FF 33", "G 1 1 1 0\n"),
        ("05 E7 04 00 01 FF 0F", "G 1 1 1 1\n"),
        ("04 E9 04 00 FF 0F", "G 1 1 1 1\n"),
        ("04 EA 04 00 FF 0E", "G 0 0 1 1\n"),
        ("04 E4 04 00 FF 14", "G 0 0 1 1\n"),
        ("04 E9 04 00 FF 0F", "G 1 0 1 1\n"),
        ("04 E4 04 00 FF 14", "G 1 1 1 1\n"),
        ("04 E5 04 00 FF 13", "G 1 0 1 1\n"),
        ("05 E8 04 00 02 FF 0D", "G 1 0 1 1\n"),
        ("05 E8 04 00 01 FF 0E", "G 1 0 1 0\n"),
        ("05 E7 04 00 FE FE 12", "G 1 0 1 0\n"),
        ("04 C4 04 00 FF 34", "G 1 0 0 0\n"),
        ("04 C8 04 00 FF 30", "G 1 0 0 0\n"),
    ];
    let mut before = String::new();
    for (packet, line) in steps {
        assert_eq!(reader_after(&before, packet), format!("{line}{READER_ACK}"));
        before += packet;
    }
    let on = "04 EA 04 00 FF 0E 04 C5 04 00 FF 33 05 E7 04 00 01 FF 0F P";
    assert_eq!(reader_after(on, "04 E9 04 00 FF 0F"), format!("{QUIET}{READER_ACK}"));
}

#[test]
fn present_and_permanent_values() {
    let ask = "05 C7 04 00 89 FE A7 . ";
    let value = |v: u8| format!("{QUIET}A{}\n", sent(PARAM_SEND, READER, 0, &[0xFF, 0x89, v]).trim_end_matches(" . "));
    let for_now = sent(PARAM_SEND, HOST, 0, &[0xFF, 0x89, 5, 0x89, 7]);
    let for_ever = sent(PARAM_SEND, HOST, PERMANENT, &[0xFF, 0x89, 9]);
    let bad = sent(PARAM_SEND, HOST, 0, &[0xFF, 0x89, 1, 0x80, 2]);
    assert_eq!(reader_after(&for_now, ask), value(7));
    assert_eq!(reader_after(&(for_now.clone() + "P"), ask), value(10));
    assert_eq!(reader_after(&(for_ever.clone() + &for_now), ask), value(7));
    assert_eq!(reader_after(&(for_ever.clone() + &for_now + "P"), ask), value(9));
    assert_eq!(reader_after(&(for_ever.clone() + &bad), ask), value(9));
    assert_eq!(reader_after(&(for_ever + "04 C8 04 00 FF 30 P"), ask), value(10));
}

#[test]
fn without_handshaking_only_requests_are_answered() {
    assert_eq!(reader(OFF), format!("{QUIET}{READER_ACK}"));
    assert_eq!(reader_after(OFF, ON), QUIET);
    assert_eq!(reader_after(OFF, "05 C7 04 00 9F FE 91"), format!("{QUIET}A 07 C6 00 00 FF 9F 00 FD 95\n"));
    assert_eq!(reader_after(OFF, "03 . 04 FF . 04 C8 00 00 FF 34 05 E6 04 00 1E FE F3"), "R 1\nR 3\nR 4\nR 8\n");
    assert_eq!(reader_after(&format!("{OFF} {ON}"), "03"), format!("R 1\n{READER_NAK_1}"));
}

#[test]
fn resent_equals_get_the_same_answer() {
    let off_again = sent(PARAM_SEND, HOST, MARK, &[0xFF, 0x9F, 0]);
    let on_again = sent(PARAM_SEND, HOST, MARK, &[0xFF, 0x9F, 1]);
    // The packet that turned 9Fh off was answered, the one that turned it on was not.
    assert_eq!(reader_after(OFF, &off_again), READER_ACK);
    assert_eq!(reader_after(&format!("{OFF} {off_again}"), &off_again), READER_ACK);
    assert_eq!(reader_after(&format!("{OFF} {ON}"), &on_again), "");
    // A marked one that is not equal is acted on, also after a power-up.
    assert_eq!(reader_after(OFF, &on_again), QUIET);
    assert_eq!(reader_after(&format!("{OFF} P"), &off_again), format!("{QUIET}{READER_ACK}"));
    // No beep the second time; refusals and answers between don't matter.
    let beep = sent(BEEP, HOST, 0, &[1]);
    let again = sent(BEEP, HOST, MARK, &[1]);
    assert_eq!(reader_after(&beep, &again), READER_ACK);
    assert_eq!(reader_after(&format!("{beep} 03 . 04 D0 04 00 FF 28"), &again), READER_ACK);
    assert_eq!(reader_after(&beep, &beep), format!("B 0 0 2\n{QUIET}{READER_ACK}"));
    assert_eq!(reader_after(&beep, &sent(BEEP, HOST, MARK | PERMANENT, &[1])), format!("B 0 0 2\n{QUIET}{READER_ACK}"));
}

// The sender.

#[test]
fn the_second_example_of_the_listings_page() {
    let lines = "C 06 F3 00 00 1B 38 FE B4\nC 06 F3 00 01 1B 38 FE B3\nD 1\n";
    assert_eq!(reader("S 1B 38 ; T 04 D0 04 00 FF 28 ."), lines);
}

/// `S` for a message of `n` equal bytes.
fn start(n: usize) -> String {
    format!("S 1B {} ; ", "38 ".repeat(n))
}

const ACK: &str = "04 D0 04 00 FF 28 . ";

/// `S` for a message of these bytes.
fn start_of(code_type: u8, message: &[u8]) -> String {
    let mut text = b"S".to_vec();
    crate::listing::push_bytes(&[&[code_type], message].concat(), &mut text);
    String::from_utf8(text).expect("digits") + " ; "
}

/// A message of these bytes, with an ACK for each of its pieces.
fn delivered(code_type: u8, message: &[u8]) -> String {
    start_of(code_type, message) + &ACK.repeat(pieces(message).len())
}

/// The pieces that are sent of a message, each with bit 1 or without.
fn pieces_sent(message: &[u8]) -> Vec<(bool, Vec<u8>)> {
    let mut sender = crate::sender::Sender::default();
    let ack = check(&lay_out(CMD_ACK, HOST, 0, &[])).expect("an ACK");
    let mut copy = sender.start(0x1B, message).expect("nothing out").copy;
    let mut pieces = Vec::new();
    loop {
        pieces.push((copy[3] == MORE, copy[HEADER + 1..copy.len() - CHECKSUM].to_vec()));
        match sender.answer(&ack) {
            Sent::Copy(next) => copy = next,
            sent => {
                assert_eq!(sent, Sent::Ended(End::Delivered(0)));
                return pieces;
            }
        }
    }
}

/// Their sizes. In any case they are the message, and no two neighbours are equal.
fn pieces(message: &[u8]) -> Vec<usize> {
    let pieces = pieces_sent(message);
    let joined: Vec<u8> = pieces.iter().flat_map(|(_, piece)| piece.clone()).collect();
    assert_eq!(joined, message);
    assert!(pieces.windows(2).all(|pair| pair[0] != pair[1] && pair[0].0));
    assert!(!pieces[pieces.len() - 1].0);
    pieces.into_iter().map(|(_, piece)| piece.len()).collect()
}

#[test]
fn pieces_hold_250_bytes() {
    let message: Vec<u8> = (0..4_096).map(|i: usize| (i / 250) as u8).collect();
    for (size, count, last) in [(0, 1, 0), (250, 1, 250), (251, 2, 1), (500, 2, 250), (4_096, 17, 96)] {
        let lines = reader(&delivered(0x1B, &message[..size]));
        let lines: Vec<&str> = lines.lines().collect();
        assert_eq!(lines.len(), count + 1);
        assert_eq!(lines[count], "D 0");
        assert_eq!(lines[count - 1].len(), 1 + 3 * (last + 7));
        assert!(lines[..count - 1].iter().all(|line| line.starts_with("C FF F3 00 02 1B")));
    }
    assert_eq!(reader(&start(4_097)), "R 11\n");
    assert_eq!(reader(&start(9_000)), "R 11\n");
    assert_eq!(reader_after(&start(1), &start(0)), "R 11\n");
}

#[test]
fn a_piece_like_the_one_before_is_cut() {
    let sizes = |size: usize| pieces(&vec![0x38; size]);
    assert_eq!(sizes(750), [250, 249, 250, 1]);
    assert_eq!(sizes(501), [250, 249, 2]);
    // The last is never cut, be it like a whole one or like a cut one.
    assert_eq!(sizes(500), [250, 250]);
    assert_eq!(sizes(748), [250, 249, 249]);
    assert_eq!(sizes(749), [250, 249, 250]);
    assert_eq!(sizes(999), [250, 249, 250, 250]);
    assert_eq!(sizes(1_000), [250, 249, 250, 249, 2]);
    // The first never is, nor one behind a cut one.
    for size in 0..=4_096 {
        let sizes = sizes(size);
        assert!(sizes.iter().rev().skip(1).rev().enumerate().all(|(i, size)| *size == [250, 249][i % 2]));
    }
    let most = sizes(4_096);
    assert_eq!((most.len(), most[16]), (17, 104));
}

#[test]
fn a_piece_unlike_the_one_before_is_whole() {
    for place in 0..750 {
        let mut message = vec![0x38; 751];
        message[place] = 0x39;
        let due = match place {
            0..=249 => [250, 250, 249, 2],
            250..=499 => [250, 250, 250, 1],
            _ => [250, 249, 250, 2],
        };
        assert_eq!(pieces(&message), due, "{place}");
    }
    // It is the piece as it was sent that counts: blocks of 250 bytes are no measure behind a cut.
    let blocks = [[0x37; 250], [0x37; 250], [0x38; 250], [0x38; 250], [0x38; 250]].concat();
    assert_eq!(pieces(&blocks), [250, 249, 250, 250, 249, 2]);
    let mut full = vec![0x38; 4_096];
    full[4_095] = 0x39;
    assert_eq!(pieces(&full).last(), Some(&104));
    full.iter_mut().step_by(250).enumerate().for_each(|(i, byte)| *byte = i as u8);
    assert_eq!((pieces(&full).len(), pieces(&full)[16]), (17, 96));
}

#[test]
fn a_cut_piece_is_resent_as_it_was() {
    let cut = reader_after(&start(750), ACK);
    assert!(cut.starts_with("C FE F3 00 02 1B 38") && cut.len() == 1 + 3 * 256 + 1);
    let marked = reader_after(&format!("{} {ACK}", start(750)), "T");
    assert!(marked.starts_with("C FE F3 00 03 1B 38") && marked.len() == 1 + 3 * 256 + 1);
    let next = reader_after(&format!("{} {ACK} T", start(750)), ACK);
    assert!(next.starts_with("C FF F3 00 02 1B 38"));
}

const CARD: &str = "C 06 F3 00 00 1B 38 FE B4\n";
const NAK_2: &str = "05 D1 04 00 02 FF 24 . ";

#[test]
fn a_gap_is_due_after_a_failed_message() {
    let told = format!("I\n{CARD}");
    assert_eq!(reader_after(&format!("{} {NAK_2}", start(5)), &start(1)), told);
    assert_eq!(reader_after(&format!("{} T T T", start(5)), &start(1)), told);
    // Also where it failed inside, and for any message.
    assert_eq!(reader_after(&format!("{} {ACK} T T T", start(501)), &start(1)), told);
    assert!(reader_after(&format!("{} {NAK_2}", start(1)), &start(251)).starts_with("I\nC FF F3 00 02"));
    // An equal card after it is told one.
    assert_eq!(reader_after(&format!("{} {NAK_2}", start(1)), &start(1)), told);
    // Once only; but again where the next fails too.
    let after = format!("{} {NAK_2} {} ", start(5), start(1));
    assert_eq!(reader_after(&(after.clone() + ACK), &start(2)), reader(&start(2)));
    assert_eq!(reader_after(&(after + NAK_2), &start(1)), told);
}

#[test]
fn a_gap_is_due_before_an_equal_card() {
    let told = format!("I\n{CARD}");
    let eight = delivered(0x1B, b"8");
    assert_eq!(reader_after(&eight, &start(1)), told);
    assert_eq!(reader_after(&eight.repeat(2), &start(1)), told);
    // The mark of the copy before does not matter.
    assert_eq!(reader_after(&format!("{} T {ACK}", start(1)), &start(1)), told);
    // Nor how long the message before was.
    let sample = [&[0x37; 250][..], b"8"].concat();
    assert_eq!(reader_after(&delivered(0x1B, &sample), &start(1)), told);
    assert_eq!(reader_after(&delivered(0x1B, &[0x38; 750]), &start(1)), told);
    let empty = "I\nC 05 F3 00 00 1B FE ED\n";
    assert_eq!(reader_after(&delivered(0x1B, b""), &start(0)), empty);
    for size in 0..=250 {
        let card = start(size);
        assert_eq!(reader_after(&delivered(0x1B, &vec![0x38; size]), &card), format!("I\n{}", reader(&card)));
    }
}

#[test]
fn no_gap_is_due_before_another_card() {
    let long = [&[0x37; 250][..], b"88"].concat();
    for (before, type_before, message) in [
        (&b"8"[..], 0x1C, &b"8"[..]),
        (b"88", 0x1B, b"8"),
        (b"8", 0x1B, b"88"),
        (b"8", 0x1B, b""),
        (b"", 0x1B, b"8"),
        (b"8", 0x1B, b"9"),
        (b"89", 0x1B, b"88"),
        (b"98", 0x1B, b"88"),
        (&long, 0x1B, b"8"),
        (&long, 0x1C, b"88"),
        // In front of a longer message: of one packet it is the whole, and bit 1 tells them apart.
        (b"8", 0x1B, &[0x38; 251]),
        (&[0x38; 250], 0x1B, &[0x38; 251]),
        // The piece before was not the last.
        (&[0x38; 251], 0x1B, &[0x38; 250]),
        (&long, 0x1B, &long),
    ] {
        let start = start_of(0x1B, message);
        assert_eq!(reader_after(&delivered(type_before, before), &start), reader(&start));
    }
}

#[test]
fn what_comes_between_leaves_the_gap_due() {
    let told = format!("I\n{CARD}");
    let beep = sent(BEEP, HOST, 0, &[1]);
    let set = form_text(&set_of(OTHERS, &[0x89]));
    let too_long = start(4_097);
    for between in [&beep, "03 . ", "/", "T", ACK, NAK_2, OFF, &set, "W U", "L ;", &too_long, "K 00 00 ; 04 K FF FF ;"]
    {
        for before in [delivered(0x1B, b"8"), start(1) + NAK_2] {
            let whole = reader(&format!("{before} {between} {}", start(1)));
            assert!(whole.ends_with(&told), "{between:?}");
        }
    }
    // A start that is refused on the way tells nothing, and the message out is the one before.
    let on_the_way = format!("{} {} {ACK}", start(1), start_of(0x1C, b"9"));
    assert_eq!(reader_after(&on_the_way, &start_of(0x1C, b"9")), reader(&start_of(0x1C, b"9")));
    assert_eq!(reader_after(&on_the_way, &start(1)), told);
    let failed = format!("{} {NAK_2} {too_long}", start(2));
    assert_eq!(reader_after(&format!("{} {NAK_2}", start(2)), &too_long), "R 11\n");
    assert_eq!(reader_after(&failed, &start(1)), told);
}

#[test]
fn power_up_forgets_that_a_gap_is_due() {
    for before in [delivered(0x1B, b"8"), start(1) + NAK_2, start(1), start(5) + "T T T"] {
        assert_eq!(reader_after(&(before + "P"), &start(1)), CARD);
    }
}

#[test]
fn the_sender_gives_up_after_three_copies_of_one_packet() {
    let nak_1 = "05 D1 04 00 01 FF 25 . ";
    let again = "C 06 F3 00 01 1B 38 FE B3\n";
    assert_eq!(reader_after(&start(1), &format!("T {nak_1} T T {nak_1}")), format!("{again}{again}F 2\n"));
    assert_eq!(reader_after(&start(1), "05 D1 04 00 02 FF 24"), "F 0\n");
    assert_eq!(reader_after(&start(1), "T 05 D1 04 01 0A FF 1B"), format!("{again}F 1\n"));
    // Two resends of each packet: the count is the message's.
    let both = reader(&(start(251) + "T T 04 D0 04 00 FF 28 T T T"));
    assert!(both.ends_with("F 4\n"));
    assert_eq!(both.lines().count(), 7);
}

#[test]
fn the_sender_heeds_only_right_answers() {
    for odd in [
        sent(CMD_ACK, READER, 0, &[]),
        sent(CMD_ACK, HOST, PERMANENT, &[]),
        sent(CMD_ACK, HOST, 0, &[0]),
        sent(CMD_NAK, HOST, 0, &[]),
        sent(CMD_NAK, HOST, 0, &[1, 1]),
        sent(CMD_NAK, HOST, MORE, &[1]),
        sent(CMD_NAK, 1, 0, &[6]),
    ] {
        assert_eq!(reader_after(&start(1), &odd), "");
    }
    assert_eq!(reader_after(&start(1), &sent(CMD_ACK, HOST, MARK, &[])), "D 0\n");
    assert_eq!(reader("T 04 D0 04 00 FF 28 05 D1 04 00 01 FF 25 05 D1 04 00 06 FF 20"), "");
    assert_eq!(reader_after(&(start(1) + "P"), "T 04 D0 04 00 FF 28"), "");
}

#[test]
fn a_waiting_reader_is_silent_for_1_to_3_only() {
    let refused = reader_after(&start(1), "03 . 04 D0 04 00 FF 29 . 04 . 04 C8 00 00 FF 34 05 E6 04 00 1E FE F3");
    assert_eq!(refused, format!("R 1\nR 2\nR 3\nR 4\n{READER_NAK_2}R 8\n{READER_NAK_6}"));
    assert_eq!(reader_after(&(start(1) + "04 D0 04 00 FF 28"), "03"), format!("R 1\n{READER_NAK_1}"));
    assert_eq!(reader_after(&start(1), "04 C8 04 00 FF 30"), format!("{QUIET}{READER_ACK}"));
}

#[test]
fn power_up_clears_the_framer() {
    assert_eq!(reader("03 P 03"), format!("R 1\n{READER_NAK_1}").repeat(2));
    assert_eq!(reader("04 C8 P 04 C8 04 00 FF 30 ."), format!("{QUIET}{READER_ACK}"));
}

// The notation.

#[test]
fn wrong_characters_stop_the_program() {
    for wrong in ["\t", "x", "g", "T", "P", "S", ";", "0", "0 ", "0.", "0 4", "\0", "R", ","] {
        assert_eq!(hub(&format!("03 . {wrong}")), format!("{HUB_NAK_1}E\n"), "{wrong:?}");
    }
    for wrong in
        ["\t", "t", "s", "p", ";", "S ;", "S 1B .", "S 1B /", "S 1B T", "S S", "S 1B 3 ;", "S 1 B ;", "S 1B 3", "0T"]
    {
        assert_eq!(reader(&format!("03 . {wrong}")), format!("R 1\n{READER_NAK_1}E\n"), "{wrong:?}");
    }
    assert_eq!(hub("0"), "E\n");
    assert_eq!(hub("03 x 03 . 03"), format!("{HUB_NAK_1}E\n"));
    assert_eq!(reader("S 1B 38"), "");
    assert_eq!(reader("S"), "");
    assert_eq!(hub(""), "");
    assert_eq!(hub("\r\n \n0\n"), "E\n");
    assert_eq!(reader("S\r\n1b38\n;T"), "C 06 F3 00 00 1B 38 FE B4\nC 06 F3 00 01 1B 38 FE B3\n");
}

// Saved sets.

const HOUSE_SET: &str = "W 01 09 80 00 89 0A 8A 00 9B 14 9C 06 9E 04 9F 01 ED 00 EE 01 00\n";
/// In the order of the table; 9Fh alone has its house default.
const OTHERS: [u8; ROWS.len()] = [1, 99, 8, 0, 1, 0, 1, 99, 0];

/// These values, with these numbers locked.
fn set_of(values: [u8; ROWS.len()], locked: &[u8]) -> Vec<u8> {
    let locks = ROWS.map(|row| locked.contains(&row[0]));
    form::save(&Table { present: values, permanent: values, locks })
}

/// `L` with its bytes.
fn form_text(form: &[u8]) -> String {
    let mut text = Vec::new();
    crate::listing::push_bytes(form, &mut text);
    format!("L{} ; ", String::from_utf8(text).expect("digits"))
}

/// The line that writing the set prints.
fn set_line(form: &[u8]) -> String {
    form_text(form).replace('L', "W").replace(" ; ", "\n")
}

#[test]
fn a_set_is_written_and_read_back() {
    assert_eq!(reader("W"), HOUSE_SET);
    let form = set_of(OTHERS, &[0x89, 0xEE]);
    assert_eq!(form, bytes("01 09 80 01 89 63 8A 08 9B 00 9C 01 9E 00 9F 01 ED 63 EE 00 02 89 EE"));
    assert_eq!(
        reader(&format!("{} W U", form_text(&form))),
        format!("L\n{}U 01 63 08 00 01 00 01 63 00\n", set_line(&form))
    );
    // From no lock to all: 21 to 30 bytes, each set with a form of its own.
    for locked in 0..=ROWS.len() {
        let numbers: Vec<u8> = ROWS.iter().take(locked).map(|row| row[0]).collect();
        let form = set_of(OTHERS, &numbers);
        assert_eq!(form.len(), 21 + locked);
        assert_eq!(form::load(&form).map(|table| form::save(&table)), Ok(form));
    }
}

#[test]
fn every_choice_of_locks_comes_back() {
    for bits in 0..1 << ROWS.len() {
        let locks = std::array::from_fn(|place| bits >> place & 1 == 1);
        let table = Table { present: OTHERS, permanent: OTHERS, locks };
        assert_eq!(form::load(&form::save(&table)), Ok(table));
    }
}

#[test]
fn the_permanent_values_are_written() {
    let for_now = sent(PARAM_SEND, HOST, 0, &[0xFF, 0x89, 5]);
    let for_ever = sent(PARAM_SEND, HOST, PERMANENT, &[0xFF, 0x89, 99]);
    assert_eq!(reader_after(&for_now, "W"), HOUSE_SET);
    assert_eq!(reader_after(&(for_ever + &for_now), "W"), HOUSE_SET.replace("89 0A", "89 63"));
}

#[test]
fn a_form_not_exactly_so_is_12() {
    let form = set_of(OTHERS, &[0x89, 0xEE]);
    let fault = |place: usize, byte: u8| {
        let mut form = form.clone();
        form[place] = byte;
        form::load(&form).expect_err("not a form")
    };
    assert_eq!([fault(0, 0), fault(0, 2)], [Fault::Edition; 2]);
    assert_eq!([fault(1, 8), fault(1, 10)], [Fault::Count; 2]);
    for (place, [number, low, high, _]) in ROWS.into_iter().enumerate() {
        assert_eq!(fault(2 + 2 * place, number + 1), Fault::Number(place));
        assert_eq!(fault(3 + 2 * place, high + 1), Fault::Value(place));
        assert!(low == 0 || fault(3 + 2 * place, low - 1) == Fault::Value(place));
    }
    for between in [1, 3, 5, 6] {
        assert_eq!(fault(7, between), Fault::Value(2));
    }
    // One lock fewer than follow, one more, and more than there can be.
    assert_eq!([fault(20, 1), fault(20, 3), fault(20, 10)], [Fault::Late, Fault::Early, Fault::LockCount]);
    // No parameter, the same twice, and falling.
    assert_eq!(
        [fault(21, 0x81), fault(21, 0xEE), fault(22, 0x80)],
        [Fault::LockNumber, Fault::LockOrder, Fault::LockOrder]
    );
    assert_eq!([fault(22, 0x89), fault(22, 0xFF)], [Fault::LockOrder, Fault::LockNumber]);
}

#[test]
fn a_form_has_one_length() {
    for locked in [&[][..], &[0x9C], &[0x80, 0x89, 0x8A, 0x9B, 0x9C, 0x9E, 0x9F, 0xED, 0xEE]] {
        let form = set_of(OTHERS, locked);
        for size in 0..=40 {
            let mut other = form.clone();
            other.resize(size, 0xEE);
            assert_eq!(form::load(&other).is_ok(), size == form.len(), "{size}");
        }
    }
    assert_eq!(reader("L ; L 01 ; L"), "R 12\nR 12\n");
}

/// In a form, byte by byte, exactly those are taken that are written again as they stand.
#[test]
fn what_is_taken_is_what_would_be_written() {
    let form = set_of(OTHERS, &[0x80, 0x9E, 0xED]);
    for place in 0..form.len() {
        for byte in 0..=255 {
            let mut other = form.clone();
            other[place] = byte;
            assert!(form::load(&other).map_or(true, |table| form::save(&table) == other));
        }
    }
}

#[test]
fn a_refused_form_changes_nothing() {
    let set = form_text(&set_of(OTHERS, &[0x89, 0xEE]));
    let mut bad = set_of([0, 10, 0, 20, 6, 4, 1, 0, 1], &[0x80]);
    bad.push(0);
    let beep = sent(BEEP, HOST, 0, &[1]);
    let state = format!("{set} {beep}");
    assert_eq!(
        reader_after(&state, &format!("{} W", form_text(&bad))),
        format!("R 12\n{}", set_line(&set_of(OTHERS, &[0x89, 0xEE])))
    );
    // The last accepted packet neither.
    assert_eq!(reader_after(&format!("{state} {}", form_text(&bad)), &sent(BEEP, HOST, MARK, &[1])), READER_ACK);
}

#[test]
fn a_set_makes_the_last_packet_forgotten() {
    let beep = sent(BEEP, HOST, 0, &[1]);
    let again = sent(BEEP, HOST, MARK, &[1]);
    let acted = format!("B 0 0 2\n{QUIET}{READER_ACK}");
    let set = form_text(&set_of(OTHERS, &[]));
    assert_eq!(reader_after(&format!("{beep} {set}"), &again), acted);
    // And then it is the last one once more.
    assert_eq!(reader_after(&format!("{beep} {set} {again}"), &again), READER_ACK);
}

#[test]
fn old_locks_do_not_hold_against_a_set() {
    let all: Vec<u8> = ROWS.iter().map(|row| row[0]).collect();
    let locked = form_text(&set_of(OTHERS, &all));
    let house = set_of(Table::house_defaults().permanent, &[]);
    assert_eq!(reader_after(&locked, &format!("{} W", form_text(&house))), format!("L\n{HOUSE_SET}"));
}

#[test]
fn a_locked_parameter_is_not_sent() {
    let set = form_text(&set_of(OTHERS, &[0x89, 0xEE]));
    let denied = format!("R 9\n{READER_NAK_6}");
    for status in [0, PERMANENT] {
        // Another value, the one it has, and beside a free one.
        for data in [&[0xFF, 0x89, 10][..], &[0xFF, 0x89, 99], &[0xFF, 0x80, 0, 0x89, 10], &[0xFF, 0xEE, 1, 0x80, 0]] {
            let lines = reader_after(&set, &(sent(PARAM_SEND, HOST, status, data) + "W U"));
            assert_eq!(
                lines,
                format!("{denied}{}U 01 63 08 00 01 00 01 63 00\n", set_line(&set_of(OTHERS, &[0x89, 0xEE])))
            );
        }
    }
    // The length and the beep byte come first.
    assert_eq!(reader_after(&set, &sent(PARAM_SEND, HOST, 0, &[0x1E, 0x89])), format!("R 7\n{READER_NAK_2}"));
    assert_eq!(reader_after(&set, &sent(PARAM_SEND, HOST, 0, &[0x1E, 0x89, 99])), format!("R 8\n{READER_NAK_6}"));
    // Free ones are set as ever, and asking is free.
    assert_eq!(reader_after(&set, &sent(PARAM_SEND, HOST, 0, &[0xFF, 0x80, 0])), format!("{QUIET}{READER_ACK}"));
    assert_eq!(reader_after(&set, "05 C7 04 00 89 FE A7"), format!("{QUIET}A 07 C6 00 00 FF 89 63 FD 48\n"));
}

#[test]
fn the_defaults_pass_over_what_is_locked() {
    let defaults = "04 C8 04 00 FF 30 . ";
    let acted = format!("{QUIET}{READER_ACK}");
    let some = form_text(&set_of(OTHERS, &[0x89, 0xEE]));
    let mixed = set_of([0, 99, 0, 20, 6, 4, 1, 0, 0], &[0x89, 0xEE]);
    let after = format!("{acted}U 00 63 00 14 06 04 01 00 00\n{}", set_line(&mixed));
    assert_eq!(reader_after(&some, &format!("{defaults} U W")), after);
    let all: Vec<u8> = ROWS.iter().map(|row| row[0]).collect();
    let locked = set_of(OTHERS, &all);
    assert_eq!(reader_after(&form_text(&locked), &format!("{defaults} W")), format!("{acted}{}", set_line(&locked)));
    // 9Fh locked off stays off: no answer, nor to the next.
    let off = form_text(&set_of([0, 10, 0, 20, 6, 4, 0, 0, 1], &[0x9F]));
    assert_eq!(reader_after(&off, &defaults.repeat(2)), QUIET.repeat(2));
}

#[test]
fn power_up_keeps_the_locks() {
    let set = set_of(OTHERS, &[0x89, 0xEE]);
    let for_now = sent(PARAM_SEND, HOST, 0, &[0xFF, 0x80, 0]);
    let lines = reader_after(&format!("{} {for_now} P", form_text(&set)), "W U");
    assert_eq!(lines, format!("{}U 01 63 08 00 01 00 01 63 00\n", set_line(&set)));
    let named = sent(PARAM_SEND, HOST, 0, &[0xFF, 0x89, 99]);
    assert_eq!(reader_after(&format!("{} P P", form_text(&set)), &named), format!("R 9\n{READER_NAK_6}"));
}

#[test]
fn a_set_leaves_line_and_sender_alone() {
    let set = form_text(&set_of(OTHERS, &[0x89, 0xEE]));
    // Inside a packet, while deaf, with a message out; W too.
    assert_eq!(reader_after(&format!("04 E9 04 {set} W 00 FF"), "0F"), format!("{QUIET}{READER_ACK}"));
    assert_eq!(reader_after(&format!("03 {set} W"), "03 . 03"), format!("R 1\n{READER_NAK_1}"));
    assert_eq!(reader_after(&format!("{} T {set}", start(1)), "T T"), "C 06 F3 00 01 1B 38 FE B3\nF 2\n");
    // Nor are the switches changed.
    let on = "04 EA 04 00 FF 0E . 04 C5 04 00 FF 33 . 05 E7 04 00 01 FF 0F . ";
    assert_eq!(reader_after(&format!("{on} {set}"), "04 C5 04 00 FF 33"), format!("G 0 0 1 1\n{READER_ACK}"));
    // No answer room is needed.
    assert_eq!(
        reader(&format!("K 00 00 ; {set} L ; W")),
        format!("L\nR 12\n{}", set_line(&set_of(OTHERS, &[0x89, 0xEE])))
    );
}

#[test]
fn it_is_told_where_a_permanent_value_changed() {
    use crate::reader::Reader;
    let changed = |reader: &mut Reader, packet: &[u8]| {
        packet.iter().map(|byte| reader.take(LineEvent::Byte(*byte)).changed).any(|changed| changed)
    };
    let mut reader = Reader::new();
    let (five, ten) = ([0xFF, 0x89, 5], [0xFF, 0x89, 10]);
    assert!(!changed(&mut reader, &lay_out(PARAM_SEND, HOST, 0, &five)));
    assert!(!changed(&mut reader, &lay_out(PARAM_SEND, HOST, PERMANENT, &ten)));
    assert!(changed(&mut reader, &lay_out(PARAM_SEND, HOST, PERMANENT, &five)));
    assert!(!changed(&mut reader, &lay_out(PARAM_SEND, HOST, PERMANENT | MARK, &five)));
    assert!(changed(&mut reader, &lay_out(PARAM_DEFAULTS, HOST, 0, &[])));
    assert!(!changed(&mut reader, &lay_out(PARAM_DEFAULTS, HOST, 0, &[])));
}

// Desk's own.

#[test]
fn desk_tells_the_hubs_refusals() {
    assert_eq!(desk_hub("06 F3 00 00 1B 38 FE B5 ."), format!("R 2\n{HUB_NAK_1}"));
    let whole = "06 F3 00 00 1B 38 FE B4 . 06 F3 00 01 1B 38 FE B3 . 04 D0 00 00 FF 2C .";
    assert_eq!(desk_hub(whole), hub(whole));
    assert_eq!(desk_hub("03 ."), format!("R 1\n{HUB_NAK_1}"));
    assert_eq!(desk_hub("06 F3 /"), format!("R 3\n{HUB_NAK_1}"));
    for (number, opcode, source, status, data) in [
        (4, DECODE_DATA, HOST, 0, &[0x1B][..]),
        (5, DECODE_DATA, READER, 4, &[0x1B]),
        (6, PARAM_SEND, READER, 0, &[0xFF]),
        (7, DECODE_DATA, READER, 0, &[]),
    ] {
        assert_eq!(desk_hub(&sent(opcode, source, status, data)), format!("R {number}\n{HUB_NAK_2}"));
    }
    let first = sent(DECODE_DATA, READER, MORE, &[0x1B]);
    let other = sent(DECODE_DATA, READER, 0, &[0x1C]);
    let barred = format!("R 10\n{HUB_NAK_6}");
    assert_eq!(desk_hub(&format!("{first} {other} {other} {first}")), format!("{HUB_ACK}{}", barred.repeat(3)));
}

#[test]
fn an_event_in_a_small_room_is_not_taken() {
    let taken = format!("M 1B 38\n{HUB_ACK}");
    assert_eq!(desk_hub("06 F3 00 00 1B 38 FE K 00 06 ; B4 . / 03 K 00 07 ; B4"), "R 13\n".repeat(4) + &taken);
    assert_eq!(desk_hub("06 F3 00 00 K 00 00 ; K FF FF ; 1B 38 FE B4"), taken);
    // Deaf it stays, barred too.
    assert_eq!(desk_hub("03 K 00 00 ; . K 00 07 ; 03"), format!("R 1\n{HUB_NAK_1}R 13\n"));
    let barring = sent(DECODE_DATA, READER, MORE, &[0x1B]) + &sent(DECODE_DATA, READER, 0, &[0x1C]);
    let lines = desk_hub(&format!("{barring} K 00 06 ; / K 01 00 ; 06 F3 00 00 1B 38 FE B4"));
    assert_eq!(lines, format!("{HUB_ACK}R 10\n{HUB_NAK_6}R 13\nR 10\n{HUB_NAK_6}"));

    assert_eq!(reader("K 00 18 ; 03 K 00 19 ; 03"), format!("R 13\nR 1\n{READER_NAK_1}"));
    assert_eq!(reader("03 K 00 18 ; . K 19 00 ; 03"), format!("R 1\n{READER_NAK_1}R 13\n"));
    assert_eq!(reader_after("04 E9 04 00 FF K 00 18 ;", "0F . /"), "R 13\n".repeat(3));
    assert_eq!(reader_after("04 E9 04 00 FF K 00 18 ; 0F . / K 00 19 ;", "0F"), format!("{QUIET}{READER_ACK}"));
    assert_eq!(reader_after(&format!("{OFF} K 00 00 ;"), "03 ."), "R 13\nR 13\n");
}

#[test]
fn the_small_room_is_for_answers_alone() {
    let copies = "C 06 F3 00 00 1B 38 FE B4\nC 06 F3 00 01 1B 38 FE B3\n";
    assert_eq!(reader("K 00 00 ; S 1B 38 ; T"), copies);
    assert_eq!(reader("S 1B 38 ; K 00 00 ; T 04"), format!("{copies}R 13\n"));
    assert_eq!(reader_after("04 E9 K 00 18 ; P", "04"), "R 13\n");
    assert_eq!(reader_after("04 E9 K 00 18 ; P 04 K 00 19 ;", "."), "");
}

#[test]
fn present_values_are_shown() {
    let defaults = "U 00 0A 00 14 06 04 01 00 01\n";
    assert_eq!(reader("U"), defaults);
    assert_eq!(reader("K 00 00 ; U 03"), format!("{defaults}R 13\n"));
    let for_now = sent(PARAM_SEND, HOST, 0, &[0xFF, 0x89, 99, 0xEE, 0]);
    let for_ever = sent(PARAM_SEND, HOST, PERMANENT, &[0xFF, 0x8A, 8]);
    let set = for_ever + &for_now;
    assert_eq!(reader_after(&set, "U"), "U 00 63 08 14 06 04 01 00 00\n");
    assert_eq!(reader_after(&format!("{set} P"), "UU"), "U 00 0A 08 14 06 04 01 00 01\n".repeat(2));
    // No event: nothing begun is cut, nothing out is ended.
    assert_eq!(reader("04 E9 04 00 U FF 0F"), format!("{defaults}{QUIET}{READER_ACK}"));
}

#[test]
fn a_room_has_two_pairs() {
    for wrong in [
        "K ;",
        "K;",
        "K 06 ;",
        "K 00 06 00 ;",
        "K 00 0 ;",
        "K 00 0 6 ;",
        "K 0",
        "K 00 06 0",
        "K 00\t06 ;",
        "K 00 . 06 ;",
        "K K",
        "K S",
        "k",
        "K 00 06 ]",
        "]",
        "V",
        "Q",
        "H",
        "I",
        "Y",
        "R",
        "A",
    ] {
        assert_eq!(desk_hub(&format!("03 . {wrong}")), format!("R 1\n{HUB_NAK_1}E\n"), "{wrong:?}");
        assert_eq!(reader(&format!("03 . {wrong}")), format!("R 1\n{READER_NAK_1}E\n"), "{wrong:?}");
    }
    for unended in ["K", "K 00", "K 00 06", "K 00 06 00", "K 00 06 00 00 "] {
        assert_eq!(desk_hub(unended), "");
        assert_eq!(reader(unended), "");
    }
    for (wrong, right) in [("U", "K\r\n0006\n;"), ("T", ""), ("P", ""), ("S 1B ;", ""), ("W", ""), ("L ;", "")] {
        assert_eq!(desk_hub(wrong), "E\n");
        assert_eq!(desk_hub(right), "");
    }
    assert_eq!(reader("u"), "E\n");
    assert_eq!(hub("K 00 07 ;"), "E\n");
}

#[test]
fn it_says_where_it_stopped() {
    let place = |text: &str| crate::listing::run(Side::DeskHub, text.as_bytes(), Vec::new()).expect("bytes in memory");
    assert_eq!(place("03 ."), None);
    assert_eq!(place("03 . x 03"), Some(6));
    assert_eq!(place("03 . 0"), Some(6));
    assert_eq!(place("K 00 06"), None);
}

// The tools.

#[test]
fn the_program_streams() {
    let stream = crate::streams::stream(Kind::DeskReader, 3, 2_000).text;
    let mut listing = crate::listing::Listing::new(Side::DeskReader);
    let mut lines = Vec::new();
    stream.chunks(1).for_each(|character| listing.feed(character, &mut lines));
    listing.finish(&mut lines);
    assert_eq!(lines, output(Side::DeskReader, &stream));
    let mut written = Vec::new();
    crate::listing::run(Side::DeskReader, &stream[..], &mut written).expect("no trouble with bytes in memory");
    assert_eq!(written, lines);
}

#[test]
fn a_stream_follows_from_its_seed() {
    for (side, kind) in [
        (Side::Hub, Kind::Hub),
        (Side::DeskHub, Kind::DeskHub),
        (Side::DeskReader, Kind::Reader),
        (Side::DeskReader, Kind::DeskReader),
    ] {
        let stream = crate::streams::stream(kind, 7, 1_000);
        assert_eq!(stream.text, crate::streams::stream(kind, 7, 1_000).text);
        assert_ne!(stream.text, crate::streams::stream(kind, 8, 1_000).text);
        assert!(stream.events >= 1_000);
        assert!(!output(side, &stream.text).is_empty());
    }
}

#[test]
fn a_difference_is_shrunk() {
    let text = b"03 . 06F3 00 . 04 D0 P 05 / 07 . S 1B 38 ; T 99 . 08";
    let small = crate::shrink::shrink(text, &mut |text| {
        let text = String::from_utf8_lossy(text);
        text.contains("F3") && text.find("P").is_some_and(|at| text[at..].contains("38"))
    });
    assert_eq!(small, b"F3 P 38");
    // A token with bytes goes as a whole, where half of it would be wrong.
    let small = crate::shrink::shrink(b"05 K 00 19 ; S 1B 38 ; K 00 07 ; 06 P", &mut |text| {
        output(Side::DeskReader, text).ends_with(b"R 13\n")
    });
    assert_eq!(small, b"K 00 07 ; 06");
    let taken = form_text(&set_of([0, 10, 0, 20, 6, 4, 1, 0, 1], &[0x80]));
    let small = crate::shrink::shrink(format!("05 . L 00 ; {taken} 03 {taken}").as_bytes(), &mut |text| {
        output(Side::DeskReader, text).ends_with(b"L\n")
    });
    assert_eq!(small, taken.trim().as_bytes());
    let small = crate::shrink::shrink(b"03 . [ 06 F3 ] . [ 05 03 04 ] [ ] 05 . [ 06 ] 03", &mut |text| {
        output(Side::DeskHub, text).windows(4).any(|lines| lines == b"L 3\n")
    });
    assert_eq!(small, b"[ 05 03 04 ]");
}

#[test]
fn every_character_is_tried_in_every_state() {
    for (side, states) in [(Side::Hub, 2), (Side::DeskHub, 18), (Side::DeskReader, 18)] {
        let every = crate::streams::every_text(side);
        for character in 0..=255 {
            assert!(every.iter().filter(|text| text.contains(&character)).count() >= states, "{character}");
        }
        // Some are right, most are wrong, and what every comparison tries is less.
        let texts = crate::streams::texts(side);
        let stopped = texts.iter().filter(|text| output(side, text).ends_with(b"E\n")).count();
        assert!(texts.len() / 2 < stopped && stopped < texts.len() && texts.len() < every.len());
    }
}

#[test]
fn a_run_is_judged_by_its_end_too() {
    use crate::program::Ran;
    let ran = |output: &[u8], code: i32, said: &[u8]| Ran::ended(output.to_vec(), code, said.to_vec());
    for side in [Side::DeskHub, Side::DeskReader] {
        assert!(ran(b"R 1\n", 0, b"").as_due(side, b"R 1\n"));
        assert!(ran(b"R 1\nE\n", 1, b"at 3").as_due(side, b"R 1\nE\n"));
        assert!(!ran(b"R 1\n", 0, b"").as_due(side, b"R 3\n"));
        assert!(!ran(b"R 1\n", 1, b"").as_due(side, b"R 1\n"));
        assert!(!ran(b"E\n", 0, b"at 3").as_due(side, b"E\n"));
        assert!(!ran(b"E\n", 1, b"").as_due(side, b"E\n"));
        assert!(!ran(b"E\n", 101, b"at 3").as_due(side, b"E\n"));
    }
    assert!(ran(b"E\n", 0, b"").as_due(Side::Hub, b"E\n"));
    assert!(ran(b"E\n", 1, b"").as_due(Side::Hub, b"E\n"));
    assert!(!ran(b"E\n", 101, b"").as_due(Side::Hub, b"E\n"));
}

#[test]
fn cases_9_and_10_as_the_line_expects_them() {
    let bytes: Vec<u8> = (0..4_096).map(|i: usize| (i / 250) as u8).collect();
    for (size, count, last) in [(0, 1, 0), (250, 1, 250), (251, 2, 1), (500, 2, 250), (4_096, 17, 96)] {
        let message = crate::hub::Message { code_type: 0x1B, bytes: bytes[..size].to_vec() };
        let packets = crate::line::packets_of(&message);
        assert_eq!(packets.len(), count);
        assert_eq!(packets[count - 1].len(), HEADER + 1 + last + CHECKSUM);
        assert!(packets[..count - 1].iter().all(|packet| packet[3] == MORE && packet.len() == LONGEST));
        assert_eq!(packets[count - 1][3], 0);
    }
    // Equal bytes, which the line cuts by itself.
    for size in 0..=4_096 {
        let message = crate::hub::Message { code_type: 0x1B, bytes: vec![7; size] };
        let packets = crate::line::packets_of(&message);
        let sizes: Vec<usize> = packets.iter().map(|packet| packet.len() - HEADER - 1 - CHECKSUM).collect();
        assert_eq!(sizes, pieces(&message.bytes));
    }
}
