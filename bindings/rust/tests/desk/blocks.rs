//! Blocks: `[ bb .. ]`, and `L`.

use crate::run::lines;

const PIECE: &str = "06 F3 00 02 1B 38 FE B2"; // more follows
const MESSAGE: &str = "06 F3 00 00 1B 38 FE B4";
const MARKED: &str = "06 F3 00 01 1B 38 FE B3";
const SPOILED: &str = "06 F3 00 00 1B 38 FE B5";
const ACK: &str = "04 D0 04 00 FF 28";
const NAK_1: &str = "05 D1 04 00 01 FF 25";
const NAK_2: &str = "05 D1 04 00 02 FF 24";
const NAK_6: &str = "05 D1 04 00 06 FF 20";

/// The lines of a hub for a text, as due.
fn says(text: &str, due: &[&str]) {
    assert_eq!(lines("hub", text).lines().collect::<Vec<_>>(), due, "{text}");
}

/// A line of answers, one after the other.
fn answers(each: &[&str]) -> String {
    format!("A {}", each.join(" "))
}

#[test]
fn a_message_and_its_resend() {
    let ack = answers(&[ACK]);
    let refused = ["R 2", &answers(&[NAK_1])];
    let block = format!("{SPOILED} . [ {MESSAGE} {MARKED} ]");
    says(&block, &[&refused[..], &["M 1B 38", &ack, "L 8", &ack, "L 8"]].concat());
}

#[test]
fn of_no_bytes() {
    says("[] [ ] [\r\n]", &["L 0", "L 0", "L 0"]);
    // In the midst of a packet, and with a deaf framer.
    says(
        &format!("06 F3 [] 00 00 1B 38 FE B4 03 [] {MESSAGE} ."),
        &["L 0", "M 1B 38", &answers(&[ACK]), "R 1", &answers(&[NAK_1]), "L 0"],
    );
}

/// At first 20 bytes: three ACKs, or two NAKs.
#[test]
fn of_many_answers() {
    let pieces = [PIECE; 7].join(" ");
    let (three, one) = (answers(&[ACK; 3]), answers(&[ACK]));
    says(&format!("[ {pieces} ]"), &[&three, "L 24", &three, "L 24", &one, "L 8"]);
    let wrong = ["04 F3 00 00 FF 09"; 5].join(" ");
    let (two, one) = (answers(&[NAK_2; 2]), answers(&[NAK_2]));
    says(&format!("[ {wrong} ]"), &[&two, "L 12", &two, "L 12", &one, "L 6"]);
    // A second ACK has room from 13 bytes on; `K` is for events too.
    says(&format!("K 00 07 ; [ {PIECE} {PIECE} ]"), &[&answers(&[ACK]), "L 8", &answers(&[ACK]), "L 8"]);
    says(&format!("K 00 0C ; [ {PIECE} {PIECE} ]"), &[&answers(&[ACK]), "L 8", &answers(&[ACK]), "L 8"]);
    says(&format!("K 00 0D ; [ {PIECE} {PIECE} ]"), &[&answers(&[ACK; 2]), "L 16"]);
    says(&format!("K FF FF ; [ {pieces} ] {PIECE}"), &[&answers(&[ACK; 7]), "L 56", &answers(&[ACK])]);
}

/// 4 to 10 are answered and not shown; 1 and 2 are, and what follows is ignored.
#[test]
fn of_refusals() {
    let (source, status, opcode) = ("06 F3 04 00 1B 38 FE B0", "06 F3 00 04 1B 38 FE B0", "05 E6 00 00 01 FF 14");
    says(&format!("[ {source} {status} ] [ {opcode} ]"), &[&answers(&[NAK_2; 2]), "L 16", &answers(&[NAK_2]), "L 7"]);
    let other = "06 F3 00 00 1C 38 FE B3";
    says(&format!("[ {PIECE} {other} {MESSAGE} ]"), &[&answers(&[ACK, NAK_6, NAK_6]), "L 24"]);
    says(&format!("[ {PIECE} {SPOILED} {MESSAGE} 03 ] ."), &["R 2", &answers(&[ACK, NAK_1]), "L 25"]);
    says(
        &format!("[ 03 {MESSAGE} ] [ {MESSAGE} ] . [ 06 ] ."),
        &["R 1", &answers(&[NAK_1]), "L 9", "L 8", "L 1", "R 3", &answers(&[NAK_1])],
    );
    // Also bytes that would be ignored wait for room.
    says("K 00 07 ; [ 03 06 F3 ]", &["R 1", &answers(&[NAK_1]), "L 1", "L 2"]);
}

/// Rooms first, for no bytes too, then the size. The block is not given again, and nothing has changed.
#[test]
fn that_are_refused() {
    for size in ["00 00", "00 01", "00 06"] {
        let text = format!("06 F3 K {size} ; [] [ {MESSAGE} ] K 00 07 ; 00 00 1B 38 FE B4");
        says(&text, &["R 13", "R 13", "M 1B 38", &answers(&[ACK])]);
    }
    let bytes = |count: usize| "06 ".repeat(count);
    // 06 06 is a wrong checksum, and the rest is ignored; then as many good packets.
    says(&format!("[ {}]", bytes(4_096)), &["R 2", &answers(&[NAK_1]), "L 4096"]);
    says(&format!("K FF FF ; [ {} ]", [PIECE; 512].join(" ")), &[&answers(&[ACK; 512]), "L 4096"]);
    for count in [4_097, 4_098, 10_000] {
        says(&format!("06 F3 [ {}] 00 00 1B 38 FE B4", bytes(count)), &["R 15", "M 1B 38", &answers(&[ACK])]);
        says(&format!("K 00 06 ; [ {}]", bytes(count)), &["R 13"]);
    }
}

/// A text of bytes and gaps with all bytes between two gaps in blocks of so many.
fn in_blocks_of(size: usize, text: &str) -> String {
    let mut blocks = String::new();
    for stretch in text.split_inclusive(['.', '/']) {
        let digits: String = stretch.chars().filter(char::is_ascii_hexdigit).collect();
        digits.as_bytes().chunks(2 * size).for_each(|bytes| {
            blocks.push_str(&format!("[{}]", String::from_utf8_lossy(bytes)));
        });
        blocks.extend(stretch.chars().filter(|sign| ['.', '/'].contains(sign)));
    }
    blocks
}

/// The messages, and the answers in a row.
fn brought(listing: &str) -> (Vec<&str>, String) {
    let messages = listing.lines().filter(|line| line.starts_with('M')).collect();
    (messages, listing.lines().filter_map(|line| line.strip_prefix('A')).collect())
}

#[test]
fn however_they_are_cut() {
    // Up to what is wrong in them.
    let cases = include_str!("../../../../crates/hub_cases/stdin").split('T').next().expect("cases");
    let due = lines("hub", cases);
    assert!(brought(&due).0.len() > 10);
    for room in ["", "K 00 07 ;", "K 00 3C ;"] {
        for size in [1, 2, 7, 8, 9, 100, 4_096] {
            let listing = lines("hub", &format!("{room}{}", in_blocks_of(size, cases)));
            assert_eq!(brought(&listing), brought(&due), "{room} blocks of {size}");
        }
    }
}
