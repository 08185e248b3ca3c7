//! Tests: every character in every state of the notation, at both ends.

use motikhund::constants::BLOCK_SIZE;

use crate::hub::Hub;
use crate::notation::End;
use crate::reader::Reader;
use crate::session::run;
use crate::Stop;

const DIGITS: &str = "0123456789ABCDEFabcdef";

/// What is written for a text, and what is said if something is wrong.
fn listing(end: impl End, text: &[u8]) -> (String, Option<String>) {
    let mut lines = Vec::new();
    let said = match run(end, &mut &text[..], &mut lines) {
        Ok(()) => None,
        Err(Stop::Wrong(wrong)) => Some(wrong.to_string()),
        Err(_) => panic!("memory is read and written"),
    };
    (String::from_utf8(lines).expect("text"), said)
}

/// After the text only these signs are right, and digits, which begin a byte. No line is due before them.
fn after<E: End>(end: fn() -> E, text: &str, signs: &str) {
    for character in 0..=255 {
        let one = char::from(character);
        let digit = DIGITS.contains(one);
        let mut whole = [text.as_bytes(), &[character]].concat();
        // A second digit, so that the first is not alone.
        whole.extend(digit.then_some(b'0'));
        let (lines, said) = listing(end(), &whole);
        if digit || signs.contains(one) {
            assert_eq!(said, None, "{text:?} {one:?}");
            assert!(!lines.ends_with("E\n"), "{text:?} {one:?}");
        } else {
            let place = format!("line 1, column {}: ", text.len() + 1);
            assert!(said.is_some_and(|said| said.starts_with(&place)), "{text:?} {one:?}");
            assert_eq!(lines, "E\n", "{text:?} {one:?}");
        }
    }
}

/// After a first digit only a second one is right; the first one's place is told.
fn after_digit<E: End>(end: fn() -> E, text: &str) {
    for character in 0..=255 {
        let (lines, said) = listing(end(), &[text.as_bytes(), &[character]].concat());
        if DIGITS.contains(char::from(character)) {
            assert_eq!(said, None, "{text:?} {character}");
        } else {
            let place = format!("line 1, column {}: ", text.len());
            assert!(said.is_some_and(|said| said.starts_with(&place)), "{text:?} {character}");
            assert_eq!(lines, "E\n", "{text:?} {character}");
        }
    }
    assert_eq!(listing(end(), text.as_bytes()).0, "E\n");
}

/// `K`, at either end.
fn room<E: End>(end: fn() -> E) {
    after(end, "K", " \n\r");
    after(end, "K 00", " \n\r");
    after(end, "K 00 19", " \n\r;");
    for text in ["K 00 19 00", "K00190000"] {
        after(end, text, " \n\r");
    }
    for text in ["K 0", "K00F"] {
        after_digit(end, text);
    }
}

#[test]
fn of_the_hub() {
    for text in ["", "04", ".\r", "K00ff;"] {
        after(Hub::new, text, " \n\r./K[");
    }
    // A block of no bytes is one too, and one of more bytes than are allowed.
    let long = format!("[{}", "06".repeat(BLOCK_SIZE + 2));
    for text in ["[", "[\r", "[ 06", "[06F3 ", &long] {
        after(Hub::new, text, " \n\r]");
    }
    for text in ["0", "04 d", "K00ff;A", "[ 0", "[06 F"] {
        after_digit(Hub::new, text);
    }
    room(Hub::new);
}

#[test]
fn of_the_reader() {
    for text in ["", "04", "T", "P\r", "K0019;"] {
        after(Reader::new, text, " \n\r./TPUSKWL");
    }
    for text in ["S", "S\r"] {
        after(Reader::new, text, " \n\r");
    }
    // A set of no bytes is a form too, a bad one; so is one of more bytes than any has.
    let long = format!("L{}", "01".repeat(40));
    for text in ["S 1B", "S1b38 ", "L", "L\r", "L 01", "L0109 ", &long] {
        after(Reader::new, text, " \n\r;");
    }
    for text in ["0", "04 d", "S 1", "S1B3", "L0", "L 01 0"] {
        after_digit(Reader::new, text);
    }
    room(Reader::new);
}
