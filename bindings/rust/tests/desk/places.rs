//! What is said of something wrong, and where it is.

use crate::run::run;

/// It writes `E`, ends with 1, and says this of this place.
fn says(end: &str, text: &[u8], place: (u32, u32), said: &str) {
    let ran = run(&[end], text);
    let (line, column) = place;
    assert_eq!(ran.said, format!("desk: line {line}, column {column}: {said}\n"));
    assert_eq!((ran.lines.lines().last(), ran.status), (Some("E"), Some(1)));
}

#[test]
fn no_token() {
    let says = |end, text: &[u8], place, shown| {
        says(end, text, place, &format!("{shown} is no hex digit, gap or token here"));
    };
    says("hub", b"x", (1, 1), "'x'");
    says("hub", b"04 D0\n/\n04 D0 xyz", (3, 7), "'x'");
    says("hub", b"04 T", (1, 4), "'T'");
    says("hub", b"W", (1, 1), "'W'");
    says("hub", b"\nL", (2, 1), "'L'");
    says("hub", b"[ 06 ] ]", (1, 8), "']'");
    says("reader", b"[", (1, 1), "'['");
    says("reader", b"04\r\n\r\n T\t", (3, 3), "a tab");
    says("reader", b"T;", (1, 2), "';'");
    says("reader", b"'", (1, 1), "\"'\"");
    says("reader", "\u{e9}".as_bytes(), (1, 1), "'\u{e9}'");
    says("reader", b"  \xFF", (1, 3), "the byte FF");
}

#[test]
fn a_lone_digit() {
    let says = |text: &[u8], place, digit, next| {
        let two = "a byte is two hex digits together";
        says("reader", text, place, &format!("'{digit}' is a lone digit: {two}, but {next} comes after it"));
    };
    says(b"04 D", (1, 4), 'D', "the end of the input");
    says(b"\n4 D0", (2, 1), '4', "a space");
    says(b"04 d\r\n0", (1, 4), 'd', "the end of the line");
    says(b"04 D.", (1, 4), 'D', "'.'");
    says(b"S 1B 3;", (1, 6), '3', "';'");
    says(b"S 1B 3", (1, 6), '3', "the end of the input");
    says(b"K 00 0x", (1, 6), '0', "'x'");
}

#[test]
fn tokens_with_bytes() {
    let only = "only bytes stand there, two hex digits each";
    says("reader", b"S 1B\n.", (2, 1), &format!("'.' is wrong between 'S' and its ';': {only}"));
    says("hub", b"K S", (1, 3), &format!("'S' is wrong between 'K' and its ';': {only}"));
    says("reader", b"L 01 W", (1, 6), &format!("'W' is wrong between 'L' and its ';': {only}"));
    says("hub", b"[ 06\nF3 . ]", (2, 4), &format!("'.' is wrong between '[' and its ']': {only}"));
    says("hub", b"[;", (1, 2), &format!("';' is wrong between '[' and its ']': {only}"));
    says("hub", b"K 00 ]", (1, 6), &format!("']' is wrong between 'K' and its ';': {only}"));
    says("reader", b"S ;", (1, 3), "';' comes too early: 'S' takes at least 1 byte, then ';'");
    says("hub", b"K 19;", (1, 5), "';' comes too early: 'K' takes 2 bytes, then ';'");
    says("hub", b"K 00 19 00 ;", (1, 12), "';' comes too late: 'K' takes 2 bytes, then ';'");
}
