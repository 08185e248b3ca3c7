//! Answer rooms of other sizes: `K`.

use crate::run::lines;

const BEEP: &str = "05 E6 04 00 01 FF 10 .";
const BEEPS: &str = "B 0 0 2\nG 1 0 0 0\nA 04 D0 00 00 FF 2C\n";
const DATA: &str = "06 F3 00 00 1B 38 FE B4 .";
const JOINED: &str = "M 1B 38\nA 04 D0 04 00 FF 28\n";

/// Each size in turn: below the least every event is refused and not taken, from there on none.
fn sizes(end: &str, events: &str, taken: &str, least: u32) {
    let refused = "R 13\n".repeat(events.split(' ').count());
    let each = (0..=30).chain([255, 256, 6_400, 65_535]);
    let (text, due): (String, String) = each
        .map(|size: u32| {
            let told = if size < least { refused.as_str() } else { taken };
            (format!("K {:02X} {:02X} ; {events}\n", size >> 8, size & 255), told)
        })
        .unzip();
    assert_eq!(lines(end, &text), due);
}

#[test]
fn of_the_hub() {
    sizes("hub", DATA, JOINED, 7);
}

#[test]
fn of_the_reader() {
    sizes("reader", BEEP, BEEPS, 25);
}

#[test]
fn at_first_they_have_full_size() {
    let all = "05 C7 04 00 FE FE 32 .";
    let values = "80 00 89 0A 8A 00 9B 14 9C 06 9E 04 9F 01 ED 00 EE 01";
    let told = lines("reader", all);
    assert!(told.starts_with(&format!("G 1 0 0 0\nA 17 C6 00 00 FF {values}")), "{told}");
    assert_eq!(lines("hub", "03"), "R 1\nA 05 D1 04 00 01 FF 25\n");
}

/// What was not taken leaves no trace, in the midst of a packet too.
#[test]
fn an_event_that_is_not_taken() {
    let (begun, rest) = BEEP.split_at(9);
    assert_eq!(
        lines("reader", &format!("{begun} K 00 18; 99 . / K 00 19; {rest}")),
        format!("{}{BEEPS}", "R 13\n".repeat(3))
    );
    let (begun, rest) = DATA.split_at(9);
    assert_eq!(
        lines("hub", &format!("{begun} K 00 06; 99 . / K 00 07; {rest}")),
        format!("{}{JOINED}", "R 13\n".repeat(3))
    );
}

/// Only events need the room.
#[test]
fn the_readers_other_tokens_do_without() {
    let due = "C 06 F3 00 00 1B 38 FE B4\nC 06 F3 00 01 1B 38 FE B3\nU 00 0A 00 14 06 04 01 00 01\nR 13\n";
    assert_eq!(lines("reader", "K 00 00 ; S 1B 38 ; T P T U ."), due);
}
