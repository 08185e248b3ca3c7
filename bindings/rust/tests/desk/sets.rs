//! The saved set: `W` and `L`.

use crate::run::{hex, lines};

const HOUSE: &str = "01 09 80 00 89 0A 8A 00 9B 14 9C 06 9E 04 9F 01 ED 00 EE 01 00";
const PAIRS: &str = "01 09 80 00 89 0A 8A 08 9B 14 9C 06 9E 04 9F 01 ED 05 EE 01";
const ACTED: &str = "G 1 0 0 0\nA 04 D0 00 00 FF 2C\n";
const DENIED: &str = "R 9\nA 05 D1 00 00 06 FF 24\n";

/// Written, refused, read, with and without spaces, and a command on a locked and on a free parameter.
pub const CASES: &str = "\
W L ; W
L 01 09 80 00 89 0A 8A 08 9B 14 9C 06 9E 04 9F 01 ED 05 EE 01 01 8A ; W U
07 C6 04 00 FF 8A 08 FD 9E . 07 C6 04 00 FF ED 06 FD 3D . W P W U
L0109800089018a089b149c069e049f01ed05ee0100;WL01;
04 C8 04 00 FF 30 . W L 01 09";

#[test]
fn written_and_read() {
    let due = format!(
        "W {HOUSE}\nR 12\nW {HOUSE}\n\
         L\nW {PAIRS} 01 8A\nU 00 0A 08 14 06 04 01 05 01\n\
         {DENIED}{ACTED}W {PAIRS} 01 8A\nW {PAIRS} 01 8A\nU 00 0A 08 14 06 04 01 05 01\n\
         L\nW 01 09 80 00 89 01 8A 08 9B 14 9C 06 9E 04 9F 01 ED 05 EE 01 00\nR 12\n\
         {ACTED}W {HOUSE}\n"
    );
    assert_eq!(lines("reader", CASES), due);
}

/// Read again as it was written: the same, and the last command counts anew.
#[test]
fn there_and_back() {
    let locks = "09 80 89 8A 9B 9C 9E 9F ED EE";
    assert_eq!(lines("reader", &format!("L {PAIRS} {locks} ; W")), format!("L\nW {PAIRS} {locks}\n"));
    let (aim, marked) = ("04 C5 04 00 FF 33 .", "04 C5 04 01 FF 32 .");
    let again = "A 04 D0 00 00 FF 2C\n";
    let aims = "G 1 0 1 0\nA 04 D0 00 00 FF 2C\n";
    assert_eq!(
        lines("reader", &format!("{aim} {marked} L {HOUSE} ; {marked} {marked}")),
        format!("{aims}{again}L\n{aims}{again}")
    );
}

/// Of every length; the longest are cut short before they are judged, and refused all the same.
#[test]
fn other_lengths_are_refused() {
    let form: Vec<&str> = HOUSE.split(' ').collect();
    for size in 0..=40 {
        let bytes: Vec<&str> = form.iter().copied().chain(["80"; 40]).take(size).collect();
        let due = if size == form.len() { "L\n" } else { "R 12\n" };
        assert_eq!(lines("reader", &format!("L {} ;", bytes.join(" "))), due, "{size}");
    }
    for size in [100, 10_000] {
        assert_eq!(lines("reader", &format!("L {} ; W", hex(&vec![1; size]))), format!("R 12\nW {HOUSE}\n"));
    }
}

/// A packet begun goes on behind a set.
#[test]
fn in_the_midst_of_a_packet() {
    let due = "L\nB 0 0 2\nG 1 0 0 0\nA 04 D0 00 00 FF 2C\n";
    assert_eq!(lines("reader", &format!("05 E6 04 L {HOUSE} ; 00 01 FF 10 .")), due);
}

/// Neither needs the answer room.
#[test]
fn without_a_room() {
    assert_eq!(lines("reader", &format!("K 00 00 ; W L {HOUSE} ; L ; .")), format!("W {HOUSE}\nL\nR 12\nR 13\n"));
}
