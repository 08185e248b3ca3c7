//! Short listings of both ends, line by line.

use crate::run::lines;

#[test]
fn a_beep_then_the_trigger_set_and_asked_for() {
    let text = "05 E6 04 00 01 FF 10 .  07 C6 04 00 FF 8A 08 FD 9E .  05 C7 04 00 8A FE A6 .";
    let due = "\
B 0 0 2
G 1 0 0 0
A 04 D0 00 00 FF 2C
G 1 0 0 0
A 04 D0 00 00 FF 2C
G 1 0 0 0
A 07 C6 00 00 FF 8A 08 FD A2
";
    assert_eq!(lines("reader", text), due);
}

#[test]
fn the_click_for_a_cup_change() {
    let acted = "G 1 0 0 0\nA 04 D0 00 00 FF 2C\n";
    assert_eq!(lines("reader", "05 E6 04 00 1C FE F5 ."), format!("B 8 0 1\n{acted}"));
}

#[test]
fn a_message_whose_first_copy_is_lost() {
    let due = "C 06 F3 00 00 1B 38 FE B4\nC 06 F3 00 01 1B 38 FE B3\nD 1\n";
    assert_eq!(lines("reader", "S 1B 38 ; T 04 D0 04 00 FF 28 ."), due);
}

#[test]
fn a_message_that_fails() {
    let copies = "C 06 F3 00 00 1B 38 FE B4\nC 06 F3 00 01 1B 38 FE B3\nC 06 F3 00 01 1B 38 FE B3\n";
    assert_eq!(lines("reader", "T S 1B 38 ; T T T T"), format!("{copies}F 2\n"));
    assert_eq!(lines("reader", "S 1B 38 ; 05 D1 04 00 06 FF 20 ."), "C 06 F3 00 00 1B 38 FE B4\nF 0\n");
}

/// `I` before the copy: after a failed message, and before one that equals the last packet sent.
#[test]
fn a_message_gap_that_is_due() {
    let (ack, nak) = ("04 D0 04 00 FF 28 .", "05 D1 04 00 06 FF 20 .");
    let copy = "C 06 F3 00 00 1B 38 FE B4\n";
    assert_eq!(lines("reader", &format!("S 1B 38 ; {ack} S 1B 38 ;")), format!("{copy}D 0\nI\n{copy}"));
    assert_eq!(lines("reader", &format!("S 1B 38 ; {nak} S 1B 38 ;")), format!("{copy}F 0\nI\n{copy}"));
    let empty = "C 05 F3 00 00 1B FE ED\n";
    assert_eq!(lines("reader", &format!("S 1B 38 ; {nak} S 1B ;")), format!("{copy}F 0\nI\n{empty}"));
    assert_eq!(lines("reader", &format!("S 1B 38 ; {ack} S 1B ;")), format!("{copy}D 0\n{empty}"));
    // A command between them does not matter, nor a refused start; power-up forgets.
    let acted = "G 1 0 1 0\nA 04 D0 00 00 FF 2C\n";
    let between = "04 C5 04 00 FF 33 .";
    assert_eq!(
        lines("reader", &format!("S 1B 38 ; {ack} {between} S 1B 38 ; S 1B 38 ; {ack} S 1B 38 ; P S 1B 38 ;")),
        format!("{copy}D 0\n{acted}I\n{copy}R 11\nD 0\nI\n{copy}{copy}")
    );
}

#[test]
fn present_values() {
    let set = "07 C6 04 00 FF 8A 08 FD 9E .";
    let permanent = "07 C6 04 08 FF ED 63 FC D8 .";
    let due = "\
U 00 0A 00 14 06 04 01 00 01
G 1 0 0 0
A 04 D0 00 00 FF 2C
U 00 0A 08 14 06 04 01 00 01
G 1 0 0 0
A 04 D0 00 00 FF 2C
U 00 0A 08 14 06 04 01 63 01
U 00 0A 00 14 06 04 01 63 01
";
    assert_eq!(lines("reader", &format!("U {set} U {permanent} U P U")), due);
}

#[test]
fn a_packet_comes_twice_and_its_message_goes_out_once() {
    let due = "M 1B 38\nA 04 D0 04 00 FF 28\nA 04 D0 04 00 FF 28\n";
    assert_eq!(lines("hub", "06 F3 00 00 1B 38 FE B4 . 06 F3 00 01 1B 38 FE B3 ."), due);
}

#[test]
fn an_empty_message_is_its_code_type() {
    assert_eq!(lines("hub", "05 F3 00 00 1B FE ED"), "M 1B\nA 04 D0 04 00 FF 28\n");
}

#[test]
fn the_hub_tells_its_refusals() {
    let due = "R 2\nA 05 D1 04 00 01 FF 25\nR 3\nA 05 D1 04 00 01 FF 25\n";
    assert_eq!(lines("hub", "06 F3 00 00 1B 38 FE B5 . 06 F3 /"), due);
}

/// Refusals 1 to 3 get no answer while the reader's sender waits for one.
#[test]
fn a_refusal_without_an_answer() {
    assert_eq!(lines("reader", "S 1B 38 ; 03 ."), "C 06 F3 00 00 1B 38 FE B4\nR 1\n");
}

#[test]
fn nothing_comes_of_nothing() {
    for end in ["hub", "reader"] {
        assert_eq!(lines(end, ""), "");
        assert_eq!(lines(end, " \r\n . / \n\n04 D0"), "");
        // Not ended, so not done.
        assert_eq!(lines(end, "K 00 00 "), "");
        assert_eq!(lines(end, "K 00 00 00"), "");
    }
    assert_eq!(lines("reader", "S 1B 38"), "");
    assert_eq!(lines("reader", "L "), "");
    assert_eq!(lines("hub", "[ 06 F3 00 00 1B 38 FE B4"), "");
}
