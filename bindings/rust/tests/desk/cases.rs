//! Many cases: parameters, beeps, resends, power-up, starts; refusals, pieces, gaps and bars.

use crate::run::run;

#[test]
fn of_the_reader() {
    let ran = run(&["reader"], include_bytes!("reader_cases.txt"));
    assert_eq!(ran.lines, include_str!("reader_cases_lines.txt"));
}

/// The proved listing has all lines but the refusals.
#[test]
fn of_the_hub() {
    let ran = run(&["hub"], include_bytes!("../../../../crates/hub_cases/stdin"));
    let proved = include_str!("../../../../crates/hub_cases/stdout");
    let (refusals, others): (Vec<&str>, Vec<&str>) = ran.lines.lines().partition(|line| line.starts_with("R "));
    assert_eq!(others, proved.lines().collect::<Vec<_>>());
    for number in [1, 2, 3, 4, 5, 6, 7, 10] {
        assert!(refusals.contains(&format!("R {number}").as_str()), "refusal {number}");
    }
}

/// Each NAK of the hub follows its refusal, and each refusal has its NAK.
#[test]
fn the_hubs_refusals_stand_before_their_answers() {
    let ran = run(&["hub"], include_bytes!("../../../../crates/hub_cases/stdin"));
    let mut due = None;
    for line in ran.lines.lines() {
        let nak = match due.take() {
            None => None,
            Some("1" | "2" | "3") => Some("A 05 D1 04 00 01 FF 25"),
            Some("4" | "5" | "6" | "7") => Some("A 05 D1 04 00 02 FF 24"),
            Some(_) => Some("A 05 D1 04 00 06 FF 20"),
        };
        assert_eq!(line.starts_with("A 05 D1").then_some(line), nak);
        due = line.strip_prefix("R ");
    }
}
