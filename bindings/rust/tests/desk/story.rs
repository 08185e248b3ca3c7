//! The story of sample 8 as it is told.

use crate::run::run;

#[test]
fn it_is_told() {
    let ran = run(&["story"], b"");
    assert_eq!((ran.said.as_str(), ran.status), ("", Some(0)));
    assert_eq!(ran.lines, include_str!("story.txt"));
    assert!(ran.lines.lines().all(|line| line.len() <= 100));
}

/// It is the story of examples/88.txt: the same copies, whose ends and checksums are shown.
#[test]
fn its_copies_are_those_of_the_example() {
    let told = run(&["story"], b"").lines;
    let example = include_str!("../../../../examples/88.txt").split_whitespace().collect::<Vec<_>>().join(" ");
    let shown: Vec<&str> = told.lines().filter_map(|line| line.strip_prefix("  reader   ")).collect();
    let copies: Vec<&str> = example.split_terminator(" .").map(str::trim).collect();
    assert_eq!(copies.len(), 3);
    for (copy, shown) in copies.iter().zip(shown) {
        let (first, last) = shown.split_once(" .. ").unwrap_or((shown, shown));
        assert!(copy.starts_with(first) && copy.ends_with(last), "{shown}");
    }
}
