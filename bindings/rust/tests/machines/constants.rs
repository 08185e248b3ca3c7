//! Constants and refusals have in C and Rust the same names and numbers. The header and `constants.rs` are read as text.

use std::collections::BTreeMap;

use motikhund::Refusal;

const HEADER: &str = include_str!("../../../c/motikhund.h");
const CONSTANTS: &str = include_str!("../../src/constants.rs");

/// Names with their numbers.
type Named = BTreeMap<String, u64>;

/// In each line that begins so, but for the header's assertions: a name, perhaps its type, ` = `, and a number.
fn named(text: &str, begin: &str) -> Named {
    let mut named = Named::new();
    let lines = text.lines().filter_map(|line| line.trim().strip_prefix(begin));
    for line in lines.filter(|line| !line.starts_with("ASSERT(")) {
        let (name, number) = line.split_once(" = ").expect("a name and a number");
        let name = name.split(':').next().expect("a name");
        let digits = number.split([',', ';', ' ']).next().expect("a number");
        let number = match digits.strip_prefix("0x") {
            Some(digits) => u64::from_str_radix(digits, 16),
            None => digits.parse(),
        };
        let before = named.insert(name.to_string(), number.expect("digits alone"));
        assert_eq!(before, None, "{name} twice");
    }
    named
}

/// `Refusal::Length` is `MK_LENGTH`.
fn refusals() -> Named {
    let name = |number| Refusal::from_number(number).map(|why| (format!("{why:?}").to_uppercase(), number.into()));
    (0..1_000).filter_map(name).collect()
}

#[test]
fn are_the_same_in_c_and_rust() {
    let (header, constants, refusals) = (named(HEADER, "MK_"), named(CONSTANTS, "pub const "), refusals());
    assert_eq!((constants.len(), refusals.len()), (CONSTANTS.matches("pub const ").count(), 14));
    let rust: Named = constants.into_iter().chain(refusals).collect();
    let of_one: Vec<_> = rust.iter().filter(|(name, number)| header.get(*name) != Some(number)).collect();
    assert!(of_one.is_empty(), "not so in C: {of_one:?}");
    assert_eq!(header, rust);
}
