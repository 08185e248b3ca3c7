//! A table that a board keeps, altered where it stands (5/14).

use super::*;
use crate::kept::{KeptTable, KEPT};

const DEFAULTS: [u8; 9] = [0, 10, 0, 20, 6, 4, 1, 0, 1];
/// 8Ah and 9Ch have the byte 1; those of 80h and 9Eh are neither 0 nor 1.
const LOCKS: [u8; 9] = [2, 0, 1, 0, 1, 0xFF, 0, 0, 0];

fn kept(present: [u8; 9], permanent: [u8; 9], locks: [u8; 9]) -> KeptTable {
    KeptTable([present, permanent, locks].concat().try_into().expect("three times nine"))
}

/// The table with the house defaults after a list.
fn after(pairs: &str, permanently: bool) -> Result<KeptTable, Refusal> {
    let mut table = kept(DEFAULTS, DEFAULTS, LOCKS);
    table.set(&bytes(pairs), permanently).map(|()| table)
}

#[test]
fn a_list_is_set_where_the_table_stands() {
    let changed = [1, 10, 0, 20, 6, 4, 1, 99, 1];
    assert_eq!(after("80 01 ED 63", false), Ok(kept(changed, DEFAULTS, LOCKS)));
    assert_eq!(after("80 01 ED 63", true), Ok(kept(changed, changed, LOCKS)));
    // The later value holds, and there is no limit on pairs.
    assert_eq!(after("ED 05 80 01 ED 63", true), Ok(kept(changed, changed, LOCKS)));
    assert_eq!(after(&("ED 05 ".repeat(1_000) + "80 01 ED 63"), true), Ok(kept(changed, changed, LOCKS)));
    assert_eq!(after("", true), Ok(kept(DEFAULTS, DEFAULTS, LOCKS)));
}

#[test]
fn a_refused_list_changes_no_byte() {
    let garbage = KeptTable(std::array::from_fn(|place| (place * 89 + 7) as u8));
    let cases = [
        ("80", Refusal::DataLength),
        ("80 01 89", Refusal::DataLength),
        // The number of bytes is judged first.
        ("81 00 80", Refusal::DataLength),
        ("80 02", Refusal::Parameter),
        ("80 01 8A 01", Refusal::Parameter),
        ("9C 00 80 01", Refusal::Parameter),
        ("81 00", Refusal::Parameter),
        // A good value behind it does not help.
        ("80 02 80 01", Refusal::Parameter),
    ];
    for (pairs, refusal) in cases {
        for permanently in [false, true] {
            let mut table = garbage;
            assert_eq!(table.set(&bytes(pairs), permanently), Err(refusal), "{pairs}");
            assert_eq!(table, garbage, "{pairs}");
        }
    }
}

#[test]
fn only_the_byte_1_is_a_lock() {
    for byte in 0..=255 {
        let locks = std::array::from_fn(|place| if place == 1 { byte } else { 0 });
        let mut table = kept(DEFAULTS, DEFAULTS, locks);
        // The value that it has is refused too.
        let refused = table.set(&bytes("89 0A"), false).is_err();
        assert_eq!(refused, byte == 1, "{byte}");
        table = kept([3; 9], [5; 9], locks);
        table.defaults();
        let mut due = kept(DEFAULTS, DEFAULTS, locks);
        if byte == 1 {
            (due.0[1], due.0[9 + 1]) = (3, 5);
        }
        assert_eq!(table, due, "{byte}");
    }
}

#[test]
fn zeros_become_the_house_defaults() {
    let mut table = KeptTable([0; KEPT]);
    table.defaults();
    assert_eq!(table.table(), Table::house_defaults());
    assert_eq!(table, kept(DEFAULTS, DEFAULTS, [0; 9]));
}

#[test]
fn at_power_up_the_permanent_values_hold() {
    let mut table = kept([3; 9], [200; 9], LOCKS);
    table.power_up();
    assert_eq!(table, kept([200; 9], [200; 9], LOCKS));
}
