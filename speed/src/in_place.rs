//! Whether library, peer and second program alter a board's table alike where it stands: seeded tables, lists, house
//! defaults and power-ups in random order. Compared are the number told and all bytes of the table after each call.

use std::fmt;

use second::kept::KeptTable;
use second::packet::Refusal;
use second::table::ROWS;

use crate::calls::{Table, TABLE};
use crate::streams::{bad_pair, good_pair, Dice, List};
use crate::{other, peer, proved};

/// So many tables are made, and each is altered by so many calls.
const TABLES: usize = 10_000;
const CALLS: usize = 10;

enum Call {
    Set(List),
    Defaults,
    PowerUp,
}

impl fmt::Display for Call {
    fn fmt(&self, out: &mut fmt::Formatter) -> fmt::Result {
        match self {
            Call::Set(List { pairs, permanent }) => write!(out, "the list {pairs:02X?}, permanent: {permanent}"),
            Call::Defaults => write!(out, "the house defaults"),
            Call::PowerUp => write!(out, "a power-up"),
        }
    }
}

/// All bytes garbage in half of them, so that hardly a value is allowed and hardly a lock is one; else values that are
/// allowed, and any number of locks.
fn seeded(dice: &mut Dice) -> [u8; TABLE] {
    if dice.one_in(2) {
        return std::array::from_fn(|_| dice.byte());
    }
    let mut table = KeptTable([0; TABLE]);
    table.defaults();
    for permanent in [true, false] {
        let pairs: Vec<_> = (0..ROWS.len()).filter_map(|_| good_pair(dice, &[false; ROWS.len()])).collect();
        table.set(&pairs.concat(), permanent).expect("good pairs");
    }
    let one_in = dice.between(1, 9);
    for lock in &mut table.0[TABLE - ROWS.len()..] {
        *lock = if dice.one_in(one_in) { 1 } else { dice.byte() & 2 };
    }
    table.0
}

/// One call in five is no list. Of the lists some are empty, some long; in some a number comes again and again, in some
/// there are bad pairs at any place, and some have a byte too many.
fn call(dice: &mut Dice, table: &[u8; TABLE]) -> Call {
    match dice.between(1, 10) {
        1 => return Call::Defaults,
        2 => return Call::PowerUp,
        _ => {}
    }
    let locks = KeptTable(*table).table().locks;
    let again = dice.one_in(4);
    let most = if again || dice.one_in(20) { 200 } else { 9 };
    let mut pairs: Vec<[u8; 2]> = Vec::new();
    for _ in 0..dice.between(0, most) {
        let next = good_pair(dice, &locks);
        pairs.extend(next.filter(|next| !again || pairs.first().is_none_or(|first| first[0] == next[0])));
    }
    let bad = if dice.one_in(3) { dice.between(1, 3) } else { 0 };
    for _ in 0..bad {
        pairs.insert(dice.between(0, pairs.len()), bad_pair(dice, &locks));
    }
    let mut pairs = pairs.concat();
    if dice.one_in(6) {
        pairs.push(dice.byte());
    }
    Call::Set(List { pairs, permanent: dice.one_in(2) })
}

/// The number told, and the table afterwards.
#[derive(PartialEq)]
struct Left(u32, [u8; TABLE]);

fn left(table: &mut impl Table, call: &Call) -> Left {
    let number = match call {
        Call::Set(List { pairs, permanent }) => table.set(pairs, *permanent),
        Call::Defaults => {
            table.defaults();
            0
        }
        Call::PowerUp => {
            table.power_up();
            0
        }
    };
    Left(number, *table.bytes())
}

impl fmt::Display for Left {
    fn fmt(&self, out: &mut fmt::Formatter) -> fmt::Result {
        write!(out, "number {}, table {:02X?}", self.0, self.1)
    }
}

/// How many calls there were of each kind.
#[derive(Default)]
struct Kinds {
    set: usize,
    odd: usize,
    refused: usize,
    defaults: usize,
    power_ups: usize,
}

impl Kinds {
    fn count(&mut self, call: &Call, number: u32) -> Result<(), String> {
        let kind = match (call, number) {
            (Call::Defaults, _) => &mut self.defaults,
            (Call::PowerUp, _) => &mut self.power_ups,
            (Call::Set(_), 0) => &mut self.set,
            (Call::Set(_), number) if number == Refusal::DataLength.number() as u32 => &mut self.odd,
            (Call::Set(_), number) if number == Refusal::Parameter.number() as u32 => &mut self.refused,
            (Call::Set(_), number) => return Err(format!("{call}: all told {number}, which is no number of a list")),
        };
        *kind += 1;
        Ok(())
    }

    fn all(&self) -> [usize; 5] {
        let Kinds { set, odd, refused, defaults, power_ups } = *self;
        [set, odd, refused, defaults, power_ups]
    }
}

/// One table through its calls.
fn run(seed: u64, kinds: &mut Kinds) -> Result<(), String> {
    let dice = &mut Dice::new(seed);
    let mut table = seeded(dice);
    let (mut library, mut peer, mut second) =
        (proved::Table::of(table), peer::Table::of(table), other::Table::of(table));
    for _ in 0..CALLS {
        let call = call(dice, &table);
        let [library, peer, second] = [left(&mut library, &call), left(&mut peer, &call), left(&mut second, &call)];
        if library != second || peer != second {
            return Err(format!(
                "library, peer and second program alter a table differently, seed {seed}: {call}\n  \
                 table:   {table:02X?}\n  library: {library}\n  peer:    {peer}\n  second:  {second}"
            ));
        }
        kinds.count(&call, second.0)?;
        table = second.1;
    }
    Ok(())
}

/// What was compared, in a line.
pub fn compare() -> Result<String, String> {
    let mut kinds = Kinds::default();
    (0..TABLES as u64).try_for_each(|seed| run(seed, &mut kinds))?;
    let all: usize = kinds.all().iter().sum();
    let Kinds { set, odd, refused, defaults, power_ups } = &kinds;
    let line = format!(
        "Library, peer and second program leave the same table in {all} calls: lists {set} done, {odd} refused by 7, \
         {refused} by 9; {defaults} defaults, {power_ups} power-ups."
    );
    (!kinds.all().contains(&0)).then_some(line.clone()).ok_or(format!("a kind of call never came: {line}"))
}
