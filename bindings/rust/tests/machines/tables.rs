//! The parameter table that a board keeps: each list and what it must do, which is told here once more, every byte of
//! the table afterwards, the same lists and commands at a reader, and a table taken out of a reader and put back.

use std::array;
use std::collections::BTreeSet;

use motikhund::constants::*;
use motikhund::lent::reader;
use motikhund::{Event, Outcome, Reader, ReaderTold, Refusal, Table};

use crate::bare;
use crate::dice::Dice;
use crate::every_byte::{due_flags, put, ANSWERED, LAST, LOCKS, PERMANENT, PRESENT, READER_FLAGS};
use crate::fenced::{Fenced, FILLS, TABLE_SIZE};
use crate::notation::{ack, command, nak, reader_ack, reader_hears, sent};
use crate::parameters::{acted, set, values, ROWS};
use crate::sets::{is_allowed, NUMBERS};

/// So many values are allowed, of all parameters together.
const HOW_MANY_ALLOWED: usize = 2 + 100 + 5 + 100 + 7 + 5 + 2 + 100 + 2;

/// As many pairs as a PARAM_SEND has room for.
const SEND_PAIRS: usize = (DATA_SIZE - 1) / 2;

// ---- tables as bytes

fn row(bytes: &[u8], from: usize) -> [u8; PLACES] {
    array::from_fn(|place| bytes[from + place])
}

/// The table that stands in these bytes.
pub fn table_in(bytes: &mut Fenced) -> Table {
    let bytes = bytes.lent();
    Table { present: row(bytes, 0), permanent: row(bytes, PLACES), locked: row(bytes, 2 * PLACES) }
}

fn bytes_of(table: &Table) -> Vec<u8> {
    [table.present, table.permanent, table.locked].concat()
}

fn fenced(table: &Table) -> Fenced {
    let mut bytes = Fenced::new(&mut Dice::new(27), TABLE_SIZE);
    bytes.lent().copy_from_slice(&bytes_of(table));
    bytes.remember();
    bytes
}

/// The house defaults.
fn house() -> Table {
    let defaults = ROWS.map(|[.., default]| default);
    Table { present: defaults, permanent: defaults, locked: [0; PLACES] }
}

/// No value is its default, and none is the other of its parameter but for those that take two values.
fn altered() -> Table {
    Table { present: [1, 99, 8, 0, 7, 0, 0, 42, 0], permanent: [1, 5, 4, 99, 1, 3, 0, 7, 0], locked: [0; PLACES] }
}

fn any_allowed(dice: &mut Dice, place: usize) -> u8 {
    loop {
        let value = dice.byte();
        if is_allowed(place, value) {
            break value;
        }
    }
}

/// Now and then all are locked, or none; a lock that is not set is any byte but 1.
fn any_table(dice: &mut Dice) -> Table {
    let often = dice.pick(&[0, 30, 70, 100]);
    Table {
        present: array::from_fn(|place| any_allowed(dice, place)),
        permanent: array::from_fn(|place| any_allowed(dice, place)),
        locked: array::from_fn(|_| if dice.chance(often) { 1 } else { no_lock(dice) }),
    }
}

fn no_lock(dice: &mut Dice) -> u8 {
    let byte = dice.byte();
    if byte == 1 {
        0
    } else {
        byte
    }
}

/// Pairs of all nine with these values.
fn pairs_of(values: [u8; PLACES]) -> Vec<u8> {
    NUMBERS.into_iter().zip(values).flat_map(|(number, value)| [number, value]).collect()
}

/// Up to so many pairs. Two lists of three are right for this table; in the others a pair may be wrong, or cut.
fn any_list(dice: &mut Dice, table: &Table, most: usize) -> Vec<u8> {
    let (right, mut pairs) = (dice.chance(67), Vec::new());
    for _ in 0..dice.below(most + 1) {
        let place = dice.below(PLACES);
        if !right || table.locked[place] != 1 {
            pairs.extend([NUMBERS[place], any_allowed(dice, place)]);
        }
    }
    if !right && !pairs.is_empty() {
        match dice.below(3) {
            2 => drop(pairs.pop()),
            half => {
                let pair = dice.below(pairs.len() / 2);
                pairs[2 * pair + half] = dice.byte();
            }
        }
    }
    pairs
}

// ---- what is due, told here once more

fn due_set(table: &mut Table, pairs: &[u8], permanent: bool) -> u32 {
    if pairs.len() % 2 != 0 {
        return Refusal::Data.number();
    }
    let mut after = *table;
    for pair in pairs.chunks(2) {
        let place = NUMBERS.iter().position(|number| *number == pair[0]);
        let Some(place) = place.filter(|place| table.locked[*place] != 1 && is_allowed(*place, pair[1])) else {
            return Refusal::Setting.number();
        };
        after.present[place] = pair[1];
        if permanent {
            after.permanent[place] = pair[1];
        }
    }
    *table = after;
    NOTHING
}

fn due_defaults(table: &mut Table) {
    for place in (0..PLACES).filter(|place| table.locked[*place] != 1).collect::<Vec<_>>() {
        (table.present[place], table.permanent[place]) = (ROWS[place][3], ROWS[place][3]);
    }
}

fn values_allowed(table: &Table) -> bool {
    (0..PLACES).all(|place| is_allowed(place, table.present[place]) && is_allowed(place, table.permanent[place]))
}

// ---- each call, raw and safe, with its number and every byte

/// The table and its fences are as is due.
fn is_due(table: &mut Fenced, due: &Table, safe: &Table) {
    table.due().copy_from_slice(&bytes_of(due));
    assert!(table.unchanged(), "{:?} where {due:?} is due", table_in(table));
    assert_eq!(safe, due);
}

fn sets(table: &mut Fenced, pairs: &[u8], permanent: bool) -> u32 {
    let (mut due, mut safe) = (table_in(table), table_in(table));
    let number = due_set(&mut due, pairs, permanent);
    assert_eq!(bare::table_set(table, pairs, permanent), number, "{pairs:02X?}");
    assert_eq!(bare::of_done(safe.set(pairs, permanent)), number, "{pairs:02X?}");
    is_due(table, &due, &safe);
    number
}

fn sets_defaults(table: &mut Fenced) {
    let (mut due, mut safe) = (table_in(table), table_in(table));
    due_defaults(&mut due);
    bare::table_set_defaults(table);
    safe.set_defaults();
    is_due(table, &due, &safe);
}

fn powers_up(table: &mut Fenced) {
    let (mut due, mut safe) = (table_in(table), table_in(table));
    due.present = due.permanent;
    bare::table_power_up(table);
    safe.power_up();
    is_due(table, &due, &safe);
}

/// Of a control value: no byte of it changes, and each lock is 1 or 0.
fn takes_out(control: &mut Fenced, table: &mut Fenced) {
    control.remember();
    let bytes = control.lent();
    let locked = row(bytes, LOCKS).map(|lock| u8::from(lock == 1));
    let due = Table { present: row(bytes, PRESENT), permanent: row(bytes, PERMANENT), locked };
    assert_eq!(bare::reader_table(control, table), NOTHING);
    let safe = reader::table(control.lent()).expect("a control value");
    is_due(table, &due, &safe);
    assert!(control.unchanged());
}

/// Into a control value. All that a reader reads it by stays, but for the last accepted packet and its answer.
fn puts_back(control: &mut Fenced, table: &mut Fenced) -> u32 {
    control.remember();
    table.remember();
    let (kept, mut safe) = (table_in(table), control.clone());
    let number = if values_allowed(&kept) { NOTHING } else { Refusal::Setting.number() };
    if number == NOTHING {
        let due = control.due();
        due_flags(due, &READER_FLAGS);
        put(due, LAST, 0);
        put(due, ANSWERED, 0);
        due[PRESENT..][..PLACES].copy_from_slice(&kept.present);
        due[PERMANENT..][..PLACES].copy_from_slice(&kept.permanent);
        due[LOCKS..][..PLACES].copy_from_slice(&kept.locked.map(|lock| u8::from(lock == 1)));
    }
    assert_eq!(bare::reader_put_table(control, table), number, "{kept:?}");
    assert!(control.unchanged() && table.unchanged(), "{kept:?}");
    assert_eq!(bare::of_done(reader::put_table(safe.lent(), &kept)), number);
    assert!(safe.lent() == control.lent() && safe.fences_stand());
    number
}

// ---- made, and read by number

#[test]
fn of_zeros() {
    let mut table = fenced(&Table { present: [0; PLACES], permanent: [0; PLACES], locked: [0; PLACES] });
    sets_defaults(&mut table);
    assert_eq!(table_in(&mut table), house());
    assert_eq!((Table::new(), Table::default(), Reader::new().table()), (house(), house(), house()));
}

/// What is no parameter has 0 and no lock.
#[test]
fn read_by_number() {
    let mut table = altered();
    table.locked = [0, 1, 2, 1, 0xFF, 1, 0, 1, 1];
    for number in 0..=255 {
        let place = NUMBERS.iter().position(|known| *known == number);
        let due = place
            .map_or((0, 0, false), |place| (table.present[place], table.permanent[place], table.locked[place] == 1));
        assert_eq!((table.parameter(number), table.permanent(number), table.locked(number)), due, "{number:02X}");
    }
}

/// The places have the names of the parameters that stand there.
#[test]
fn places() {
    let named = [
        (PLACE_POWER_MODE, PARAMETER_POWER_MODE),
        (PLACE_SAME_SYMBOL_TIME, PARAMETER_SAME_SYMBOL_TIME),
        (PLACE_TRIGGER, PARAMETER_TRIGGER),
        (PLACE_RESPONSE_TIME_OUT, PARAMETER_RESPONSE_TIME_OUT),
        (PLACE_BAUD, PARAMETER_BAUD),
        (PLACE_PARITY, PARAMETER_PARITY),
        (PLACE_ACK_NAK, PARAMETER_ACK_NAK),
        (PLACE_AIM_DURATION, PARAMETER_AIM_DURATION),
        (PLACE_PACKETED_DATA, PARAMETER_PACKETED_DATA),
    ];
    assert_eq!(named.len(), PLACES);
    for (place, number) in named {
        let (mut table, value) = (Table::new(), altered().present[place]);
        assert_eq!(table.set(&[number, value], false), Ok(()));
        assert_eq!((table.present[place], table.parameter(number)), (value, value));
        assert_eq!(table.permanent(number), ROWS[place][3]);
    }
}

// ---- lists

/// Every number with every value, for now and for ever.
#[test]
fn every_pair() {
    for permanent in [false, true] {
        let mut taken = 0;
        for (number, value) in (0..=255).flat_map(|number| (0..=255).map(move |value| (number, value))) {
            taken += usize::from(sets(&mut fenced(&house()), &[number, value], permanent) == NOTHING);
        }
        assert_eq!(taken, HOW_MANY_ALLOWED);
    }
}

/// One that is wrong at each place of lists of each length, in each way: nothing is stored.
#[test]
fn one_is_wrong() {
    let wrong = [[0x81, 0], [0, 0], [0xFF, 0], [0x8A, 1], [0x9C, 0], [0x9C, 8], [0xED, 100], [0x9E, 5], [0x89, 255]];
    let right = [pairs_of(altered().permanent), pairs_of(altered().present)].concat();
    for (length, permanent) in (2..=right.len()).step_by(2).flat_map(|length| [(length, false), (length, true)]) {
        assert_eq!(sets(&mut fenced(&house()), &right[..length], permanent), NOTHING);
        for (at, pair) in (0..length).step_by(2).flat_map(|at| wrong.map(|pair| (at, pair))) {
            let (mut table, mut list) = (fenced(&house()), right[..length].to_vec());
            list[at..at + 2].copy_from_slice(&pair);
            assert_eq!(sets(&mut table, &list, permanent), 9, "{list:02X?}");
            assert_eq!(table_in(&mut table), house());
        }
    }
}

/// The later value holds, and the earlier one is judged all the same.
#[test]
fn named_twice() {
    let dice = &mut Dice::new(2);
    for place in 0..PLACES {
        for _ in 0..2_000 {
            let (between, permanent) = ((place + 1) % PLACES, dice.chance(50));
            let [first, later] = [(); 2].map(|()| if dice.chance(80) { any_allowed(dice, place) } else { dice.byte() });
            let list = [NUMBERS[place], first, NUMBERS[between], ROWS[between][3], NUMBERS[place], later];
            let mut table = fenced(&altered());
            let taken = sets(&mut table, &list, permanent) == NOTHING;
            assert_eq!(taken, is_allowed(place, first) && is_allowed(place, later));
            let due = if taken { later } else { altered().present[place] };
            assert_eq!(table_in(&mut table).present[place], due);
        }
    }
}

/// An odd number of bytes is looked at before what stands in them; none is right.
#[test]
fn each_length() {
    let right = [pairs_of(altered().permanent), pairs_of(altered().present)].concat();
    let wrong = vec![0xFF; right.len()];
    for (length, permanent) in (0..=right.len()).flat_map(|length| [(length, false), (length, true)]) {
        let odd = length % 2 == 1;
        let number = sets(&mut fenced(&house()), &right[..length], permanent);
        assert_eq!(number, if odd { 7 } else { NOTHING });
        let number = sets(&mut fenced(&house()), &wrong[..length], permanent);
        assert_eq!(number, if odd { 7 } else { 9 * u32::from(length > 0) });
    }
    let mut table = altered();
    assert_eq!((table.set(&[], true), table.set(&[], false)), (Ok(()), Ok(())));
    assert_eq!(table, altered());
}

/// A hundred thousand pairs: all are set, and the last one that is wrong refuses them. More than 16 bits count.
#[test]
fn long_lists() {
    let dice = &mut Dice::new(5);
    let mut list: Vec<u8> = (0..100_000)
        .flat_map(|_| {
            let place = dice.below(PLACES);
            [NUMBERS[place], any_allowed(dice, place)]
        })
        .collect();
    for length in [4_096, 4_098, 65_536, 65_538, 131_072, 200_000] {
        for permanent in [false, true] {
            assert_eq!(sets(&mut fenced(&house()), &list[..length], permanent), NOTHING);
            assert_eq!(sets(&mut fenced(&house()), &list[..length - 1], permanent), 7);
            let kept = list[length - 1];
            list[length - 1] = 100;
            assert_eq!(sets(&mut fenced(&house()), &list[..length], permanent), 9);
            list[length - 1] = kept;
        }
    }
}

// ---- locks

/// Each of the 512 patterns: what a list names decides, defaults pass over, power-up does not.
#[test]
fn every_lock() {
    let dice = &mut Dice::new(512);
    for pattern in 0..512 {
        let locked: [bool; PLACES] = array::from_fn(|place| pattern >> place & 1 == 1);
        let start = Table { locked: locked.map(|locked| if locked { 1 } else { no_lock(dice) }), ..altered() };
        let free: Vec<u8> =
            (0..PLACES).filter(|place| !locked[*place]).flat_map(|place| [NUMBERS[place], ROWS[place][3]]).collect();
        for permanent in [false, true] {
            for (place, number) in NUMBERS.into_iter().enumerate() {
                let due = if locked[place] { 9 } else { NOTHING };
                for value in [ROWS[place][3], start.present[place]] {
                    assert_eq!(sets(&mut fenced(&start), &[number, value], permanent), due);
                }
            }
            assert_eq!(sets(&mut fenced(&start), &free, permanent), NOTHING);
            let all = sets(&mut fenced(&start), &pairs_of(altered().present), permanent);
            assert_eq!(all, if pattern == 0 { NOTHING } else { 9 });
        }
        let mut table = fenced(&start);
        sets_defaults(&mut table);
        let after = table_in(&mut table);
        for place in 0..PLACES {
            let due = if locked[place] { [start.present[place], start.permanent[place]] } else { [ROWS[place][3]; 2] };
            assert_eq!([after.present[place], after.permanent[place]], due);
        }
        let mut table = fenced(&start);
        powers_up(&mut table);
        assert_eq!(table_in(&mut table), Table { present: start.permanent, ..start });
    }
}

/// 1 alone locks, and no byte is written.
#[test]
fn every_byte_as_a_lock() {
    for (place, byte) in (0..PLACES).flat_map(|place| (0..=255).map(move |byte| (place, byte))) {
        let mut start = altered();
        start.locked[place] = byte;
        let mut table = fenced(&start);
        let number = sets(&mut table, &[NUMBERS[place], ROWS[place][3]], true);
        assert_eq!(number, if byte == 1 { 9 } else { NOTHING });
        powers_up(&mut table);
        sets_defaults(&mut table);
        let after = table_in(&mut table);
        assert_eq!(after.locked, start.locked);
        assert_eq!(after.permanent[place] == ROWS[place][3], byte != 1);
    }
}

// ---- any bytes are a table

#[test]
fn tables_of_garbage() {
    let mut seen = BTreeSet::new();
    for seed in 0..20_000 {
        let dice = &mut Dice::new(seed);
        let fill = FILLS.get(seed as usize).copied().flatten();
        let mut table = Fenced::filled(dice, TABLE_SIZE, fill);
        for lock in &mut table.lent()[2 * PLACES..] {
            if dice.chance(20) {
                *lock = 1;
            }
        }
        table.remember();
        for _ in 0..3 {
            match dice.below(4) {
                0 => sets_defaults(&mut table),
                1 => powers_up(&mut table),
                _ => {
                    let list = any_list(dice, &table_in(&mut table), 2 * PLACES);
                    seen.insert(sets(&mut table, &list, dice.chance(50)));
                }
            }
        }
    }
    assert_eq!(seen, [0, 7, 9].into());
}

/// Each byte of the table in turn each byte, the others as they are.
#[test]
fn each_byte_of_garbage() {
    for (at, byte) in (0..TABLE_SIZE).flat_map(|at| (0..=255).map(move |byte| (at, byte))) {
        let mut table = fenced(&altered());
        table.lent()[at] = byte;
        sets(&mut table, &[0x9C, 1, 0xEE, 0], byte % 2 == 0);
        powers_up(&mut table);
        sets_defaults(&mut table);
    }
}

// ---- beside a reader

/// The same list by the table and as a PARAM_SEND: the same refusal, and the same table afterwards.
fn sends(reader: &mut Reader, table: &mut Fenced, list: &[u8], permanent: bool) -> u32 {
    let before = table_in(table);
    let number = sets(table, list, permanent);
    let status = if permanent { STATUS_PERMANENT } else { 0 };
    match reader_hears(reader, &sent(&set(status, list))) {
        ReaderTold::Acted { permanent, .. } => {
            assert_eq!(number, NOTHING, "{list:02X?}");
            assert_eq!(permanent, before.permanent != table_in(table).permanent, "{list:02X?}");
        }
        ReaderTold::Refused { why, .. } => assert_eq!(why.number(), number, "{list:02X?}"),
        told => panic!("{told:?} of {list:02X?}"),
    }
    assert_eq!(reader.table(), table_in(table), "{list:02X?}");
    number
}

/// A reader with any table, and that table taken out.
fn any_reader(dice: &mut Dice) -> (Reader, Fenced) {
    let (mut reader, table) = (Reader::new(), any_table(dice));
    assert_eq!(reader.put_table(&table), Ok(()));
    let taken = reader.table();
    assert_eq!(taken, Table { locked: table.locked.map(|lock| u8::from(lock == 1)), ..table });
    (reader, fenced(&taken))
}

#[test]
fn as_a_param_send() {
    let mut seen = BTreeSet::new();
    for seed in 0..8_000 {
        let dice = &mut Dice::new(seed);
        let (mut reader, mut table) = any_reader(dice);
        let most = if seed % 8 == 0 { SEND_PAIRS } else { PLACES };
        let list = any_list(dice, &table_in(&mut table), most);
        seen.insert(sends(&mut reader, &mut table, &list, dice.chance(50)));
    }
    assert_eq!(seen, [0, 7, 9].into());
}

/// One call after another, and the same commands one after another: lists, PARAM_DEFAULTS, power-up.
#[test]
fn one_after_another() {
    let mut seen = BTreeSet::new();
    for seed in 0..2_000 {
        let dice = &mut Dice::new(seed);
        let (mut reader, mut table) = any_reader(dice);
        for _ in 0..12 {
            match dice.below(6) {
                0 => {
                    sets_defaults(&mut table);
                    let told = reader_hears(&mut reader, &sent(&command(OPCODE_PARAM_DEFAULTS, &[])));
                    assert!(matches!(told, ReaderTold::Acted { .. }), "{told:?}");
                }
                1 => {
                    powers_up(&mut table);
                    reader.restart();
                }
                _ => {
                    let list = any_list(dice, &table_in(&mut table), PLACES);
                    seen.insert(sends(&mut reader, &mut table, &list, dice.chance(50)));
                }
            }
            assert_eq!(reader.table(), table_in(&mut table));
        }
    }
    assert_eq!(seen, [0, 7, 9].into());
}

// ---- out of a reader and back

/// Of any control value, and into any: every byte of both.
#[test]
fn there_and_back() {
    let mut seen = BTreeSet::new();
    for seed in 0..4_000 {
        let dice = &mut Dice::new(seed);
        let size = READER_CONTROL_SIZE + dice.below(3);
        let fill = FILLS.get(seed as usize).copied().flatten();
        let (mut control, mut table) = (Fenced::filled(dice, size, fill), Fenced::new(dice, TABLE_SIZE));
        if dice.chance(50) {
            control.lent()[..READER_CONTROL_SIZE].copy_from_slice(Reader::new().control());
        }
        for lock in &mut control.lent()[LOCKS..][..PLACES] {
            if dice.chance(30) {
                *lock = 1;
            }
        }
        takes_out(&mut control, &mut table);
        seen.insert(puts_back(&mut control, &mut table));
        let mut other = fenced(&any_table(dice));
        assert_eq!(puts_back(&mut control, &mut other), NOTHING);
        takes_out(&mut control, &mut table);
    }
    assert_eq!(seen, [0, 9].into());
}

/// Of a reader as it runs nothing changes but what is forgotten: its flags are 0 and 1 already.
#[test]
fn back_as_it_was() {
    let (mut reader, dice) = (Reader::new(), &mut Dice::new(3));
    for _ in 0..1_000 {
        let card = dice.below(600);
        let _ = reader.send(dice.byte(), &dice.bytes(card));
        for packet in [command(OPCODE_AIM_ON, &[]), set(STATUS_PERMANENT, &[0x8A, any_allowed(dice, 2)])] {
            acted(&mut reader, &packet);
        }
        for _ in 0..dice.below(8) {
            let _ = reader.event(Event::Byte(dice.byte()));
        }
        let mut due = *reader.control();
        put(&mut due, LAST, 0);
        put(&mut due, ANSWERED, 0);
        let table = reader.table();
        assert_eq!(reader.put_table(&table), Ok(()));
        assert_eq!(reader.control(), &due);
        let _ = reader.event(Event::MessageGap);
    }
}

/// Each value of each parameter, present and permanent, alone: 9 where it is not allowed.
#[test]
fn each_value_put_back() {
    let mut taken = 0;
    for (at, value) in (0..2 * PLACES).flat_map(|at| (0..=255).map(move |value| (at, value))) {
        let dice = &mut Dice::new((at * 256 + usize::from(value)) as u64);
        let (mut control, mut table) = (Fenced::new(dice, READER_CONTROL_SIZE), fenced(&altered()));
        table.lent()[at] = value;
        taken += usize::from(puts_back(&mut control, &mut table) == NOTHING);
    }
    assert_eq!(taken, 2 * HOW_MANY_ALLOWED);
}

/// For both calls, with every byte as it was.
#[test]
fn thirteen_before_nine() {
    for size in 0..READER_CONTROL_SIZE {
        let dice = &mut Dice::new(size as u64);
        let mut control = Fenced::new(dice, size);
        for mut table in [fenced(&altered()), Fenced::new(dice, TABLE_SIZE)] {
            assert_eq!(bare::reader_put_table(&mut control, &mut table), 13);
            assert_eq!(bare::reader_table(&mut control, &mut table), 13);
            assert_eq!(reader::put_table(control.lent(), &table_in(&mut table)), Err(Refusal::Room));
            assert_eq!(reader::table(control.lent()), Err(Refusal::Room));
            assert!(control.unchanged() && table.unchanged(), "{size}");
        }
    }
}

/// A resent equal is answered from memory, also behind a table taken out or refused; not behind one put back.
#[test]
fn the_last_accepted_packet_is_forgotten() {
    let mut reader = Reader::new();
    let (old, again) = (reader.table(), set(STATUS_RESEND, &[0x8A, 8]));
    acted(&mut reader, &set(0, &[0x8A, 8]));
    let (same, mut wrong) = (reader.table(), altered());
    wrong.permanent[PLACE_TRIGGER] = 1;
    assert_eq!(reader.put_table(&wrong), Err(Refusal::Setting));
    assert_eq!(reader_hears(&mut reader, &sent(&again)), ReaderTold::Repeated { answer: &reader_ack() });
    assert_eq!(reader.put_table(&old), Ok(()));
    assert_eq!(reader.parameter(0x8A), 0);
    acted(&mut reader, &again);
    assert_eq!(reader.parameter(0x8A), 8);
    assert_eq!(reader_hears(&mut reader, &sent(&again)), ReaderTold::Repeated { answer: &reader_ack() });
    // The same table too.
    assert_eq!(reader.put_table(&same), Ok(()));
    acted(&mut reader, &again);
}

/// A packet begun, a deaf framer, a message out, the switches and what a start says of a gap stay.
#[test]
fn all_else_stays() {
    let (mut reader, mut table) = (Reader::new(), altered());
    table.present[PLACE_ACK_NAK] = ACK_NAK_ON;
    assert!(matches!(reader.send(0x1B, b"8"), Outcome::Copy { gap: false, .. }));
    acted(&mut reader, &command(OPCODE_START_SESSION, &[]));
    let (front, rest) = (&ack(SOURCE_HOST)[..3], &ack(SOURCE_HOST)[3..]);
    assert_eq!(reader_hears(&mut reader, &sent(front)), ReaderTold::Nothing);
    assert_eq!(reader.put_table(&table), Ok(()));
    assert!(reader.switched().session);
    assert_eq!(reader_hears(&mut reader, &sent(rest)), ReaderTold::Delivered { copies: 0 });
    assert!(matches!(reader.event(Event::Byte(3)), ReaderTold::Refused { why: Refusal::Length, .. }));
    assert_eq!(reader.put_table(&table), Ok(()));
    assert_eq!(reader_hears(&mut reader, &sent(&command(OPCODE_AIM_ON, &[]))), ReaderTold::Nothing);
    assert!(matches!(reader.send(0x1B, b"8"), Outcome::Copy { gap: true, .. }));
}

/// Locks are the reader's, as those of a set; present values hold at once, permanent ones from power-up on.
#[test]
fn locks_put_back() {
    for (place, number) in NUMBERS.into_iter().enumerate() {
        let (mut reader, mut table) = (Reader::new(), altered());
        table.present[PLACE_ACK_NAK] = ACK_NAK_ON;
        table.locked[place] = 1;
        assert_eq!(reader.put_table(&table), Ok(()));
        assert_eq!((values(&reader), reader.locked(number)), (table.present, true));
        for (value, status) in (0..=255).flat_map(|value| [(value, 0), (value, STATUS_PERMANENT)]) {
            let told = reader_hears(&mut reader, &sent(&set(status, &[number, value])));
            assert_eq!(told, ReaderTold::Refused { why: Refusal::Setting, answer: &nak(SOURCE_READER, CAUSE_DENIED) });
        }
        assert_eq!(reader.table(), table);
        // As a set it has the same locks.
        let form = reader.save(&mut [0; SET_SIZE]).to_vec();
        assert_eq!(form[20..], [1, number]);
        reader.restart();
        assert_eq!((values(&reader), reader.locked(number)), (table.permanent, true));
        // Any byte but 1 unlocks.
        table.locked[place] = 0xFF;
        assert_eq!(reader.put_table(&table), Ok(()));
        assert_eq!((reader.table().locked[place], reader.locked(number)), (0, false));
        acted(&mut reader, &set(0, &[number, ROWS[place][3]]));
    }
}

#[test]
fn its_values_hold_at_once() {
    let (mut reader, mut table) = (Reader::new(), Table::new());
    assert_eq!(table.set(&[PARAMETER_ACK_NAK, ACK_NAK_OFF], false), Ok(()));
    assert_eq!(reader.put_table(&table), Ok(()));
    let told = reader_hears(&mut reader, &sent(&command(OPCODE_AIM_ON, &[])));
    assert_eq!(told, ReaderTold::Acted { beep: None, permanent: false, answer: &[] });
    reader.restart();
    acted(&mut reader, &command(OPCODE_AIM_ON, &[]));
}
