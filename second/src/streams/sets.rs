//! Draws saved sets: values and locks, and forms right and spoiled.

use crate::dice::Dice;
use crate::form::{save, EDITION, LONGEST_FORM, WITHOUT_LOCKS};
use crate::table::{Table, ACK_NAK, ROWS, TRIGGER};
use crate::watch_sets::LENGTHS;

/// Where the count of locks stands.
const AT_LOCKS: usize = WITHOUT_LOCKS - 1;
const COUNT: u8 = ROWS.len() as u8;

pub fn good_value(dice: &mut Dice, row: [u8; 4]) -> u8 {
    let [number, low, high, default] = row;
    if number == TRIGGER {
        return dice.pick(&[0, 2, 4, 7, 8]);
    }
    let inside = dice.between(usize::from(low), usize::from(high)) as u8;
    dice.pick(&[low, high, default, inside])
}

/// Just outside a range, far outside, or a trigger between.
pub fn bad_value(dice: &mut Dice, row: [u8; 4]) -> u8 {
    let [number, low, high, _] = row;
    if number == TRIGGER && dice.chance(60) {
        return dice.pick(&[1, 3, 5, 6]);
    }
    match dice.below(3) {
        0 => dice.between(usize::from(high) + 1, 255) as u8,
        1 if low > 0 => low - 1,
        _ => high + 1,
    }
}

/// Most sets leave much unlocked: a reader that is locked takes few of the other commands.
pub fn good(dice: &mut Dice) -> Table {
    let locked = match dice.weigh(&[50, 25, 17, 8]) {
        0 => 0,
        1 => 1,
        2 => dice.between(2, ROWS.len() - 1),
        _ => ROWS.len(),
    };
    with_locks(dice, locked)
}

/// No parameter is locked.
pub fn free(dice: &mut Dice) -> Table {
    with_locks(dice, 0)
}

/// At least one is.
pub fn locked(dice: &mut Dice) -> Table {
    let locked = dice.between(1, ROWS.len());
    with_locks(dice, locked)
}

fn with_locks(dice: &mut Dice, locked: usize) -> Table {
    let mut values = ROWS.map(|row| good_value(dice, row));
    let at_9f = ROWS.iter().position(|row| row[0] == ACK_NAK).expect("9Fh is one of the nine");
    // It is to be on more than off, as a set that locks it off lasts until another is taken.
    if dice.chance(70) {
        values[at_9f] = 1;
    }
    let mut locks = [false; ROWS.len()];
    locks[..locked].fill(true);
    for place in (1..locks.len()).rev() {
        locks.swap(place, dice.between(0, place));
    }
    Table { present: values, permanent: values, locks }
}

/// A form with one field spoiled, or of another length.
pub fn bad_form(dice: &mut Dice) -> Vec<u8> {
    let locked = dice.between(0, ROWS.len());
    let form = save(&with_locks(dice, locked));
    match dice.weigh(&[8, 8, 12, 20, 10, 20, 12, 12]) {
        0 => with(form, 0, dice.pick(&[0, 2, EDITION + COUNT, 255])),
        1 => with(form, 1, dice.pick(&[0, COUNT - 1, COUNT + 1, 32, 255])),
        2 => bad_number(dice, form),
        3 => {
            let place = dice.below(ROWS.len());
            with(form, 3 + 2 * place, bad_value(dice, ROWS[place]))
        }
        4 => with(form, AT_LOCKS, bad_count(dice, locked as u8)),
        5 => bad_locks(dice, form),
        6 => cut(dice, form),
        _ => lengthened(dice, form),
    }
}

fn with(mut form: Vec<u8>, place: usize, byte: u8) -> Vec<u8> {
    form[place] = byte;
    form
}

/// A number beside the right one, or two pairs in the wrong order.
fn bad_number(dice: &mut Dice, mut form: Vec<u8>) -> Vec<u8> {
    let place = dice.below(ROWS.len());
    let at = 2 + 2 * place;
    if place > 0 && dice.chance(30) {
        form[at - 2..at + 2].rotate_left(2);
        return form;
    }
    let number = form[at].wrapping_add(dice.pick(&[1, 255, 128]));
    with(form, at, number)
}

/// One more or fewer than there are, or more than there can be.
fn bad_count(dice: &mut Dice, locked: u8) -> u8 {
    let other = if locked > 0 { locked - 1 } else { 1 };
    dice.pick(&[locked + 1, other, COUNT + 1, 32, 255])
}

/// Two locks exchanged, one twice, another number in the place of one, or one left out. It may by chance still be
/// right.
fn bad_locks(dice: &mut Dice, mut form: Vec<u8>) -> Vec<u8> {
    let locked = form.len() - WITHOUT_LOCKS;
    if locked == 0 {
        form[AT_LOCKS] = 1;
        form.push(dice.pick(&[0x00, 0x7F, 0x81, 0xEF, 0xFF]));
        return form;
    }
    let at = WITHOUT_LOCKS + dice.below(locked);
    let next = WITHOUT_LOCKS + (at + 1 - WITHOUT_LOCKS) % locked;
    match dice.below(4) {
        0 if locked > 1 => form.swap(at, next),
        1 if form.len() < LONGEST_FORM => {
            form[AT_LOCKS] += 1;
            form.insert(at, form[at]);
        }
        1 => form[at] = form[next],
        2 => drop(form.remove(at)),
        _ => form[at] = form[at].wrapping_add(dice.pick(&[1, 255, 128])),
    }
    form
}

fn cut(dice: &mut Dice, mut form: Vec<u8>) -> Vec<u8> {
    let size = if dice.chance(30) { form.len() - 1 } else { dice.below(form.len()) };
    form.truncate(size);
    form
}

/// With bytes that a form might go on with, or with any. Few are far too long, as these take long to write.
fn lengthened(dice: &mut Dice, mut form: Vec<u8>) -> Vec<u8> {
    let size = match dice.weigh(&[40, 56, 4]) {
        0 => form.len() + 1,
        1 => dice.between(form.len() + 1, LENGTHS),
        _ => dice.between(LENGTHS + 1, 300),
    };
    let more = dice.pick(&[0, form[AT_LOCKS], ROWS[ROWS.len() - 1][0], 0xFF]);
    form.resize(size, more);
    form
}
