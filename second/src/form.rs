//! The form of a saved set (2/14): an edition, the permanent values, and which parameters are locked.

use crate::table::{allowed, place, Table, ROWS};

pub const EDITION: u8 = 1;
/// Edition, count, a pair for each parameter, count of locks.
pub const WITHOUT_LOCKS: usize = 3 + 2 * ROWS.len();
pub const LONGEST_FORM: usize = WITHOUT_LOCKS + ROWS.len();

/// What is first not right in a form, for those who watch.
#[derive(Clone, Copy, PartialEq, Eq, Debug)]
pub enum Fault {
    /// It ends before its end.
    Early,
    Edition,
    Count,
    /// Of the parameter in this place of the table, as the next one.
    Number(usize),
    Value(usize),
    LockCount,
    /// Not above the lock before it.
    LockOrder,
    /// Not the number of a parameter.
    LockNumber,
    /// Something comes after its end.
    Late,
}

pub fn save(table: &Table) -> Vec<u8> {
    let mut form = vec![EDITION, ROWS.len() as u8];
    for ([number, ..], value) in ROWS.into_iter().zip(table.permanent) {
        form.extend([number, value]);
    }
    let locked: Vec<u8> = ROWS.into_iter().zip(table.locks).filter(|(_, lock)| *lock).map(|([n, ..], _)| n).collect();
    form.push(locked.len() as u8);
    form.extend(locked);
    form
}

/// The table that a form says: its values are the permanent and the present ones.
pub fn load(form: &[u8]) -> Result<Table, Fault> {
    let mut left = Left(form);
    left.this(EDITION, Fault::Edition)?;
    left.this(ROWS.len() as u8, Fault::Count)?;
    let values = left.values()?;
    let locks = left.locks()?;
    left.end()?;
    Ok(Table { present: values, permanent: values, locks })
}

/// The bytes of a form that have not been read.
struct Left<'a>(&'a [u8]);

impl Left<'_> {
    fn next(&mut self) -> Result<u8, Fault> {
        let (first, rest) = self.0.split_first().ok_or(Fault::Early)?;
        self.0 = rest;
        Ok(*first)
    }

    fn this(&mut self, due: u8, fault: Fault) -> Result<(), Fault> {
        if self.next()? == due {
            Ok(())
        } else {
            Err(fault)
        }
    }

    fn values(&mut self) -> Result<[u8; ROWS.len()], Fault> {
        let mut values = [0; ROWS.len()];
        for (place, [number, ..]) in ROWS.into_iter().enumerate() {
            self.this(number, Fault::Number(place))?;
            values[place] = self.next()?;
            if !allowed(number, values[place]) {
                return Err(Fault::Value(place));
            }
        }
        Ok(values)
    }

    fn locks(&mut self) -> Result<[bool; ROWS.len()], Fault> {
        let count = self.next()?;
        if usize::from(count) > ROWS.len() {
            return Err(Fault::LockCount);
        }
        let mut locks = [false; ROWS.len()];
        let mut before = None;
        for _ in 0..count {
            let number = self.next()?;
            if before >= Some(number) {
                return Err(Fault::LockOrder);
            }
            locks[place(number).ok_or(Fault::LockNumber)?] = true;
            before = Some(number);
        }
        Ok(locks)
    }

    fn end(&self) -> Result<(), Fault> {
        if self.0.is_empty() {
            Ok(())
        } else {
            Err(Fault::Late)
        }
    }
}
