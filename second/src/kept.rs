//! A table that a board keeps itself, as bytes, and that is altered where it stands (5/14).

use crate::packet::Refusal;
use crate::table::{Table, ROWS};

const VALUES: usize = ROWS.len();
/// Present values, permanent values and locks, all in the order of the rows.
pub const KEPT: usize = 3 * VALUES;
/// Any other byte is no lock.
const LOCKED: u8 = 1;

/// Any bytes are one.
#[derive(Clone, Copy, PartialEq, Eq, Debug)]
pub struct KeptTable(pub [u8; KEPT]);

impl KeptTable {
    /// Sets a list of pairs, or refuses it and changes nothing.
    pub fn set(&mut self, pairs: &[u8], permanently: bool) -> Result<(), Refusal> {
        let mut table = self.table();
        table.judge(pairs)?;
        table.put(pairs, permanently);
        self.keep(&table);
        Ok(())
    }

    /// The house defaults for every parameter that is not locked.
    pub fn defaults(&mut self) {
        let mut table = self.table();
        table.defaults();
        self.keep(&table);
    }

    pub fn power_up(&mut self) {
        let mut table = self.table();
        table.power_up();
        self.keep(&table);
    }

    /// The table that the bytes stand for.
    pub fn table(&self) -> Table {
        let part = |first: usize| std::array::from_fn(|place| self.0[first + place]);
        let locks: [u8; VALUES] = part(2 * VALUES);
        Table { present: part(0), permanent: part(VALUES), locks: locks.map(|byte| byte == LOCKED) }
    }

    /// The locks' bytes stay, whatever they are.
    fn keep(&mut self, table: &Table) {
        self.0[..VALUES].copy_from_slice(&table.present);
        self.0[VALUES..2 * VALUES].copy_from_slice(&table.permanent);
    }
}
