//! A parameter table that a board keeps itself.

use core::mem::{align_of, size_of};

use crate::constants::{
    ACK_NAK_ON, BAUD_9600, DATA_PACKETED, PARAMETER_ACK_NAK, PARAMETER_AIM_DURATION, PARAMETER_BAUD,
    PARAMETER_PACKETED_DATA, PARAMETER_PARITY, PARAMETER_POWER_MODE, PARAMETER_RESPONSE_TIME_OUT,
    PARAMETER_SAME_SYMBOL_TIME, PARAMETER_TRIGGER, PARITY_NONE, PLACES, POWER_CONTINUOUS, TRIGGER_LEVEL,
};
use crate::numbers::done;
use crate::{calls, Refusal};

/// The parameters, each in its place.
const NUMBERS: [u8; PLACES] = [
    PARAMETER_POWER_MODE,
    PARAMETER_SAME_SYMBOL_TIME,
    PARAMETER_TRIGGER,
    PARAMETER_RESPONSE_TIME_OUT,
    PARAMETER_BAUD,
    PARAMETER_PARITY,
    PARAMETER_ACK_NAK,
    PARAMETER_AIM_DURATION,
    PARAMETER_PACKETED_DATA,
];

/// The house default of each.
pub(crate) const DEFAULTS: [u8; PLACES] =
    [POWER_CONTINUOUS, 10, TRIGGER_LEVEL, 20, BAUD_9600, PARITY_NONE, ACK_NAK_ON, 0, DATA_PACKETED];

/// A table of parameters that a board keeps, altered where it stands. Each parameter has its place in all three rows,
/// `PLACE_..` in [`constants`](crate::constants): 80h 89h 8Ah 9Bh 9Ch 9Eh 9Fh EDh EEh. It has 27 bytes and an alignment
/// of 1, and C calls it `mk_table`. [`Reader::table`](crate::Reader::table) takes one out of a reader, and
/// [`Reader::put_table`](crate::Reader::put_table) puts it back.
///
/// Any bytes are some table, also where values stand in it that no parameter takes. Locks are the owner's to write; no
/// method changes a lock's byte, whatever it is.
///
/// ```
/// use motikhund::constants::{BAUD_19200, PARAMETER_BAUD, PARAMETER_PARITY, PARITY_EVEN, PLACE_BAUD};
/// use motikhund::{Refusal, Table};
///
/// let mut table = Table::new(); // a const fn: a table may be a static
/// table.set(&[PARAMETER_BAUD, BAUD_19200, PARAMETER_PARITY, PARITY_EVEN], true)?;
/// assert_eq!((table.present[PLACE_BAUD], table.parameter(PARAMETER_PARITY)), (BAUD_19200, PARITY_EVEN));
/// table.locked[PLACE_BAUD] = 1;
/// let before = table;
/// assert_eq!(table.set(&[PARAMETER_PARITY, 0, PARAMETER_BAUD, BAUD_19200], false), Err(Refusal::Setting));
/// assert_eq!(table, before); // not a byte has changed
/// # Ok::<(), Refusal>(())
/// ```
#[repr(C)]
#[derive(Clone, Copy, Debug, PartialEq, Eq, Hash)]
pub struct Table {
    /// The values that hold now.
    pub present: [u8; PLACES],
    /// The values that power-up brings back.
    pub permanent: [u8; PLACES],
    /// 1 where the parameter is locked; any other byte where it is not.
    pub locked: [u8; PLACES],
}

const _: () = assert!(size_of::<Table>() == 27 && align_of::<Table>() == 1);

impl Table {
    /// The house defaults, present and permanent, nothing locked.
    pub const fn new() -> Self {
        Table { present: DEFAULTS, permanent: DEFAULTS, locked: [0; PLACES] }
    }

    /// Sets a list of pairs, number and value: all or nothing, as a PARAM_SEND with these pairs does at a reader. The
    /// present values change, with `permanent` both; parameters that are not named keep both theirs. Of a number named
    /// twice the later value holds. Any number of pairs is taken; none is taken too, and changes nothing.
    ///
    /// Refused are an odd number of bytes ([`Refusal::Data`]), then a number that is not supported, a value that is not
    /// allowed and a parameter that is locked, also where it has that value already ([`Refusal::Setting`]). On both not
    /// a byte of the table changes.
    pub fn set(&mut self, pairs: &[u8], permanent: bool) -> Result<(), Refusal> {
        done(calls::table_set(self, pairs, permanent))
    }

    /// Every parameter that is not locked gets its house default, present and permanent, as PARAM_DEFAULTS does it.
    pub fn set_defaults(&mut self) {
        calls::table_set_defaults(self);
    }

    /// The permanent values become the present ones, those of locked parameters too, as at a reader's power-up.
    pub fn power_up(&mut self) {
        calls::table_power_up(self);
    }

    /// The present value of a parameter; 0 where it is not supported.
    pub fn parameter(&self, number: u8) -> u8 {
        place(number).map_or(0, |place| self.present[place])
    }

    /// The permanent value of a parameter; 0 where it is not supported.
    pub fn permanent(&self, number: u8) -> u8 {
        place(number).map_or(0, |place| self.permanent[place])
    }

    /// Whether a parameter is locked; one that is not supported is not.
    pub fn locked(&self, number: u8) -> bool {
        place(number).is_some_and(|place| self.locked[place] == 1)
    }
}

impl Default for Table {
    fn default() -> Self {
        Self::new()
    }
}

/// Where a parameter stands, if it is supported.
fn place(number: u8) -> Option<usize> {
    NUMBERS.iter().position(|known| *known == number)
}
