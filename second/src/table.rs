//! The parameter table (docs/PROTOCOL.md, §12) and the beep codes (§13).

use crate::packet::Refusal;

/// Parameter, lowest, highest, house default.
pub const ROWS: [[u8; 4]; 9] = [
    [0x80, 0, 1, 0],   // power mode
    [0x89, 0, 99, 10], // same-symbol time
    [0x8A, 0, 8, 0],   // trigger
    [0x9B, 0, 99, 20], // response time-out
    [0x9C, 1, 7, 6],   // baud code
    [0x9E, 0, 4, 4],   // parity
    [0x9F, 0, 1, 1],   // ACK/NAK
    [0xED, 0, 99, 0],  // aim duration
    [0xEE, 0, 1, 1],   // packeted data
];
pub const ACK_NAK: u8 = 0x9F;
pub const TRIGGER: u8 = 0x8A;
const TRIGGERS: [u8; 5] = [0, 2, 4, 7, 8];

#[derive(Clone, Copy, PartialEq, Eq, Debug)]
pub struct Table {
    pub present: [u8; ROWS.len()],
    pub permanent: [u8; ROWS.len()],
    /// They come with a saved set and with nothing else.
    pub locks: [bool; ROWS.len()],
}

pub fn place(number: u8) -> Option<usize> {
    ROWS.iter().position(|row| row[0] == number)
}

/// Whether the parameter is one of the nine and takes this value.
pub fn allowed(number: u8, value: u8) -> bool {
    let Some(place) = place(number) else {
        return false;
    };
    let [_, low, high, _] = ROWS[place];
    low <= value && value <= high && (number != TRIGGER || TRIGGERS.contains(&value))
}

impl Table {
    pub fn house_defaults() -> Table {
        let defaults = ROWS.map(|row| row[3]);
        Table { present: defaults, permanent: defaults, locks: [false; ROWS.len()] }
    }

    /// The house defaults for every parameter that is not locked.
    pub fn defaults(&mut self) {
        for (place, [_, _, _, default]) in ROWS.into_iter().enumerate() {
            if !self.locks[place] {
                self.present[place] = default;
                self.permanent[place] = default;
            }
        }
    }

    /// Whether a list of pairs, number and value, may be set. A lock keeps even the value that there is from being sent.
    pub fn judge(&self, pairs: &[u8]) -> Result<(), Refusal> {
        if pairs.len() % 2 != 0 {
            return Err(Refusal::DataLength);
        }
        if pairs.chunks_exact(2).all(|pair| allowed(pair[0], pair[1]) && !self.locked(pair[0])) {
            Ok(())
        } else {
            Err(Refusal::Parameter)
        }
    }

    /// Sets a list that has been judged.
    pub fn put(&mut self, pairs: &[u8], permanently: bool) {
        for pair in pairs.chunks_exact(2) {
            let place = place(pair[0]).expect("a judged number");
            self.present[place] = pair[1];
            if permanently {
                self.permanent[place] = pair[1];
            }
        }
    }

    pub fn locked(&self, number: u8) -> bool {
        place(number).is_some_and(|place| self.locks[place])
    }

    pub fn present(&self, number: u8) -> Option<u8> {
        place(number).map(|place| self.present[place])
    }

    /// The locks stay.
    pub fn power_up(&mut self) {
        self.present = self.permanent;
    }

    pub fn handshaking(&self) -> bool {
        self.present(ACK_NAK) == Some(1)
    }
}

/// The highest beep code allowed.
pub const HIGHEST_BEEP: u8 = 0x1D;
/// In PARAM_SEND only.
pub const NO_BEEP: u8 = 0xFF;

/// Duration, pitch, number of beeps.
pub type Beep = [u8; 3];

/// One row for each code from 00h. Durations: short 0, long 1, fast warble 2, slow warble 3, mix 1 to 4 are 4 to 7,
/// high click 8, low click 9. Pitches: H 0, L 1, HLHL 2, HL 3, LH 4, HLH 5, LHL 6, HHLL 7, HHH 8, low click 9.
const BEEPS: [Beep; HIGHEST_BEEP as usize + 1] = [
    [0, 0, 1],
    [0, 0, 2],
    [0, 0, 3],
    [0, 0, 4],
    [0, 0, 5],
    [0, 1, 1],
    [0, 1, 2],
    [0, 1, 3],
    [0, 1, 4],
    [0, 1, 5],
    [1, 0, 1],
    [1, 0, 2],
    [1, 0, 3],
    [1, 0, 4],
    [1, 0, 5],
    [1, 1, 1],
    [1, 1, 2],
    [1, 1, 3],
    [1, 1, 4],
    [1, 1, 5],
    [2, 2, 4],
    [3, 2, 4],
    [4, 3, 2],
    [5, 4, 2],
    [6, 5, 3],
    [7, 6, 3],
    [1, 7, 4],
    [0, 8, 13],
    [8, 0, 1],
    [9, 9, 1],
];

pub fn beep(code: u8) -> Option<Beep> {
    if code > HIGHEST_BEEP {
        return None;
    }
    Some(BEEPS[usize::from(code)])
}
