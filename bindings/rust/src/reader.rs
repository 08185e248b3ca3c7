//! The reader's whole end with its buffers.

use core::mem::{align_of, size_of};

use crate::buffer::Buffer;
use crate::constants::{
    LINE_SIZE, MESSAGE_SIZE, PACKET_SIZE, READER_ANSWER_SIZE, READER_CONTROL_SIZE, READER_VALUES, READER_VALUE_COUNT,
    READER_VALUE_DURATION, READER_VALUE_PITCH, SET_SIZE, SWITCH_AIM, SWITCH_LED, SWITCH_SCANNING, SWITCH_SESSION,
    SWITCH_VALUES,
};
use crate::lent::reader;
use crate::numbers::byte;
use crate::sender::Outcome;
use crate::table::DEFAULTS;
use crate::{Event, Refusal, Table};

/// A sound to be made, as a beep code has it (docs/PROTOCOL.md §13).
#[derive(Clone, Copy, Debug, PartialEq, Eq, Hash)]
pub struct Beep {
    /// One of `DURATION_..` in [`constants`](crate::constants).
    pub duration: u8,
    /// One of `PITCH_..`.
    pub pitch: u8,
    /// How many beeps, at least 1.
    pub count: u8,
}

impl Beep {
    /// A count of 0 is silence.
    pub(crate) fn from_values(values: [usize; READER_VALUES]) -> Option<Beep> {
        let beep = Beep {
            duration: byte(values[READER_VALUE_DURATION]),
            pitch: byte(values[READER_VALUE_PITCH]),
            count: byte(values[READER_VALUE_COUNT]),
        };
        (beep.count > 0).then_some(beep)
    }
}

/// What the commands switch.
#[derive(Clone, Copy, Debug, Default, PartialEq, Eq, Hash)]
pub struct Switches {
    /// Scanning is enabled.
    pub scanning: bool,
    /// A session is on.
    pub session: bool,
    /// Aim is on.
    pub aim: bool,
    /// The LED is on.
    pub led: bool,
}

impl Switches {
    pub(crate) fn from_values(values: [usize; SWITCH_VALUES]) -> Switches {
        Switches {
            scanning: values[SWITCH_SCANNING] == 1,
            session: values[SWITCH_SESSION] == 1,
            aim: values[SWITCH_AIM] == 1,
            led: values[SWITCH_LED] == 1,
        }
    }
}

/// What an event brought a reader. The host's ACK and NAK are no commands, so an event brings something of a command,
/// with the answer that goes on the line, or something of the sender, never both.
#[must_use = "the answer or the copy goes on the line"]
#[derive(Clone, Copy, Debug, PartialEq, Eq)]
pub enum ReaderTold<'a> {
    /// Nothing, and no answer.
    Nothing,
    /// A command was acted on.
    Acted {
        /// What is to sound, if anything.
        beep: Option<Beep>,
        /// A permanent value changed, so that it is time to [`save`](Reader::save).
        permanent: bool,
        /// An ACK, a PARAM_SEND, or no bytes.
        answer: &'a [u8],
    },
    /// A resent equal of the last accepted packet, answered again and not acted on.
    Repeated {
        /// The same bytes as then.
        answer: &'a [u8],
    },
    /// 1 to 9; of a lent reader also 13.
    Refused {
        /// Why.
        why: Refusal,
        /// A NAK or no bytes.
        answer: &'a [u8],
    },
    /// The host answered the sender: a copy of a packet, to be sent with a character gap after it.
    Copy(&'a [u8]),
    /// The host answered the sender: the message was delivered, the hub has it.
    Delivered {
        /// Its marked copies.
        copies: usize,
    },
    /// The host answered the sender: the message failed, and a message gap is due before the next one, whose start says
    /// so. The hub may have it all the same, where only its answers were lost.
    Failed {
        /// Its marked copies.
        copies: usize,
    },
}

impl<'a> ReaderTold<'a> {
    /// What goes on the line, whatever was told: an answer, a copy, or no bytes. The response time-out runs behind a
    /// copy alone.
    pub fn outgoing(&self) -> &'a [u8] {
        match *self {
            ReaderTold::Nothing | ReaderTold::Delivered { .. } | ReaderTold::Failed { .. } => &[],
            ReaderTold::Acted { answer, .. } | ReaderTold::Repeated { answer } | ReaderTold::Refused { answer, .. } => {
                answer
            }
            ReaderTold::Copy(copy) => copy,
        }
    }
}

/// What [`reader::on`] makes: the house defaults in the order of their numbers, present and permanent, none of them
/// locked, and scanning enabled; all else is 0. A constant, so that a reader may be a `static`.
const ON: [u8; READER_CONTROL_SIZE] = {
    const PRESENT: usize = 26;
    const SCANNING: usize = 53;
    let mut control = [0; READER_CONTROL_SIZE];
    let mut at = 0;
    while at < DEFAULTS.len() {
        control[PRESENT + at] = DEFAULTS[at];
        control[PRESENT + DEFAULTS.len() + at] = DEFAULTS[at];
        at += 1;
    }
    control[SCANNING] = 1;
    control
};

/// The reader's end of the line: its commands with the parameter table, and its sender. It has 5,018 bytes and an
/// alignment of 1.
#[derive(Clone, Debug, PartialEq, Eq)]
pub struct Reader {
    control: [u8; READER_CONTROL_SIZE],
    line: Buffer<LINE_SIZE>,
    answers: [u8; READER_ANSWER_SIZE],
    message: Buffer<MESSAGE_SIZE>,
    answer: [u8; READER_ANSWER_SIZE],
    copy: Buffer<PACKET_SIZE>,
}

const _: () = assert!(size_of::<Reader>() == 5_018 && align_of::<Reader>() == 1);

impl Reader {
    /// A reader switched on with the house defaults, none locked. A message gap is due before the first message, though
    /// its start says none.
    pub const fn new() -> Self {
        Self::with(ON)
    }

    /// A reader that powers up with the permanent values and locks in control bytes that were kept over a loss of power.
    /// They are taken as they are, a blank memory too, and only under a [`VERSION`](crate::VERSION) with the same first
    /// numbers: what outlasts power-off is better kept as a saved set, which is judged ([`Reader::load`]).
    pub fn powered_up(kept: [u8; READER_CONTROL_SIZE]) -> Self {
        let mut reader = Self::with(kept);
        reader.restart();
        reader
    }

    const fn with(control: [u8; READER_CONTROL_SIZE]) -> Self {
        Reader {
            control,
            line: Buffer::new(),
            answers: [0; READER_ANSWER_SIZE],
            message: Buffer::new(),
            answer: [0; READER_ANSWER_SIZE],
            copy: Buffer::new(),
        }
    }

    /// The control bytes, in which the permanent values and the locks stand. Keep [`VERSION`](crate::VERSION) with them.
    pub fn control(&self) -> &[u8; READER_CONTROL_SIZE] {
        &self.control
    }

    /// Power-up: permanent values are copied to present ones, locks stay; framer, sender and the last accepted packet
    /// are forgotten. So are whether the message before failed and what its last packet was: a message gap is due before
    /// the first message after it, though its start says none.
    pub fn restart(&mut self) {
        // The control bytes have their size: nothing to refuse.
        let _ = reader::power_up(&mut self.control);
    }

    /// Starts a message with its code type. It is copied, so it need not be kept. The copy says whether a message gap is
    /// due before it; a start that is refused says nothing and forgets nothing.
    ///
    /// Two equal cards in a row are two at the hub, as it hears a message gap between them:
    ///
    /// ```
    /// use motikhund::{Event, Outcome, Reader, ReaderTold};
    ///
    /// let mut reader = Reader::new();
    /// assert!(matches!(reader.send(0x1B, b"8"), Outcome::Copy { gap: false, .. }));
    /// for byte in [0x04, 0xD0, 0x04, 0x00, 0xFF] { // the host's ACK
    ///     assert_eq!(reader.event(Event::Byte(byte)), ReaderTold::Nothing);
    /// }
    /// assert_eq!(reader.event(Event::Byte(0x28)), ReaderTold::Delivered { copies: 0 });
    /// assert!(matches!(reader.send(0x1B, b"8"), Outcome::Copy { gap: true, .. }));
    /// ```
    pub fn send(&mut self, code: u8, message: &[u8]) -> Outcome<'_> {
        reader::start(&mut self.control, &mut self.message.0, &mut self.copy.0, code, message)
    }

    /// The sender's response time-out.
    pub fn expire(&mut self) -> Outcome<'_> {
        reader::time_out(&mut self.control, &self.message.0, &mut self.copy.0)
    }

    /// One event of the line.
    #[inline]
    pub fn event(&mut self, event: Event) -> ReaderTold<'_> {
        let Reader { control, line, answers, message, answer, copy } = self;
        reader::hear(control, &mut line.0, answers, &message.0, answer, &mut copy.0, event)
    }

    /// Writes the permanent values and the locks as the form of a set at the front of the room, and gives its bytes, 21
    /// to 30: byte 1; byte 9 and nine pairs of parameter and value; how many are locked, and which. Parameters are
    /// always in rising order, so each set has one form.
    ///
    /// From one reader to nine:
    ///
    /// ```
    /// use motikhund::{constants::SET_SIZE, Reader};
    ///
    /// let (first, mut readers) = (Reader::new(), [const { Reader::new() }; 9]);
    /// let mut room = [0; SET_SIZE];
    /// let form = first.save(&mut room);
    /// for reader in &mut readers {
    ///     reader.load(form)?; // Refusal::Form: no set, and nothing has changed
    /// }
    /// # Ok::<(), motikhund::Refusal>(())
    /// ```
    pub fn save<'a>(&self, room: &'a mut [u8; SET_SIZE]) -> &'a [u8] {
        // Control bytes and room have their size: nothing to refuse.
        reader::save(&self.control, room).unwrap_or_default()
    }

    /// Reads the form of a set: its values are the permanent and the present ones, its locks the only ones, and the
    /// last accepted packet is forgotten, so that a marked repeat of it is a command like any other. All else stays: a
    /// packet begun, a message out, what a start says of a gap, what is switched on. Nothing goes out on the line. Bytes
    /// that are not the form of a set are [`Refusal::Form`], with nothing changed.
    ///
    /// At switch-on a reader takes what was kept; blank flash is refused, and the house defaults stay:
    ///
    /// ```
    /// use motikhund::{Reader, Refusal};
    ///
    /// let mut reader = Reader::new();
    /// assert_eq!(reader.load(&[0xFF; 30]), Err(Refusal::Form));
    /// assert_eq!(reader, Reader::new());
    /// ```
    pub fn load(&mut self, form: &[u8]) -> Result<(), Refusal> {
        reader::load(&mut self.control, form)
    }

    /// The table of its parameters, taken out: present values, permanent values and locks. The reader keeps its own.
    pub fn table(&self) -> Table {
        // The control bytes have their size: nothing to refuse.
        reader::table(&self.control).unwrap_or_default()
    }

    /// Puts a table into the reader: its values, present and permanent, and its locks are the reader's, and they hold at
    /// once. The last accepted packet is forgotten, as by [`load`](Reader::load): a resent equal of it is performed anew
    /// and not answered from memory, because that answer would claim a change that the table put back may have undone.
    /// All else stays: a packet begun, a message out, what a start says of a gap, what is switched on. Nothing goes out
    /// on the line. A value, present or permanent, that its parameter does not take is [`Refusal::Setting`], with
    /// nothing changed.
    ///
    /// Give it no event between taking out and putting back: what a host set in between would be lost. Then it is time
    /// to [`save`](Reader::save) where a permanent value or a lock changed, and to set the port anew where 9Ch or 9Eh
    /// did.
    ///
    /// ```
    /// use motikhund::constants::{BAUD_19200, PARAMETER_BAUD, PLACE_BAUD};
    /// use motikhund::Reader;
    ///
    /// let mut reader = Reader::new();
    /// let mut table = reader.table();
    /// table.set(&[PARAMETER_BAUD, BAUD_19200], true)?;
    /// table.locked[PLACE_BAUD] = 1; // from here on no host changes it
    /// reader.put_table(&table)?;
    /// assert_eq!(reader.parameter(PARAMETER_BAUD), BAUD_19200);
    /// assert!(reader.locked(PARAMETER_BAUD));
    /// # Ok::<(), motikhund::Refusal>(())
    /// ```
    pub fn put_table(&mut self, table: &Table) -> Result<(), Refusal> {
        reader::put_table(&mut self.control, table)
    }

    /// Whether a parameter is locked; one that is not supported is not. Only a set or a table locks and unlocks. A
    /// PARAM_SEND that names a locked one is [`Refusal::Setting`], and PARAM_DEFAULTS leaves it both its values.
    pub fn locked(&self, number: u8) -> bool {
        reader::locked(&self.control, number).unwrap_or(false)
    }

    /// The present value of a parameter; 0 where it is not supported.
    pub fn parameter(&self, number: u8) -> u8 {
        reader::value(&self.control, number).unwrap_or(0)
    }

    /// What the commands have switched on.
    pub fn switched(&self) -> Switches {
        reader::switches(&self.control).unwrap_or_default()
    }
}

impl Default for Reader {
    fn default() -> Self {
        Self::new()
    }
}
