//! The reader's whole end of the line: framer, command side with its table, and sender.

use crate::form;
use crate::framer::{Framed, Framer, LineEvent};
use crate::packet::*;
use crate::sender::{End, First, Sender, Sent};
use crate::table::{beep, Beep, Table, NO_BEEP, ROWS};

/// In a PARAM_REQUEST: all parameters.
pub const ALL: u8 = 0xFE;

/// The least answer room that an event is taken with: the longest answer is a PARAM_SEND of all nine.
pub const ANSWER_ROOM: usize = 25;

/// What the commands switch, besides the table.
#[derive(Clone, Copy, PartialEq, Eq, Debug)]
pub struct Switches {
    pub enabled: bool,
    pub session: bool,
    pub aim: bool,
    pub led: bool,
}

impl Switches {
    fn at_power_up() -> Switches {
        Switches { enabled: true, session: false, aim: false, led: false }
    }
}

/// What an event came to, in the order in which it is told.
#[derive(Default, Debug)]
pub struct Step {
    /// The packet that the framer let through at this event, for those who watch.
    pub packet: Option<Packet>,
    /// That packet was a resent equal of the last accepted one.
    pub repeated: bool,
    pub refusal: Option<Refusal>,
    pub beep: Option<Beep>,
    pub switches: Option<Switches>,
    /// A permanent value is another one now, so that the firmware should save it.
    pub changed: bool,
    pub answer: Option<Vec<u8>>,
    /// A message gap is due before the copy, which is the first one of a message.
    pub gap: bool,
    pub copy: Option<Vec<u8>>,
    pub end: Option<End>,
}

struct Accepted {
    /// Without mark and checksum.
    body: Vec<u8>,
    answer: Option<Vec<u8>>,
}

pub struct Reader {
    framer: Framer,
    table: Table,
    switches: Switches,
    last: Option<Accepted>,
    sender: Sender,
}

impl Default for Reader {
    fn default() -> Reader {
        Reader::new()
    }
}

impl Reader {
    /// Switched on with the house defaults.
    pub fn new() -> Reader {
        Reader {
            framer: Framer::default(),
            table: Table::house_defaults(),
            switches: Switches::at_power_up(),
            last: None,
            sender: Sender::default(),
        }
    }

    pub fn power_up(&mut self) {
        let mut table = self.table;
        table.power_up();
        *self = Reader { table, ..Reader::new() };
    }

    /// The form of the permanent values and the locks.
    pub fn save(&self) -> Vec<u8> {
        form::save(&self.table)
    }

    /// Takes a saved set, or refuses its form and changes nothing. The last accepted packet belongs to the table that
    /// was: it is forgotten, and the line and the sender go on as they are.
    pub fn load(&mut self, form: &[u8]) -> Result<(), Refusal> {
        self.table = form::load(form).map_err(|_| Refusal::Form)?;
        self.last = None;
        Ok(())
    }

    /// An event with an answer room of this size. Where that is too small, it is as if nothing had come.
    pub fn take_in_room(&mut self, event: LineEvent, room: usize) -> Step {
        if room < ANSWER_ROOM {
            return Step { refusal: Some(Refusal::Room), ..Step::default() };
        }
        self.take(event)
    }

    pub fn take(&mut self, event: LineEvent) -> Step {
        match self.framer.take(event) {
            Framed::Nothing => Step::default(),
            Framed::Refused(refusal) => self.not_a_packet(refusal),
            Framed::Packet(packet) => self.packet(packet),
        }
    }

    pub fn time_out(&mut self) -> Step {
        told(self.sender.time_out())
    }

    pub fn start(&mut self, code_type: u8, bytes: &[u8]) -> Step {
        match self.sender.start(code_type, bytes) {
            Ok(First { copy, gap }) => Step { gap, copy: Some(copy), ..Step::default() },
            Err(refusal) => Step { refusal: Some(refusal), ..Step::default() },
        }
    }

    /// Refusals 1 to 3. What came may have been the host's answer, so a NAK of ours would be out of place while the
    /// sender waits for it.
    fn not_a_packet(&self, refusal: Refusal) -> Step {
        let answer = if self.sender.waits() { None } else { self.nak(refusal) };
        Step { refusal: Some(refusal), answer, ..Step::default() }
    }

    fn packet(&mut self, packet: Packet) -> Step {
        let step = if packet.is_answer() {
            told(self.sender.answer(&packet))
        } else if let Err(refusal) = judge(&packet, &self.table) {
            Step { refusal: Some(refusal), answer: self.nak(refusal), ..Step::default() }
        } else {
            self.command(&packet)
        };
        Step { packet: Some(packet), ..step }
    }

    fn nak(&self, refusal: Refusal) -> Option<Vec<u8>> {
        let cause = refusal.cause()?;
        self.table.handshaking().then(|| nak(READER, cause))
    }

    /// A command that passed every check.
    fn command(&mut self, packet: &Packet) -> Step {
        let body = packet.without_mark();
        if let Some(last) = self.last.as_ref().filter(|last| packet.marked() && last.body == body) {
            return Step { repeated: true, answer: last.answer.clone(), ..Step::default() };
        }
        // The answer follows 9Fh as it stood before the packet.
        let answer = match packet.opcode() {
            PARAM_REQUEST => Some(self.asked_for(packet.data())),
            _ => self.table.handshaking().then(|| ack(READER)),
        };
        let before = self.table.permanent;
        let beep = self.act(packet);
        let changed = self.table.permanent != before;
        self.last = Some(Accepted { body, answer: answer.clone() });
        Step { beep, switches: Some(self.switches), changed, answer, ..Step::default() }
    }

    fn act(&mut self, packet: &Packet) -> Option<Beep> {
        let data = packet.data();
        match packet.opcode() {
            PARAM_SEND => {
                self.table.put(&data[1..], packet.status() & PERMANENT != 0);
                return beep(data[0]);
            }
            BEEP => return beep(data[0]),
            PARAM_DEFAULTS => self.table.defaults(),
            START_SESSION => self.switches.session |= self.switches.enabled,
            STOP_SESSION => self.switches.session = false,
            SCAN_ENABLE => self.switches.enabled = true,
            SCAN_DISABLE => {
                self.switches.enabled = false;
                self.switches.session = false;
            }
            AIM_ON => self.switches.aim = true,
            AIM_OFF => self.switches.aim = false,
            LED_ON => self.switches.led |= data[0] & 1 != 0,
            LED_OFF => self.switches.led &= data[0] & 1 == 0,
            _ => {} // PARAM_REQUEST changes nothing.
        }
        None
    }

    /// The PARAM_SEND that answers a request.
    fn asked_for(&self, numbers: &[u8]) -> Vec<u8> {
        let every = ROWS.map(|row| row[0]);
        let numbers = if numbers.contains(&ALL) { &every[..] } else { numbers };
        let mut data = vec![NO_BEEP];
        for (i, number) in numbers.iter().enumerate() {
            if numbers[..i].contains(number) {
                continue;
            }
            if let Some(value) = self.table.present(*number) {
                data.extend([*number, value]);
            }
        }
        written(PARAM_SEND, READER, 0, &data)
    }

    pub fn framer(&self) -> &Framer {
        &self.framer
    }

    pub fn table(&self) -> &Table {
        &self.table
    }

    pub fn switches(&self) -> Switches {
        self.switches
    }

    pub fn sender(&self) -> &Sender {
        &self.sender
    }

    pub fn last_accepted(&self) -> Option<&[u8]> {
        self.last.as_ref().map(|last| &last.body[..])
    }
}

fn told(sent: Sent) -> Step {
    match sent {
        Sent::Nothing => Step::default(),
        Sent::Copy(copy) => Step { copy: Some(copy), ..Step::default() },
        Sent::Ended(end) => Step { end: Some(end), ..Step::default() },
    }
}

/// Refusals 4 to 9, in rising order.
fn judge(packet: &Packet, table: &Table) -> Result<(), Refusal> {
    packet.judge_header(HOST, known)?;
    let data = packet.data();
    if !length_right(packet.opcode(), data.len()) {
        return Err(Refusal::DataLength);
    }
    match packet.opcode() {
        BEEP if beep(data[0]).is_none() => Err(Refusal::Beep),
        PARAM_SEND => judge_parameters(data, table),
        _ => Ok(()),
    }
}

fn judge_parameters(data: &[u8], table: &Table) -> Result<(), Refusal> {
    if data[0] != NO_BEEP && beep(data[0]).is_none() {
        return Err(Refusal::Beep);
    }
    table.judge(&data[1..])
}

fn known(opcode: u8) -> bool {
    matches!(
        opcode,
        AIM_OFF..=PARAM_DEFAULTS | START_SESSION..=SCAN_DISABLE
    )
}

fn length_right(opcode: u8, length: usize) -> bool {
    match opcode {
        PARAM_SEND => length % 2 == 1,
        PARAM_REQUEST => length >= 1,
        BEEP | LED_ON | LED_OFF => length == 1,
        _ => length == 0,
    }
}
