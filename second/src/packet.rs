//! The packet: refusal numbers, check and build.

pub const READER: u8 = 0;
pub const HOST: u8 = 4;

/// Status bit 0: resend.
pub const MARK: u8 = 0x01;
/// Status bit 1: more packets follow.
pub const MORE: u8 = 0x02;
/// Status bit 3: permanent change.
pub const PERMANENT: u8 = 0x08;
/// Bits 2 and 4 to 7 must be 0.
const NEVER: u8 = 0xF4;

pub const AIM_OFF: u8 = 0xC4;
pub const AIM_ON: u8 = 0xC5;
pub const PARAM_SEND: u8 = 0xC6;
pub const PARAM_REQUEST: u8 = 0xC7;
pub const PARAM_DEFAULTS: u8 = 0xC8;
pub const CMD_ACK: u8 = 0xD0;
pub const CMD_NAK: u8 = 0xD1;
pub const START_SESSION: u8 = 0xE4;
pub const STOP_SESSION: u8 = 0xE5;
pub const BEEP: u8 = 0xE6;
pub const LED_ON: u8 = 0xE7;
pub const LED_OFF: u8 = 0xE8;
pub const SCAN_ENABLE: u8 = 0xE9;
pub const SCAN_DISABLE: u8 = 0xEA;
pub const DECODE_DATA: u8 = 0xF3;

/// Every opcode that a reader knows.
pub const COMMANDS: [u8; 12] = [
    AIM_OFF,
    AIM_ON,
    PARAM_SEND,
    PARAM_REQUEST,
    PARAM_DEFAULTS,
    START_SESSION,
    STOP_SESSION,
    BEEP,
    LED_ON,
    LED_OFF,
    SCAN_ENABLE,
    SCAN_DISABLE,
];

/// Length, opcode, source, status.
pub const HEADER: usize = 4;
pub const CHECKSUM: usize = 2;
pub const MOST_DATA: usize = 255 - HEADER;
pub const LONGEST: usize = 255 + CHECKSUM;

/// The refusal numbers that this program gives.
#[derive(Clone, Copy, PartialEq, Eq, Debug)]
pub enum Refusal {
    Length = 1,
    Checksum = 2,
    Cut = 3,
    Source = 4,
    Status = 5,
    Opcode = 6,
    DataLength = 7,
    Beep = 8,
    Parameter = 9,
    Hub = 10,
    Sender = 11,
    Form = 12,
    Room = 13,
    Long = 15,
}

impl Refusal {
    pub fn number(self) -> usize {
        self as usize
    }

    /// The cause byte of the NAK that the table of refusals names, if it names one.
    pub fn cause(self) -> Option<u8> {
        match self.number() {
            1..=3 => Some(1),
            4..=7 => Some(2),
            8..=10 => Some(6),
            _ => None,
        }
    }
}

/// A whole packet that passed the check, checksum included.
#[derive(Clone, PartialEq, Eq, Debug)]
pub struct Packet {
    bytes: Vec<u8>,
}

impl Packet {
    pub fn opcode(&self) -> u8 {
        self.bytes[1]
    }

    pub fn source(&self) -> u8 {
        self.bytes[2]
    }

    pub fn status(&self) -> u8 {
        self.bytes[3]
    }

    pub fn marked(&self) -> bool {
        self.status() & MARK != 0
    }

    pub fn data(&self) -> &[u8] {
        &self.bytes[HEADER..self.bytes.len() - CHECKSUM]
    }

    pub fn bytes(&self) -> &[u8] {
        &self.bytes
    }

    /// ACK and NAK go a way of their own on both sides, right or wrong.
    pub fn is_answer(&self) -> bool {
        self.opcode() == CMD_ACK || self.opcode() == CMD_NAK
    }

    /// What is compared where packets count as equal "apart from that mark and the checksum".
    pub fn without_mark(&self) -> Vec<u8> {
        let mut body = self.bytes[..self.bytes.len() - CHECKSUM].to_vec();
        body[3] &= !MARK;
        body
    }

    /// Refusals 4 to 6, in this order: they are told alike on both sides.
    pub fn judge_header(&self, source: u8, known: fn(u8) -> bool) -> Result<(), Refusal> {
        if self.source() != source {
            return Err(Refusal::Source);
        }
        if !status_allowed(self.opcode(), self.status()) {
            return Err(Refusal::Status);
        }
        if !known(self.opcode()) {
            return Err(Refusal::Opcode);
        }
        Ok(())
    }
}

/// Bit 1 is judged by the opcode present, whether or not this side knows that opcode.
fn status_allowed(opcode: u8, status: u8) -> bool {
    status & NEVER == 0 && (status & MORE == 0 || opcode == DECODE_DATA)
}

/// The two's complement of the byte sum, high byte first.
pub fn checksum(body: &[u8]) -> [u8; 2] {
    let sum: u32 = body.iter().map(|b| u32::from(*b)).sum();
    (65_536 - sum % 65_536).to_be_bytes()[2..].try_into().expect("two bytes")
}

/// Judges the front of the bytes; later bytes are not read.
pub fn check(bytes: &[u8]) -> Result<Packet, Refusal> {
    let Some(&length) = bytes.first() else {
        return Err(Refusal::Cut);
    };
    let length = usize::from(length);
    if length < HEADER {
        return Err(Refusal::Length);
    }
    let whole = length + CHECKSUM;
    if bytes.len() < whole {
        return Err(Refusal::Cut);
    }
    if bytes[length..whole] != checksum(&bytes[..length]) {
        return Err(Refusal::Checksum);
    }
    Ok(Packet { bytes: bytes[..whole].to_vec() })
}

/// Lays the fields out with length and checksum, allowed or not. Takes at most 251 data bytes.
pub fn lay_out(opcode: u8, source: u8, status: u8, data: &[u8]) -> Vec<u8> {
    let length = HEADER + data.len();
    let mut bytes = Vec::with_capacity(length + CHECKSUM);
    bytes.extend_from_slice(&[length as u8, opcode, source, status]);
    bytes.extend_from_slice(data);
    bytes.extend(checksum(&bytes));
    bytes
}

/// Writes a packet into the lent room and gives its size; the opcode is free.
pub fn build(room: &mut [u8], opcode: u8, source: u8, status: u8, data: &[u8]) -> Result<usize, Refusal> {
    if room.len() < LONGEST {
        return Err(Refusal::Room);
    }
    if source != READER && source != HOST {
        return Err(Refusal::Source);
    }
    if !status_allowed(opcode, status) {
        return Err(Refusal::Status);
    }
    if data.len() > MOST_DATA {
        return Err(Refusal::DataLength);
    }
    let bytes = lay_out(opcode, source, status, data);
    room[..bytes.len()].copy_from_slice(&bytes);
    Ok(bytes.len())
}

/// The bytes of a packet whose fields are known to be right.
pub fn written(opcode: u8, source: u8, status: u8, data: &[u8]) -> Vec<u8> {
    let mut room = [0; LONGEST];
    let size = build(&mut room, opcode, source, status, data).expect("right fields");
    room[..size].to_vec()
}

pub fn ack(source: u8) -> Vec<u8> {
    written(CMD_ACK, source, 0, &[])
}

pub fn nak(source: u8, cause: u8) -> Vec<u8> {
    written(CMD_NAK, source, 0, &[cause])
}
