//! The reader's sender: one message at a time, piece by piece, each piece sent at most three times. No two neighbouring
//! packets of one message are equal; where the first one would equal the packet before it, a message gap is due.

use crate::hub::LONGEST_MESSAGE;
use crate::packet::{written, Packet, Refusal, CHECKSUM, CMD_ACK, DECODE_DATA, HOST, MARK, MORE, READER};

pub const PIECE: usize = 250;
const MOST_RESENDS: usize = 2;
const RESEND_CAUSE: u8 = 1;

/// The end of a message, with the number of marked copies written for it.
#[derive(Clone, Copy, PartialEq, Eq, Debug)]
pub enum End {
    Delivered(usize),
    Failed(usize),
}

#[derive(Clone, PartialEq, Eq, Debug)]
pub enum Sent {
    Nothing,
    Copy(Vec<u8>),
    Ended(End),
}

/// The first copy of a message.
#[derive(Clone, PartialEq, Eq, Debug)]
pub struct First {
    pub copy: Vec<u8>,
    /// A message gap is due before it.
    pub gap: bool,
}

struct Out {
    code_type: u8,
    bytes: Vec<u8>,
    /// Where the present piece starts, and how many bytes it has.
    place: usize,
    piece: usize,
    /// Marked copies of the present piece.
    resends: usize,
    /// Marked copies of the whole message.
    marked: usize,
}

#[derive(Default)]
pub struct Sender {
    out: Option<Out>,
    /// The last packet of the message before, without mark and checksum.
    before: Option<Vec<u8>>,
    /// That message failed.
    failed: bool,
}

impl Sender {
    pub fn start(&mut self, code_type: u8, bytes: &[u8]) -> Result<First, Refusal> {
        if bytes.len() > LONGEST_MESSAGE || self.out.is_some() {
            return Err(Refusal::Sender);
        }
        let out = Out::new(code_type, bytes);
        let gap = self.failed || self.before == Some(out.body());
        let copy = out.copy();
        *self = Sender { out: Some(out), ..Sender::default() };
        Ok(First { copy, gap })
    }

    /// A whole ACK or NAK has come. Only a right one from the host is heeded.
    pub fn answer(&mut self, packet: &Packet) -> Sent {
        if packet.source() != HOST || packet.status() & !MARK != 0 {
            return Sent::Nothing;
        }
        match (packet.opcode() == CMD_ACK, packet.data()) {
            (true, []) => self.go_on(),
            (false, [RESEND_CAUSE]) => self.resend(),
            (false, [_]) => self.end(End::Failed),
            _ => Sent::Nothing,
        }
    }

    pub fn time_out(&mut self) -> Sent {
        self.resend()
    }

    fn go_on(&mut self) -> Sent {
        let Some(out) = &mut self.out else {
            return Sent::Nothing;
        };
        if !out.more() {
            return self.end(End::Delivered);
        }
        out.next_piece();
        Sent::Copy(out.copy())
    }

    fn resend(&mut self) -> Sent {
        let Some(out) = &mut self.out else {
            return Sent::Nothing;
        };
        if out.resends == MOST_RESENDS {
            return self.end(End::Failed);
        }
        out.resends += 1;
        out.marked += 1;
        Sent::Copy(out.copy())
    }

    fn end(&mut self, how: fn(usize) -> End) -> Sent {
        let Some(out) = self.out.take() else {
            return Sent::Nothing;
        };
        let end = how(out.marked);
        self.before = Some(out.body());
        self.failed = matches!(end, End::Failed(_));
        Sent::Ended(end)
    }

    pub fn waits(&self) -> bool {
        self.out.is_some()
    }

    /// Marked copies of the present piece.
    pub fn resends(&self) -> usize {
        self.out.as_ref().map_or(0, |out| out.resends)
    }

    /// The length of the message out.
    pub fn size(&self) -> Option<usize> {
        self.out.as_ref().map(|out| out.bytes.len())
    }

    /// The last packet of the message before, without mark and checksum; none while one is out.
    pub fn before(&self) -> Option<&[u8]> {
        self.before.as_deref()
    }
}

impl Out {
    fn new(code_type: u8, bytes: &[u8]) -> Out {
        let piece = piece_size(bytes, &[]);
        Out { code_type, bytes: bytes.to_vec(), place: 0, piece, resends: 0, marked: 0 }
    }

    fn next_piece(&mut self) {
        let (sent, left) = self.bytes[self.place..].split_at(self.piece);
        let size = piece_size(left, sent);
        self.place += self.piece;
        self.piece = size;
        self.resends = 0;
    }

    fn more(&self) -> bool {
        self.place + self.piece < self.bytes.len()
    }

    fn packet(&self, mark: u8) -> Vec<u8> {
        let mut data = vec![self.code_type];
        data.extend_from_slice(&self.bytes[self.place..self.place + self.piece]);
        let more = if self.more() { MORE } else { 0 };
        written(DECODE_DATA, READER, more | mark, &data)
    }

    fn copy(&self) -> Vec<u8> {
        self.packet(if self.resends > 0 { MARK } else { 0 })
    }

    /// The present packet without mark and checksum.
    fn body(&self) -> Vec<u8> {
        let mut packet = self.packet(0);
        packet.truncate(packet.len() - CHECKSUM);
        packet
    }
}

/// How many of the bytes left are the next piece, behind one that was sent as it is given. The last piece is the rest;
/// any other is full, but for one that would equal the piece before it: that is cut by a byte.
fn piece_size(left: &[u8], sent: &[u8]) -> usize {
    if left.len() <= PIECE {
        left.len()
    } else if left[..PIECE] == *sent {
        PIECE - 1
    } else {
        PIECE
    }
}
