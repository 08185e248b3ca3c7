//! The listings: their notation read, their lines printed.

use std::io::{ErrorKind, Read, Write};

use crate::framer::LineEvent;
use crate::hub::{Block, Done, Hub, HubStep, Message, LONGEST_MESSAGE};
use crate::packet::{Refusal, LONGEST};
use crate::reader::{Reader, Step};
use crate::sender::End;

/// The answer room of a block call, until a `K` sets another.
pub const BLOCK_ROOM: usize = 20;

#[derive(Clone, Copy, PartialEq, Eq, Debug)]
pub enum Side {
    /// The hub listing (docs/PROTOCOL.md, §16).
    Hub,
    /// The hub's whole end, which tells refusals too and takes other rooms.
    DeskHub,
    /// The reader's whole end.
    DeskReader,
}

#[derive(Clone, PartialEq, Eq, Debug)]
enum Token {
    Line(LineEvent),
    TimeOut,
    PowerUp,
    /// Code type, then at most the first 4,097 bytes.
    Start(Vec<u8>),
    /// The present values are to be shown.
    Show,
    /// The size of the answer room from here on.
    Room(usize),
    /// The saved set is to be written.
    Save,
    /// The form of a saved set, or at most the first 4,098 bytes of what is far too long for one.
    Load(Vec<u8>),
    /// Bytes for one call, or at most the first 4,098 of too many.
    Block(Vec<u8>),
}

#[derive(Clone, PartialEq, Eq, Debug)]
enum Scanned {
    Nothing,
    Token(Token),
    Wrong,
}

/// A token with bytes, of which the last sign has not come: `]` behind a `[`, else `;`.
struct Open {
    letter: u8,
    bytes: Vec<u8>,
}

struct Tokeniser {
    side: Side,
    /// The first digit of a pair.
    digit: Option<u8>,
    open: Option<Open>,
}

impl Tokeniser {
    fn new(side: Side) -> Tokeniser {
        Tokeniser { side, digit: None, open: None }
    }

    fn take(&mut self, character: u8) -> Scanned {
        let digit = hex_digit(character);
        match (self.digit.take(), digit) {
            (Some(high), Some(low)) => self.byte(high * 16 + low),
            (Some(_), None) => Scanned::Wrong,
            (None, Some(_)) => {
                self.digit = digit;
                Scanned::Nothing
            }
            (None, None) => self.sign(character),
        }
    }

    fn byte(&mut self, byte: u8) -> Scanned {
        let Some(open) = &mut self.open else {
            return Scanned::Token(Token::Line(LineEvent::Byte(byte)));
        };
        // One byte over the longest is refused like any more, so the rest need not be kept.
        if open.bytes.len() < 1 + LONGEST_MESSAGE + 1 {
            open.bytes.push(byte);
        }
        Scanned::Nothing
    }

    fn sign(&mut self, character: u8) -> Scanned {
        match (character, self.open.take()) {
            (b' ' | b'\n' | b'\r', open) => {
                self.open = open;
                Scanned::Nothing
            }
            (sign, Some(open)) if sign == open.end() => open.ended(),
            (_, Some(_)) => Scanned::Wrong,
            (b'.', None) => Scanned::Token(Token::Line(LineEvent::Gap)),
            (b'/', None) => Scanned::Token(Token::Line(LineEvent::MessageGap)),
            (letter, None) => self.letter(letter),
        }
    }

    fn letter(&mut self, letter: u8) -> Scanned {
        match (self.side, letter) {
            (Side::DeskReader, b'T') => Scanned::Token(Token::TimeOut),
            (Side::DeskReader, b'P') => Scanned::Token(Token::PowerUp),
            (Side::DeskReader, b'U') => Scanned::Token(Token::Show),
            (Side::DeskReader, b'W') => Scanned::Token(Token::Save),
            (Side::DeskReader, b'S' | b'L') | (Side::DeskHub, b'[') | (Side::DeskReader | Side::DeskHub, b'K') => {
                self.open = Some(Open { letter, bytes: Vec::new() });
                Scanned::Nothing
            }
            _ => Scanned::Wrong,
        }
    }

    /// A token without its last sign does nothing, but a lone digit is wrong at the end too.
    fn ends_right(&self) -> bool {
        self.digit.is_none()
    }
}

impl Open {
    fn end(&self) -> u8 {
        if self.letter == b'[' {
            b']'
        } else {
            b';'
        }
    }

    /// How many pairs are right is judged at the last sign only: without it they do nothing, however many.
    fn ended(self) -> Scanned {
        match (self.letter, &self.bytes[..]) {
            (b'K', [high, low]) => Scanned::Token(Token::Room(usize::from(*high) * 256 + usize::from(*low))),
            (b'S', [_, ..]) => Scanned::Token(Token::Start(self.bytes)),
            (b'L', _) => Scanned::Token(Token::Load(self.bytes)),
            (b'[', _) => Scanned::Token(Token::Block(self.bytes)),
            _ => Scanned::Wrong,
        }
    }
}

fn hex_digit(character: u8) -> Option<u8> {
    (character as char).to_digit(16).map(|digit| digit as u8)
}

enum Machine {
    Hub(Hub),
    Reader(Reader),
}

pub struct Listing {
    side: Side,
    tokeniser: Tokeniser,
    machine: Machine,
    /// The size of the answer room, where a `K` has set it.
    room: Option<usize>,
    /// How many characters have been looked at.
    read: u64,
    stopped: bool,
}

impl Listing {
    pub fn new(side: Side) -> Listing {
        let machine = match side {
            Side::Hub | Side::DeskHub => Machine::Hub(Hub::default()),
            Side::DeskReader => Machine::Reader(Reader::new()),
        };
        Listing { side, tokeniser: Tokeniser::new(side), machine, room: None, read: 0, stopped: false }
    }

    /// Acts on the characters and appends the lines due.
    pub fn feed(&mut self, characters: &[u8], lines: &mut Vec<u8>) {
        for character in characters {
            if self.stopped {
                return;
            }
            self.read += 1;
            match self.tokeniser.take(*character) {
                Scanned::Nothing => {}
                Scanned::Token(token) => self.act(&token, lines),
                Scanned::Wrong => self.stop(lines),
            }
        }
    }

    pub fn finish(&mut self, lines: &mut Vec<u8>) {
        if !self.stopped && !self.tokeniser.ends_right() {
            self.stop(lines);
        }
    }

    /// The number of the character, from 1, at which it stopped.
    pub fn stopped(&self) -> Option<u64> {
        self.stopped.then_some(self.read)
    }

    fn stop(&mut self, lines: &mut Vec<u8>) {
        self.stopped = true;
        lines.extend_from_slice(b"E\n");
    }

    fn act(&mut self, token: &Token, lines: &mut Vec<u8>) {
        let room = self.room.unwrap_or(LONGEST);
        match (&mut self.machine, token) {
            // The room is the caller's: a power-up leaves it as it is.
            (_, Token::Room(room)) => self.room = Some(*room),
            (Machine::Hub(hub), Token::Line(event)) => print_hub(self.side, &hub.take_in_room(*event, room), lines),
            (Machine::Hub(hub), Token::Block(bytes)) => give_block(hub, bytes, self.room.unwrap_or(BLOCK_ROOM), lines),
            (Machine::Hub(_), _) => unreachable!("no such token on the hub's side"),
            (Machine::Reader(_), Token::Block(_)) => unreachable!("no such token on the reader's side"),
            (Machine::Reader(reader), Token::Line(event)) => print_reader(&reader.take_in_room(*event, room), lines),
            // These two lend the sender's room alone, and that has full size.
            (Machine::Reader(reader), Token::TimeOut) => print_reader(&reader.time_out(), lines),
            (Machine::Reader(reader), Token::Start(message)) => {
                print_reader(&reader.start(message[0], &message[1..]), lines)
            }
            (Machine::Reader(reader), Token::PowerUp) => reader.power_up(),
            (Machine::Reader(reader), Token::Show) => push_byte_line(b'U', Some(&reader.table().present), lines),
            (Machine::Reader(reader), Token::Save) => push_byte_line(b'W', Some(&reader.save()), lines),
            (Machine::Reader(reader), Token::Load(form)) => match reader.load(form) {
                Ok(()) => push_number_line(b'L', &[], lines),
                Err(refusal) => push_number_line(b'R', &[refusal.number()], lines),
            },
        }
    }
}

fn print_hub(side: Side, step: &HubStep, lines: &mut Vec<u8>) {
    match &step.done {
        Done::Refused(refusal) if side == Side::DeskHub => push_number_line(b'R', &[refusal.number()], lines),
        Done::HandedOut(message) => push_message(message, lines),
        _ => {}
    }
    push_byte_line(b'A', step.answer().as_deref(), lines);
}

/// Gives the bytes in one call, and those not taken in further ones, unless a call is refused.
fn give_block(hub: &mut Hub, bytes: &[u8], room: usize, lines: &mut Vec<u8>) {
    let mut left = bytes;
    loop {
        let called = hub.take_block(left, room);
        print_block(&called, lines);
        // One that is not refused takes a byte at least, where there is one.
        let taken = called.map_or(left.len(), |block| block.taken);
        left = &left[taken..];
        if left.is_empty() {
            return;
        }
    }
}

fn print_block(called: &Result<Block, Refusal>, lines: &mut Vec<u8>) {
    let block = match called {
        Err(refusal) => return push_number_line(b'R', &[refusal.number()], lines),
        Ok(block) => block,
    };
    if let Some(refusal) = block.refusal {
        push_number_line(b'R', &[refusal.number()], lines);
    }
    if let Some(message) = &block.message {
        push_message(message, lines);
    }
    push_byte_line(b'A', Some(&block.answers[..]).filter(|answers| !answers.is_empty()), lines);
    push_number_line(b'L', &[block.taken], lines);
}

fn push_message(message: &Message, lines: &mut Vec<u8>) {
    lines.push(b'M');
    push_bytes(&[message.code_type], lines);
    push_bytes(&message.bytes, lines);
    lines.push(b'\n');
}

fn print_reader(step: &Step, lines: &mut Vec<u8>) {
    if let Some(refusal) = step.refusal {
        push_number_line(b'R', &[refusal.number()], lines);
    }
    if let Some(row) = step.beep {
        push_number_line(b'B', &row.map(usize::from), lines);
    }
    if let Some(now) = step.switches {
        let numbers = [now.enabled, now.session, now.aim, now.led].map(usize::from);
        push_number_line(b'G', &numbers, lines);
    }
    push_byte_line(b'A', step.answer.as_deref(), lines);
    if step.gap {
        push_number_line(b'I', &[], lines);
    }
    push_byte_line(b'C', step.copy.as_deref(), lines);
    match step.end {
        None => {}
        Some(End::Delivered(marked)) => push_number_line(b'D', &[marked], lines),
        Some(End::Failed(marked)) => push_number_line(b'F', &[marked], lines),
    }
}

fn push_number_line(letter: u8, numbers: &[usize], lines: &mut Vec<u8>) {
    lines.push(letter);
    for number in numbers {
        lines.push(b' ');
        lines.extend_from_slice(number.to_string().as_bytes());
    }
    lines.push(b'\n');
}

fn push_byte_line(letter: u8, bytes: Option<&[u8]>, lines: &mut Vec<u8>) {
    if let Some(bytes) = bytes {
        lines.push(letter);
        push_bytes(bytes, lines);
        lines.push(b'\n');
    }
}

/// Each byte as two capital digits after a space.
pub fn push_bytes(bytes: &[u8], text: &mut Vec<u8>) {
    const DIGITS: &[u8; 16] = b"0123456789ABCDEF";
    for byte in bytes {
        let high = DIGITS[usize::from(byte / 16)];
        let low = DIGITS[usize::from(byte % 16)];
        text.extend_from_slice(&[b' ', high, low]);
    }
}

/// All that a listing prints for a whole input.
pub fn output(side: Side, input: &[u8]) -> Vec<u8> {
    let mut listing = Listing::new(side);
    let mut lines = Vec::new();
    listing.feed(input, &mut lines);
    listing.finish(&mut lines);
    lines
}

/// The program itself: reads what is there, acts, and has the lines written out before it waits for more. Gives the
/// place at which it stopped.
pub fn run(side: Side, mut input: impl Read, mut out: impl Write) -> std::io::Result<Option<u64>> {
    let mut listing = Listing::new(side);
    let mut chunk = vec![0; 65_536];
    let mut lines = Vec::new();
    loop {
        let size = match input.read(&mut chunk) {
            Err(error) if error.kind() == ErrorKind::Interrupted => continue,
            other => other?,
        };
        if size == 0 {
            listing.finish(&mut lines);
        } else {
            listing.feed(&chunk[..size], &mut lines);
        }
        out.write_all(&lines)?;
        out.flush()?;
        lines.clear();
        if size == 0 || listing.stopped().is_some() {
            return Ok(listing.stopped());
        }
    }
}
