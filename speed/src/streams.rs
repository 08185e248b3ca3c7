//! What all programs are fed with. All of it is seeded: every run has the same bytes.

use std::ops::Range;

use second::kept::KeptTable;
use second::packet::*;
use second::sender::PIECE;
use second::table::{allowed, place, HIGHEST_BEEP, NO_BEEP, ROWS};

use crate::calls::{Event, ACK, MESSAGE, NAK_RESEND, TABLE, TIME_OUT};
use crate::in_c::Part;

/// splitmix64.
pub struct Dice(u64);

impl Dice {
    pub fn new(seed: u64) -> Dice {
        Dice(seed)
    }

    fn next(&mut self) -> u64 {
        self.0 = self.0.wrapping_add(0x9E37_79B9_7F4A_7C15);
        let mut z = self.0;
        z = (z ^ (z >> 30)).wrapping_mul(0xBF58_476D_1CE4_E5B9);
        z = (z ^ (z >> 27)).wrapping_mul(0x94D0_49BB_1331_11EB);
        z ^ (z >> 31)
    }

    pub fn between(&mut self, low: usize, high: usize) -> usize {
        low + (self.next() % (high - low + 1) as u64) as usize
    }

    pub fn one_in(&mut self, n: usize) -> bool {
        self.between(1, n) == 1
    }

    pub fn byte(&mut self) -> u8 {
        self.between(0, 255) as u8
    }

    pub fn bytes(&mut self, size: usize) -> Vec<u8> {
        (0..size).map(|_| self.byte()).collect()
    }
}

/// Bytes in parts, each with the gap that comes after it.
#[derive(Default)]
pub struct Stream {
    pub bytes: Vec<u8>,
    parts: Vec<(Range<usize>, Event)>,
}

impl Stream {
    pub fn add(&mut self, part: &[u8], gap: Event) {
        let start = self.bytes.len();
        self.bytes.extend_from_slice(part);
        self.parts.push((start..self.bytes.len(), gap));
    }

    /// A packet, its fields allowed or not.
    pub fn add_packet(&mut self, opcode: u8, source: u8, status: u8, data: &[u8]) {
        self.add(&lay_out(opcode, source, status, data), Event::CharacterGap);
    }

    /// A message in its pieces.
    pub fn add_message(&mut self, code: u8, message: &[u8]) {
        let pieces = message.len().div_ceil(PIECE);
        for (i, piece) in message.chunks(PIECE).enumerate() {
            let status = if i + 1 < pieces { MORE } else { 0 };
            self.add_packet(DECODE_DATA, READER, status, &[&[code], piece].concat());
        }
    }

    pub fn parts(&self) -> impl Iterator<Item = (&[u8], Event)> {
        self.parts.iter().map(|(place, gap)| (&self.bytes[place.clone()], *gap))
    }

    pub fn events(&self, mut hear: impl FnMut(Event)) {
        for (part, gap) in self.parts() {
            part.iter().for_each(|byte| hear(Event::Byte(*byte)));
            hear(gap);
        }
    }

    /// The events by their numbers, as C takes them.
    pub fn numbers(&self) -> Vec<u16> {
        let mut numbers = Vec::new();
        self.events(|event| numbers.push(event.number() as u16));
        numbers
    }

    /// The parts as C takes them in blocks.
    pub fn blocks(&self) -> Vec<Part> {
        self.parts.iter().map(|(place, gap)| Part { size: place.len(), gap: gap.number() }).collect()
    }

    /// The same bytes with so many parts in one, the gaps between them left out.
    pub fn joined(&self, number: usize) -> Stream {
        let parts = self.parts.chunks(number).map(|parts| {
            let ((first, _), (last, gap)) = (&parts[0], &parts[parts.len() - 1]);
            (first.start..last.end, *gap)
        });
        Stream { bytes: self.bytes.clone(), parts: parts.collect() }
    }

    /// Of so many bytes at least.
    fn filled(volume: usize, mut add: impl FnMut(&mut Stream)) -> Stream {
        let mut stream = Stream::default();
        while stream.bytes.len() < volume {
            add(&mut stream);
        }
        stream
    }
}

/// Messages of sizes between these.
pub fn messages(dice: &mut Dice, volume: usize, low: usize, high: usize) -> Stream {
    Stream::filled(volume, |stream| {
        let size = dice.between(low, high);
        stream.add_message(dice.byte(), &dice.bytes(size));
    })
}

/// Now and then long enough to be a packet with a wrong checksum, now and then cut by a gap.
pub fn garbage(dice: &mut Dice, volume: usize) -> Stream {
    Stream::filled(volume, |stream| {
        let size = dice.between(1, 400);
        let gap = if dice.one_in(8) { Event::MessageGap } else { Event::CharacterGap };
        stream.add(&dice.bytes(size), gap);
    })
}

/// Packets of one size, without gaps.
pub fn packets(dice: &mut Dice, volume: usize, size: usize) -> Stream {
    Stream::filled(volume, |stream| {
        let data = dice.bytes(size - HEADER - CHECKSUM);
        stream.add_packet(DECODE_DATA, READER, 0, &data);
    })
}

/// Every command in turn, some of them marked and sent once more.
pub fn commands(dice: &mut Dice, volume: usize) -> Stream {
    Stream::filled(volume, |stream| {
        for opcode in (AIM_OFF..=PARAM_DEFAULTS).chain(START_SESSION..=SCAN_DISABLE) {
            let (status, data) = contents(dice, opcode);
            stream.add_packet(opcode, HOST, status, &data);
            if dice.one_in(16) {
                stream.add_packet(opcode, HOST, status | MARK, &data);
            }
        }
    })
}

fn contents(dice: &mut Dice, opcode: u8) -> (u8, Vec<u8>) {
    match opcode {
        PARAM_SEND => {
            let pairs = dice.between(2, 9);
            let status = if dice.one_in(4) { PERMANENT } else { 0 };
            (status, parameters(dice, pairs))
        }
        PARAM_REQUEST => (0, vec![second::reader::ALL]),
        BEEP => (0, vec![dice.between(0, HIGHEST_BEEP.into()) as u8]),
        LED_ON | LED_OFF => (0, vec![dice.byte()]),
        _ => (0, vec![]),
    }
}

/// The data of a PARAM_SEND with so many allowed pairs.
pub fn parameters(dice: &mut Dice, pairs: usize) -> Vec<u8> {
    let mut data = vec![NO_BEEP];
    (0..pairs).for_each(|_| data.extend(allowed_pair(dice)));
    data
}

fn allowed_pair(dice: &mut Dice) -> [u8; 2] {
    loop {
        let [number, low, high, _] = ROWS[dice.between(0, ROWS.len() - 1)];
        let value = dice.between(low.into(), high.into()) as u8;
        if allowed(number, value) {
            return [number, value];
        }
    }
}

/// For a table: pairs, or bytes that are none, and whether they are to hold for ever.
pub struct List {
    pub pairs: Vec<u8>,
    pub permanent: bool,
}

/// A pair that a table with these locks takes, if it takes any.
pub fn good_pair(dice: &mut Dice, locks: &[bool; ROWS.len()]) -> Option<[u8; 2]> {
    let free = |[number, _]: &[u8; 2]| place(*number).is_some_and(|place| !locks[place]);
    let any = locks.contains(&false);
    any.then(|| std::iter::repeat_with(|| allowed_pair(dice)).find(free)).flatten()
}

/// One that it does not take: a number that is not supported, a value that is not allowed, or, where there is a lock, a
/// right value for what is locked.
pub fn bad_pair(dice: &mut Dice, locks: &[bool; ROWS.len()]) -> [u8; 2] {
    loop {
        let [right, _, high, _] = ROWS[dice.between(0, ROWS.len() - 1)];
        let [number, value] = match dice.between(0, 5) {
            0 => [dice.byte(), dice.byte()],
            1 => [right + 1, dice.between(0, 1) as u8],
            2 => [right, dice.byte()],
            3 => [right, high + 1],
            // Below the lowest, or between two of the trigger's.
            4 => [right, dice.between(0, 8) as u8],
            _ => allowed_pair(dice),
        };
        if !allowed(number, value) || place(number).is_some_and(|place| locks[place]) {
            return [number, value];
        }
    }
}

/// The table in which lists are set: the house defaults, with the trigger and the baud code locked.
pub fn board() -> [u8; TABLE] {
    let mut table = KeptTable([0; TABLE]);
    table.defaults();
    for number in [0x8A, 0x9C] {
        table.0[TABLE - ROWS.len() + place(number).expect("a parameter")] = 1;
    }
    table.0
}

/// Lists of 1 to 9 pairs, half of which that table refuses: for a bad pair at any place, or for a byte too few.
pub fn lists(dice: &mut Dice, volume: usize) -> Vec<List> {
    let locks = KeptTable(board()).table().locks;
    let mut lists = Vec::new();
    let mut size = 0;
    while size < volume {
        let mut pairs: Vec<[u8; 2]> = (0..dice.between(1, 9)).filter_map(|_| good_pair(dice, &locks)).collect();
        let refused = dice.one_in(2);
        let odd = refused && dice.one_in(8);
        if refused && !odd {
            let at = dice.between(0, pairs.len() - 1);
            pairs[at] = bad_pair(dice, &locks);
        }
        let mut pairs = pairs.concat();
        pairs.truncate(pairs.len() - usize::from(odd));
        size += pairs.len();
        lists.push(List { pairs, permanent: dice.one_in(2) });
    }
    lists
}

/// A message for a sender, and what it hears until it is delivered.
pub struct Errand {
    pub code: u8,
    pub message: Vec<u8>,
    pub heard: Vec<u32>,
}

pub fn errands(dice: &mut Dice, volume: usize) -> Vec<Errand> {
    (0..volume / MESSAGE).map(|_| errand(dice)).collect()
}

fn errand(dice: &mut Dice) -> Errand {
    let mut heard = Vec::new();
    for _ in 0..MESSAGE.div_ceil(PIECE) {
        if dice.one_in(8) {
            heard.push(if dice.one_in(2) { NAK_RESEND } else { TIME_OUT });
        }
        heard.push(ACK);
    }
    Errand { code: dice.byte(), message: dice.bytes(MESSAGE), heard }
}
