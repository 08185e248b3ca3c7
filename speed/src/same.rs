//! Whether the peer does what the second program does: on the second program's own streams and sweeps, event by event,
//! and in blocks, as they stand in these or cut at random. Compared are the number told, every value, every byte
//! written and every byte of a room that is not; of a reader also its parameters with their locks, and its switches.

use second::packet::{build, lay_out, Refusal, COMMANDS, DECODE_DATA, HOST, LONGEST, READER};
use second::streams::{open_stream, sweep, Kind};
use second::table::ROWS;

use crate::calls::{Blocks, Event, Fields, Machine, Packets, Told, BLOCK, HUB_ANSWER, SET};
use crate::streams::Dice;
use crate::work::Noted;
use crate::{other, peer};

/// What a stream says, token by token.
#[derive(Debug)]
enum Token {
    Line(Event),
    TimeOut,
    PowerUp,
    /// Code type, then the bytes.
    Start(Vec<u8>),
    Save,
    Load(Vec<u8>),
    /// Bytes for one call, and those not taken for further ones.
    Block(Vec<u8>),
    /// The size of the room for the answers of a block.
    Room(usize),
}

fn pair(text: &[u8]) -> u8 {
    let text = std::str::from_utf8(text).expect("two digits");
    u8::from_str_radix(text, 16).unwrap_or_else(|_| panic!("{text} is no byte"))
}

/// The bytes of a token, up to its last sign.
fn bytes_of(characters: &mut impl Iterator<Item = u8>, last: u8) -> Vec<u8> {
    let digits: Vec<u8> = characters.take_while(|character| *character != last).collect();
    digits.chunks(2).map(pair).collect()
}

/// The rooms of desk's streams are up to 65,535 bytes; so large is each that is compared at most.
const ROOM: usize = 160;

fn room_of(size: &[u8]) -> usize {
    ROOM.min(usize::from(size[0]) * 256 + usize::from(size[1]))
}

/// The streams of the second program are right throughout, so nothing else is looked for.
fn tokens(text: &[u8]) -> Vec<Token> {
    let mut tokens = Vec::new();
    let mut words = text.iter().copied().filter(|character| !character.is_ascii_whitespace());
    while let Some(first) = words.next() {
        let token = match first {
            b'.' => Token::Line(Event::CharacterGap),
            b'/' => Token::Line(Event::MessageGap),
            b'T' => Token::TimeOut,
            b'P' => Token::PowerUp,
            b'W' => Token::Save,
            b'S' => Token::Start(bytes_of(&mut words, b';')),
            b'L' => Token::Load(bytes_of(&mut words, b';')),
            b'K' => Token::Room(room_of(&bytes_of(&mut words, b';'))),
            b'[' => Token::Block(bytes_of(&mut words, b']')),
            digit => Token::Line(Event::Byte(pair(&[digit, words.next().expect("a second digit")]))),
        };
        tokens.push(token);
    }
    tokens
}

/// The same with bytes in blocks of random sizes, and in random rooms, some of which are too small.
fn cut(tokens: Vec<Token>, dice: &mut Dice) -> Vec<Token> {
    let mut cut = Vec::new();
    let mut block = Vec::new();
    for token in tokens {
        match token {
            Token::Line(Event::Byte(byte)) if !dice.one_in(40) => block.push(byte),
            other => {
                in_blocks(std::mem::take(&mut block), dice, &mut cut);
                cut.push(other);
            }
        }
    }
    in_blocks(block, dice, &mut cut);
    cut
}

fn in_blocks(bytes: Vec<u8>, dice: &mut Dice, tokens: &mut Vec<Token>) {
    let mut left = &bytes[..];
    while !left.is_empty() {
        if dice.one_in(4) {
            // In a small room the block is refused and lost, as it is not given again.
            let least = if dice.one_in(20) { 0 } else { HUB_ANSWER };
            tokens.push(Token::Room(dice.between(least, 50)));
        }
        let most = if dice.one_in(2) { BLOCK } else { 20 };
        let (block, rest) = left.split_at(dice.between(0, most).min(left.len()));
        tokens.push(Token::Block(block.to_vec()));
        left = rest;
    }
}

/// Both programs beside each other.
trait Both {
    fn new() -> Self;
    /// What each call brought, the peer's first.
    fn take(&mut self, token: &Token) -> Vec<[Noted; 2]>;
    /// What else can be seen of each after a token, by name.
    fn rooms(&self) -> Vec<(&'static str, [&[u8]; 2])>;
    /// Of the message room, which is long: compared where something was told.
    fn long_room(&self) -> [&[u8]; 2];
}

struct Hubs {
    peer: peer::Hub,
    second: other::Hub,
    /// For the answers of blocks, and how much of them is lent.
    answers: [[u8; ROOM]; 2],
    room: usize,
}

impl Hubs {
    /// In as many calls as it takes, or in one that is refused.
    fn block(&mut self, bytes: &[u8]) -> Vec<[Noted; 2]> {
        let Hubs { peer, second, answers: [peer_answers, second_answers], room } = self;
        let mut calls = Vec::new();
        let mut left = bytes;
        loop {
            let told = [
                Noted::of(peer.block(left, &mut peer_answers[..*room])),
                Noted::of(second.block(left, &mut second_answers[..*room])),
            ];
            let taken = told[1].taken();
            calls.push(told);
            left = &left[taken..];
            if taken == 0 || left.is_empty() {
                return calls;
            }
        }
    }
}

impl Both for Hubs {
    fn new() -> Hubs {
        Hubs { peer: Machine::new(), second: Machine::new(), answers: [[0; ROOM]; 2], room: 20 }
    }

    fn take(&mut self, token: &Token) -> Vec<[Noted; 2]> {
        match token {
            Token::Block(bytes) => self.block(bytes),
            Token::Room(size) => {
                self.room = *size;
                vec![]
            }
            // The peer's room for an event is its own, so what is refused for want of room is no call of it.
            Token::Line(_) if self.room < HUB_ANSWER => vec![],
            Token::Line(event) => vec![[Noted::of(self.peer.event(*event)), Noted::of(self.second.event(*event))]],
            other => panic!("{other:?} is none of a hub's"),
        }
    }

    fn rooms(&self) -> Vec<(&'static str, [&[u8]; 2])> {
        vec![
            ("answer room", [&self.peer.0.answer, &self.second.answer]),
            ("room of a block", [&self.answers[0], &self.answers[1]]),
        ]
    }

    fn long_room(&self) -> [&[u8]; 2] {
        [&self.peer.0.message, &self.second.message]
    }
}

struct Readers {
    peer: peer::Reader,
    second: other::Reader,
    /// Of the second program, as bytes.
    switches: [u8; 4],
    /// Of the peer.
    peer_switches: [u8; 4],
    locks: [[u8; ROWS.len()]; 2],
    /// Into which both write their saved sets.
    sets: [[u8; SET]; 2],
}

impl Both for Readers {
    fn new() -> Readers {
        Readers {
            peer: Machine::new(),
            second: Machine::new(),
            switches: [0; 4],
            peer_switches: [0; 4],
            locks: [[0; ROWS.len()]; 2],
            sets: [[0; SET]; 2],
        }
    }

    fn take(&mut self, token: &Token) -> Vec<[Noted; 2]> {
        let Readers { peer, second, sets: [peer_set, second_set], .. } = self;
        let told = match token {
            Token::Line(event) => [Noted::of(peer.event(*event)), Noted::of(second.event(*event))],
            Token::TimeOut => [Noted::of(peer.time_out()), Noted::of(second.time_out())],
            Token::Start(bytes) => {
                [Noted::of(peer.start(bytes[0], &bytes[1..])), Noted::of(second.start(bytes[0], &bytes[1..]))]
            }
            Token::Save => [Noted::of(peer.save(peer_set)), Noted::of(second.save(second_set))],
            Token::Load(form) => [Noted::of(peer.load(form)), Noted::of(second.load(form))],
            Token::PowerUp => {
                peer.power_up();
                second.reader.power_up();
                [Noted::of(Told::default()), Noted::of(Told::default())]
            }
            Token::Block(_) | Token::Room(_) => panic!("{token:?} is none of a reader's"),
        };
        let now = second.reader.switches();
        self.switches = [now.enabled, now.session, now.aim, now.led].map(u8::from);
        self.peer_switches = peer.0.switches.map(u8::from);
        self.locks = [peer.0.table.locked, second.reader.table().locks.map(u8::from)];
        vec![told]
    }

    fn rooms(&self) -> Vec<(&'static str, [&[u8]; 2])> {
        let table = self.second.reader.table();
        vec![
            ("answer room", [&self.peer.0.answer, &self.second.answer]),
            ("present values", [&self.peer.0.table.present, &table.present]),
            ("permanent values", [&self.peer.0.table.permanent, &table.permanent]),
            ("locks", [&self.locks[0], &self.locks[1]]),
            ("saved set", [&self.sets[0], &self.sets[1]]),
            ("switches", [&self.peer_switches, &self.switches]),
        ]
    }

    fn long_room(&self) -> [&[u8]; 2] {
        [&self.peer.0.sender.copy, &self.second.copy]
    }
}

/// What was told, the peer's first: else how it differs.
fn same([peer, second]: &[Noted; 2]) -> Result<(), String> {
    let alike = (peer == second).then_some(());
    alike.ok_or_else(|| format!("  peer:   {}\n  second: {}", peer.describe(), second.describe()))
}

/// How they differ after a token.
fn difference<B: Both>(both: &B, told: &[[Noted; 2]]) -> Option<String> {
    if let Some(how) = told.iter().find_map(|told| same(told).err()) {
        return Some(how);
    }
    let tells = told.iter().any(|told| told[0].tells());
    let long = tells.then(|| ("message or copy room", both.long_room()));
    let differs = both.rooms().into_iter().chain(long).find(|(_, [peer, second])| peer != second);
    differs.map(|(name, [peer, second])| format!("  {name}, peer:   {peer:02X?}\n  {name}, second: {second:02X?}"))
}

/// How many calls there were.
fn run<B: Both>(origin: &str, tokens: &[Token]) -> Result<usize, String> {
    let mut both = B::new();
    let mut calls = 0;
    for (at, token) in tokens.iter().enumerate() {
        let told = both.take(token);
        calls += told.len();
        if let Some(how) = difference(&both, &told) {
            return Err(format!(
                "peer and second program differ in {origin}, first at token {at}: {token:02X?}\n{how}"
            ));
        }
    }
    let [peer, second] = both.long_room();
    (peer == second).then_some(calls).ok_or_else(|| format!("{origin}: the rooms differ at the end"))
}

/// Streams of so many events are long enough to get deep, and there is a room at the end of each to look at.
const EVENTS: u64 = 10_000;

fn streams<B: Both>(kind: Kind, number: u64) -> Result<usize, String> {
    let mut calls = run::<B>(&format!("second streams {} sweep", kind.name()), &tokens(&sweep(kind).text))?;
    for seed in 1..=number {
        let origin = format!("second streams {} {seed} {EVENTS}", kind.name());
        calls += run::<B>(&origin, &tokens(&open_stream(kind, seed, EVENTS).text))?;
    }
    Ok(calls)
}

/// A hub's streams, cut into blocks at random.
fn cut_streams(number: u64) -> Result<usize, String> {
    let cut_sweep = cut(tokens(&sweep(Kind::Hub).text), &mut Dice::new(0));
    let mut calls = run::<Hubs>("second streams hub sweep, cut into blocks", &cut_sweep)?;
    for seed in 1..=number {
        let origin = format!("second streams hub {seed} {EVENTS}, cut into blocks");
        let stream = open_stream(Kind::Hub, seed, EVENTS).text;
        calls += run::<Hubs>(&origin, &cut(tokens(&stream), &mut Dice::new(seed)))?;
    }
    Ok(calls)
}

struct Packers {
    peer: peer::Packets,
    second: other::Packets,
    calls: usize,
}

impl Packers {
    fn check(&mut self, bytes: &[u8]) -> Result<(), String> {
        self.calls += 1;
        let told = [Noted::of(self.peer.check(bytes)), Noted::of(self.second.check(bytes))];
        same(&told).map_err(|how| format!("the check of {bytes:02X?}\n{how}"))
    }

    fn build(&mut self, opcode: u8, source: u8, status: u8, data: &[u8]) -> Result<(), String> {
        self.calls += 1;
        let fields = Fields { opcode, source, status, data };
        let told = [Noted::of(self.peer.build(fields)), Noted::of(self.second.build(fields))];
        let rooms = (self.peer.0 == self.second.0).then_some(()).ok_or("  the rooms differ".to_string());
        let alike = same(&told).and(rooms);
        alike.map_err(|how| format!("a build of {opcode:02X} {source:02X} {status:02X} {data:02X?}\n{how}"))
    }
}

/// Rooms that are too small are refused before all else and left as they were.
fn small_rooms() -> Result<usize, String> {
    for size in 0..LONGEST {
        let mut rooms = [[0xAA; LONGEST]; 2];
        let [peer, second] = &mut rooms;
        // SAFETY: the room has more bytes than are told.
        let told = unsafe { peer::peer_build(peer.as_mut_ptr(), size, 0, 1, 0xFF, [].as_ptr(), 0) };
        let due = build(&mut second[..size], 0, 1, 0xFF, &[]).expect_err("too small").number();
        if usize::from(told.number) != due || peer != second {
            return Err(format!("a build in {size} bytes: the peer tells {}, the second program {due}", told.number));
        }
    }
    Ok(LONGEST)
}

/// The same for saved sets.
fn small_set_rooms() -> Result<usize, String> {
    let reader = peer::Reader::new();
    for size in 0..SET {
        let mut room = [0xAA; SET];
        // SAFETY: the room has more bytes than are told.
        let told = unsafe { peer::peer_reader_save(&*reader.0, room.as_mut_ptr(), size) };
        if usize::from(told.number) != Refusal::Room.number() || room != [0xAA; SET] {
            return Err(format!("a set saved in {size} bytes: the peer tells {}", told.number));
        }
    }
    Ok(SET)
}

/// The check and the build alone: every length, every byte of a packet wrong, every opcode with every status.
fn packets() -> Result<usize, String> {
    let mut both = Packers { peer: Packets::new(), second: Packets::new(), calls: 0 };
    let data: Vec<u8> = (0..LONGEST).map(|i| (i * 89 + 250) as u8).collect();
    for size in 0..=251 {
        let mut bytes = lay_out(DECODE_DATA, READER, 0, &data[..size]);
        for cut in 0..=bytes.len() {
            both.check(&bytes[..cut])?;
        }
        bytes.extend([0xFF; 3]);
        for at in 0..bytes.len() {
            bytes[at] ^= 1 << (at % 8);
            both.check(&bytes)?;
            bytes[at] ^= 1 << (at % 8);
        }
    }
    for low in 0..4 {
        both.check(&[low, 0, 0, 0, 0, 0])?;
    }
    for size in 0..=LONGEST {
        [READER, HOST, 1].into_iter().try_for_each(|source| both.build(COMMANDS[0], source, 0, &data[..size]))?;
    }
    for (opcode, status) in (0..=255).flat_map(|opcode| (0..=255).map(move |status| (opcode, status))) {
        both.build(opcode, HOST, status, &data[..usize::from(opcode ^ status)])?;
    }
    Ok(both.calls)
}

/// How many calls were compared, over so many seeded streams for each machine.
pub fn compare(number: u64) -> Result<usize, String> {
    if !peer::laid_out_alike() {
        return Err("the peer's structs are not as C lays them out".to_string());
    }
    let hubs = streams::<Hubs>(Kind::Hub, number)? + streams::<Hubs>(Kind::DeskHub, number)? + cut_streams(number)?;
    let readers = streams::<Readers>(Kind::Reader, number)?;
    Ok(packets()? + small_rooms()? + small_set_rooms()? + hubs + readers)
}
