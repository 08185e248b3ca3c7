//! The rows of work: the programs compared on a pass of each, then timed, and their instructions counted.

use std::rc::Rc;

use second::sender::PIECE;

use crate::calls::{Event, Machine, Packets, Sender, Told, COPY, DELIVERED, FOUND, HANDED_OUT, MESSAGE};
use crate::clock::Timed;
use crate::count;
use crate::passes::{bare_build, bare_check, bare_pass, plain_check, plain_pass};
use crate::passes::{Builds, Checks, Errands, Events, InBlocks, Lists, Nothing, Work};
use crate::streams::{self, Dice, Errand, List, Stream};
use crate::{in_c, other, peer, proved};

/// What one call brought, kept.
#[derive(PartialEq)]
pub struct Noted {
    number: u32,
    values: [u8; 4],
    packet: Vec<u8>,
    message: Vec<u8>,
    taken: usize,
}

impl Noted {
    pub fn of(told: Told) -> Noted {
        let Told { number, values, packet, message, taken } = told;
        Noted { number, values, packet: packet.to_vec(), message: message.to_vec(), taken }
    }

    pub fn tells(&self) -> bool {
        self.number != 0
    }

    pub fn taken(&self) -> usize {
        self.taken
    }

    pub fn describe(&self) -> String {
        let Noted { number, values, packet, message, taken } = self;
        format!("number {number}, values {values:?}, packet {packet:02X?}, message {message:02X?}, taken {taken}")
    }
}

fn noted(work: &mut impl Work) -> Vec<Noted> {
    let mut all = Vec::new();
    work.pass(|told| all.push(Noted::of(told)));
    all
}

/// A program against the second one on a pass: every number, every value, every byte.
fn compare(row: &str, name: &str, work: &mut impl Work, second: &[Noted]) -> Result<(), String> {
    let own = noted(work);
    if own.len() != second.len() {
        return Err(format!("{row}: {name} was called {} times, the second program {}", own.len(), second.len()));
    }
    match own.iter().zip(second).position(|(own, second)| own != second) {
        None => Ok(()),
        Some(at) => Err(format!(
            "{row}: the first difference is at call {at}: {}\n  {name}: {}\n  second: {}",
            work.describe(at),
            own[at].describe(),
            second[at].describe()
        )),
    }
}

fn timed_pass<W: Work>(work: &mut W) -> usize {
    let mut tally = 0;
    work.pass(|told| tally += W::look(told));
    tally
}

/// What the proved library is held against, and the most that it may take to that.
#[derive(Clone, Copy)]
pub enum Against {
    Peer(f64),
    Second(f64),
    Bare(f64),
    Plain(f64),
}

/// Something for each of the five that take turns.
pub struct Five<T> {
    pub proved: T,
    pub peer: T,
    pub second: T,
    pub bare: T,
    pub plain: T,
}

impl<T> Five<T> {
    pub fn map<U>(self, f: impl FnMut(T) -> U) -> Five<U> {
        let [proved, peer, second, bare, plain] = self.all().map(f);
        Five { proved, peer, second, bare, plain }
    }

    pub fn with<U>(self, others: Five<U>) -> Five<(T, U)> {
        Five {
            proved: (self.proved, others.proved),
            peer: (self.peer, others.peer),
            second: (self.second, others.second),
            bare: (self.bare, others.bare),
            plain: (self.plain, others.plain),
        }
    }

    pub fn all(self) -> [T; 5] {
        [self.proved, self.peer, self.second, self.bare, self.plain]
    }

    pub fn each(&mut self) -> [&mut T; 5] {
        [&mut self.proved, &mut self.peer, &mut self.second, &mut self.bare, &mut self.plain]
    }
}

type Pass<'a> = Box<dyn FnMut() -> usize + 'a>;

pub struct Row<'a> {
    pub name: &'static str,
    pub bytes: usize,
    pub events: usize,
    pub packets: usize,
    pub messages: usize,
    pub bars: Vec<Against>,
    passes: Five<Pass<'a>>,
    /// What each pass must give.
    numbers: Five<usize>,
    /// The loop around the calls, and the one around the bare sums.
    around: Pass<'a>,
    around_bare: Pass<'a>,
}

/// The programs of a row, each with the same work.
struct Programs<'a, P, Q, S, N> {
    proved: P,
    peer: Q,
    second: S,
    nothing: N,
    bare: fn(&Stream) -> usize,
    plain: fn(&Stream) -> usize,
    /// What both sums sum.
    bytes: &'a Stream,
}

/// Compares the programs on one pass, then makes the passes that are timed.
fn row<'a>(
    name: &'static str,
    programs: Programs<'a, impl Work + 'a, impl Work + 'a, impl Work + 'a, impl Work + 'a>,
    bars: Vec<Against>,
) -> Result<Row<'a>, String> {
    let Programs { mut proved, mut peer, mut second, mut nothing, bare, plain, bytes } = programs;
    let told = noted(&mut second);
    compare(name, "peer", &mut peer, &told)?;
    compare(name, "proved", &mut proved, &told)?;
    let tally = timed_pass(&mut second);
    let numbers = Five { proved: tally, peer: tally, second: tally, bare: bare(bytes), plain: plain(bytes) };
    let passes: Five<Pass<'a>> = Five {
        proved: Box::new(move || timed_pass(&mut proved)),
        peer: Box::new(move || timed_pass(&mut peer)),
        second: Box::new(move || timed_pass(&mut second)),
        bare: Box::new(move || bare(bytes)),
        plain: Box::new(move || plain(bytes)),
    };
    let counted = |what: fn(&Noted) -> bool| told.iter().filter(|told| what(told)).count();
    Ok(Row {
        name,
        bytes: bytes.bytes.len(),
        events: told.len(),
        packets: counted(|told| told.number == FOUND || !told.packet.is_empty()),
        messages: counted(|told| told.number == HANDED_OUT || told.number == DELIVERED),
        bars,
        passes,
        numbers,
        around: Box::new(move || timed_pass(&mut nothing)),
        around_bare: Box::new(|| timed_pass(&mut Checks(bytes, Nothing))),
    })
}

/// What a pass took, in time or in instructions.
pub struct Took {
    pub proved: f64,
    pub peer: f64,
    /// Its instructions are counted where a bar is held against them: they are many.
    pub second: Option<f64>,
    pub bare: f64,
    pub plain: f64,
}

impl<'a> Row<'a> {
    /// Instructions of a pass, those of the loop around the calls left out.
    pub fn counts(self) -> Result<Took, String> {
        let Row { name, bars, passes, numbers, mut around, mut around_bare, .. } = self;
        let of = |mut pass: Pass, number, around: &mut Pass| {
            let (count, given) = count::instructions(&mut *pass);
            let (left_out, _) = count::instructions(&mut **around);
            let own = count as f64 - left_out as f64;
            (given == number).then_some(own).ok_or(format!("{name}: a counted pass did not tell the same"))
        };
        let counts_second = bars.iter().any(|bar| matches!(bar, Against::Second(_)));
        Ok(Took {
            proved: of(passes.proved, numbers.proved, &mut around)?,
            peer: of(passes.peer, numbers.peer, &mut around)?,
            second: counts_second.then(|| of(passes.second, numbers.second, &mut around)).transpose()?,
            bare: of(passes.bare, numbers.bare, &mut around_bare)?,
            plain: of(passes.plain, numbers.plain, &mut around_bare)?,
        })
    }

    pub fn timed(self) -> TimedRow<'a> {
        let Row { name, bytes, events, packets, messages, bars, passes, numbers, .. } = self;
        let times = passes.with(numbers).map(|(pass, number)| Timed::new(number, pass));
        TimedRow { name, bytes, events, packets, messages, bars, times }
    }
}

pub struct TimedRow<'a> {
    pub name: &'static str,
    pub bytes: usize,
    pub events: usize,
    pub packets: usize,
    pub messages: usize,
    pub bars: Vec<Against>,
    times: Five<Timed<'a>>,
}

impl TimedRow<'_> {
    /// One round of each. Every pass must tell what was told when the programs were compared.
    pub fn round(&mut self) -> Result<(), String> {
        let right = self.times.each().into_iter().all(Timed::round);
        right.then_some(()).ok_or_else(|| format!("{}: a timed pass did not tell the same", self.name))
    }

    pub fn nanoseconds(&self) -> Five<f64> {
        let Five { proved, peer, second, bare, plain } = &self.times;
        Five { proved, peer, second, bare, plain }.map(Timed::nanoseconds)
    }

    pub fn took(&self) -> Took {
        let Five { proved, peer, second, bare, plain } = self.nanoseconds();
        Took { proved, peer, second: Some(second), bare, plain }
    }
}

/// Everything that is fed to the programs.
pub struct Inputs {
    cards: Stream,
    pieces: Stream,
    messages: Stream,
    /// The same with no gap inside a message.
    joined: Stream,
    garbage: Stream,
    commands: Stream,
    errands: Vec<Errand>,
    copies: Stream,
    packets: [Stream; 3],
    lists: Vec<List>,
    /// Their bytes.
    pairs: Stream,
}

impl Inputs {
    /// About so many bytes are in each input.
    pub fn new(volume: usize) -> Inputs {
        let dice = &mut Dice::new(1);
        let errands = streams::errands(dice, volume);
        let cards = streams::messages(dice, volume, 7, 11);
        let pieces = streams::messages(dice, volume, PIECE, PIECE);
        let messages = streams::messages(dice, volume, MESSAGE, MESSAGE);
        let garbage = streams::garbage(dice, volume);
        let commands = streams::commands(dice, volume);
        let packets = [8, 60, 257].map(|size| streams::packets(dice, volume, size));
        let lists = streams::lists(dice, volume);
        Inputs {
            cards,
            pieces,
            joined: messages.joined(MESSAGE.div_ceil(PIECE)),
            messages,
            garbage,
            commands,
            copies: copies(&errands),
            errands,
            packets,
            pairs: pairs(&lists),
            lists,
        }
    }
}

/// The bytes that a sender writes.
fn copies(errands: &[Errand]) -> Stream {
    let mut copies = Stream::default();
    Errands(errands, <other::Sender as Sender>::new()).pass(|told| {
        if told.number == COPY {
            copies.add(told.packet, Event::CharacterGap);
        }
    });
    copies
}

/// The bytes of lists, a part for each.
fn pairs(lists: &[List]) -> Stream {
    let mut pairs = Stream::default();
    lists.iter().for_each(|list| pairs.add(&list.pairs, Event::CharacterGap));
    pairs
}

/// Through Rust, the proved library through its crate.
fn by_the_crate<'a, P: Machine + 'a, Q: Machine + 'a, S: Machine + 'a>(
    name: &'static str,
    stream: &'a Stream,
) -> Result<Row<'a>, String> {
    let programs = Programs {
        proved: Events(stream, P::new()),
        peer: Events(stream, Q::new()),
        second: Events(stream, S::new()),
        nothing: Events(stream, Nothing),
        bare: bare_pass,
        plain: plain_pass,
        bytes: stream,
    };
    row(name, programs, vec![])
}

/// The same row with the passes that C makes. They must tell what the programs told when they were compared.
fn by_c<'a>(row: Row<'a>, stream: &Stream, passes: in_c::Passes<in_c::Call>, bars: Vec<Against>) -> Row<'a> {
    let in_c::Passes { proved, peer, none } = passes;
    let events: Rc<[u16]> = stream.numbers().into();
    let over = |mut pass: in_c::Pass<in_c::Call>| -> Pass<'a> {
        let events = Rc::clone(&events);
        Box::new(move || pass.over(&events))
    };
    Row { bars, passes: Five { proved: over(proved), peer: over(peer), ..row.passes }, around: over(none), ..row }
}

/// A hub's row in blocks: compared through Rust, then with the passes that C makes.
fn hub_blocks<'a>(name: &'static str, stream: &'a Stream, bar: f64) -> Result<Row<'a>, String> {
    let programs = Programs {
        proved: InBlocks::<proved::RawHub>::new(stream),
        peer: InBlocks::<peer::Hub>::new(stream),
        second: InBlocks::<other::Hub>::new(stream),
        nothing: InBlocks::<Nothing>::new(stream),
        bare: bare_pass,
        plain: plain_pass,
        bytes: stream,
    };
    let row = row(name, programs, vec![Against::Plain(bar), Against::Second(1.0)])?;
    let in_c::Passes { proved, peer, none } = in_c::hub_blocks();
    let blocks: Rc<[in_c::Part]> = stream.blocks().into();
    let over = |mut pass: in_c::Pass<in_c::BlockCall>| -> Pass<'a> {
        let blocks = Rc::clone(&blocks);
        Box::new(move || pass.over(&stream.bytes, &blocks))
    };
    // A call may tell the answers to several packets.
    let told = noted(&mut Events(stream, other::Hub::new()));
    Ok(Row {
        packets: told.iter().filter(|told| !told.packet.is_empty()).count(),
        passes: Five { proved: over(proved), peer: over(peer), ..row.passes },
        around: over(none),
        ..row
    })
}

fn hub_by_the_crate<'a>(name: &'static str, stream: &'a Stream) -> Result<Row<'a>, String> {
    by_the_crate::<proved::Hub, peer::Hub, other::Hub>(name, stream)
}

fn reader_by_the_crate<'a>(name: &'static str, stream: &'a Stream) -> Result<Row<'a>, String> {
    by_the_crate::<proved::Reader, peer::Reader, other::Reader>(name, stream)
}

fn hub<'a>(name: &'static str, stream: &'a Stream, bar: f64) -> Result<Row<'a>, String> {
    Ok(by_c(hub_by_the_crate(name, stream)?, stream, in_c::hub(), vec![Against::Peer(bar)]))
}

fn reader<'a>(name: &'static str, stream: &'a Stream, bar: f64) -> Result<Row<'a>, String> {
    let bars = vec![Against::Peer(bar), Against::Second(1.0)];
    Ok(by_c(reader_by_the_crate(name, stream)?, stream, in_c::reader(), bars))
}

fn table<'a>(name: &'static str, lists: &'a [List], pairs: &'a Stream) -> Result<Row<'a>, String> {
    let programs = Programs {
        proved: Lists::<proved::Table>::new(lists),
        peer: Lists::<peer::Table>::new(lists),
        second: Lists::<other::Table>::new(lists),
        nothing: Lists::<Nothing>::new(lists),
        bare: bare_pass,
        plain: plain_pass,
        bytes: pairs,
    };
    row(name, programs, vec![])
}

fn sender<'a>(name: &'static str, errands: &'a [Errand], copies: &'a Stream) -> Result<Row<'a>, String> {
    let programs = Programs {
        proved: Errands(errands, proved::Sender::new()),
        peer: Errands(errands, peer::Sender::new()),
        second: Errands(errands, other::Sender::new()),
        nothing: Errands(errands, Nothing),
        bare: bare_pass,
        plain: plain_pass,
        bytes: copies,
    };
    row(name, programs, vec![])
}

fn check<'a>(name: &'static str, packets: &'a Stream, bar: Option<Against>) -> Result<Row<'a>, String> {
    let told = noted(&mut Checks(packets, other::Packets::new()));
    compare(name, "crate", &mut Checks(packets, proved::Packets::new()), &told)?;
    let programs = Programs {
        proved: Checks(packets, proved::RawPackets::new()),
        peer: Checks(packets, peer::Packets::new()),
        second: Checks(packets, other::Packets::new()),
        nothing: Checks(packets, Nothing),
        bare: bare_check,
        plain: plain_check,
        bytes: packets,
    };
    row(name, programs, Vec::from_iter(bar))
}

fn build<'a>(name: &'static str, packets: &'a Stream, bar: Option<Against>) -> Result<Row<'a>, String> {
    let told = noted(&mut Builds(packets, other::Packets::new()));
    compare(name, "crate", &mut Builds(packets, proved::Packets::new()), &told)?;
    let programs = Programs {
        proved: Builds(packets, proved::RawPackets::new()),
        peer: Builds(packets, peer::Packets::new()),
        second: Builds(packets, other::Packets::new()),
        nothing: Builds(packets, Nothing),
        bare: bare_build,
        plain: plain_check,
        bytes: packets,
    };
    row(name, programs, Vec::from_iter(bar))
}

pub fn rows(inputs: &Inputs) -> Result<Vec<Row<'_>>, String> {
    let [small, middle, large] = &inputs.packets;
    [
        hub("hub, short cards", &inputs.cards, 1.8),
        hub("hub, full pieces", &inputs.pieces, 1.4),
        hub_by_the_crate("hub, full pieces, by the crate", &inputs.pieces),
        hub("hub, 17 pieces", &inputs.messages, 1.4),
        hub("hub, garbage", &inputs.garbage, 1.4),
        hub_blocks("hub block, short cards", &inputs.cards, 3.5),
        hub_blocks("hub block, full pieces", &inputs.pieces, 1.5),
        hub_blocks("hub block, 17 pieces", &inputs.joined, 1.5),
        hub_blocks("hub block, garbage", &inputs.garbage, 1.2),
        sender("sender, 17 pieces", &inputs.errands, &inputs.copies),
        reader("reader, commands", &inputs.commands, 2.2),
        reader_by_the_crate("reader, commands, by the crate", &inputs.commands),
        table("table, lists", &inputs.lists, &inputs.pairs),
        // No bar for small packets: most of their time is the call's.
        check("check, 8 bytes", small, None),
        check("check, 60 bytes", middle, None),
        check("check, 257 bytes", large, Some(Against::Bare(1.1))),
        build("build, 8 bytes", small, None),
        build("build, 60 bytes", middle, None),
        build("build, 257 bytes", large, Some(Against::Bare(1.1))),
    ]
    .into_iter()
    .collect()
}
