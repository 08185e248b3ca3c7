//! What a firmware must keep for each machine, and how much code the library and the peer are.

use std::collections::BTreeMap;
use std::fs;
use std::path::Path;

use motikhund::constants::{FRAMER_CONTROL_SIZE, HUB_CONTROL_SIZE, LINE_SIZE, READER_ANSWER_SIZE, READER_CONTROL_SIZE};
use motikhund::constants::{MESSAGE_SIZE, SENDER_CONTROL_SIZE};
use motikhund::{lent, Event, Found, Heard, HubTold, Outcome, ReaderTold, Refusal};

pub struct State {
    pub name: &'static str,
    pub control: usize,
    /// Buffers that stay with the control bytes, and rooms lent for the time of a call.
    pub kept: Vec<(&'static str, usize)>,
    pub lent: Vec<(&'static str, usize)>,
}

/// More than any call asks for.
const AMPLE: usize = 2 * MESSAGE_SIZE;

/// The least room with which the call does not refuse it.
fn least(mut refused: impl FnMut(&mut [u8]) -> bool) -> usize {
    let mut room = [0; AMPLE];
    (0..=AMPLE).find(|size| !refused(&mut room[..*size])).expect("ample room")
}

fn framer() -> State {
    let mut control = [0; FRAMER_CONTROL_SIZE];
    let line =
        least(|line| lent::framer::hear(&mut control, line, Event::CharacterGap) == Found::Refused(Refusal::Room));
    State {
        name: "framer",
        control: least(|control| lent::framer::idle(control).is_err()),
        kept: vec![("line", line)],
        lent: vec![],
    }
}

fn hub() -> State {
    let (mut control, mut line, mut gather) = ([0; HUB_CONTROL_SIZE], [0; LINE_SIZE], [0; MESSAGE_SIZE]);
    let mut refused = |answer: &mut [u8], message: &mut [u8]| {
        let told = lent::hub::hear(&mut control, &mut line, &mut gather, answer, message, Event::CharacterGap);
        matches!(told, HubTold::Refused { why: Refusal::Room, .. })
    };
    let answer = least(|answer| refused(answer, &mut [0; AMPLE]));
    let message = least(|message| refused(&mut [0; AMPLE], message));
    State {
        name: "hub",
        control: least(|control| lent::hub::on(control).is_err()),
        kept: vec![("line", LINE_SIZE), ("gather", MESSAGE_SIZE)],
        lent: vec![("answer", answer), ("message", message)],
    }
}

fn sender() -> State {
    let (mut control, message) = ([0; SENDER_CONTROL_SIZE], [0; MESSAGE_SIZE]);
    let copy = least(|copy| {
        lent::sender::hear(&mut control, &message, copy, Heard::TimeOut) == Outcome::Refused(Refusal::Room)
    });
    State {
        name: "sender",
        control: least(|control| lent::sender::idle(control, false).is_err()),
        kept: vec![("message", MESSAGE_SIZE)],
        lent: vec![("copy", copy)],
    }
}

fn reader() -> State {
    let (mut control, mut line, message) = ([0; READER_CONTROL_SIZE], [0; LINE_SIZE], [0; MESSAGE_SIZE]);
    let mut answers = [0; READER_ANSWER_SIZE];
    let mut refused = |answer: &mut [u8], copy: &mut [u8]| {
        let gap = Event::CharacterGap;
        let told = lent::reader::hear(&mut control, &mut line, &mut answers, &message, answer, copy, gap);
        matches!(told, ReaderTold::Refused { why: Refusal::Room, .. })
    };
    let answer = least(|answer| refused(answer, &mut [0; AMPLE]));
    let copy = least(|copy| refused(&mut [0; AMPLE], copy));
    State {
        name: "reader",
        control: least(|control| lent::reader::on(control).is_err()),
        kept: vec![("line", LINE_SIZE), ("answers", READER_ANSWER_SIZE), ("message", MESSAGE_SIZE)],
        lent: vec![("answer", answer), ("copy", copy)],
    }
}

pub fn states() -> [State; 4] {
    [framer(), hub(), sender(), reader()]
}

/// Bytes of code, constants with it.
pub struct Code {
    pub library: usize,
    /// The calls for other languages, with their sizes.
    pub calls: BTreeMap<String, usize>,
    /// Each file of the peer.
    pub peer: Vec<(String, usize)>,
    /// What a hub adds to a program that uses nothing else, the unused left out by the linker.
    pub hub_alone: usize,
    pub peer_hub_alone: usize,
}

impl Code {
    /// Reads what `speed/run` wrote of `size` and `nm`.
    pub fn read(directory: &str) -> Result<Code, String> {
        let read = |name: &str| {
            let path = Path::new(directory).join(name);
            fs::read_to_string(&path).map_err(|error| format!("{}: {error}", path.display()))
        };
        let texts = |name: &str| texts(&read(name)?).ok_or(format!("{name}: sizes of an unknown form"));
        let alone = texts("alone.txt")?;
        let [(_, without), (_, with), (_, with_peer)] = &alone[..] else {
            return Err("alone.txt: not three programs".to_string());
        };
        Ok(Code {
            library: texts("library.txt")?.into_iter().map(|(_, text)| text).sum(),
            calls: calls(&read("symbols.txt")?),
            peer: texts("peer.txt")?,
            hub_alone: with - without,
            peer_hub_alone: with_peer - without,
        })
    }
}

/// Name and text of each file that `size` tells of.
fn texts(size: &str) -> Option<Vec<(String, usize)>> {
    let text = |line: &str| {
        let words: Vec<&str> = line.split_whitespace().collect();
        Some((words.get(5)?.rsplit('/').next()?.to_string(), words[0].parse().ok()?))
    };
    size.lines().skip(1).map(text).collect()
}

/// The code of each exported call. One that the library calls too stands there twice: as itself, and as a jump to that.
fn calls(symbols: &str) -> BTreeMap<String, usize> {
    let mut calls = BTreeMap::new();
    for line in symbols.lines() {
        let [_, size, _, name] = line.split_whitespace().collect::<Vec<_>>()[..] else { continue };
        let name = name.strip_prefix("motikhund::").unwrap_or(name);
        if let (true, Ok(size)) = (name.starts_with("mk_"), usize::from_str_radix(size, 16)) {
            *calls.entry(name.to_string()).or_default() += size;
        }
    }
    calls
}
