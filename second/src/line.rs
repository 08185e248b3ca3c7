//! A lossy line between the proved programs. This program is the wire: it starts messages at the reader, carries copies
//! and answers, loses or spoils some, and checks from outside what the demand on the line promises. Many messages equal
//! the packet before them, and many have equal pieces; the hub gets a message gap where the reader tells that one is
//! due, and nowhere else. There are two such lines at the same time, one for each of the programs that are a hub; on
//! that of desk most copies come in blocks.

use std::collections::VecDeque;
use std::io::{BufRead, BufReader, Write};
use std::process::{Child, ChildStdin};
use std::sync::mpsc::{channel, Receiver, RecvTimeoutError};
use std::thread;
use std::time::{Duration, Instant};

use crate::dice::Dice;
use crate::form;
use crate::framer::{Framed, Framer, LineEvent};
use crate::hub::{Message, LONGEST_MESSAGE};
use crate::listing::{push_bytes, Listing, Side};
use crate::packet::{lay_out, written, CHECKSUM, CMD_ACK, DECODE_DATA, HEADER, LONGEST, MARK, MORE, READER};
use crate::program::{said, Programs};
use crate::streams::{alike, near, open_stream, spoiled, Kind};
use crate::table::Table;

pub const MESSAGES: u64 = 10_000;
/// After so many messages both ends get noise and are brought back to the state that the demand starts from.
const ROUND: u64 = 50;
const LIMIT: Duration = Duration::from_secs(20);
const REMEMBERED: usize = 40;
/// So many pieces at most can be cut in one message.
const MOST_CUT: usize = 8;

/// What was wrong, in words.
type Breach = String;

/// One of the programs, with a machine of this program beside it that knows how many lines are due.
struct Coupled {
    side: Side,
    child: Child,
    to: ChildStdin,
    lines: Receiver<String>,
    own: Listing,
    /// What was said last, to be shown after a breach.
    log: VecDeque<String>,
}

impl Coupled {
    fn start(programs: &Programs, side: Side) -> std::io::Result<Coupled> {
        let (child, to, from) = programs.spawn(side)?;
        let (send, lines) = channel();
        thread::spawn(move || {
            for line in BufReader::new(from).lines() {
                if line.map(|line| send.send(line)).is_err() {
                    return;
                }
            }
        });
        Ok(Coupled { side, child, to, lines, own: Listing::new(side), log: VecDeque::new() })
    }

    fn name(&self) -> &'static str {
        self.side.program()
    }

    /// Sends a part of the input and gives the lines that the program prints for it.
    fn tell(&mut self, text: &[u8]) -> Result<Vec<String>, Breach> {
        self.note(format!("<- {}", text.escape_ascii()));
        let mut due = Vec::new();
        self.own.feed(text, &mut due);
        let due = String::from_utf8(due).expect("plain lines");
        let sent = self.to.write_all(text).and_then(|()| self.to.flush());
        sent.map_err(|error| format!("{} takes no more: {error}", self.name()))?;
        due.lines().map(|line| self.next_line(line)).collect()
    }

    fn next_line(&mut self, due: &str) -> Result<String, Breach> {
        match self.lines.recv_timeout(LIMIT) {
            Ok(line) => {
                self.note(format!("-> {line}"));
                if line == due {
                    Ok(line)
                } else {
                    Err(format!("{} printed {line:?} where {due:?} was due", self.name()))
                }
            }
            Err(RecvTimeoutError::Timeout) => Err(format!("{} did not print {due:?} in time", self.name())),
            Err(RecvTimeoutError::Disconnected) => Err(format!("{} ended before {due:?}", self.name())),
        }
    }

    fn note(&mut self, what: String) {
        if self.log.len() == REMEMBERED {
            self.log.pop_front();
        }
        self.log.push_back(what);
    }

    /// Sends something wrong: nothing else may come before its `E`, and the program ends though its input stays open.
    fn close(&mut self) -> Result<(), Breach> {
        self.tell(b"x")?;
        let name = self.name();
        match self.lines.recv_timeout(LIMIT) {
            Ok(line) => return Err(format!("{name} printed {line:?} after it had stopped")),
            Err(RecvTimeoutError::Timeout) => return Err(format!("{name} does not end at a wrong character")),
            Err(RecvTimeoutError::Disconnected) => {}
        }
        let status = self.child.wait().map_err(|error| format!("{name}: {error}"))?;
        if self.side != Side::Hub && status.success() {
            return Err(format!("{name} ended with status 0 after a wrong character"));
        }
        Ok(())
    }

    /// Also keeps what it has said on standard error.
    fn stop(&mut self) {
        let _ = self.child.kill();
        let _ = self.child.wait();
        let said = said(&mut self.child);
        if !said.is_empty() {
            self.note(format!("on standard error: {}", said.escape_ascii()));
        }
    }

    fn show_log(&self) {
        println!("last said with {}:", self.name());
        self.log.iter().for_each(|what| println!("  {what}"));
    }
}

#[derive(Clone, Copy, PartialEq, Eq)]
enum Fate {
    Whole,
    Lost,
    Spoiled,
}

/// Lost and spoiled of a hundred, going and coming back.
#[derive(Clone, Copy)]
struct Weather {
    copies: [usize; 2],
    answers: [usize; 2],
}

const WEATHERS: [Weather; 7] = [
    Weather { copies: [0, 0], answers: [0, 0] },
    Weather { copies: [5, 5], answers: [5, 5] },
    Weather { copies: [20, 15], answers: [15, 20] },
    Weather { copies: [0, 0], answers: [50, 0] },
    Weather { copies: [0, 60], answers: [0, 0] },
    Weather { copies: [10, 10], answers: [30, 30] },
    Weather { copies: [35, 35], answers: [10, 10] },
];

#[derive(Default)]
struct Counts {
    messages: u64,
    delivered: u64,
    failed: u64,
    failed_yet_handed_out: u64,
    copies: u64,
    marked_copies: u64,
    third_copies: u64,
    copies_lost: u64,
    copies_spoiled: u64,
    /// Only desk knows blocks.
    copies_in_blocks: Option<u64>,
    copies_in_several_blocks: Option<u64>,
    answers: u64,
    answers_lost: u64,
    answers_spoiled: u64,
    time_outs: u64,
    gaps_after_failure: u64,
    gaps_for_equal: u64,
    gaps_for_last_piece: u64,
    equal_first_copy_bad: u64,
    equal_answer_bad: u64,
    cut_pieces: u64,
    cut_pieces_again: u64,
    most_cut: u64,
}

/// A message on its way.
struct Outgoing {
    message: Message,
    /// Its packets without the mark.
    packets: Vec<Vec<u8>>,
    /// The packet sent last.
    at: usize,
    /// For each copy of that packet, whether copy and answer both came through.
    tries: Vec<bool>,
    /// An ACK for that packet came whole to the reader.
    acked: bool,
    marked: usize,
    handed_out: bool,
    /// A message gap was told for it, as its first packet equals the one before.
    equal: bool,
}

/// What the reader did about its message.
enum Said {
    Nothing,
    /// A copy, and whether a message gap is due before it.
    Copy(bool, Vec<u8>),
    Delivered(usize),
    Failed(usize),
}

struct Wire {
    hub: Coupled,
    reader: Coupled,
    dice: Dice,
    weather: Weather,
    /// The packet sent last since the last message gap, without the mark: the next one must be another.
    previous: Option<Vec<u8>>,
    /// How the message before ended, if there was one in this round.
    before: Option<Before>,
    counts: Counts,
}

/// What is counted by, of the message before.
#[derive(Clone, Copy, PartialEq, Eq)]
enum Before {
    Failed,
    DeliveredWhole,
    DeliveredInPieces,
}

/// How a line ended.
struct Ended {
    wire: Wire,
    breach: Option<Breach>,
}

/// Whether the demand held on both lines, and everything was reached that is counted.
pub fn line(programs: &Programs, seed: u64, messages: u64) -> std::io::Result<bool> {
    let begin = Instant::now();
    let share = messages.div_ceil(2);
    let seeds = [seed, seed.wrapping_add(1)];
    let (one, other) = thread::scope(|scope| {
        let one = scope.spawn(|| one_line(programs, Side::Hub, seeds[0], share));
        let other = one_line(programs, Side::DeskHub, seeds[1], share);
        (one.join().expect("no line broke"), other)
    });
    let lines = [one?, other?];
    println!(
        "{:>12}{:>12}  (behind both: {})",
        Side::Hub.program(),
        Side::DeskHub.program(),
        Side::DeskReader.program()
    );
    Counts::print(&lines[0].wire.counts, &lines[1].wire.counts);
    println!("in {:.1} s", begin.elapsed().as_secs_f64());
    let held = lines.iter().all(|line| line.breach.is_none());
    let missed: Vec<&str> = lines.iter().flat_map(|line| line.wire.counts.missed()).collect();
    if held {
        println!("the demand held");
        missed.iter().for_each(|name| println!("never reached: {name}"));
    }
    lines.into_iter().zip(seeds).for_each(|(line, seed)| line.show_breach(seed));
    Ok(held && missed.is_empty())
}

fn one_line(programs: &Programs, hub: Side, seed: u64, messages: u64) -> std::io::Result<Ended> {
    let blocks = (hub == Side::DeskHub).then_some(0);
    let mut wire = Wire {
        hub: Coupled::start(programs, hub)?,
        reader: Coupled::start(programs, Side::DeskReader)?,
        dice: Dice::new(seed),
        weather: WEATHERS[0],
        previous: None,
        before: None,
        counts: Counts { copies_in_blocks: blocks, copies_in_several_blocks: blocks, ..Counts::default() },
    };
    let ran = wire.run(messages).and_then(|()| wire.hub.close()).and_then(|()| wire.reader.close());
    wire.hub.stop();
    wire.reader.stop();
    Ok(Ended { wire, breach: ran.err() })
}

impl Ended {
    fn show_breach(self, seed: u64) {
        let Some(breach) = self.breach else {
            return;
        };
        println!("BREACH (seed {seed}): {breach}");
        self.wire.hub.show_log();
        self.wire.reader.show_log();
    }
}

impl Wire {
    fn run(&mut self, messages: u64) -> Result<(), Breach> {
        for number in 0..messages {
            if number % ROUND == 0 && number > 0 {
                self.new_round()?;
            }
            let message = self.choose();
            self.carry(message)?;
        }
        Ok(())
    }

    /// Noise at both ends, then full rooms, a message gap at the hub and, at the reader, nothing out, nothing begun,
    /// 9Fh on and no lock.
    fn new_round(&mut self) -> Result<(), Breach> {
        let events = self.dice.between(1, 400) as u64;
        let (kind, calm) = match self.hub.side {
            Side::Hub => (Kind::Hub, &b" /\n"[..]),
            _ => (Kind::DeskHub, &b" K FF FF ; /\n"[..]),
        };
        let mut text = open_stream(kind, self.dice.next(), events).text;
        text.extend_from_slice(calm);
        self.hub.tell(&text)?;
        let mut text = open_stream(Kind::DeskReader, self.dice.next(), events).text;
        text.extend_from_slice(b" K FF FF ; P L");
        push_bytes(&form::save(&Table::house_defaults()), &mut text);
        text.extend_from_slice(b" ;\n");
        self.reader.tell(&text)?;
        self.previous = None;
        self.before = None;
        self.weather = self.dice.pick(&WEATHERS);
        Ok(())
    }

    /// Any message, one that equals the packet sent before it or nearly does, or one with equal pieces.
    fn choose(&mut self) -> Message {
        let with_type = match (self.dice.weigh(&[60, 30, 10]), &self.previous) {
            (1, Some(packet)) => near(&mut self.dice, &packet[HEADER..packet.len() - CHECKSUM]),
            (2, _) => alike(&mut self.dice),
            _ => return draw(&mut self.dice),
        };
        Message { code_type: with_type[0], bytes: with_type[1..].to_vec() }
    }

    fn carry(&mut self, message: Message) -> Result<(), Breach> {
        self.counts.messages += 1;
        let mut text = b"S".to_vec();
        push_bytes(&[message.code_type], &mut text);
        push_bytes(&message.bytes, &mut text);
        text.extend_from_slice(b" ;\n");
        let mut out = Outgoing::new(message);
        let mut lines = self.reader.tell(&text)?;
        let mut timed_out = false;
        loop {
            match reader_said(&lines)? {
                Said::Nothing if timed_out => return Err("a time-out with a message out did nothing".into()),
                Said::Nothing => {
                    timed_out = true;
                    self.counts.time_outs += 1;
                    lines = self.reader.tell(b"T\n")?;
                }
                Said::Copy(gap, copy) => {
                    timed_out = false;
                    if gap {
                        self.message_gap(&mut out)?;
                    }
                    out.next_copy(&copy, &mut self.counts)?;
                    self.apart(&out)?;
                    lines = self.exchange(&mut out, &copy)?;
                }
                Said::Delivered(marked) => return self.delivered(out, marked),
                Said::Failed(marked) => return self.failed(out, marked),
            }
        }
    }

    /// The silence that the reader told of: only before the first copy of a message, and the hub has nothing to say.
    fn message_gap(&mut self, out: &mut Outgoing) -> Result<(), Breach> {
        if out.at > 0 || !out.tries.is_empty() {
            return Err("a message gap was told inside a message".into());
        }
        match self.before {
            None => return Err("a message gap was told with no message before".into()),
            Some(Before::Failed) => self.counts.gaps_after_failure += 1,
            Some(before) => {
                out.equal = true;
                self.counts.gaps_for_equal += 1;
                self.counts.gaps_for_last_piece += u64::from(before == Before::DeliveredInPieces);
            }
        }
        self.previous = None;
        if self.hub.tell(b"/\n")?.is_empty() {
            Ok(())
        } else {
            Err("the hub said something at a gap with nothing begun".into())
        }
    }

    /// A packet sent for the first time is not the one before it, the mark left out.
    fn apart(&mut self, out: &Outgoing) -> Result<(), Breach> {
        let packet = &out.packets[out.at];
        if out.tries.is_empty() && self.previous.as_ref() == Some(packet) {
            return Err("a packet equals the one before it, with no message gap between".into());
        }
        self.previous = Some(packet.clone());
        Ok(())
    }

    /// A copy to the hub and its answer back, each with its gap; gives what the reader says to it.
    fn exchange(&mut self, out: &mut Outgoing, copy: &[u8]) -> Result<Vec<String>, Breach> {
        let going = fate(&mut self.dice, self.weather.copies);
        self.counts.copies_lost += u64::from(going == Fate::Lost);
        self.counts.copies_spoiled += u64::from(going == Fate::Spoiled);
        let first_of_equal = out.equal && out.tries.is_empty();
        self.counts.equal_first_copy_bad += u64::from(first_of_equal && going != Fate::Whole);
        let arrived = after(&mut self.dice, going, copy);
        let text = self.arrival(&arrived);
        let lines = self.hub.tell(&text)?;
        let Some(answer) = out.hub_said(&lines)? else {
            out.tries.push(going == Fate::Whole);
            return Ok(Vec::new());
        };
        let coming = fate(&mut self.dice, self.weather.answers);
        self.counts.answers += 1;
        self.counts.answers_lost += u64::from(coming == Fate::Lost);
        self.counts.answers_spoiled += u64::from(coming == Fate::Spoiled);
        self.counts.equal_answer_bad += u64::from(first_of_equal && going == Fate::Whole && coming != Fate::Whole);
        out.tries.push(going == Fate::Whole && coming == Fate::Whole);
        out.acked = coming == Fate::Whole && answer[1] == CMD_ACK;
        let arrived = after(&mut self.dice, coming, &answer);
        self.reader.tell(&with_gap(&arrived))
    }

    /// What arrives of a copy, with its gap: at desk often in a block, or cut into two or three.
    fn arrival(&mut self, arrived: &[u8]) -> Vec<u8> {
        if self.hub.side != Side::DeskHub || self.dice.chance(30) {
            return with_gap(arrived);
        }
        let blocks = self.dice.pick(&[1, 1, 2, 3]);
        self.counts.copies_in_blocks.iter_mut().for_each(|count| *count += 1);
        self.counts.copies_in_several_blocks.iter_mut().for_each(|count| *count += u64::from(blocks > 1));
        let mut text = Vec::new();
        let mut left = arrived;
        for number in 1..=blocks {
            let size = if number < blocks { self.dice.between(0, left.len()) } else { left.len() };
            let (block, rest) = left.split_at(size);
            text.push(b'[');
            push_bytes(block, &mut text);
            text.extend_from_slice(b" ]");
            left = rest;
        }
        text.extend_from_slice(b" .\n");
        text
    }

    fn delivered(&mut self, out: Outgoing, marked: usize) -> Result<(), Breach> {
        self.counts.delivered += 1;
        out.marks_told(marked)?;
        if !out.handed_out {
            return Err("a message called delivered was not handed out".into());
        }
        if !out.acked || out.at + 1 != out.packets.len() {
            return Err("a message was called delivered without the ACK of its last packet".into());
        }
        self.counts.most_cut += u64::from(out.packets.iter().filter(|packet| is_cut(packet)).count() == MOST_CUT);
        self.before = Some(if out.at == 0 { Before::DeliveredWhole } else { Before::DeliveredInPieces });
        Ok(())
    }

    fn failed(&mut self, out: Outgoing, marked: usize) -> Result<(), Breach> {
        self.counts.failed += 1;
        self.counts.failed_yet_handed_out += u64::from(out.handed_out);
        out.marks_told(marked)?;
        if out.tries != [false; 3] {
            return Err(format!("a message failed with tries that came through or were not made: {:?}", out.tries));
        }
        self.before = Some(Before::Failed);
        Ok(())
    }
}

impl Outgoing {
    fn new(message: Message) -> Outgoing {
        Outgoing {
            packets: packets_of(&message),
            message,
            at: 0,
            tries: Vec::new(),
            acked: false,
            marked: 0,
            handed_out: false,
            equal: false,
        }
    }

    /// The copy must be the next packet after an ACK, else the same packet, marked, and at most three in all.
    fn next_copy(&mut self, copy: &[u8], counts: &mut Counts) -> Result<(), Breach> {
        counts.copies += 1;
        if self.acked {
            self.acked = false;
            self.at += 1;
            self.tries.clear();
        }
        let Some(packet) = self.packets.get(self.at) else {
            return Err("a packet beyond the message".into());
        };
        let again = !self.tries.is_empty();
        if copy != with_mark(packet, again) {
            return Err("the copy is not the packet due".into());
        }
        self.marked += usize::from(again);
        counts.marked_copies += u64::from(again);
        counts.third_copies += u64::from(self.tries.len() == 2);
        counts.cut_pieces += u64::from(is_cut(packet) && !again);
        counts.cut_pieces_again += u64::from(is_cut(packet) && again);
        if self.tries.len() >= 3 {
            return Err("a packet was sent more than three times".into());
        }
        Ok(())
    }

    /// Checks what the hub hands out, and gives its answer. A hub that tells refusals may have had 1 to 3.
    fn hub_said(&mut self, lines: &[String]) -> Result<Option<Vec<u8>>, Breach> {
        let mut answer = None;
        for line in lines {
            match (&line[..1], &answer) {
                ("R", None) if matches!(number_of(line)?, 1..=3) => {}
                ("A", None) => answer = Some(bytes_of(line)?),
                ("M", None) => self.hand_out(&bytes_of(line)?)?,
                // How many bytes a block call took.
                ("L", _) => {}
                _ => return Err(format!("the hub said too much: {line:?}")),
            }
        }
        Ok(answer)
    }

    fn hand_out(&mut self, bytes: &[u8]) -> Result<(), Breach> {
        if self.handed_out {
            return Err("a message was handed out twice".into());
        }
        if bytes[0] != self.message.code_type || bytes[1..] != self.message.bytes {
            return Err("a message was handed out that was not sent so".into());
        }
        self.handed_out = true;
        Ok(())
    }

    fn marks_told(&self, marked: usize) -> Result<(), Breach> {
        if marked == self.marked {
            return Ok(());
        }
        Err(format!("{marked} marked copies told, {} were written", self.marked))
    }
}

impl Counts {
    /// Nothing stands for what cannot be.
    fn rows(&self) -> Vec<(Option<u64>, &'static str)> {
        let all = [
            (self.messages, "messages"),
            (self.delivered, "delivered"),
            (self.failed, "failed"),
            (self.failed_yet_handed_out, "failed, yet handed out"),
            (self.copies, "copies"),
            (self.marked_copies, "resends (marked copies)"),
            (self.third_copies, "third copies of a packet"),
            (self.copies_lost, "copies lost"),
            (self.copies_spoiled, "copies spoiled"),
            (self.answers, "answers"),
            (self.answers_lost, "answers lost"),
            (self.answers_spoiled, "answers spoiled"),
            (self.time_outs, "time-outs"),
            (self.gaps_after_failure, "message gaps told after a failed message"),
            (self.gaps_for_equal, "message gaps told for an equal card"),
            (self.gaps_for_last_piece, "of these, equal to the last piece of a longer message"),
            (self.equal_first_copy_bad, "equal cards whose first copy was lost or spoiled"),
            (self.equal_answer_bad, "equal cards whose first answer was lost or spoiled"),
            (self.cut_pieces, "pieces cut"),
            (self.cut_pieces_again, "cut pieces resent"),
            (self.most_cut, "messages delivered with eight pieces cut"),
        ];
        let in_blocks = [
            (self.copies_in_blocks, "copies that came in blocks"),
            (self.copies_in_several_blocks, "of these, in several"),
        ];
        all.map(|(count, name)| (Some(count), name)).into_iter().chain(in_blocks).collect()
    }

    fn missed(&self) -> impl Iterator<Item = &'static str> {
        self.rows().into_iter().filter(|(count, _)| *count == Some(0)).map(|(_, name)| name)
    }

    /// The counts of both lines beside each other.
    fn print(one: &Counts, other: &Counts) {
        let cell = |count: Option<u64>| count.map_or("-".to_string(), |count| count.to_string());
        for ((one, name), (other, _)) in one.rows().into_iter().zip(other.rows()) {
            println!("{:>12}{:>12}  {name}", cell(one), cell(other));
        }
    }
}

// Messages.

/// Small alphabets and few types, so that neighbours are often nearly equal.
fn draw(dice: &mut Dice) -> Message {
    let size = match dice.weigh(&[8, 25, 37, 10, 8, 8, 4]) {
        0 => 0,
        1 => 1,
        2 => dice.between(2, 10),
        3 => dice.pick(&[249, 250, 251, 252]),
        4 => dice.pick(&[499, 500, 501, 751]),
        5 => dice.between(600, 2_000),
        _ => dice.pick(&[LONGEST_MESSAGE - 1, LONGEST_MESSAGE, LONGEST_MESSAGE]),
    };
    let letters: &[u8] = dice.pick(&[&b"8"[..], b"89", b"0123456789", &[0x00, 0x04, 0xFF, 0xF3]]);
    let code_type = dice.pick(&[0x1B, 0x1B, 0x1C]);
    let bytes: Vec<u8> = (0..size).map(|_| dice.pick(letters)).collect();
    Message { code_type, bytes }
}

/// The pieces of a message: 250 bytes each, or 249 where these would be the piece before once more; the last one is the
/// rest, and an empty message is one piece.
fn pieces_of(bytes: &[u8]) -> Vec<&[u8]> {
    let mut pieces: Vec<&[u8]> = Vec::new();
    let mut left = bytes;
    while left.len() > 250 {
        let again = pieces.last() == Some(&&left[..250]);
        let (piece, rest) = left.split_at(if again { 249 } else { 250 });
        pieces.push(piece);
        left = rest;
    }
    pieces.push(left);
    pieces
}

pub fn packets_of(message: &Message) -> Vec<Vec<u8>> {
    let pieces = pieces_of(&message.bytes);
    let last = pieces.len() - 1;
    let packet = |(i, piece): (usize, &&[u8])| {
        let status = if i < last { MORE } else { 0 };
        written(DECODE_DATA, READER, status, &[&[message.code_type], *piece].concat())
    };
    pieces.iter().enumerate().map(packet).collect()
}

/// A packet that others follow has 257 bytes, one fewer where its piece was cut.
fn is_cut(packet: &[u8]) -> bool {
    packet[3] & MORE != 0 && packet.len() < LONGEST
}

fn with_mark(packet: &[u8], marked: bool) -> Vec<u8> {
    let mark = if marked { MARK } else { 0 };
    lay_out(packet[1], packet[2], packet[3] | mark, &packet[HEADER..packet.len() - CHECKSUM])
}

// The wire.

fn fate(dice: &mut Dice, [lost, bad]: [usize; 2]) -> Fate {
    match dice.weigh(&[lost, bad, 100 - lost - bad]) {
        0 => Fate::Lost,
        1 => Fate::Spoiled,
        _ => Fate::Whole,
    }
}

/// What arrives of a copy or an answer.
fn after(dice: &mut Dice, fate: Fate, bytes: &[u8]) -> Vec<u8> {
    match fate {
        Fate::Whole => bytes.to_vec(),
        Fate::Lost => Vec::new(),
        Fate::Spoiled => loop {
            let other = spoiled(dice, bytes);
            if !other.is_empty() && holds_no_packet(&other) {
                return other;
            }
        },
    }
}

/// A framer that starts with nothing begun lets no packet through. What is not changed enough holds one.
fn holds_no_packet(bytes: &[u8]) -> bool {
    let mut framer = Framer::default();
    bytes.iter().all(|byte| !matches!(framer.take(LineEvent::Byte(*byte)), Framed::Packet(_)))
}

/// The gap comes in any case, that of a lost copy or answer too.
fn with_gap(bytes: &[u8]) -> Vec<u8> {
    let mut text = Vec::new();
    push_bytes(bytes, &mut text);
    text.extend_from_slice(b" .\n");
    text
}

// The programs' lines.

fn bytes_of(line: &str) -> Result<Vec<u8>, Breach> {
    let pairs = line.split(' ').skip(1);
    let bytes: Result<Vec<u8>, _> = pairs.map(|pair| u8::from_str_radix(pair, 16)).collect();
    bytes.map_err(|error| format!("{line:?}: {error}"))
}

fn number_of(line: &str) -> Result<usize, Breach> {
    line[1..].trim().parse().map_err(|error| format!("{line:?}: {error}"))
}

/// With a message out and no command on the line, refusals 1 to 3 may be told but nothing else sent.
fn reader_said(lines: &[String]) -> Result<Said, Breach> {
    let mut said = Said::Nothing;
    let mut gap = false;
    for line in lines {
        match (&line[..1], &said) {
            ("R", Said::Nothing) if !gap && matches!(number_of(line)?, 1..=3) => {}
            ("I", Said::Nothing) if !gap && line.len() == 1 => gap = true,
            ("C", Said::Nothing) => said = Said::Copy(gap, bytes_of(line)?),
            ("D", Said::Nothing) => said = Said::Delivered(number_of(line)?),
            ("F", Said::Nothing) => said = Said::Failed(number_of(line)?),
            _ => return Err(format!("the reader said too much: {line:?}")),
        }
    }
    if gap && !matches!(said, Said::Copy(..)) {
        return Err("a message gap was told without a copy".into());
    }
    Ok(said)
}
