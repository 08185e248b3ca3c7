//! Compares the proved programs with this one over short texts, sweeps and many seeded streams, byte by byte.

use std::io::Write;
use std::sync::atomic::{AtomicU64, Ordering};
use std::sync::{Arc, Mutex};
use std::thread;
use std::time::{Duration, Instant};

use crate::listing::{output, Side};
use crate::program::{stopped, Programs, Ran, SIDES};
use crate::shrink::shrink;
use crate::sights::Sights;
use crate::streams::{every_text, stream, sweep, texts, Kind};
use crate::watch_hub::HubWatch;
use crate::watch_reader::ReaderWatch;

pub const EVENTS: u64 = 6_000_000;
const WORKERS: usize = 2;
/// Half of the streams are long enough to get deep, the others short, so that many endings are tried.
const LONG: u64 = 20_000;
const SHORT: u64 = 100;
const PROGRESS: u64 = 5_000_000;
const RUN_LIMIT: Duration = Duration::from_secs(60);
const SHRINK_RUN_LIMIT: Duration = Duration::from_secs(5);
const SHRINK_LIMIT: Duration = Duration::from_secs(90);
/// Of long outputs only this many lines around the first difference are shown.
const SHOWN: usize = 40;
/// Of long lines only front and end, so many characters at most.
const LINE_SHOWN: usize = 400;

/// One input for one of the programs.
#[derive(Clone)]
struct Job {
    side: Side,
    input: Input,
}

#[derive(Clone)]
enum Input {
    Text(Vec<u8>),
    Sweep(Kind),
    /// Seed and number of events.
    Drawn(Kind, u64, u64),
}

/// What goes to the program, with what is counted of it.
struct Made {
    text: Vec<u8>,
    events: u64,
    sights: Option<Sights>,
}

/// Each program with the kinds of streams that it can read.
const READ: [(Side, Kind); 5] = [
    (Side::Hub, Kind::Hub),
    (Side::DeskHub, Kind::Hub),
    (Side::DeskHub, Kind::DeskHub),
    (Side::DeskReader, Kind::Reader),
    (Side::DeskReader, Kind::DeskReader),
];

impl Job {
    /// What is tried in every comparison: the longest first, so that no worker is left alone with it.
    fn fixed() -> Vec<Job> {
        let sweeps = READ.map(|(side, kind)| Job { side, input: Input::Sweep(kind) });
        sweeps.into_iter().chain(Job::texts(texts)).collect()
    }

    fn texts(of: fn(Side) -> Vec<Vec<u8>>) -> impl Iterator<Item = Job> {
        let job = |side, text| Job { side, input: Input::Text(text) };
        SIDES.into_iter().flat_map(move |side| of(side).into_iter().map(move |text| job(side, text)))
    }

    /// In each round every program gets every kind that it can read. The hub's have an even number, the reader's an odd
    /// one, and in every second round they are long.
    fn drawn(first_seed: u64, number: u64) -> Job {
        let kinds = READ.len() as u64;
        let (round, place) = (number / kinds, number % kinds);
        let (side, kind) = READ[place as usize];
        let events = [LONG, SHORT][(round % 2) as usize];
        let seed = first_seed.wrapping_add(2 + 2 * round + u64::from(side == Side::DeskReader));
        Job { side, input: Input::Drawn(kind, seed, events) }
    }

    fn make(&self) -> Made {
        match &self.input {
            Input::Text(text) => Made { text: text.clone(), events: 0, sights: None },
            Input::Sweep(kind) => {
                // What the sweeps reach says nothing about the drawn streams.
                let made = sweep(*kind);
                Made { text: made.text, events: made.events, sights: None }
            }
            Input::Drawn(kind, seed, events) => {
                let made = stream(*kind, *seed, *events);
                Made { text: made.text, events: made.events, sights: Some(made.sights) }
            }
        }
    }

    /// What the input is, or the command that writes it.
    fn origin(&self) -> String {
        match &self.input {
            Input::Text(_) => "a short text".to_string(),
            Input::Sweep(kind) => format!("the stream of: second streams {} sweep", kind.name()),
            Input::Drawn(kind, seed, events) => {
                format!("the stream of: second streams {} {seed} {events}", kind.name())
            }
        }
    }
}

struct Tally {
    texts: u64,
    streams: u64,
    events: u64,
    sweep_events: u64,
    /// In the order of `SIDES`, as the next two.
    events_of: [u64; 3],
    /// Streams whose ending is right, and is wrong.
    endings_of: [[u64; 2]; 3],
    sights: [Sights; 3],
    difference: Option<(Job, Vec<u8>)>,
    error: Option<std::io::Error>,
}

impl Tally {
    fn new() -> Tally {
        Tally {
            texts: 0,
            streams: 0,
            events: 0,
            sweep_events: 0,
            events_of: [0; 3],
            endings_of: [[0; 2]; 3],
            sights: SIDES.map(no_sights),
            difference: None,
            error: None,
        }
    }

    fn broken_off(&self) -> bool {
        self.difference.is_some() || self.error.is_some()
    }

    fn count(&mut self, job: &Job, made: &Made, stopped: bool, wanted: u64) {
        match (&job.input, &made.sights) {
            (Input::Text(_), _) => self.texts += 1,
            (Input::Sweep(_), _) => self.sweep_events += made.events,
            (Input::Drawn(..), sights) => {
                let place = SIDES.iter().position(|side| *side == job.side).expect("one of the three");
                sights.iter().for_each(|sights| self.sights[place].add(sights));
                self.events_of[place] += made.events;
                self.endings_of[place][usize::from(stopped)] += 1;
                self.count_stream(made.events, wanted);
            }
        }
    }

    fn count_stream(&mut self, events: u64, wanted: u64) {
        let before = self.events / PROGRESS;
        self.streams += 1;
        self.events += events;
        if self.events / PROGRESS > before && wanted > EVENTS {
            eprintln!("{} of {wanted} events, {} streams, no difference", self.events, self.streams);
        }
    }
}

/// Nothing reached yet.
fn no_sights(side: Side) -> Sights {
    match side {
        Side::Hub => HubWatch::new(false).sights,
        Side::DeskHub => HubWatch::new(true).sights,
        Side::DeskReader => ReaderWatch::new(true).sights,
    }
}

/// The jobs of a run, one after the other for whoever asks.
struct Jobs {
    fixed: Vec<Job>,
    events: u64,
    first_seed: u64,
    next: AtomicU64,
    tally: Mutex<Tally>,
}

impl Jobs {
    fn next(&self) -> Option<Job> {
        let tally = self.tally.lock().expect("no worker broke");
        let number = self.next.fetch_add(1, Ordering::Relaxed);
        let fixed = self.fixed.get(number as usize).cloned();
        if tally.broken_off() || fixed.is_none() && tally.events >= self.events {
            return None;
        }
        fixed.or_else(|| Some(Job::drawn(self.first_seed, number - self.fixed.len() as u64)))
    }

    fn work(&self, programs: &Programs) {
        while let Some(job) = self.next() {
            let mut made = job.make();
            let text = Arc::new(std::mem::take(&mut made.text));
            let ran = run_both(programs, job.side, &text, RUN_LIMIT);
            let mut tally = self.tally.lock().expect("no worker broke");
            match ran {
                Err(error) => tally.error = Some(error),
                Ok((own, ran)) if ran.as_due(job.side, &own) => tally.count(&job, &made, stopped(&own), self.events),
                Ok(_) => tally.difference = Some((job, text.to_vec())),
            }
        }
    }
}

/// Whether all went well: no difference, and everything reached that can be.
pub fn compare(programs: &Programs, events: u64, first_seed: u64) -> std::io::Result<bool> {
    let begin = Instant::now();
    let tally = tally(programs, Job::fixed(), events, first_seed)?;
    if tally.difference.is_none() {
        report(&tally, begin.elapsed());
    }
    Ok(tally.difference.is_none() && all_reached(&tally))
}

/// The same for every character in every state of the notation, and nothing else.
pub fn notation(programs: &Programs) -> std::io::Result<bool> {
    let tally = tally(programs, Job::texts(every_text).collect(), 0, 0)?;
    if tally.difference.is_none() {
        println!("no difference: {} short texts", tally.texts);
    }
    Ok(tally.difference.is_none())
}

/// Does the jobs given and those drawn. A difference has been told of.
fn tally(programs: &Programs, fixed: Vec<Job>, events: u64, first_seed: u64) -> std::io::Result<Tally> {
    let (next, tally) = (AtomicU64::new(0), Mutex::new(Tally::new()));
    let jobs = Jobs { fixed, events, first_seed, next, tally };
    thread::scope(|scope| {
        for _ in 0..WORKERS {
            scope.spawn(|| jobs.work(programs));
        }
    });
    let mut tally = jobs.tally.into_inner().expect("no worker broke");
    if let Some(error) = tally.error.take() {
        return Err(error);
    }
    if let Some((job, text)) = &tally.difference {
        report_difference(programs, job, text)?;
    }
    Ok(tally)
}

/// This program's output and what the other one did, on the same input at the same time.
fn run_both(programs: &Programs, side: Side, text: &Arc<Vec<u8>>, limit: Duration) -> std::io::Result<(Vec<u8>, Ran)> {
    let running = programs.start(side, Arc::clone(text))?;
    let own = output(side, text);
    Ok((own, running.finish(limit)?))
}

// A difference.

fn report_difference(programs: &Programs, job: &Job, text: &[u8]) -> std::io::Result<()> {
    let side = job.side;
    println!("DIFFERENCE of {} in {}", side.program(), job.origin());
    let deadline = Instant::now() + SHRINK_LIMIT;
    let mut differs = |text: &[u8]| {
        let text = Arc::new(text.to_vec());
        Instant::now() < deadline
            && run_both(programs, side, &text, SHRINK_RUN_LIMIT).is_ok_and(|(own, ran)| !ran.as_due(side, &own))
    };
    let small = Arc::new(shrink(text, &mut differs));
    let (own, ran) = run_both(programs, side, &small, SHRINK_RUN_LIMIT)?;
    let mut out = std::io::stdout().lock();
    writeln!(out, "shrunk to {} characters:", small.len())?;
    writeln!(out, "{}", small.escape_ascii().to_string().replace("\\n", "\n"))?;
    let from = first_difference(&own, &ran.output).saturating_sub(SHOWN / 2);
    writeln!(out, "the second program prints:")?;
    show_lines(&mut out, &own, from)?;
    writeln!(out, "{} prints ({}):", side.program(), ran.note())?;
    show_lines(&mut out, &ran.output, from)
}

/// The number of the first line that is not the same in both.
fn first_difference(one: &[u8], other: &[u8]) -> usize {
    let alike = one.iter().zip(other).take_while(|(a, b)| a == b);
    alike.filter(|(character, _)| **character == b'\n').count()
}

fn show_lines(out: &mut impl Write, output: &[u8], from: usize) -> std::io::Result<()> {
    if from > 0 {
        writeln!(out, "  ({from} lines alike)")?;
    }
    let lines: Vec<&[u8]> = output.split_inclusive(|character| *character == b'\n').collect();
    for line in lines.iter().skip(from).take(SHOWN) {
        // The line end itself tells nothing unless it is missing.
        let (text, end) = line.strip_suffix(b"\n").map_or((*line, " (no line end)"), |text| (text, ""));
        writeln!(out, "  {}{end}", shortened(text))?;
    }
    if lines.len() > from + SHOWN {
        writeln!(out, "  ({} lines more)", lines.len() - from - SHOWN)?;
    }
    Ok(())
}

/// A line, without its middle if that is long.
fn shortened(line: &[u8]) -> String {
    if line.len() <= LINE_SHOWN {
        return line.escape_ascii().to_string();
    }
    let (front, back) = (&line[..LINE_SHOWN / 2], &line[line.len() - LINE_SHOWN / 4..]);
    format!("{} ({} characters) {}", front.escape_ascii(), line.len(), back.escape_ascii())
}

// No difference.

/// Number, meaning, and whether each program, in the order of `SIDES`, can reach it.
const REFUSALS: [(usize, &str, [bool; 3]); 14] = [
    (1, "length below 4", [true; 3]),
    (2, "checksum wrong", [true; 3]),
    (3, "cut by a gap", [true; 3]),
    (4, "wrong source", [true; 3]),
    (5, "status bit not allowed", [true; 3]),
    (6, "opcode unknown", [true; 3]),
    (7, "data length wrong", [true; 3]),
    (8, "beep code not allowed", [false, false, true]),
    (9, "parameter or value not allowed", [false, false, true]),
    (10, "hub: barred, other type, too long", [true, true, false]),
    (11, "sender: too long, or one still out", [false, false, true]),
    (12, "form of a saved set not right", [false, false, true]),
    (13, "lent room too small", [false, true, true]),
    (15, "more bytes than a call takes", [false, true, false]),
];

fn report(tally: &Tally, took: Duration) {
    let seconds = took.as_secs_f64();
    let speed = (tally.events + tally.sweep_events) as f64 / seconds;
    println!("no difference: {} events in {} seeded streams,", tally.events, tally.streams);
    println!("{} in {} sweeps and {} short texts,", tally.sweep_events, READ.len(), tally.texts);
    println!("{seconds:.1} s, {speed:.0} events a second");
    println!("\n{:<42}{}", "", columns(SIDES.map(Side::program)));
    println!("{:<42}{}", "      events in seeded streams", columns(tally.events_of));
    println!("{:<42}{}", "      streams that end right", columns(tally.endings_of.map(|endings| endings[0])));
    println!("{:<42}{}", "      streams that end wrong", columns(tally.endings_of.map(|endings| endings[1])));
    for (number, meaning, reachable) in REFUSALS {
        let refused = [0, 1, 2].map(|place| refused(&tally.sights[place], number, reachable[place]));
        println!("{number:>4}  {meaning:<36}{}", columns(refused));
    }
    println!("      (hub_listing always lends full rooms, so it cannot reach 13)");
    for (side, sights) in SIDES.into_iter().zip(&tally.sights) {
        println!("\nstates reached at {}", side.program());
        sights.rows().iter().for_each(|row| println!("{row}"));
    }
}

fn columns<T: ToString>(cells: [T; 3]) -> String {
    cells.map(|cell| format!("{:>13}", cell.to_string())).concat()
}

fn refused(sights: &Sights, number: usize, reachable: bool) -> String {
    if reachable {
        sights.refused(number).to_string()
    } else {
        "-".to_string()
    }
}

fn all_reached(tally: &Tally) -> bool {
    let mut missed: Vec<String> = Vec::new();
    for (place, (side, sights)) in SIDES.into_iter().zip(&tally.sights).enumerate() {
        let due = REFUSALS.iter().filter(|(_, _, reachable)| reachable[place]);
        let never = due.filter(|(number, _, _)| sights.refused(*number) == 0);
        missed.extend(never.map(|(number, _, _)| format!("{}: refusal {number}", side.program())));
        if tally.endings_of[place].contains(&0) {
            missed.push(format!("{}: endings of streams, right and wrong", side.program()));
        }
        missed.extend(sights.missing().iter().map(|name| format!("{}: {name}", side.program())));
    }
    if missed.is_empty() {
        println!("\nall reached");
    } else {
        println!("\nNEVER REACHED, use more events:");
        missed.iter().for_each(|name| println!("  {name}"));
    }
    missed.is_empty()
}
