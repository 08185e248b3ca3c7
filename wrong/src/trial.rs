//! One trial: a changed copy of a crate is checked. Many trials run side by side.

use std::collections::BTreeMap;
use std::sync::atomic::{AtomicUsize, Ordering};
use std::sync::Mutex;
use std::thread;
use std::time::Instant;

use crate::repository::Room;
use crate::Stop;

/// What became of a changed crate.
pub enum Verdict {
    /// Not proved: where the prover said so first, and whether only for the code's shape, which the proof no longer fits.
    Refused { place: String, shape: bool },
    /// Still proved.
    Survived,
    /// No program: the compiler refused it, or the change could not be made. Why, in words.
    NoProgram(String),
}

pub struct Tried {
    pub verdict: Verdict,
    pub log: String,
    /// How long the check took, and how many edits shared it.
    pub seconds: f64,
    pub edits: usize,
}

impl Tried {
    pub fn never(why: String) -> Tried {
        Tried { verdict: Verdict::NoProgram(why), log: String::new(), seconds: 0.0, edits: 1 }
    }
}

/// Checks the crate as it stands in the room.
pub fn check(room: &Room) -> Result<Tried, Stop> {
    let begin = Instant::now();
    let ran = room.checked()?;
    let log = [ran.stdout, ran.stderr].map(|bytes| plain(&String::from_utf8_lossy(&bytes))).concat();
    let verdict = verdict(ran.status.code(), &log);
    Ok(Tried { verdict, log, seconds: begin.elapsed().as_secs_f64(), edits: 1 })
}

/// A log in which every path is one below the crate's folder.
pub fn plain(log: &str) -> String {
    log.lines().map(|line| line.strip_prefix("./").unwrap_or(line).replacen("note: ./", "note: ", 1) + "\n").collect()
}

/// Refused by the prover is status 1 with its line; status 1 without that line is the compiler's. A refusal counts for what shows that a fact does
/// not hold, and not for a proof that names what the changed code does not have any more.
pub fn verdict(status: Option<i32>, log: &str) -> Verdict {
    let lines: Vec<&str> = log.lines().collect();
    let says = |start: &str| lines.iter().any(|line| line.starts_with(start));
    match status {
        Some(0) if says("logic=proved") => Verdict::Survived,
        Some(1) if says("logic=not-proved") => match lines.iter().find(|line| unread(line)) {
            Some(line) => Verdict::NoProgram(format!("the prover cannot read the changed text: {line}")),
            None => match fact(&lines) {
                Some(place) => Verdict::Refused { place, shape: false },
                None => Verdict::Refused { place: first_place(&lines), shape: true },
            },
        },
        _ => Verdict::NoProgram(format!(
            "it did not reach the prover, which ended with {status:?}: {}",
            first_line(&lines)
        )),
    }
}

/// What a log says of one function alone, with its part of the log: a refusal, if the prover says that this function is not proved and does not lay
/// it to another, and shows a fact of its own that does not hold.
pub fn own_verdict(name: &str, path: &str, log: &str) -> Option<(Verdict, String)> {
    let lines: Vec<&str> = log.lines().collect();
    let said = format!("fn {name}::{path}: ");
    let at = lines.iter().position(|line| line.starts_with(&said))?;
    let why = &lines[at][said.len()..];
    if why != "not proved" && !why.starts_with("no proof: expected answers") {
        return None;
    }
    let own = [errors_in(&folder_of(path), &lines), notes_above(at, &lines).to_vec(), vec![lines[at]]].concat();
    let place = fact(&own)?;
    Some((Verdict::Refused { place, shape: false }, own.join("\n") + "\n"))
}

/// Where a function's proof files stand.
pub fn folder_of(path: &str) -> String {
    format!("proofs/{}/", path.replace("::", "/"))
}

/// The errors in a folder, each with the indented lines behind it.
fn errors_in<'a>(folder: &str, lines: &[&'a str]) -> Vec<&'a str> {
    let mut inside = false;
    let mut own = Vec::new();
    for line in lines {
        if !line.starts_with(' ') {
            inside = line.starts_with(folder) && line.contains(": error: ");
        }
        if inside {
            own.push(*line);
        }
    }
    own
}

/// What is noted above the line on a function, behind that on the one before.
fn notes_above<'a, 'b>(at: usize, lines: &'b [&'a str]) -> &'b [&'a str] {
    let before =
        lines[..at].iter().rposition(|line| ["fn ", "struct ", "enum "].iter().any(|start| line.starts_with(start)));
    let notes = &lines[before.map_or(0, |before| before + 1)..at];
    let first = notes.iter().position(|line| line.starts_with("note: src/"));
    first.map_or(&[], |first| &notes[first..])
}

/// Where the first line of a log stands that shows that a fact does not hold: an error in a proof, or a goal that is left open. Where the function's
/// proof names what is gone, the goal may be open for want of an answer under its name, so there it must be shown to be false.
fn fact(lines: &[&str]) -> Option<String> {
    let named = |at: usize| {
        let function =
            lines[at..].iter().find_map(|line| line.strip_prefix("fn ")?.split_once(": ")).map_or("", |said| said.0);
        let folder = folder_of(function.split_once("::").map_or("", |path| path.1));
        lines.iter().any(|line| line.starts_with(&folder) && names_what_is_gone(line))
    };
    let shows = |at: usize| {
        let line = lines[at];
        let open = line.starts_with("note: src/") && line.contains(": it is not proved that ");
        is_error(line) && line.contains(": error: `") && !names_what_is_gone(line)
            || open && (line.contains("the facts known there allow values at which this goal is false") || !named(at))
    };
    (0..lines.len()).find(|at| shows(*at)).map(|at| place(lines[at]))
}

/// An error whose first word is its place.
fn is_error(line: &str) -> bool {
    line.split_once(": error: ").is_some_and(|(place, _)| !place.contains(' '))
}

/// Whether an error is about names alone: in a proof it says nothing of whether the code is right.
fn names_what_is_gone(line: &str) -> bool {
    is_error(line)
        && ["that can be named from here", "has no field", "is not in scope", "was not admitted"]
            .iter()
            .any(|said| line.contains(said))
}

/// Whether an error is one of src/ or specs/. What is stated there is to read well, also where an edit makes it false.
fn unread(line: &str) -> bool {
    is_error(line) && ["src/", "specs/"].iter().any(|part| line.starts_with(part))
}

/// Where the first error stands; a refusal without one stands in a note.
fn first_place(lines: &[&str]) -> String {
    let error = lines.iter().find(|line| is_error(line));
    error
        .or_else(|| lines.iter().find(|line| line.starts_with("note: ")))
        .map_or("no place told".to_string(), |line| place(line))
}

fn place(line: &str) -> String {
    let line = line.strip_prefix("note: ").unwrap_or(line);
    line.split_whitespace().next().unwrap_or("").trim_end_matches(':').to_string()
}

fn first_line<'a>(lines: &[&'a str]) -> &'a str {
    lines.iter().find(|line| line.contains("error")).unwrap_or(&"nothing said")
}

fn workers() -> usize {
    let told = std::env::var("RT_JOBS").ok().and_then(|jobs| jobs.parse().ok());
    told.unwrap_or_else(|| thread::available_parallelism().map_or(1, |number| number.get())).max(1)
}

/// Does work 0 to count - 1 on as many threads as there are cores, each with its own slot. `show` gets the results in order, each as soon
/// as those before it are there.
pub fn side_by_side<T: Send>(
    count: usize,
    work: impl Fn(usize, usize) -> T + Sync,
    mut show: impl FnMut(usize, &T),
) -> Vec<T> {
    let next = AtomicUsize::new(0);
    let done: Mutex<BTreeMap<usize, T>> = Mutex::new(BTreeMap::new());
    let (send, ended) = std::sync::mpsc::channel();
    let mut shown = 0;
    let mut results = Vec::new();
    thread::scope(|scope| {
        for slot in 0..workers().min(count) {
            let (next, done, work, send) = (&next, &done, &work, send.clone());
            scope.spawn(move || loop {
                let number = next.fetch_add(1, Ordering::Relaxed);
                if number >= count {
                    return;
                }
                let result = work(number, slot);
                done.lock().expect("no worker broke").insert(number, result);
                let _ = send.send(());
            });
        }
        drop(send);
        while ended.recv().is_ok() {
            while let Some(result) = done.lock().expect("no worker broke").remove(&shown) {
                show(shown, &result);
                results.push(result);
                shown += 1;
            }
        }
    });
    results
}
