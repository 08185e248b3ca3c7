//! The library's figures: time and instructions beside a hand-written peer in C, the second program and a bare sum;
//! stack, states, code, and the bars to keep to.

mod bars;
mod calls;
mod clock;
mod count;
mod in_c;
mod in_place;
mod other;
mod passes;
mod paths;
mod peer;
mod proved;
mod same;
mod sizes;
mod stack;
mod streams;
mod table;
mod work;

use std::process::ExitCode;

use bars::Measured;
use sizes::Code;
use work::{Inputs, TimedRow};

const USAGE: &str = "usage: speed DIRECTORY [--quick] [--emulated]
DIRECTORY holds what `size` and `nm -S` say of the archive, the peer and the small programs, as speed/run writes it.";

/// How much is done: rounds of timing, seeded streams over which the peer is compared, and about how many bytes are in
/// each input whose instructions are counted, which takes a thousand times as long as timing. Of the few that a quick
/// run counts garbage has some twenty parts, and its row differs from that of a whole run by a twentieth.
struct Amount {
    rounds: usize,
    streams: u64,
    counted: usize,
}

const WHOLE: Amount = Amount { rounds: 20, streams: 100, counted: 1 << 14 };
const QUICK: Amount = Amount { rounds: 3, streams: 20, counted: 1 << 12 };

/// About so many bytes are in each input that is timed: more than a predictor of branches learns, and less than a cache
/// holds.
const TIMED: usize = 1 << 16;

fn main() -> ExitCode {
    let words: Vec<String> = std::env::args().skip(1).collect();
    let words: Vec<&str> = words.iter().map(String::as_str).collect();
    let done = match words[..] {
        [directory] => run(directory, WHOLE, false),
        [directory, "--quick"] => run(directory, QUICK, false),
        [directory, "--emulated"] => run(directory, WHOLE, true),
        [directory, "--emulated", "--quick"] => run(directory, QUICK, true),
        _ => Err(USAGE.to_string()),
    };
    match done {
        Ok(()) => ExitCode::SUCCESS,
        Err(why) => {
            eprintln!("speed: {why}");
            ExitCode::FAILURE
        }
    }
}

/// Missed bars are no failure, different results are one.
fn run(directory: &str, amount: Amount, emulated: bool) -> Result<(), String> {
    let code = Code::read(directory)?;
    let depths = paths::depths()?;
    let calls = depths.keys().filter(|name| name.starts_with("mk_"));
    if !calls.eq(code.calls.keys()) {
        return Err("the calls whose stack is measured are not those of the archive".to_string());
    }
    let compared = same::compare(amount.streams)?;
    println!("Peer and second program do the same in {compared} calls.");
    println!("{}\n", in_place::compare()?);
    let counted = match count::calibrate() {
        Ok(()) => Some(counted(amount.counted)?),
        Err(why) => {
            println!("{why}: instructions are not counted here.\n");
            None
        }
    };
    let inputs = Inputs::new(TIMED);
    let timed = timed(&inputs, amount.rounds)?;
    if let Some(rows) = &counted {
        table::counts(rows);
        println!();
    }
    let worth = if emulated { " Under an emulator they say nothing." } else { "" };
    println!("Smallest times of {} rounds, in which all take turns.{worth}\n", amount.rounds);
    table::times(&timed);
    println!();
    table::calls(&depths, &code);
    println!();
    table::states(&sizes::states());
    println!();
    match counted.filter(|_| emulated) {
        Some(counted) => bars::print("by instructions counted", &counted, &depths, &code),
        None => bars::print("by time", &timed.iter().map(measured).collect::<Vec<_>>(), &depths, &code),
    }
    Ok(())
}

fn measured(row: &TimedRow) -> Measured {
    Measured { name: row.name, events: row.events, bars: row.bars.clone(), took: row.took() }
}

fn counted(volume: usize) -> Result<Vec<Measured>, String> {
    let inputs = Inputs::new(volume);
    let rows = work::rows(&inputs)?;
    rows.into_iter()
        .map(|row| {
            let (name, events, bars) = (row.name, row.events, row.bars.clone());
            Ok(Measured { name, events, bars, took: row.counts()? })
        })
        .collect()
}

fn timed(inputs: &Inputs, rounds: usize) -> Result<Vec<TimedRow<'_>>, String> {
    let mut rows: Vec<TimedRow> = work::rows(inputs)?.into_iter().map(work::Row::timed).collect();
    // All rows take their turn in each round, so that a time of much other load falls on few rounds of each.
    for _ in 0..rounds {
        rows.iter_mut().try_for_each(TimedRow::round)?;
    }
    Ok(rows)
}
