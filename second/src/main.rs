//! The second program on the command line.

use std::io::Write;
use std::process::ExitCode;

use second::listing::{self, Side};
use second::program::Programs;
use second::streams::{self, Kind};
use second::{compare, line};

const USAGE: &str = "usage:
  second hub                                         the hub listing, from standard input
  second desk hub|reader                             the listings of a whole end
  second streams KIND SEED EVENTS                    write a seeded stream
  second streams KIND sweep                          write the stream that tries whole what is few enough
                                                     (KIND is hub, reader, desk-hub or desk-reader)
  second compare HUB_LISTING DESK [EVENTS [SEED]]    compare two programs with this one
  second notation HUB_LISTING DESK                   the same for every character in every state of the notation
  second line HUB_LISTING DESK [SEED [MESSAGES]]     couple them by a lossy line";

fn main() -> ExitCode {
    let words: Vec<String> = std::env::args().skip(1).collect();
    let words: Vec<&str> = words.iter().map(String::as_str).collect();
    match run(&words) {
        Some(Ok(true)) => ExitCode::SUCCESS,
        Some(Ok(false)) => ExitCode::FAILURE,
        Some(Err(error)) => {
            eprintln!("second: {error}");
            ExitCode::FAILURE
        }
        None => {
            eprintln!("{USAGE}");
            ExitCode::from(2)
        }
    }
}

/// Whether all went well; nothing for words that are not understood.
fn run(words: &[&str]) -> Option<std::io::Result<bool>> {
    match words {
        // Only desk's status tells whether something was wrong.
        ["hub"] => Some(run_listing(Side::Hub).map(|_| true)),
        ["desk", "hub"] => Some(run_desk(Side::DeskHub)),
        ["desk", "reader"] => Some(run_desk(Side::DeskReader)),
        ["streams", kind, "sweep"] => Some(write_out(&streams::sweep(Kind::named(kind)?).text)),
        ["streams", kind, seed, events] => {
            let stream = streams::stream(Kind::named(kind)?, seed.parse().ok()?, events.parse().ok()?);
            Some(write_out(&stream.text))
        }
        ["compare", hub_listing, desk, rest @ ..] if rest.len() <= 2 => {
            let [events, seed] = numbers(rest, [compare::EVENTS, 1])?;
            Some(compare::compare(&Programs { hub_listing, desk }, events, seed))
        }
        ["notation", hub_listing, desk] => Some(compare::notation(&Programs { hub_listing, desk })),
        ["line", hub_listing, desk, rest @ ..] if rest.len() <= 2 => {
            let [seed, messages] = numbers(rest, [1, line::MESSAGES])?;
            Some(line::line(&Programs { hub_listing, desk }, seed, messages))
        }
        _ => None,
    }
}

/// Gives the place at which the listing stopped.
fn run_listing(side: Side) -> std::io::Result<Option<u64>> {
    listing::run(side, std::io::stdin().lock(), std::io::stdout().lock())
}

fn run_desk(side: Side) -> std::io::Result<bool> {
    let stopped = run_listing(side)?;
    if let Some(place) = stopped {
        eprintln!("second: wrong at character {place}");
    }
    Ok(stopped.is_none())
}

fn write_out(text: &[u8]) -> std::io::Result<bool> {
    std::io::stdout().write_all(text).map(|()| true)
}

/// The numbers given, else those that stand for them.
fn numbers(words: &[&str], mut numbers: [u64; 2]) -> Option<[u64; 2]> {
    for (number, word) in numbers.iter_mut().zip(words) {
        *number = word.parse().ok()?;
    }
    Some(numbers)
}
