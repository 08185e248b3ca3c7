//! Wrong programs on the command line: the edits of `wrong/CRATE/`, and mutants of a crate's code. The prover must refuse them.

mod code;
mod edit;
mod edits;
mod files;
mod mutants;
mod operators;
mod repository;
#[cfg(test)]
mod tests;
mod together;
mod trial;

use std::process::ExitCode;

use repository::Repository;

const USAGE: &str = "usage, at the root of the repository:
  wrong edits [CRATE | CRATE/LABEL ..]    try the wrong programs of wrong/CRATE/*.edit
  wrong mutants PART [COUNT [SEED]]       try seeded one-place changes of a crate's code, or of CRATE::MODULE or CRATE::FUNCTION";

/// What stopped the work, in words.
pub type Stop = String;

fn main() -> ExitCode {
    let words: Vec<String> = std::env::args().skip(1).collect();
    let words: Vec<&str> = words.iter().map(String::as_str).collect();
    match run(&words) {
        Some(Ok(true)) => ExitCode::SUCCESS,
        Some(Ok(false)) => ExitCode::FAILURE,
        Some(Err(stop)) => {
            eprintln!("wrong: {stop}");
            ExitCode::from(2)
        }
        None => {
            eprintln!("{USAGE}");
            ExitCode::from(2)
        }
    }
}

/// Whether every wrong program was refused; nothing for words that are not understood.
fn run(words: &[&str]) -> Option<Result<bool, Stop>> {
    match words {
        ["edits", parts @ ..] => Some(Repository::here().and_then(|repository| edits::try_edits(&repository, parts))),
        ["mutants", part, rest @ ..] if rest.len() <= 2 => {
            let count = rest.first().map_or(Some(40), |word| word.parse().ok())?;
            let seed = rest.get(1).map_or(Some(1), |word| word.parse().ok())?;
            Some(Repository::here().and_then(|repository| mutants::try_mutants(&repository, part, count, seed)))
        }
        _ => None,
    }
}
