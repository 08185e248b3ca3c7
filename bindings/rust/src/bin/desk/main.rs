//! `desk`: either end of the line on the desk, driven by characters, and the story of sample 8.

mod hub;
mod lines;
mod notation;
mod reader;
mod session;
mod story;
#[cfg(test)]
mod sweep;
mod wrong;

use std::env;
use std::ffi::OsString;
use std::io::{self, ErrorKind, Write};
use std::process::ExitCode;

const HELP: &str = include_str!("help.txt");
const USAGE: &str = "usage: desk hub | desk reader | desk story | desk --help";

/// Why it ends before its input does.
pub enum Stop {
    Usage,
    Wrong(wrong::Wrong),
    Read(io::Error),
    Write(io::Error),
}

fn main() -> ExitCode {
    let words: Vec<OsString> = env::args_os().skip(1).collect();
    let words: Vec<&str> = words.iter().map(|word| word.to_str().unwrap_or("?")).collect();
    let (mut input, mut output) = (io::stdin().lock(), io::stdout().lock());
    let done = match words[..] {
        ["hub"] => session::run(hub::Hub::new(), &mut input, &mut output),
        ["reader"] => session::run(reader::Reader::new(), &mut input, &mut output),
        ["story"] => print(&story::told(), &mut output),
        ["--help" | "-h" | "help"] => print(HELP, &mut output),
        _ => Err(Stop::Usage),
    };
    match done {
        Ok(()) => ExitCode::SUCCESS,
        Err(Stop::Usage) => say(USAGE, 2),
        Err(Stop::Wrong(wrong)) => say(&format!("desk: {wrong}"), 1),
        Err(Stop::Read(why)) => say(&format!("desk: the input cannot be read: {why}"), 1),
        // Nobody listens any more: no fault, and nothing to say.
        Err(Stop::Write(why)) if why.kind() == ErrorKind::BrokenPipe => ExitCode::FAILURE,
        Err(Stop::Write(why)) => say(&format!("desk: the output cannot be written: {why}"), 1),
    }
}

fn print(text: &str, output: &mut impl Write) -> Result<(), Stop> {
    output.write_all(text.as_bytes()).and_then(|()| output.flush()).map_err(Stop::Write)
}

/// A message on standard error, where there is one.
fn say(message: &str, status: u8) -> ExitCode {
    let _ = writeln!(io::stderr(), "{message}");
    ExitCode::from(status)
}
