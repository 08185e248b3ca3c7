//! Runs the programs under comparison.

use std::io::{Read, Write};
use std::process::{Child, ChildStdin, ChildStdout, Command, ExitStatus, Stdio};
use std::sync::mpsc::{channel, Receiver};
use std::sync::Arc;
use std::thread;
use std::time::Duration;

use crate::listing::Side;

/// Where the programs stand.
pub struct Programs<'a> {
    pub hub_listing: &'a str,
    pub desk: &'a str,
}

/// All three, in the order in which they are told of.
pub const SIDES: [Side; 3] = [Side::Hub, Side::DeskHub, Side::DeskReader];

impl Side {
    /// The program that has to print this side's listing.
    pub fn program(self) -> &'static str {
        match self {
            Side::Hub => "hub_listing",
            Side::DeskHub => "desk hub",
            Side::DeskReader => "desk reader",
        }
    }

    fn word(self) -> Option<&'static str> {
        match self {
            Side::Hub => None,
            Side::DeskHub => Some("hub"),
            Side::DeskReader => Some("reader"),
        }
    }
}

impl Programs<'_> {
    fn path(&self, side: Side) -> &str {
        match side {
            Side::Hub => self.hub_listing,
            Side::DeskHub | Side::DeskReader => self.desk,
        }
    }

    /// Starts a program with pipes to and from it. Desk has to say where it stops: that fits into a pipe, so it can be
    /// read when the program has ended.
    pub fn spawn(&self, side: Side) -> std::io::Result<(Child, ChildStdin, ChildStdout)> {
        let path = self.path(side);
        let errors = if side == Side::Hub { Stdio::inherit() } else { Stdio::piped() };
        let mut command = Command::new(path);
        let spawned = command.args(side.word()).stdin(Stdio::piped()).stdout(Stdio::piped()).stderr(errors).spawn();
        let mut child = spawned.map_err(|error| std::io::Error::new(error.kind(), format!("{path}: {error}")))?;
        let to = child.stdin.take().expect("a pipe");
        let from = child.stdout.take().expect("a pipe");
        Ok((child, to, from))
    }

    /// Starts a program and feeds it, so that the caller can work meanwhile.
    pub fn start(&self, side: Side, input: Arc<Vec<u8>>) -> std::io::Result<Running> {
        let (child, mut to, mut from) = self.spawn(side)?;
        thread::spawn(move || {
            // A program that met a wrong character has gone before it read the rest.
            let _ = to.write_all(&input);
        });
        let (send, output) = channel();
        thread::spawn(move || {
            let mut all = Vec::new();
            let _ = from.read_to_end(&mut all);
            let _ = send.send(all);
        });
        Ok(Running { child, output })
    }
}

/// What a program that has ended said on standard error.
pub fn said(child: &mut Child) -> Vec<u8> {
    let mut said = Vec::new();
    if let Some(mut errors) = child.stderr.take() {
        let _ = errors.read_to_end(&mut said);
    }
    said
}

pub struct Running {
    child: Child,
    output: Receiver<Vec<u8>>,
}

impl Running {
    pub fn finish(mut self, limit: Duration) -> std::io::Result<Ran> {
        let Ok(output) = self.output.recv_timeout(limit) else {
            self.child.kill()?;
            self.child.wait()?;
            return Ok(Ran { output: Vec::new(), ended: None });
        };
        let status = self.child.wait()?;
        let said = said(&mut self.child);
        Ok(Ran { output, ended: Some(Ended { status, said }) })
    }
}

/// What a program did with a whole input.
pub struct Ran {
    pub output: Vec<u8>,
    /// Nothing where it had to be stopped.
    ended: Option<Ended>,
}

struct Ended {
    status: ExitStatus,
    /// What came on standard error.
    said: Vec<u8>,
}

/// Whether the last line says that there was something wrong.
pub fn stopped(output: &[u8]) -> bool {
    output == b"E\n" || output.ends_with(b"\nE\n")
}

/// The exit code of a panic.
const PANIC: i32 = 101;

impl Ran {
    /// A run that ended by itself, for the tests.
    #[cfg(test)]
    pub fn ended(output: Vec<u8>, code: i32, said: Vec<u8>) -> Ran {
        use std::os::unix::process::ExitStatusExt;
        Ran { output, ended: Some(Ended { status: ExitStatus::from_raw(code << 8), said }) }
    }

    /// It printed just this and ended as it has to after it.
    pub fn as_due(&self, side: Side, output: &[u8]) -> bool {
        self.output == output && self.ended.as_ref().is_some_and(|ended| ended.as_due(side, stopped(output)))
    }

    /// What else is to be told of the run.
    pub fn note(&self) -> String {
        match &self.ended {
            None => "did not end in time".to_string(),
            Some(ended) if ended.said.is_empty() => ended.status.to_string(),
            Some(ended) => format!("{}, and said: {}", ended.status, ended.said.escape_ascii()),
        }
    }
}

impl Ended {
    /// By itself; desk also with a status other than 0 and a word about it just where it stopped at something wrong.
    fn as_due(&self, side: Side, stopped: bool) -> bool {
        match self.status.code() {
            None | Some(PANIC) => false,
            Some(_) if side == Side::Hub => true,
            Some(code) => (code != 0) == stopped && self.said.is_empty() != stopped,
        }
    }
}
