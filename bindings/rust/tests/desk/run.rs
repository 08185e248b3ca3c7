//! Runs of `desk`.

use std::io::Write;
use std::process::{Child, Command, Stdio};
use std::sync::mpsc;
use std::thread;
use std::time::Duration;

/// For a run or a line that is due. Only a failure takes as long.
pub const LIMIT: Duration = Duration::from_secs(60);

/// All that came of a run.
#[derive(Debug, PartialEq, Eq)]
pub struct Ran {
    pub lines: String,
    pub said: String,
    pub status: Option<i32>,
}

pub fn command(words: &[&str]) -> Command {
    let mut command = Command::new(env!("CARGO_BIN_EXE_desk"));
    command.args(words).stdin(Stdio::piped()).stdout(Stdio::piped()).stderr(Stdio::piped());
    command
}

pub fn ended(child: Child) -> Ran {
    let (end, ends) = mpsc::channel();
    thread::spawn(move || end.send(child.wait_with_output()));
    let output = ends.recv_timeout(LIMIT).expect("it ends in time").expect("it ends");
    let text = |bytes| String::from_utf8(bytes).expect("text");
    Ran { lines: text(output.stdout), said: text(output.stderr), status: output.status.code() }
}

pub fn run(words: &[&str], input: &[u8]) -> Ran {
    let mut child = command(words).spawn().expect("desk is built");
    let mut stdin = child.stdin.take().expect("a pipe");
    thread::scope(|scope| {
        // It may stop at something wrong before it has read all.
        scope.spawn(move || stdin.write_all(input));
        ended(child)
    })
}

/// The lines for a text in which nothing is wrong.
pub fn lines(end: &str, text: &str) -> String {
    let ran = run(&[end], text.as_bytes());
    assert_eq!((ran.said.as_str(), ran.status), ("", Some(0)));
    ran.lines
}

pub fn hex(bytes: &[u8]) -> String {
    bytes.iter().map(|byte| format!("{byte:02X}")).collect::<Vec<_>>().join(" ")
}
