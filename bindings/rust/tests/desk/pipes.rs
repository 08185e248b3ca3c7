//! Lines are written before more is awaited; what happens where input or output fails.

use std::fs::File;
use std::io::{BufRead, BufReader, Write};
use std::process::Stdio;
use std::sync::mpsc;
use std::thread;

use crate::run::{command, ended, LIMIT};

/// Sends each text a character at a time, and no more until its lines have come.
fn converse(end: &str, parts: &[(&str, &[&str])]) {
    let mut child = command(&[end]).spawn().expect("desk is built");
    let (mut input, output) = (child.stdin.take().expect("a pipe"), child.stdout.take().expect("a pipe"));
    let (line, lines) = mpsc::channel();
    thread::spawn(move || BufReader::new(output).lines().map_while(Result::ok).try_for_each(|text| line.send(text)));
    for (text, due) in parts {
        for character in text.as_bytes() {
            input.write_all(&[*character]).expect("it reads on");
        }
        for expected in *due {
            assert_eq!(lines.recv_timeout(LIMIT).as_deref(), Ok(*expected), "after {text:?}");
        }
    }
    drop(input);
    assert_eq!(lines.recv_timeout(LIMIT), Err(mpsc::RecvTimeoutError::Disconnected), "no line more");
    let ran = ended(child);
    assert_eq!((ran.said.as_str(), ran.status), ("", Some(0)));
}

#[test]
fn the_hub_tells_at_once() {
    let ack = "A 04 D0 04 00 FF 28";
    converse(
        "hub",
        &[
            ("06 F3 00 00 1B 38 FE B4", &["M 1B 38", ack]),
            (". 06 F3 00 01 1B 38 FE B3", &[ack]),
            (". [06 F3 00 01 1B 38 FE B3 06]", &[ack, "L 9"]),
            (". 03", &["R 3", "A 05 D1 04 00 01 FF 25", "R 1", "A 05 D1 04 00 01 FF 25"]),
            ("K0006; .", &["R 13"]),
            ("/", &["R 13"]),
        ],
    );
}

#[test]
fn the_reader_tells_at_once() {
    converse(
        "reader",
        &[
            ("05 E6 04 00 01 FF 10", &["B 0 0 2", "G 1 0 0 0", "A 04 D0 00 00 FF 2C"]),
            (". S1b38;", &["C 06 F3 00 00 1B 38 FE B4"]),
            ("T", &["C 06 F3 00 01 1B 38 FE B3"]),
            ("04 D0 04 00 FF 28", &["D 1"]),
            (". S1b38;", &["I", "C 06 F3 00 00 1B 38 FE B4"]),
            ("P U", &["U 00 0A 00 14 06 04 01 00 01"]),
            ("L ;", &["R 12"]),
            ("W", &["W 01 09 80 00 89 0A 8A 00 9B 14 9C 06 9E 04 9F 01 ED 00 EE 01 00"]),
        ],
    );
}

/// `E` too, though more input may come.
#[test]
fn it_stops_at_once() {
    for (end, text) in
        [("hub", "03 T"), ("reader", "03 H"), ("hub", "03 . 0 "), ("reader", "03 K 00 ;"), ("hub", "03 [06.")]
    {
        let mut child = command(&[end]).spawn().expect("desk is built");
        let mut input = child.stdin.take().expect("a pipe");
        input.write_all(text.as_bytes()).expect("it reads");
        // The pipe stays open: it ends by itself.
        let ran = ended(child);
        drop(input);
        assert_eq!((ran.lines.starts_with("R 1\nA 05 D1"), ran.lines.ends_with("\nE\n")), (true, true), "{text}");
        assert_eq!(ran.status, Some(1));
    }
}

#[test]
fn nobody_listens() {
    for words in [&["hub"][..], &["story"], &["--help"]] {
        let (reader, writer) = std::io::pipe().expect("a pipe");
        drop(reader);
        let mut child = command(words).stdout(Stdio::from(writer)).spawn().expect("desk is built");
        let mut input = child.stdin.take().expect("a pipe");
        // The hub has something to tell of this; the others read nothing.
        let _ = input.write_all(b"03 .");
        let ran = ended(child);
        assert_eq!((ran.said.as_str(), ran.status), ("", Some(1)), "{words:?}");
    }
}

#[test]
fn input_or_output_is_refused() {
    let directory = File::open("/").expect("a directory");
    let ran = ended(command(&["hub"]).stdin(directory).spawn().expect("desk is built"));
    assert!(ran.said.starts_with("desk: the input cannot be read: "), "{}", ran.said);
    assert_eq!((ran.lines.as_str(), ran.status), ("", Some(1)));

    let full = File::options().write(true).open("/dev/full").expect("a device that is always full");
    let ran = ended(command(&["story"]).stdout(full).spawn().expect("desk is built"));
    assert!(ran.said.starts_with("desk: the output cannot be written: "), "{}", ran.said);
    assert_eq!(ran.status, Some(1));
}
