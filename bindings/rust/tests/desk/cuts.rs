//! The same lines however the input is cut into reads.

use std::os::fd::OwnedFd;
use std::os::unix::net::UnixDatagram;
use std::process::Stdio;
use std::thread;

use crate::run::{command, ended, run, Ran};
use crate::sets;

/// Each read gets one part: a datagram is never joined with the next one. An empty one is the end of the input.
fn in_parts_of(size: usize, end: &str, input: &[u8]) -> Ran {
    let (ours, theirs) = UnixDatagram::pair().expect("a pair of sockets");
    let child = command(&[end]).stdin(Stdio::from(OwnedFd::from(theirs))).spawn().expect("desk is built");
    thread::scope(|scope| {
        scope.spawn(move || {
            // It may stop at something wrong before it has read all.
            let sent = input.chunks(size).try_for_each(|part| ours.send(part).map(drop));
            sent.and_then(|()| ours.send(&[]).map(drop))
        });
        ended(child)
    })
}

fn however_it_is_cut(end: &str, cases: &[u8]) {
    let whole = run(&[end], cases);
    for size in [1, 2, 7, 1_000] {
        assert_eq!(in_parts_of(size, end, cases), whole, "parts of {size}");
    }
}

#[test]
fn of_the_reader() {
    however_it_is_cut("reader", include_bytes!("reader_cases.txt"));
    however_it_is_cut("reader", sets::CASES.as_bytes());
}

#[test]
fn of_the_hub() {
    however_it_is_cut("hub", include_bytes!("../../../../crates/hub_cases/stdin"));
    however_it_is_cut(
        "hub",
        b"[06 F3 00 02 1B 38 FE B2 03 06] . [] K 00 06 ; [06] K 00 07 ; [06 F3 00 00 1B 38 FE B4 06]",
    );
}

/// More than one read takes.
#[test]
fn a_long_input() {
    let packet = "06 F3 00 00 1B 38 FE B4 .\n";
    let ran = run(&["hub"], packet.repeat(20_000).as_bytes());
    assert_eq!((ran.status, ran.lines), (Some(0), "M 1B 38\nA 04 D0 04 00 FF 28\n".repeat(20_000)));
}
