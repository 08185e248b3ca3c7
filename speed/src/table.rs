//! The table, as plain text.

use std::collections::BTreeSet;

use crate::bars::Measured;
use crate::sizes::{Code, State};
use crate::stack::Depths;
use crate::work::{Five, TimedRow, Took};

pub fn times(rows: &[TimedRow]) {
    println!("{:64}{:>40}{:>32}{:>17}", "", "ns a byte", "proved to", "ns an event");
    print!("{:32}{:>7}{:>8}{:>8}{:>9}", "one pass", "bytes", "events", "packets", "messages");
    print!("{:>9}{:>8}{:>8}{:>8}{:>8}", "proved", "peer", "second", "bare", "plain");
    println!("{:>8}{:>8}{:>8}{:>8}{:>9}{:>8}", "peer", "second", "bare", "plain", "proved", "peer");
    for row in rows {
        let (bytes, events) = (row.bytes as f64, row.events as f64);
        let pass = row.nanoseconds();
        let Five { proved, peer, second, bare, plain } = row.nanoseconds().map(|nanoseconds| nanoseconds / bytes);
        print!("{:32}{:>7}{:>8}{:>8}{:>9}", row.name, row.bytes, row.events, row.packets, row.messages);
        print!("{proved:>9.2}{peer:>8.2}{second:>8.2}{bare:>8.2}{plain:>8.2}");
        [peer, second, bare, plain].iter().for_each(|other| print!("{:>8.2}", proved / other));
        println!("{:>9.1}{:>8.1}", pass.proved / events, pass.peer / events);
    }
    println!(
        "packets: answers of a hub and a reader, copies of a sender, packets that the check found or that were built."
    );
    println!("bare: the same bytes summed, with vector instructions; in the rows of building, copied and summed.");
    println!("plain: the same bytes summed one by one, without these.");
    println!("In rows of blocks an event is a call: one with a block of up to 4,096 bytes, or a gap.");
    println!("In the row of the table it is a call too: a list of 1 to 9 pairs. Half of the lists are refused.");
    println!("In every row all three programs told the same numbers and values and wrote the same bytes.");
}

/// Rows whose instructions were counted.
pub fn counts(rows: &[Measured]) {
    println!("{:39}{:>33}{:>24}", "", "instructions an event", "proved to");
    print!("{:32}{:>7}{:>9}{:>8}{:>8}{:>8}", "one pass", "events", "proved", "peer", "bare", "plain");
    println!("{:>8}{:>8}{:>8}", "peer", "bare", "plain");
    for Measured { name, events, took: Took { proved, peer, bare, plain, .. }, .. } in rows {
        let [proved, peer, bare, plain] = [proved, peer, bare, plain].map(|count| count / *events as f64);
        print!("{name:32}{events:>7}{proved:>9.1}{peer:>8.1}{bare:>8.1}{plain:>8.1}");
        println!("{:>8.2}{:>8.2}{:>8.2}", proved / peer, proved / bare, proved / plain);
    }
    println!("Counted one by one, on less of the same work; the loop that makes the calls is left out.");
}

/// Stack and code of each call.
pub fn calls(depths: &Depths, code: &Code) {
    println!("{:20}{:>7}{:>7}   told while its stack was measured", "call", "stack", "code");
    for (name, depth) in depths {
        let size = code.calls.get(*name).map_or(String::new(), usize::to_string);
        println!("{name:20}{:>7}{size:>7}   {}", depth.bytes, spans(&depth.told));
    }
    println!("stack: the most bytes below the caller's stack pointer, from arguments and return address on.");
    println!("All code of the library: {} bytes.", code.library);
    let files: Vec<String> = code.peer.iter().map(|(name, size)| format!("{name} {size}")).collect();
    let all: usize = code.peer.iter().map(|(_, size)| size).sum();
    println!("All code of the peer: {all} bytes ({}).", files.join(", "));
    println!("What a hub adds to a program without one: {} bytes, the peer's {}.", code.hub_alone, code.peer_hub_alone);
}

/// Neighbours as `a-b`.
fn spans(numbers: &BTreeSet<u32>) -> String {
    let mut spans: Vec<(u32, u32)> = Vec::new();
    for number in numbers {
        match spans.last_mut() {
            Some((_, last)) if *last + 1 == *number => *last = *number,
            _ => spans.push((*number, *number)),
        }
    }
    let written = spans.iter().map(|(first, last)| match last - first {
        0 => first.to_string(),
        _ => format!("{first}-{last}"),
    });
    written.collect::<Vec<_>>().join(" ")
}

pub fn states(states: &[State]) {
    println!("{:20}{:>7}   {:40}rooms lent to a call", "state", "control", "buffers kept with it");
    for state in states {
        let row = format!("{:20}{:>7}   {:40}{}", state.name, state.control, sized(&state.kept), sized(&state.lent));
        println!("{}", row.trim_end());
    }
}

fn sized(buffers: &[(&str, usize)]) -> String {
    let written = buffers.iter().map(|(name, size)| format!("{name} {size}"));
    written.collect::<Vec<_>>().join(", ")
}
