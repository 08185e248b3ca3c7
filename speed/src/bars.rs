//! What the library is to keep to. A missed bar is no failure; it is printed with its reason.

use crate::sizes::Code;
use crate::stack::Depths;
use crate::work::{Against, Took};

/// A row with what it took.
pub struct Measured {
    pub name: &'static str,
    pub events: usize,
    pub bars: Vec<Against>,
    pub took: Took,
}

struct Bar {
    what: String,
    figure: f64,
    at_most: f64,
    decimals: usize,
}

impl Bar {
    /// Of a row, against one of those that take turns with it; nothing where that was not measured.
    fn of_row(row: &Measured, against: Against) -> Option<Bar> {
        let Took { proved, peer, second, bare, plain } = row.took;
        let (name, other, at_most) = match against {
            Against::Peer(at_most) => ("peer", peer, at_most),
            Against::Second(at_most) => ("second", second?, at_most),
            Against::Bare(at_most) => ("bare", bare, at_most),
            Against::Plain(at_most) => ("plain", plain, at_most),
        };
        Some(Bar { what: format!("{}: proved to {name}", row.name), figure: proved / other, at_most, decimals: 3 })
    }

    fn of_bytes(what: String, figure: usize, at_most: usize) -> Bar {
        Bar { what, figure: figure as f64, at_most: at_most as f64, decimals: 0 }
    }

    fn print(&self) {
        let Bar { what, figure, at_most, decimals } = self;
        let met = figure <= at_most;
        println!(
            "{what:40}{figure:>8.decimals$}  at most{at_most:>8.decimals$}  {}",
            if met { "met" } else { "MISSED" }
        );
        if let (false, Some((_, reason))) = (met, REASONS.iter().find(|(bar, _)| what.starts_with(bar))) {
            println!("    {reason}");
        }
    }
}

/// Stack of a call, at most. A hub event is `mk_hub_hear`, behind the short way where there is one.
const STACK: [(&str, usize); 3] = [("mk_hub_hear", 256), ("mk_go_on", 256), ("mk_reader_hear", 640)];
const HUB_ALONE: usize = 6_000;

/// Why a bar is missed, by the front of its name, as it was found in what the toolchain before this one compiled (0.4.2);
/// what today's compiles has not been looked into. The first that fits is
/// printed, so one for a bar alone, such as "hub block, garbage: proved to plain", stands before one for all blocks.
const REASONS: [(&str, &str); 8] = [
    (
        "hub block, short cards: proved to plain",
        "a card is 16 bytes, and half of the instructions are for the packet around them and the call that ends it. A plain
    sum has few instructions, each of which waits for the one before: by time, on x86-64, it was 3.28 where these counts
    were 7.25",
    ),
    (
        "hub, ",
        "a byte inside a packet is 21 instructions of mk_go_on, the peer's 12: a count and two flags are read as bytes of
    any value and tested, where the peer keeps one limit that covers all. Timed natively on an ARM processor, from the
    same intermediate code: full pieces 1.33, garbage 1.39, short cards 1.81 to 1.86",
    ),
    (
        "reader, ",
        "as for a hub; and about every eighth event here ends a packet, for which mk_reader_hear reads the whole control value
    and tests it, nine locks among it, which are flags that are moved one by one, and writes all of it back; then it
    compares the permanent values. Timed natively on an ARM processor, from the same intermediate code, before there
    were locks: 2.0",
    ),
    (
        "check, ",
        "the sum is of the same vector instructions as the bare one; what a packet takes besides are the tests of its
    length, the comparison with the checksum and the four numbers of its head, which are written as 64 bits each",
    ),
    (
        "build, ",
        "the sum is of the same vector instructions as the bare one; but the bytes behind the last whole 32 are copied by
    four and one by one, where the bare copy is the C library's, and the fields are tested",
    ),
    (
        "mk_hub_hear: ",
        "it took 208 bytes as the toolchain before this one compiled it; what takes the rest has not been looked into",
    ),
    (
        "mk_hub_hear_block: ",
        "208 bytes are the event's that ends a packet, mk_hub_hear, as alone; 40 are arguments that no register holds, 56 the
    return address and six saved registers, 120 the frame of the two loops, 8 for alignment. With one function that
    both calls share an event alone took 600 and a block 760",
    ),
    (
        "mk_reader_hear: ",
        "48 bytes are arguments that no register holds, 56 the return address and six saved registers, 424 the frame, in
    which the parts of the control value stand one by one. sender::hear, which an ACK or a NAK calls, takes 144 more and
    sender::present below it 32; by a PARAM_SEND table::set takes 128. The control value goes by value through the
    event, the table in it: a struct lent by reference was beyond what the prover then walked by itself, and the event taken
    apart over the control bytes says the reader's rules a second time",
    ),
];

/// `by` says what the rows were measured by.
pub fn print(by: &str, rows: &[Measured], depths: &Depths, code: &Code) {
    println!("bar ({by}; the reasons were found in what the toolchain before this one compiled)");
    for row in rows {
        row.bars.iter().filter_map(|against| Bar::of_row(row, *against)).for_each(|bar| bar.print());
    }
    let depth = |call: &str| depths.get(call).map(|depth| depth.bytes);
    // A block takes no more than an event does in the same run.
    let block = depth("mk_hub_hear").map(|event| ("mk_hub_hear_block", event));
    for (call, at_most) in STACK.into_iter().chain(block) {
        if let Some(bytes) = depth(call) {
            Bar::of_bytes(format!("{call}: bytes of stack"), bytes, at_most).print();
        }
    }
    Bar::of_bytes("hub alone: bytes of code".to_string(), code.hub_alone, HUB_ALONE).print();
}
