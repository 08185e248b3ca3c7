//! One pass of each kind of work: the calls that a firmware makes, the same for all programs. Passes of hub and reader
//! are here to be compared; those that are timed and counted are made in C (passes.c), but for the second program's and
//! the rows that are by the crate.

use std::arch::asm;

use second::packet::{CHECKSUM, DECODE_DATA, HEADER, READER};

use crate::calls::{Blocks, Event, Fields, Machine, Packets, Sender, Table, Told, BLOCK, BLOCK_ANSWERS, PACKET, TABLE};
use crate::streams::{self, Errand, List, Stream};

pub trait Work {
    /// All calls of one pass, from the same state each time. `see` is shown what each brought.
    fn pass(&mut self, see: impl FnMut(Told));
    /// Looks at what a firmware looks at, and no more: this is timed and counted with the call.
    fn look(told: Told) -> usize;
    /// What the call with this number in a pass is given.
    fn describe(&self, call: usize) -> String;
}

/// Of a machine: whether anything was told. Only then there is something to send or to file, by a call.
#[inline(always)]
fn look_first(Told { number, values, packet, message, .. }: Told) -> usize {
    if number == 0 {
        return 0;
    }
    heed(number, values, packet, message)
}

/// Takes all in registers: what is told need not stand in memory for it.
#[inline(never)]
fn heed(number: u32, values: [u8; 4], packet: &[u8], message: &[u8]) -> usize {
    number as usize + packet.len() + message.len() + values.into_iter().map(usize::from).sum::<usize>()
}

/// Events at a hub or a reader.
pub struct Events<'a, M>(pub &'a Stream, pub M);

impl<M: Machine> Work for Events<'_, M> {
    fn pass(&mut self, mut see: impl FnMut(Told)) {
        let Events(stream, machine) = self;
        machine.switch_on();
        stream.events(|event| see(machine.event(event)));
    }

    #[inline(always)]
    fn look(told: Told) -> usize {
        look_first(told)
    }

    fn describe(&self, call: usize) -> String {
        let mut events = Vec::new();
        self.0.events(|event| events.push(event));
        format!("{:02X?}", events[call])
    }
}

/// The same events at a hub in blocks: each part in one, or in several where it is longer than one may be; what a call
/// leaves is given again. Then the gap.
pub struct InBlocks<'a, M> {
    stream: &'a Stream,
    machine: M,
    /// For the answers of a block.
    room: [u8; BLOCK_ANSWERS],
}

impl<'a, M: Blocks> InBlocks<'a, M> {
    pub fn new(stream: &'a Stream) -> InBlocks<'a, M> {
        InBlocks { stream, machine: M::new(), room: [0; BLOCK_ANSWERS] }
    }
}

impl<M: Blocks> Work for InBlocks<'_, M> {
    fn pass(&mut self, mut see: impl FnMut(Told)) {
        let InBlocks { stream, machine, room } = self;
        machine.switch_on();
        for (part, gap) in stream.parts() {
            let mut left = part;
            while !left.is_empty() {
                let told = machine.block(&left[..left.len().min(BLOCK)], room);
                let taken = told.taken;
                assert!(taken > 0, "a block call that takes nothing");
                see(told);
                left = &left[taken..];
            }
            see(machine.event(gap));
        }
    }

    /// At the number, at the answers, and at how many bytes were taken: the same as in passes.c.
    #[inline(always)]
    fn look(told: Told) -> usize {
        if told.number == 0 && told.packet.is_empty() {
            return 0;
        }
        told.taken + heed(told.number, told.values, told.packet, told.message)
    }

    fn describe(&self, call: usize) -> String {
        format!("call {call} of a stream in blocks")
    }
}

/// Messages of a sender, with what it hears of each.
pub struct Errands<'a, S>(pub &'a [Errand], pub S);

impl<S: Sender> Work for Errands<'_, S> {
    fn pass(&mut self, mut see: impl FnMut(Told)) {
        let Errands(errands, sender) = self;
        sender.idle();
        for errand in errands.iter() {
            see(sender.start(errand.code, &errand.message));
            for heard in &errand.heard {
                see(sender.hear(*heard));
            }
        }
    }

    #[inline(always)]
    fn look(told: Told) -> usize {
        look_first(told)
    }

    fn describe(&self, call: usize) -> String {
        let calls = self.0.iter().flat_map(|errand| [None].into_iter().chain(errand.heard.iter().map(Some)));
        calls
            .map(|heard| heard.map_or("a start".to_string(), |heard| format!("heard {heard}")))
            .nth(call)
            .expect("a call")
    }
}

/// Lists set one after the other in a board's table.
pub struct Lists<'a, T> {
    lists: &'a [List],
    /// At the start of a pass.
    first: [u8; TABLE],
    table: T,
}

impl<'a, T: Table> Lists<'a, T> {
    pub fn new(lists: &'a [List]) -> Lists<'a, T> {
        let first = streams::board();
        Lists { lists, first, table: T::of(first) }
    }
}

impl<T: Table> Work for Lists<'_, T> {
    fn pass(&mut self, mut see: impl FnMut(Told)) {
        let Lists { lists, first, table } = self;
        *table = T::of(*first);
        for List { pairs, permanent } in lists.iter() {
            let number = table.set(pairs, *permanent);
            see(Told { number, message: table.bytes(), ..Told::default() });
        }
    }

    #[inline(always)]
    fn look(told: Told) -> usize {
        told.number as usize
    }

    fn describe(&self, call: usize) -> String {
        let List { pairs, permanent } = &self.lists[call];
        format!("{pairs:02X?}, permanent: {permanent}")
    }
}

/// Packets to be checked.
pub struct Checks<'a, P>(pub &'a Stream, pub P);

impl<P: Packets> Work for Checks<'_, P> {
    fn pass(&mut self, mut see: impl FnMut(Told)) {
        for (packet, _) in self.0.parts() {
            see(self.1.check(packet));
        }
    }

    #[inline(always)]
    fn look(told: Told) -> usize {
        told.number as usize
    }

    fn describe(&self, call: usize) -> String {
        format!("{:02X?}", self.0.parts().nth(call).expect("a part").0)
    }
}

/// The same packets to be built.
pub struct Builds<'a, P>(pub &'a Stream, pub P);

fn body_of(packet: &[u8]) -> &[u8] {
    &packet[..packet.len() - CHECKSUM]
}

fn data_of(packet: &[u8]) -> &[u8] {
    &body_of(packet)[HEADER..]
}

impl<P: Packets> Work for Builds<'_, P> {
    fn pass(&mut self, mut see: impl FnMut(Told)) {
        for (packet, _) in self.0.parts() {
            see(self.1.build(Fields { opcode: DECODE_DATA, source: READER, status: 0, data: data_of(packet) }));
        }
    }

    #[inline(always)]
    fn look(told: Told) -> usize {
        told.packet.len()
    }

    fn describe(&self, call: usize) -> String {
        format!("{:02X?}", self.0.parts().nth(call).expect("a part").0)
    }
}

// ---- what is done without a program: the least that the same bytes cost
//
// Both are compiled as the library is, by LLVM with all optimisation for any x86-64. The sum of a packet's body fits 16
// bits, and in these the compiler sums with vector instructions.

#[inline(always)]
fn sum(bytes: &[u8]) -> u16 {
    bytes.iter().fold(0, |total: u16, byte| total.wrapping_add((*byte).into()))
}

#[inline(never)]
fn bare_sum(bytes: &[u8]) -> u16 {
    sum(bytes)
}

#[inline(never)]
fn bare_copy_and_sum(room: &mut [u8], bytes: &[u8]) -> u16 {
    let room = &mut room[..bytes.len()];
    room.copy_from_slice(bytes);
    sum(room)
}

extern "C" {
    fn plain_sum(bytes: *const u8, count: usize) -> u16;
}

/// Without vector instructions (plain.c).
fn plain(bytes: &[u8]) -> usize {
    // SAFETY: the pointer has its own length.
    unsafe { plain_sum(bytes.as_ptr(), bytes.len()) }.into()
}

/// Sums the same bytes, part by part.
pub fn bare_pass(stream: &Stream) -> usize {
    stream.parts().map(|(part, _)| usize::from(bare_sum(part))).sum()
}

pub fn plain_pass(stream: &Stream) -> usize {
    stream.parts().map(|(part, _)| plain(part)).sum()
}

/// Sums the bodies of packets, as the check does.
pub fn bare_check(stream: &Stream) -> usize {
    stream.parts().map(|(packet, _)| usize::from(bare_sum(body_of(packet)))).sum()
}

pub fn plain_check(stream: &Stream) -> usize {
    stream.parts().map(|(packet, _)| plain(body_of(packet))).sum()
}

/// Copies bodies and sums them there, as building does.
pub fn bare_build(stream: &Stream) -> usize {
    let mut room = [0; PACKET];
    stream.parts().map(|(packet, _)| usize::from(bare_copy_and_sum(&mut room, body_of(packet)))).sum()
}

/// No program at all: a pass of it is the loop around the calls, which is no part of them.
pub struct Nothing;

/// Has a number in a register, as an argument would be, and does nothing with it.
#[inline(always)]
fn ignored(number: usize) {
    // SAFETY: there is no instruction.
    unsafe { asm!("/* {0} */", in(reg) number, options(nomem, nostack, preserves_flags)) };
}

impl Machine for Nothing {
    fn new() -> Nothing {
        Nothing
    }

    fn switch_on(&mut self) {}

    #[inline(always)]
    fn event(&mut self, event: Event) -> Told<'_> {
        ignored(event.number() as usize);
        Told::default()
    }
}

impl Blocks for Nothing {
    #[inline(always)]
    fn block<'a>(&'a mut self, bytes: &[u8], _: &'a mut [u8]) -> Told<'a> {
        ignored(bytes.as_ptr() as usize);
        Told { taken: bytes.len(), ..Told::default() }
    }
}

impl Sender for Nothing {
    fn new() -> Nothing {
        Nothing
    }

    fn idle(&mut self) {}

    #[inline(always)]
    fn start(&mut self, _: u8, message: &[u8]) -> Told<'_> {
        ignored(message.len());
        Told::default()
    }

    #[inline(always)]
    fn hear(&mut self, heard: u32) -> Told<'_> {
        ignored(heard as usize);
        Told::default()
    }
}

impl Table for Nothing {
    fn of(_: [u8; TABLE]) -> Nothing {
        Nothing
    }

    fn bytes(&self) -> &[u8; TABLE] {
        &[0; TABLE]
    }

    #[inline(always)]
    fn set(&mut self, pairs: &[u8], permanent: bool) -> u32 {
        ignored(pairs.as_ptr() as usize);
        ignored(pairs.len());
        ignored(permanent.into());
        0
    }

    fn defaults(&mut self) {}

    fn power_up(&mut self) {}
}

impl Packets for Nothing {
    fn new() -> Nothing {
        Nothing
    }

    #[inline(always)]
    fn check(&self, bytes: &[u8]) -> Told<'_> {
        ignored(bytes.len());
        Told::default()
    }

    #[inline(always)]
    fn build(&mut self, fields: Fields) -> Told<'_> {
        ignored(fields.data.len());
        Told::default()
    }
}
