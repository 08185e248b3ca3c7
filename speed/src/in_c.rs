//! The passes that C makes (passes.c), each on a machine that it is lent.

use std::mem::size_of;

pub type Call = unsafe extern "C" fn(*mut u64, *const u16, usize) -> usize;
pub type BlockCall = unsafe extern "C" fn(*mut u64, *const u8, *const Part, usize) -> usize;

/// Bytes with no gap among them, by their number, and the gap behind them.
#[repr(C)]
pub struct Part {
    pub size: usize,
    pub gap: u32,
}

extern "C" {
    fn pass_proved_hub(machine: *mut u64, events: *const u16, count: usize) -> usize;
    fn pass_peer_hub(machine: *mut u64, events: *const u16, count: usize) -> usize;
    fn pass_proved_reader(machine: *mut u64, events: *const u16, count: usize) -> usize;
    fn pass_peer_reader(machine: *mut u64, events: *const u16, count: usize) -> usize;
    fn pass_none(machine: *mut u64, events: *const u16, count: usize) -> usize;
    fn pass_proved_blocks(machine: *mut u64, bytes: *const u8, parts: *const Part, count: usize) -> usize;
    fn pass_peer_blocks(machine: *mut u64, bytes: *const u8, parts: *const Part, count: usize) -> usize;
    fn pass_none_blocks(machine: *mut u64, bytes: *const u8, parts: *const Part, count: usize) -> usize;
    static pass_proved_hub_size: usize;
    static pass_peer_hub_size: usize;
    static pass_proved_reader_size: usize;
    static pass_peer_reader_size: usize;
    static pass_none_size: usize;
    static pass_proved_blocks_size: usize;
    static pass_peer_blocks_size: usize;
    static pass_none_blocks_size: usize;
}

/// A pass by the type of its call.
pub struct Pass<C> {
    call: C,
    /// Words, so that it is aligned for any machine.
    machine: Vec<u64>,
}

impl<C> Pass<C> {
    fn new(call: C, size: usize) -> Pass<C> {
        Pass { call, machine: vec![0; size.div_ceil(size_of::<u64>())] }
    }
}

// SAFETY, for both: the machine is as large as this call's is, and any bytes are one; what is read has its own length.

impl Pass<Call> {
    /// Over events by their numbers. Gives the tally of what was told.
    pub fn over(&mut self, events: &[u16]) -> usize {
        unsafe { (self.call)(self.machine.as_mut_ptr(), events.as_ptr(), events.len()) }
    }
}

impl Pass<BlockCall> {
    /// Over blocks, whose sizes are together the bytes'.
    pub fn over(&mut self, bytes: &[u8], parts: &[Part]) -> usize {
        debug_assert_eq!(parts.iter().map(|part| part.size).sum::<usize>(), bytes.len());
        unsafe { (self.call)(self.machine.as_mut_ptr(), bytes.as_ptr(), parts.as_ptr(), parts.len()) }
    }
}

/// Of one kind of machine, and the loop around the calls.
pub struct Passes<C> {
    pub proved: Pass<C>,
    pub peer: Pass<C>,
    pub none: Pass<C>,
}

impl<C> Passes<C> {
    fn new([proved, peer, none]: [C; 3], sizes: [usize; 3]) -> Passes<C> {
        Passes { proved: Pass::new(proved, sizes[0]), peer: Pass::new(peer, sizes[1]), none: Pass::new(none, sizes[2]) }
    }
}

// SAFETY, for all: the sizes are numbers that are never written to.

pub fn hub() -> Passes<Call> {
    let sizes = unsafe { [pass_proved_hub_size, pass_peer_hub_size, pass_none_size] };
    Passes::new([pass_proved_hub, pass_peer_hub, pass_none], sizes)
}

pub fn reader() -> Passes<Call> {
    let sizes = unsafe { [pass_proved_reader_size, pass_peer_reader_size, pass_none_size] };
    Passes::new([pass_proved_reader, pass_peer_reader, pass_none], sizes)
}

pub fn hub_blocks() -> Passes<BlockCall> {
    let sizes = unsafe { [pass_proved_blocks_size, pass_peer_blocks_size, pass_none_blocks_size] };
    Passes::new([pass_proved_blocks, pass_peer_blocks, pass_none_blocks], sizes)
}
