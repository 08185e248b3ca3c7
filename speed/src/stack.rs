//! How much stack a call takes, measured: all below it is painted, and afterwards the lowest word that is not as it was
//! painted tells how deep it went.

use std::arch::global_asm;
use std::collections::{BTreeMap, BTreeSet};
use std::mem::{self, MaybeUninit};
use std::sync::atomic::{AtomicUsize, Ordering::Relaxed};

#[cfg(not(target_arch = "x86_64"))]
compile_error!("the stack is painted by hand, for x86-64 alone");

/// So many bytes are painted; a call that goes deeper is an error.
const PAINTED: usize = 16_384;

/// A return address, or an argument.
const WORD: usize = 8;
const ARGUMENTS_IN_REGISTERS: usize = 6;

/// Every word has a colour of its own, made of its address: so what a call copies from paint to paint is seen too.
fn colour(address: usize) -> u64 {
    (address as u64).wrapping_mul(COLOURS).swap_bytes()
}

const COLOURS: u64 = 0x5851_F42D;

// The assembly below knows these names.
#[no_mangle]
static SPEED_CALL: AtomicUsize = AtomicUsize::new(0);
#[no_mangle]
static SPEED_ENTRY: AtomicUsize = AtomicUsize::new(0);

// Stands in for a call: notes where the return address is, paints all below it and jumps to the call itself, which
// finds arguments and stack as its caller left them. Nothing else runs between paint and call.
global_asm!(
    ".pushsection .text",
    ".globl speed_painted",
    "speed_painted:",
    "mov [rip + SPEED_ENTRY], rsp",
    "mov r10, rdi",
    "lea rdi, [rsp - {painted}]",
    "2:",
    "imul rax, rdi, {colours}",
    "bswap rax",
    "mov [rdi], rax",
    "add rdi, {word}",
    "cmp rdi, rsp",
    "jb 2b",
    "mov rdi, r10",
    "jmp [rip + SPEED_CALL]",
    ".popsection",
    painted = const PAINTED,
    colours = const COLOURS,
    word = const WORD,
);

extern "C" {
    fn speed_painted();
}

/// What stands in for a call.
///
/// # Safety
/// `F` must be the type of a pointer to a function.
pub unsafe fn painted<F: Copy>(call: F) -> F {
    SPEED_CALL.store(mem::transmute_copy(&call), Relaxed);
    mem::transmute_copy(&(speed_painted as *const ()))
}

/// How far below its caller the last call wrote, its return address included. Inlined: a call would write there too.
#[inline(always)]
pub fn stained() -> usize {
    let entry = SPEED_ENTRY.load(Relaxed);
    let mut lowest = entry - PAINTED;
    // SAFETY: all of it is stack, and was painted.
    while lowest < entry && unsafe { (lowest as *const u64).read_volatile() } == colour(lowest) {
        lowest += WORD;
    }
    entry + WORD - lowest
}

/// What was found of one call.
#[derive(Default)]
pub struct Depth {
    /// The most bytes below its caller's stack pointer: arguments that no register holds, return address, all below.
    pub bytes: usize,
    /// The numbers that it told meanwhile.
    pub told: BTreeSet<u32>,
}

pub type Depths = BTreeMap<&'static str, Depth>;

pub fn note(depths: &mut Depths, name: &'static str, arguments: usize, stained: usize, told: u32) {
    assert!(stained < PAINTED, "{name} goes deeper than is painted");
    // At a call the stack is aligned to two words.
    let below = arguments.saturating_sub(ARGUMENTS_IN_REGISTERS).next_multiple_of(2) * WORD;
    let depth = depths.entry(name).or_default();
    depth.bytes = depth.bytes.max(below + stained);
    depth.told.insert(told);
}

/// What a call gives, with the number told in it.
pub trait Tells {
    fn number(&self) -> u32;
}

impl Tells for u32 {
    fn number(&self) -> u32 {
        *self
    }
}

/// Of a call that only says whether it did something.
impl Tells for bool {
    fn number(&self) -> u32 {
        (*self).into()
    }
}

/// Of a call that tells nothing.
impl Tells for () {
    fn number(&self) -> u32 {
        0
    }
}

macro_rules! any {
    ($argument:expr) => {
        _
    };
}

/// Makes the call, and notes its depth and what it told.
macro_rules! measured {
    ($depths:expr, $name:ident($($argument:expr),* $(,)?)) => {{
        let call: unsafe extern "C" fn($($crate::stack::any!($argument)),*) -> _ = $name;
        // SAFETY: every pointer lent is that of a live reference, with its own length where the call takes one.
        let told = unsafe { $crate::stack::painted(call)($($argument),*) };
        let stained = $crate::stack::stained();
        let arguments = <[&str]>::len(&[$(stringify!($argument)),*]);
        $crate::stack::note($depths, stringify!($name), arguments, stained, $crate::stack::Tells::number(&told));
    }};
}

pub(crate) use {any, measured};

#[inline(never)]
unsafe extern "C" fn no_frame() -> u32 {
    0
}

#[inline(never)]
unsafe extern "C" fn frame_of_1000() -> u32 {
    let mut frame = [const { MaybeUninit::<u8>::uninit() }; 1000];
    for byte in &mut frame {
        byte.as_mut_ptr().write_volatile(0);
    }
    0
}

/// Whether the measure is right, by two functions with known frames.
pub fn calibrate() -> Result<(), String> {
    let mut depths = Depths::new();
    measured!(&mut depths, no_frame());
    measured!(&mut depths, frame_of_1000());
    for (name, right) in [("no_frame", WORD..WORD + 1), ("frame_of_1000", 1000..1200)] {
        let bytes = depths[name].bytes;
        if !right.contains(&bytes) {
            return Err(format!("the measure of the stack is wrong: {bytes} bytes for {name}"));
        }
    }
    Ok(())
}
