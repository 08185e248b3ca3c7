//! Counts the instructions that a pass executes, one by one: the processor's trap flag raises SIGTRAP behind each, and
//! the handler counts. The same program on the same input always executes the same ones, whatever else the machine
//! does and whether or not it is emulated.

use std::arch::asm;
use std::sync::atomic::{AtomicU64, Ordering::Relaxed};

const SIGTRAP: i32 = 5;

// The standard library has no call for this.
extern "C" {
    fn signal(number: i32, handler: extern "C" fn(i32)) -> usize;
}

static COUNT: AtomicU64 = AtomicU64::new(0);

/// The flag is clear while the handler runs.
extern "C" fn trapped(_: i32) {
    COUNT.fetch_add(1, Relaxed);
}

/// Of one pass, with the few that are around it.
#[inline(never)]
fn stepped(pass: &mut dyn FnMut() -> usize) -> (u64, usize) {
    COUNT.store(0, Relaxed);
    // SAFETY: the flag is set and cleared in what a push put on the stack; the handler is there.
    unsafe { asm!("pushfq", "or qword ptr [rsp], 0x100", "popfq") };
    let number = pass();
    // SAFETY: the same.
    unsafe { asm!("pushfq", "and qword ptr [rsp], ~0x100", "popfq") };
    (COUNT.load(Relaxed), number)
}

/// The instructions of one pass, and what it gave.
pub fn instructions(pass: &mut dyn FnMut() -> usize) -> (u64, usize) {
    let (around, _) = stepped(&mut || 0);
    let (count, number) = stepped(pass);
    (count.saturating_sub(around), number)
}

/// A loop of two instructions, so many times.
fn two_a_turn(turns: u64) -> usize {
    let mut left = turns;
    // SAFETY: a register counts down.
    unsafe { asm!("2:", "dec {0}", "jnz 2b", inout(reg) left) };
    left as usize
}

/// Whether the measure is right, by a loop whose instructions are known.
pub fn calibrate() -> Result<(), String> {
    // SAFETY: the handler does nothing but count.
    unsafe { signal(SIGTRAP, trapped) };
    let [few, many] = [1_000, 3_000].map(|turns| instructions(&mut || two_a_turn(turns)).0);
    if many.checked_sub(few) != Some(4_000) {
        return Err(format!("the trap flag counts {} instructions for 4000", many.saturating_sub(few)));
    }
    Ok(())
}
