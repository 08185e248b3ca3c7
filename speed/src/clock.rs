//! Processor time, not time of day: the time that other processes have is not counted. What cannot be left out, such as
//! caches that they used, only adds; so the smallest of many short spells is taken.

use std::time::Duration;

/// A round lasts so long at least, and is measured in spells of about so long, or of one pass where that takes longer.
const ROUND: Duration = Duration::from_millis(30);
const SPELL: Duration = Duration::from_millis(1);

#[repr(C)]
struct Timespec {
    seconds: i64,
    nanoseconds: i64,
}

const CLOCK_PROCESS_CPUTIME_ID: i32 = 2;

// The standard library has no call for this clock.
extern "C" {
    fn clock_gettime(clock: i32, time: *mut Timespec) -> i32;
}

fn now() -> Duration {
    let mut time = Timespec { seconds: 0, nanoseconds: 0 };
    // SAFETY: the pointer is that of a live Timespec, laid out as 64-bit Linux has it.
    let failed = unsafe { clock_gettime(CLOCK_PROCESS_CPUTIME_ID, &mut time) };
    assert_eq!(failed, 0, "there is no clock of processor time");
    Duration::new(time.seconds as u64, time.nanoseconds as u32)
}

/// A pass over some input, which gives the same number each time.
pub struct Timed<'a> {
    pass: Box<dyn FnMut() -> usize + 'a>,
    number: usize,
    /// In a spell.
    passes: u32,
    /// The smallest spell of all rounds.
    best: Duration,
}

impl<'a> Timed<'a> {
    pub fn new(number: usize, pass: Box<dyn FnMut() -> usize + 'a>) -> Timed<'a> {
        let mut timed = Timed { pass, number, passes: 1, best: Duration::MAX };
        while timed.spell().0 < SPELL {
            timed.passes *= 2;
        }
        timed
    }

    /// Its time, and whether every pass gave the number.
    fn spell(&mut self) -> (Duration, bool) {
        let mut right = true;
        let start = now();
        for _ in 0..self.passes {
            right &= (self.pass)() == self.number;
        }
        (now() - start, right)
    }

    /// Whether every pass of the round gave the number.
    pub fn round(&mut self) -> bool {
        let mut spent = Duration::ZERO;
        let mut all_right = true;
        while spent < ROUND {
            let (taken, right) = self.spell();
            self.best = self.best.min(taken);
            all_right &= right;
            spent += taken;
        }
        all_right
    }

    /// Nanoseconds of a pass in the best spell.
    pub fn nanoseconds(&self) -> f64 {
        self.best.as_secs_f64() * 1e9 / f64::from(self.passes)
    }
}
