//! A tally of what streams have reached: refusals by number, and states worth reaching by name.

use crate::packet::Refusal;

/// One place for each refusal number, 0 unused.
const NUMBERS: usize = 16;

/// A sight's name with its number of members.
pub type Name = (&'static str, usize);

/// A state worth reaching; where it has several members (codes, opcodes, numbers) each must be reached.
struct Sight {
    name: &'static str,
    counts: Vec<u64>,
}

pub struct Sights {
    refusals: [u64; NUMBERS],
    sights: Vec<Sight>,
}

impl Sights {
    pub fn new<'a>(names: impl IntoIterator<Item = &'a Name>) -> Sights {
        let sights = names.into_iter().map(|(name, members)| Sight { name, counts: vec![0; *members] }).collect();
        Sights { refusals: [0; NUMBERS], sights }
    }

    pub fn see(&mut self, name: &str) {
        self.see_member(name, 0);
    }

    pub fn see_if(&mut self, seen: bool, name: &str) {
        if seen {
            self.see(name);
        }
    }

    pub fn see_member(&mut self, name: &str, member: usize) {
        self.counts(name)[member] += 1;
    }

    fn counts(&mut self, name: &str) -> &mut [u64] {
        let sight = self.sights.iter_mut().find(|sight| sight.name == name);
        &mut sight.unwrap_or_else(|| panic!("no sight named {name:?}")).counts
    }

    pub fn refusal(&mut self, refusal: Refusal) {
        self.refusals[refusal.number()] += 1;
    }

    pub fn refused(&self, number: usize) -> u64 {
        self.refusals[number]
    }

    /// The other one may have fewer sights, but none that is not here.
    pub fn add(&mut self, other: &Sights) {
        add(&mut self.refusals, &other.refusals);
        for sight in &other.sights {
            add(self.counts(sight.name), &sight.counts);
        }
    }

    /// One row a sight: how often, and for several members how many of them and how often the rarest.
    pub fn rows(&self) -> Vec<String> {
        self.sights.iter().map(Sight::row).collect()
    }

    /// The names of sights of which a member was never reached.
    pub fn missing(&self) -> Vec<&'static str> {
        let missed = self.sights.iter().filter(|sight| sight.counts.contains(&0));
        missed.map(|sight| sight.name).collect()
    }
}

fn add(counts: &mut [u64], more: &[u64]) {
    for (count, more) in counts.iter_mut().zip(more) {
        *count += more;
    }
}

impl Sight {
    fn row(&self) -> String {
        let total: u64 = self.counts.iter().sum();
        let members = self.counts.len();
        let mut row = format!("{total:>10}  {}", self.name);
        if members > 1 {
            let reached = self.counts.iter().filter(|count| **count > 0).count();
            let rarest = self.counts.iter().min().expect("members");
            row += &format!(" ({reached} of {members}, the rarest {rarest})");
        }
        row
    }
}

/// The place of the only status bit set among those that must be 0.
pub fn bit_alone(status: u8) -> Option<usize> {
    [0x04, 0x10, 0x20, 0x40, 0x80].iter().position(|bit| *bit == status)
}
