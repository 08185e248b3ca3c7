//! Watches a reader's saved sets and its locks: which forms came in which states, and what the locks held against.

use crate::form::{self, Fault, LONGEST_FORM, WITHOUT_LOCKS};
use crate::packet::*;
use crate::reader::Step;
use crate::sights::{Name, Sights};
use crate::table::{allowed, place, Table, ROWS, TRIGGER};
use crate::watch_reader::ReaderLook;

/// Forms are tried in every length up to this one.
pub const LENGTHS: usize = 40;
/// How many saved forms are remembered.
const SAVED: usize = 8;

pub const SET_NAMES: [Name; 38] = [
    ("set taken with 0 to 9 locks", 10),
    ("set taken, each parameter locked", 9),
    ("set taken, each parameter at its lowest", 9),
    ("set taken, each parameter at its highest", 9),
    ("set taken that was saved before, unlike the table", 1),
    ("set taken in place of locks that it has not", 1),
    ("set taken that turns 9Fh off, on", 2),
    ("set taken inside a packet, while deaf, while a message is out", 3),
    ("set refused for its edition: 0, 2, another", 3),
    ("set refused for its count: 8, 10, another", 3),
    ("set refused, each number wrong", 9),
    ("set refused, each value just over its highest", 9),
    ("set refused, 9Ch under its lowest", 1),
    ("set refused, 8Ah with 1, 3, 5, 6", 4),
    ("set refused for its count of locks: 10, more", 2),
    ("set refused for locks falling, twice, unknown", 3),
    ("set refused, ends early, each length", LONGEST_FORM),
    ("set refused, goes on, each length to 40", LENGTHS - WITHOUT_LOCKS),
    ("set refused, longer than 40 bytes", 1),
    ("set refused inside a packet, while deaf, while a message is out", 3),
    ("set saved with 0 to 9 locks", 10),
    ("set saved, present values unlike the permanent ones", 1),
    ("set saved after a power-up that kept locks", 1),
    ("set saved inside a packet, while deaf, while a message is out", 3),
    ("PARAM_SEND refused for a lock alone, each parameter", 9),
    ("PARAM_SEND refused for a lock alone: for now, for good", 2),
    ("PARAM_SEND refused for a lock, the value it has: for now, for good", 2),
    ("PARAM_SEND refused for a lock after a power-up", 1),
    ("PARAM_SEND refused, free before locked, locked before free", 2),
    ("PARAM_SEND refused as 8 with a locked number", 1),
    ("PARAM_SEND acted on beside locks: for now, for good", 2),
    ("PARAM_DEFAULTS passes over each locked parameter", 9),
    ("PARAM_DEFAULTS with some locked, others set back", 1),
    ("PARAM_DEFAULTS with all nine locked", 1),
    ("PARAM_DEFAULTS leaves 9Fh off for its lock", 1),
    ("power-up sets parameters back beside locks", 1),
    ("packet acted on that a set came into", 1),
    ("set taken on the way of a message: copy written, ended", 2),
];

#[derive(Default)]
pub struct SetWatch {
    saved: Vec<Vec<u8>>,
    /// A set was taken inside the packet begun.
    inside: bool,
    /// A set was taken while the message out was on its way.
    on_the_way: bool,
    /// There was a power-up since the locks came.
    powered_up: bool,
}

fn count(locks: [bool; ROWS.len()]) -> usize {
    locks.iter().filter(|lock| **lock).count()
}

fn see_states(name: &str, now: ReaderLook, sights: &mut Sights) {
    for (member, seen) in [now.framer.begun > 0, now.framer.deaf, now.waits].into_iter().enumerate() {
        if seen {
            sights.see_member(name, member);
        }
    }
}

fn named(packet: &Packet) -> Vec<u8> {
    packet.data()[1..].chunks(2).map(|pair| pair[0]).collect()
}

impl SetWatch {
    // Forms.

    pub fn save(&mut self, now: ReaderLook, form: &[u8], sights: &mut Sights) {
        let locked = count(now.table.locks);
        sights.see_member("set saved with 0 to 9 locks", locked);
        let unlike = now.table.present != now.table.permanent;
        sights.see_if(unlike, "set saved, present values unlike the permanent ones");
        sights.see_if(locked > 0 && self.powered_up, "set saved after a power-up that kept locks");
        see_states("set saved inside a packet, while deaf, while a message is out", now, sights);
        if self.saved.len() == SAVED {
            self.saved.remove(0);
        }
        self.saved.push(form.to_vec());
    }

    pub fn load(&mut self, before: ReaderLook, form: &[u8], sights: &mut Sights) {
        match form::load(form) {
            Ok(set) => self.taken(before, form, set, sights),
            Err(fault) => {
                sights.refusal(Refusal::Form);
                see_states("set refused inside a packet, while deaf, while a message is out", before, sights);
                refused(form, fault, sights);
            }
        }
    }

    fn taken(&mut self, before: ReaderLook, form: &[u8], set: Table, sights: &mut Sights) {
        sights.see_member("set taken with 0 to 9 locks", count(set.locks));
        for (place, [_, low, high, _]) in ROWS.into_iter().enumerate() {
            let value = set.present[place];
            for (seen, name) in [
                (set.locks[place], "set taken, each parameter locked"),
                (value == low, "set taken, each parameter at its lowest"),
                (value == high, "set taken, each parameter at its highest"),
            ] {
                if seen {
                    sights.see_member(name, place);
                }
            }
        }
        let again = set != before.table && self.saved.iter().any(|saved| saved == form);
        sights.see_if(again, "set taken that was saved before, unlike the table");
        let unlocked = before.table.locks.iter().zip(set.locks).any(|(was, is)| *was && !is);
        sights.see_if(unlocked, "set taken in place of locks that it has not");
        if before.table.handshaking() != set.handshaking() {
            sights.see_member("set taken that turns 9Fh off, on", usize::from(set.handshaking()));
        }
        see_states("set taken inside a packet, while deaf, while a message is out", before, sights);
        self.inside = before.framer.begun > 0;
        self.on_the_way = before.waits;
        self.powered_up = false;
    }

    // Locks.

    /// Whether one of the numbers is locked, so that it was refused for that at least.
    pub fn refused_pairs(&mut self, table: Table, packet: &Packet, sights: &mut Sights) -> bool {
        let numbers = named(packet);
        let Some(first) = numbers.iter().position(|number| table.locked(*number)) else {
            return false;
        };
        let pairs = &packet.data()[1..];
        if pairs.chunks(2).all(|pair| allowed(pair[0], pair[1])) {
            self.for_a_lock(table, packet, sights);
            if numbers.iter().any(|number| !table.locked(*number)) {
                let member = usize::from(first == 0);
                sights.see_member("PARAM_SEND refused, free before locked, locked before free", member);
            }
        }
        true
    }

    fn for_a_lock(&mut self, table: Table, packet: &Packet, sights: &mut Sights) {
        let for_good = usize::from(packet.status() & PERMANENT != 0);
        sights.see_member("PARAM_SEND refused for a lock alone: for now, for good", for_good);
        sights.see_if(self.powered_up, "PARAM_SEND refused for a lock after a power-up");
        if let [number, value] = packet.data()[1..] {
            let place = place(number).expect("a locked one is one of the nine");
            sights.see_member("PARAM_SEND refused for a lock alone, each parameter", place);
            if table.present[place] == value {
                sights.see_member("PARAM_SEND refused for a lock, the value it has: for now, for good", for_good);
            }
        }
    }

    pub fn refused_beep(&mut self, table: Table, packet: &Packet, sights: &mut Sights) {
        let locked = packet.opcode() == PARAM_SEND && named(packet).iter().any(|number| table.locked(*number));
        sights.see_if(locked, "PARAM_SEND refused as 8 with a locked number");
    }

    pub fn acted_on(&mut self, before: Table, packet: &Packet, after: Table, sights: &mut Sights) {
        sights.see_if(self.inside, "packet acted on that a set came into");
        if count(before.locks) == 0 {
            return;
        }
        match packet.opcode() {
            PARAM_SEND if packet.data().len() > 1 => {
                let for_good = usize::from(packet.status() & PERMANENT != 0);
                sights.see_member("PARAM_SEND acted on beside locks: for now, for good", for_good);
            }
            PARAM_DEFAULTS => defaults(before, after, sights),
            _ => {}
        }
    }

    // What goes on around a set.

    /// After an event of the line: whether a packet is begun.
    pub fn line(&mut self, begun: bool) {
        self.inside &= begun;
    }

    /// A heeded answer or time-out.
    pub fn sent(&mut self, step: &Step, sights: &mut Sights) {
        if self.on_the_way {
            sights
                .see_member("set taken on the way of a message: copy written, ended", usize::from(step.copy.is_none()));
        }
        self.on_the_way &= step.end.is_none();
    }

    pub fn power_up(&mut self, before: Table, sights: &mut Sights) {
        self.inside = false;
        self.on_the_way = false;
        if count(before.locks) > 0 {
            self.powered_up = true;
            sights.see_if(before.present != before.permanent, "power-up sets parameters back beside locks");
        }
    }
}

fn refused(form: &[u8], fault: Fault, sights: &mut Sights) {
    match fault {
        Fault::Edition => see_byte("set refused for its edition: 0, 2, another", form[0], &[0, 2], sights),
        Fault::Count => see_byte("set refused for its count: 8, 10, another", form[1], &[8, 10], sights),
        Fault::Number(place) => sights.see_member("set refused, each number wrong", place),
        Fault::Value(place) => refused_value(place, form[3 + 2 * place], sights),
        Fault::LockCount => {
            see_byte("set refused for its count of locks: 10, more", form[WITHOUT_LOCKS - 1], &[10], sights)
        }
        Fault::LockOrder => {
            let twice = form[WITHOUT_LOCKS..].windows(2).any(|pair| pair[0] == pair[1]);
            sights.see_member("set refused for locks falling, twice, unknown", usize::from(twice));
        }
        Fault::LockNumber => sights.see_member("set refused for locks falling, twice, unknown", 2),
        Fault::Early => sights.see_member("set refused, ends early, each length", form.len()),
        Fault::Late if form.len() > LENGTHS => sights.see("set refused, longer than 40 bytes"),
        Fault::Late => sights.see_member("set refused, goes on, each length to 40", form.len() - WITHOUT_LOCKS - 1),
    }
}

/// A byte that is one of these, or another.
fn see_byte(name: &str, byte: u8, notable: &[u8], sights: &mut Sights) {
    let member = notable.iter().position(|notable| *notable == byte).unwrap_or(notable.len());
    sights.see_member(name, member);
}

fn refused_value(place: usize, value: u8, sights: &mut Sights) {
    let [number, low, high, _] = ROWS[place];
    if value == high + 1 {
        sights.see_member("set refused, each value just over its highest", place);
    }
    sights.see_if(low > 0 && value == low - 1, "set refused, 9Ch under its lowest");
    if let Some(member) = [1, 3, 5, 6].iter().position(|between| number == TRIGGER && *between == value) {
        sights.see_member("set refused, 8Ah with 1, 3, 5, 6", member);
    }
}

fn defaults(before: Table, after: Table, sights: &mut Sights) {
    for (place, [_, _, _, default]) in ROWS.into_iter().enumerate() {
        if before.locks[place] && before.permanent[place] != default {
            sights.see_member("PARAM_DEFAULTS passes over each locked parameter", place);
        }
    }
    sights.see_if(before.present != after.present, "PARAM_DEFAULTS with some locked, others set back");
    sights.see_if(count(before.locks) == ROWS.len(), "PARAM_DEFAULTS with all nine locked");
    sights.see_if(!after.handshaking(), "PARAM_DEFAULTS leaves 9Fh off for its lock");
}
