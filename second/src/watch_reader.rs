//! Watches a reader and tells which of the states worth reaching an event reached.

use crate::framer::LineEvent;
use crate::hub::LONGEST_MESSAGE;
use crate::packet::*;
use crate::reader::{Reader, Step, Switches, ALL, ANSWER_ROOM};
use crate::sender::End;
use crate::sights::{bit_alone, Name, Sights};
use crate::table::{place, Table, ACK_NAK, HIGHEST_BEEP, NO_BEEP, ROWS, TRIGGER};
use crate::watch_cards::{Between, CardWatch, CARD_NAMES};
use crate::watch_room::{FramerLook, RoomWatch, ROOM_NAMES};
use crate::watch_sets::{SetWatch, SET_NAMES};

/// How many beep codes are allowed.
const CODES: usize = HIGHEST_BEEP as usize + 1;

const NAMES: [Name; 79] = [
    ("command acted on, each opcode", 12),
    ("command acted on while the sender waits", 1),
    ("command acted on with 9Fh off, each opcode", 12),
    ("BEEP, each code that is allowed", CODES),
    ("BEEP refused: the first code that is not allowed, another, FEh, FFh", 4),
    ("PARAM_SEND beeps, each code that is allowed", CODES),
    ("PARAM_SEND refused: the first beep byte that is not allowed, another, FEh", 3),
    ("PARAM_SEND with beep byte FFh", 1),
    ("PARAM_SEND with the beep byte alone", 1),
    ("PARAM_SEND with 125 pairs accepted", 1),
    ("PARAM_SEND, each parameter at its lowest", 9),
    ("PARAM_SEND, each parameter at its highest", 9),
    ("PARAM_SEND, each parameter over its highest refused", 9),
    ("PARAM_SEND, 9Ch under its lowest refused", 1),
    ("PARAM_SEND, 8Ah with each of 0 to 9", 10),
    ("PARAM_SEND with an unsupported number refused", 1),
    ("PARAM_SEND, a number named twice, later value holds", 1),
    ("PARAM_SEND, good pairs before a bad one, all refused", 1),
    ("PARAM_SEND, bad value then good for one number refused", 1),
    ("PARAM_SEND for now", 1),
    ("PARAM_SEND for good", 1),
    ("PARAM_SEND of even data length refused", 1),
    ("PARAM_DEFAULTS with changed values", 1),
    ("PARAM_DEFAULTS turns 9Fh on", 1),
    ("PARAM_REQUEST answered", 1),
    ("PARAM_REQUEST answered with 9Fh off", 1),
    ("PARAM_REQUEST with FEh first, inside, last, alone", 4),
    ("PARAM_REQUEST naming a number twice", 1),
    ("PARAM_REQUEST naming unsupported numbers only", 1),
    ("PARAM_REQUEST of 251 numbers", 1),
    ("9Fh turned off", 1),
    ("9Fh turned on", 1),
    ("resent packet that turned 9Fh off, answered", 1),
    ("resent packet that turned 9Fh on, not answered", 1),
    ("resent PARAM_DEFAULTS that turned 9Fh on, not answered", 1),
    ("resent equal, each opcode", 12),
    ("resent equal without answer", 1),
    ("resent equal after refusals between", 1),
    ("resent equal while the sender waits", 1),
    ("resent equal twice", 1),
    ("marked, unlike the last, acted on", 1),
    ("unmarked equal of the last, acted on", 1),
    (AFTER_POWER_UP, 1),
    (AFTER_SET, 1),
    ("resent equal after a refused set", 1),
    ("START_SESSION while disabled", 1),
    ("SCAN_DISABLE in a session", 1),
    ("LED_ON or LED_OFF without bit 0", 2),
    ("bit 1 with F3h refused as 6", 1),
    ("bit 1 with an unknown opcode refused as 5", 1),
    ("refusals 1 to 3 silent while the sender waits", 3),
    ("refusals 4 to 9 answered while the sender waits", 6),
    ("refusals 1 to 9 silent with 9Fh off", 9),
    ("refusals 1 to 9 answered", 9),
    ("packet joined to the one before", 1),
    ("ACK goes on to the next packet", 1),
    ("NAK 1 resends", 1),
    ("time-out resends", 1),
    ("third copy of a packet", 1),
    ("failed: third copy timed out", 1),
    ("failed: third copy got NAK 1", 1),
    ("failed: other NAK, first copy or later", 2),
    ("delivered with 0, 1, 2, more marked copies", 4),
    ("message of 4,096 bytes delivered", 1),
    ("empty message delivered", 1),
    ("start of over 4,096: 4,097, more", 2),
    ("start while one is out", 1),
    ("copy written with 9Fh off", 1),
    ("odd ACK does nothing: source, status, data", 3),
    ("odd NAK does nothing: source, status, data", 3),
    ("ACK, NAK or time-out with nothing out", 3),
    ("power-up with a message out", 1),
    ("power-up inside a packet, while deaf", 2),
    ("power-up brings permanent values back", 1),
    ("power-up keeps 9Fh off", 1),
    ("message gap cuts a packet", 1),
    ("status bit 2, 4, 5, 6 or 7 alone refused", 5),
    ("bit 3 without meaning, command acted on", 1),
    ("data length refused, each opcode", 12),
];

const AFTER_POWER_UP: &str = "resent equal after a power-up, acted on";
const AFTER_SET: &str = "resent equal after a set, acted on";

/// What the streams with desk's own tokens are for.
const DESK_NAMES: [Name; 10] = [
    ("13 while a message is out", 1),
    ("13 with 9Fh off", 1),
    ("start in a room too small for answers", 1),
    ("time-out that resends in a room too small for answers", 1),
    ("power-up in a room too small for answers", 1),
    ("values shown, unlike the permanent ones", 1),
    ("values shown after a power-up brought others back", 1),
    ("values shown inside a packet, while deaf, while a message is out", 3),
    ("values shown in a room too small for answers", 1),
    ("set taken, refused, saved in a room too small for answers", 3),
];

fn opcode_place(opcode: u8) -> usize {
    COMMANDS.iter().position(|known| *known == opcode).expect("a known opcode")
}

/// What can be seen of the reader before an event.
#[derive(Clone, Copy)]
pub struct ReaderLook {
    pub table: Table,
    switches: Switches,
    pub waits: bool,
    resends: usize,
    size: usize,
    pub framer: FramerLook,
}

impl ReaderLook {
    pub fn at(reader: &Reader) -> ReaderLook {
        ReaderLook {
            table: *reader.table(),
            switches: reader.switches(),
            waits: reader.sender().waits(),
            resends: reader.sender().resends(),
            size: reader.sender().size().unwrap_or(0),
            framer: FramerLook::at(reader.framer()),
        }
    }
}

/// The last accepted packet and what happened around it.
struct Last {
    body: Vec<u8>,
    handshaking: (bool, bool),
    refused_since: bool,
    set_refused: bool,
    repeated: bool,
}

pub struct ReaderWatch {
    pub sights: Sights,
    last: Option<Last>,
    /// The last accepted packet before what made the reader forget it, until another is accepted; with what is seen
    /// where it comes again.
    forgotten: Option<(Vec<u8>, &'static str)>,
    joined: bool,
    room: RoomWatch,
    sets: SetWatch,
    cards: CardWatch,
    /// The answer room is too small.
    small: bool,
    /// A power-up has changed present values, and they were not shown since.
    brought_back: bool,
}

impl ReaderWatch {
    pub fn new(desk: bool) -> ReaderWatch {
        let desks = ROOM_NAMES.iter().chain(&DESK_NAMES).filter(|_| desk);
        ReaderWatch {
            sights: Sights::new(NAMES.iter().chain(&SET_NAMES).chain(&CARD_NAMES).chain(desks)),
            last: None,
            forgotten: None,
            joined: false,
            room: RoomWatch::default(),
            sets: SetWatch::default(),
            cards: CardWatch::default(),
            small: false,
            brought_back: false,
        }
    }

    pub fn room_set(&mut self, room: usize) {
        self.small = room < ANSWER_ROOM;
        self.room.set(room, &mut self.sights);
    }

    pub fn line(&mut self, before: ReaderLook, event: LineEvent, step: &Step, reader: &Reader) {
        if step.refusal == Some(Refusal::Room) {
            return self.no_room(before, event);
        }
        self.room.taken(before.framer, event, step.packet.is_some(), &mut self.sights);
        self.joins(before, event, step);
        if let Some(refusal) = step.refusal {
            self.refused(before, refusal, step);
        }
        if let Some(packet) = &step.packet {
            self.packet(before, packet, step, reader);
        }
        self.sets.line(reader.framer().begun() > 0);
    }

    fn packet(&mut self, before: ReaderLook, packet: &Packet, step: &Step, reader: &Reader) {
        if packet.is_answer() {
            self.answer(before, packet, step);
        } else if step.repeated {
            self.repeat(before, packet, step);
        } else if step.refusal.is_none() {
            self.acted_on(before, packet, step, reader);
        }
    }

    fn no_room(&mut self, before: ReaderLook, event: LineEvent) {
        self.room.refused(before.framer, event, &mut self.sights);
        self.sights.see_if(before.waits, "13 while a message is out");
        self.sights.see_if(!before.table.handshaking(), "13 with 9Fh off");
    }

    pub fn shown(&mut self, now: ReaderLook) {
        let changed = now.table.present != now.table.permanent;
        self.sights.see_if(changed, "values shown, unlike the permanent ones");
        let brought_back = std::mem::take(&mut self.brought_back);
        self.sights.see_if(brought_back, "values shown after a power-up brought others back");
        for (member, seen) in [now.framer.begun > 0, now.framer.deaf, now.waits].into_iter().enumerate() {
            if seen {
                self.sights.see_member("values shown inside a packet, while deaf, while a message is out", member);
            }
        }
        self.sights.see_if(self.small, "values shown in a room too small for answers");
    }

    // Saved sets.

    pub fn save(&mut self, now: ReaderLook, form: &[u8]) {
        self.sets.save(now, form, &mut self.sights);
        self.in_small_room(2);
    }

    pub fn load(&mut self, before: ReaderLook, form: &[u8], loaded: Result<(), Refusal>) {
        self.sets.load(before, form, &mut self.sights);
        self.in_small_room(usize::from(loaded.is_err()));
        if loaded.is_ok() {
            self.cards.between(Between::Set);
            self.forget(AFTER_SET);
        } else if let Some(last) = &mut self.last {
            last.set_refused = true;
        }
    }

    fn in_small_room(&mut self, member: usize) {
        if self.small {
            self.sights.see_member("set taken, refused, saved in a room too small for answers", member);
        }
    }

    fn forget(&mut self, again: &'static str) {
        if let Some(last) = self.last.take() {
            self.forgotten = Some((last.body, again));
        }
    }

    fn joins(&mut self, before: ReaderLook, event: LineEvent, step: &Step) {
        match event {
            LineEvent::Byte(_) => self.sights.see_if(self.joined, "packet joined to the one before"),
            LineEvent::Gap => {}
            LineEvent::MessageGap => self.sights.see_if(before.framer.begun > 0, "message gap cuts a packet"),
        }
        // Gaps come without a packet, so they part the next one from the one before.
        self.joined = step.packet.is_some();
    }

    // Refusals.

    fn refused(&mut self, before: ReaderLook, refusal: Refusal, step: &Step) {
        self.sights.refusal(refusal);
        self.cards.between(Between::Refusal);
        if let Some(last) = &mut self.last {
            last.refused_since = true;
        }
        let number = refusal.number();
        let member = number - 1;
        if !before.table.handshaking() {
            self.sights.see_member("refusals 1 to 9 silent with 9Fh off", member);
        } else if before.waits && number <= 3 {
            self.sights.see_member("refusals 1 to 3 silent while the sender waits", member);
        } else if before.waits {
            self.sights.see_member("refusals 4 to 9 answered while the sender waits", number - 4);
        } else {
            self.sights.see_member("refusals 1 to 9 answered", member);
        }
        if let Some(packet) = &step.packet {
            self.refused_packet(before, packet, refusal);
        }
    }

    fn refused_packet(&mut self, before: ReaderLook, packet: &Packet, refusal: Refusal) {
        let more = packet.status() & MORE != 0;
        if let Some(member) = bit_alone(packet.status()) {
            self.sights.see_member("status bit 2, 4, 5, 6 or 7 alone refused", member);
        }
        if refusal == Refusal::DataLength {
            self.sights.see_member("data length refused, each opcode", opcode_place(packet.opcode()));
        }
        match (refusal, packet.opcode()) {
            (Refusal::Opcode, DECODE_DATA) => self.sights.see_if(more, "bit 1 with F3h refused as 6"),
            (Refusal::Status, opcode) if packet.status() == MORE && !COMMANDS.contains(&opcode) => {
                self.sights.see("bit 1 with an unknown opcode refused as 5")
            }
            (Refusal::DataLength, PARAM_SEND) if !packet.data().is_empty() => {
                self.sights.see("PARAM_SEND of even data length refused")
            }
            (Refusal::Beep, opcode) => {
                let name = match opcode {
                    BEEP => "BEEP refused: the first code that is not allowed, another, FEh, FFh",
                    _ => "PARAM_SEND refused: the first beep byte that is not allowed, another, FEh",
                };
                let member = match packet.data()[0] {
                    code if usize::from(code) == CODES => 0,
                    0xFE => 2,
                    0xFF => 3,
                    _ => 1,
                };
                self.sights.see_member(name, member);
                self.sets.refused_beep(before.table, packet, &mut self.sights);
            }
            (Refusal::Parameter, _) if self.sets.refused_pairs(before.table, packet, &mut self.sights) => {}
            (Refusal::Parameter, _) => self.refused_pairs(&packet.data()[1..]),
            _ => {}
        }
    }

    fn refused_pairs(&mut self, pairs: &[u8]) {
        if let [number, value] = pairs {
            return self.refused_pair(*number, *value);
        }
        let good: Vec<bool> = pairs.chunks(2).map(|pair| crate::table::allowed(pair[0], pair[1])).collect();
        self.sights.see_if(good[0], "PARAM_SEND, good pairs before a bad one, all refused");
        let mended = pairs.chunks(2).zip(&good).enumerate().any(|(i, (bad, fine))| {
            !fine && pairs.chunks(2).zip(&good).skip(i).any(|(later, fine)| *fine && later[0] == bad[0])
        });
        self.sights.see_if(mended, "PARAM_SEND, bad value then good for one number refused");
    }

    fn refused_pair(&mut self, number: u8, value: u8) {
        let Some(place) = place(number) else {
            return self.sights.see("PARAM_SEND with an unsupported number refused");
        };
        let [_, low, high, _] = ROWS[place];
        if value == high + 1 {
            self.sights.see_member("PARAM_SEND, each parameter over its highest refused", place);
        }
        self.sights.see_if(low > 0 && value == low - 1, "PARAM_SEND, 9Ch under its lowest refused");
        self.trigger(number, value);
    }

    fn trigger(&mut self, number: u8, value: u8) {
        if number == TRIGGER && value <= 9 {
            self.sights.see_member("PARAM_SEND, 8Ah with each of 0 to 9", usize::from(value));
        }
    }

    // Commands.

    fn repeat(&mut self, before: ReaderLook, packet: &Packet, step: &Step) {
        let opcode = packet.opcode();
        self.sights.see_member("resent equal, each opcode", opcode_place(opcode));
        self.sights.see_if(step.answer.is_none(), "resent equal without answer");
        self.sights.see_if(before.waits, "resent equal while the sender waits");
        let last = self.last.as_mut().expect("a packet that was accepted");
        let turned = last.handshaking;
        let (refused_since, set_refused, repeated) = (last.refused_since, last.set_refused, last.repeated);
        last.repeated = true;
        self.sights.see_if(refused_since, "resent equal after refusals between");
        self.sights.see_if(set_refused, "resent equal after a refused set");
        self.sights.see_if(repeated, "resent equal twice");
        match (turned, opcode) {
            ((true, false), _) => self.sights.see("resent packet that turned 9Fh off, answered"),
            ((false, true), PARAM_SEND) => self.sights.see("resent packet that turned 9Fh on, not answered"),
            ((false, true), _) => self.sights.see("resent PARAM_DEFAULTS that turned 9Fh on, not answered"),
            _ => {}
        }
    }

    fn acted_on(&mut self, before: ReaderLook, packet: &Packet, step: &Step, reader: &Reader) {
        let member = opcode_place(packet.opcode());
        self.sights.see_member("command acted on, each opcode", member);
        self.sights.see_if(before.waits, "command acted on while the sender waits");
        let turned = (before.table.handshaking(), reader.table().handshaking());
        if !turned.0 {
            self.sights.see_member("command acted on with 9Fh off, each opcode", member);
        }
        self.sights.see_if(turned == (true, false), "9Fh turned off");
        self.sights.see_if(turned == (false, true), "9Fh turned on");
        let idle_bit = packet.status() & PERMANENT != 0 && packet.opcode() != PARAM_SEND;
        self.sights.see_if(idle_bit, "bit 3 without meaning, command acted on");
        self.compared_with_last(packet);
        if step.answer.is_some() {
            self.cards.between(Between::Command);
        }
        self.by_opcode(before, packet, step, turned);
        self.sets.acted_on(before.table, packet, *reader.table(), &mut self.sights);
        let body = packet.without_mark();
        self.last = Some(Last { body, handshaking: turned, refused_since: false, set_refused: false, repeated: false });
        self.forgotten = None;
    }

    fn compared_with_last(&mut self, packet: &Packet) {
        let body = packet.without_mark();
        if packet.marked() {
            self.sights.see("marked, unlike the last, acted on");
            if let Some((_, again)) = self.forgotten.as_ref().filter(|(forgotten, _)| *forgotten == body) {
                self.sights.see(again);
            }
        } else {
            let equal = self.last.as_ref().is_some_and(|last| last.body == body);
            self.sights.see_if(equal, "unmarked equal of the last, acted on");
        }
    }

    fn by_opcode(&mut self, before: ReaderLook, packet: &Packet, step: &Step, turned: (bool, bool)) {
        let data = packet.data();
        match packet.opcode() {
            BEEP => self.sights.see_member("BEEP, each code that is allowed", usize::from(data[0])),
            PARAM_SEND => self.param_send(packet),
            PARAM_REQUEST => self.param_request(before, data, step),
            PARAM_DEFAULTS => {
                let defaults = Table { locks: before.table.locks, ..Table::house_defaults() };
                let changed = before.table != defaults;
                self.sights.see_if(changed, "PARAM_DEFAULTS with changed values");
                self.sights.see_if(turned == (false, true), "PARAM_DEFAULTS turns 9Fh on");
            }
            START_SESSION => self.sights.see_if(!before.switches.enabled, "START_SESSION while disabled"),
            SCAN_DISABLE => self.sights.see_if(before.switches.session, "SCAN_DISABLE in a session"),
            LED_ON | LED_OFF if data[0] & 1 == 0 => {
                let member = usize::from(packet.opcode() == LED_OFF);
                self.sights.see_member("LED_ON or LED_OFF without bit 0", member);
            }
            _ => {}
        }
    }

    fn param_send(&mut self, packet: &Packet) {
        let code = packet.data()[0];
        let pairs = &packet.data()[1..];
        if code <= HIGHEST_BEEP {
            self.sights.see_member("PARAM_SEND beeps, each code that is allowed", usize::from(code));
        }
        self.sights.see_if(code == NO_BEEP, "PARAM_SEND with beep byte FFh");
        self.sights.see_if(pairs.is_empty(), "PARAM_SEND with the beep byte alone");
        self.sights.see_if(pairs.len() == 250, "PARAM_SEND with 125 pairs accepted");
        let for_good = packet.status() & PERMANENT != 0;
        self.sights.see(if for_good { "PARAM_SEND for good" } else { "PARAM_SEND for now" });
        if let [number, value] = pairs {
            self.accepted_pair(*number, *value);
        }
        let pairs: Vec<&[u8]> = pairs.chunks(2).collect();
        let twice = (0..pairs.len()).any(|i| pairs[..i].iter().any(|p| p[0] == pairs[i][0] && p[1] != pairs[i][1]));
        self.sights.see_if(twice, "PARAM_SEND, a number named twice, later value holds");
    }

    fn accepted_pair(&mut self, number: u8, value: u8) {
        let place = place(number).expect("one of the nine");
        let [_, low, high, _] = ROWS[place];
        if value == low {
            self.sights.see_member("PARAM_SEND, each parameter at its lowest", place);
        }
        if value == high {
            self.sights.see_member("PARAM_SEND, each parameter at its highest", place);
        }
        self.trigger(number, value);
    }

    fn param_request(&mut self, before: ReaderLook, numbers: &[u8], step: &Step) {
        self.sights.see("PARAM_REQUEST answered");
        self.sights.see_if(!before.table.handshaking(), "PARAM_REQUEST answered with 9Fh off");
        self.sights.see_if(numbers.len() == MOST_DATA, "PARAM_REQUEST of 251 numbers");
        if let Some(at) = numbers.iter().position(|number| *number == ALL) {
            let member = match (at, numbers.len() - 1 - at) {
                (0, 0) => 3,
                (0, _) => 0,
                (_, 0) => 2,
                _ => 1,
            };
            return self.sights.see_member("PARAM_REQUEST with FEh first, inside, last, alone", member);
        }
        let twice = (0..numbers.len()).any(|i| place(numbers[i]).is_some() && numbers[..i].contains(&numbers[i]));
        self.sights.see_if(twice, "PARAM_REQUEST naming a number twice");
        let empty = step.answer.as_ref().is_some_and(|answer| answer[0] == 5);
        self.sights.see_if(empty, "PARAM_REQUEST naming unsupported numbers only");
    }

    // The sender.

    fn answer(&mut self, before: ReaderLook, packet: &Packet, step: &Step) {
        let right = packet.source() == HOST && packet.status() <= MARK;
        let is_ack = packet.opcode() == CMD_ACK;
        let cause = packet.data().first().copied();
        if right && packet.data().len() == usize::from(!is_ack) {
            if !before.waits {
                let member = usize::from(!is_ack);
                return self.sights.see_member("ACK, NAK or time-out with nothing out", member);
            }
            self.sights.see_if(is_ack && step.copy.is_some(), "ACK goes on to the next packet");
            self.sights.see_if(cause == Some(1) && step.copy.is_some(), "NAK 1 resends");
            return self.sent(before, step, cause);
        }
        if before.waits {
            self.odd(packet, is_ack);
        }
    }

    /// Counts an answer with one single fault.
    fn odd(&mut self, packet: &Packet, is_ack: bool) {
        let faults = [packet.source() != HOST, packet.status() > MARK, packet.data().len() != usize::from(!is_ack)];
        let name = if is_ack {
            "odd ACK does nothing: source, status, data"
        } else {
            "odd NAK does nothing: source, status, data"
        };
        if faults.iter().filter(|fault| **fault).count() == 1 {
            let member = faults.iter().position(|fault| *fault).expect("one fault");
            self.sights.see_member(name, member);
        }
    }

    /// A heeded answer with its cause, or a time-out (cause 0).
    fn sent(&mut self, before: ReaderLook, step: &Step, cause: Option<u8>) {
        if before.waits {
            self.sets.sent(step, &mut self.sights);
            self.cards.sent(step, &mut self.sights);
        }
        let third = step.copy.is_some() && cause.is_some() && before.resends == 1;
        self.sights.see_if(third, "third copy of a packet");
        let off = step.copy.is_some() && !before.table.handshaking();
        self.sights.see_if(off, "copy written with 9Fh off");
        match (step.end, cause) {
            (None, _) => {}
            (Some(End::Delivered(marked)), _) => {
                self.sights.see_member("delivered with 0, 1, 2, more marked copies", marked.min(3));
                self.sights.see_if(before.size == LONGEST_MESSAGE, "message of 4,096 bytes delivered");
                self.sights.see_if(before.size == 0, "empty message delivered");
            }
            (Some(End::Failed(_)), Some(0)) if step.packet.is_none() => self.sights.see("failed: third copy timed out"),
            (Some(End::Failed(_)), Some(1)) => self.sights.see("failed: third copy got NAK 1"),
            (Some(End::Failed(marked)), _) => {
                self.sights.see_member("failed: other NAK, first copy or later", marked.min(1))
            }
        }
    }

    pub fn time_out(&mut self, before: ReaderLook, step: &Step) {
        if !before.waits {
            return self.sights.see_member("ACK, NAK or time-out with nothing out", 2);
        }
        self.sights.see_if(step.copy.is_some(), "time-out resends");
        let small = step.copy.is_some() && self.small;
        self.sights.see_if(small, "time-out that resends in a room too small for answers");
        self.sent(before, step, Some(0));
    }

    /// A message with its code type in front.
    pub fn start(&mut self, before: ReaderLook, message: &[u8], step: &Step) {
        if let Some(refusal) = step.refusal {
            self.sights.refusal(refusal);
            self.cards.between(Between::Start);
        }
        let size = message.len() - 1;
        let small = step.copy.is_some() && self.small;
        self.sights.see_if(small, "start in a room too small for answers");
        if before.waits {
            self.sights.see("start while one is out");
        } else if size > LONGEST_MESSAGE {
            let member = usize::from(size > LONGEST_MESSAGE + 1);
            self.sights.see_member("start of over 4,096: 4,097, more", member);
        } else {
            self.sent(before, step, None);
            self.cards.start(message, step, &mut self.sights);
        }
    }

    pub fn power_up(&mut self, before: ReaderLook) {
        self.sights.see_if(before.waits, "power-up with a message out");
        if before.framer.begun > 0 {
            self.sights.see_member("power-up inside a packet, while deaf", 0);
        }
        if before.framer.deaf {
            self.sights.see_member("power-up inside a packet, while deaf", 1);
        }
        let changed = before.table.present != before.table.permanent;
        self.sights.see_if(changed, "power-up brings permanent values back");
        self.brought_back |= changed;
        self.sights.see_if(self.small, "power-up in a room too small for answers");
        let nine_f = place(ACK_NAK).expect("9Fh is one of the nine");
        self.sights.see_if(before.table.permanent[nine_f] == 0, "power-up keeps 9Fh off");
        self.forget(AFTER_POWER_UP);
        self.sets.power_up(before.table, &mut self.sights);
        self.cards.power_up();
        self.joined = false;
    }
}
