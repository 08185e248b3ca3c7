//! Seeded streams made to find differences. Each is written beside a machine of this program, so that it knows which
//! state it has reached and can steer for the rare ones.

mod blocks;
mod cards;
mod damage;
mod endings;
mod from_host;
mod from_reader;
mod pen;
mod rooms;
mod sets;
mod sweep;
mod texts;

pub use cards::{alike, near};
pub use damage::spoiled;
pub use texts::{every_text, texts};

use crate::dice::Dice;
use crate::framer::{Framer, LineEvent};
use crate::packet::{lay_out, CHECKSUM, HEADER, LONGEST, MARK};
use crate::sights::Sights;
use endings::{Endings, DESK_HUB_ENDINGS, DESK_READER_ENDINGS, HUB_ENDINGS, READER_ENDINGS};
use from_host::FromHost;
use from_reader::FromReader;
use pen::Pen;
use rooms::Rooms;

/// A kind of stream: what comes to a hub or to a reader, in what every listing knows or with desk's own tokens too.
#[derive(Clone, Copy, PartialEq, Eq, Debug)]
pub enum Kind {
    Hub,
    Reader,
    DeskHub,
    DeskReader,
}

impl Kind {
    const ALL: [Kind; 4] = [Kind::Hub, Kind::Reader, Kind::DeskHub, Kind::DeskReader];

    pub fn name(self) -> &'static str {
        match self {
            Kind::Hub => "hub",
            Kind::Reader => "reader",
            Kind::DeskHub => "desk-hub",
            Kind::DeskReader => "desk-reader",
        }
    }

    pub fn named(name: &str) -> Option<Kind> {
        Kind::ALL.into_iter().find(|kind| kind.name() == name)
    }

    /// Whether it has desk's own tokens in it.
    fn of_desk(self) -> bool {
        matches!(self, Kind::DeskHub | Kind::DeskReader)
    }

    fn endings(self) -> Endings {
        match self {
            Kind::Hub => &HUB_ENDINGS,
            Kind::Reader => &READER_ENDINGS,
            Kind::DeskHub => &DESK_HUB_ENDINGS,
            Kind::DeskReader => &DESK_READER_ENDINGS,
        }
    }
}

pub struct Stream {
    pub text: Vec<u8>,
    pub events: u64,
    pub sights: Sights,
}

/// A stream of about `events` events with an ending, right or wrong.
pub fn stream(kind: Kind, seed: u64, events: u64) -> Stream {
    drawn(kind, seed, events, Some(kind.endings()))
}

/// The same without an ending, so that more may follow.
pub fn open_stream(kind: Kind, seed: u64, events: u64) -> Stream {
    drawn(kind, seed, events, None)
}

fn drawn(kind: Kind, seed: u64, events: u64, endings: Option<Endings>) -> Stream {
    match kind {
        Kind::Hub | Kind::DeskHub => FromReader::new(seed, kind.of_desk()).stream(events, endings),
        Kind::Reader | Kind::DeskReader => FromHost::new(seed, kind.of_desk()).stream(events, endings),
    }
}

/// The stream without a seed that tries whole what is few enough.
pub fn sweep(kind: Kind) -> Stream {
    match kind {
        Kind::Hub => swept(FromReader::new(0, false), sweep::hub),
        Kind::Reader => swept(FromHost::new(0, false), sweep::reader),
        Kind::DeskHub => swept(FromReader::new(0, true), sweep::desk_hub),
        Kind::DeskReader => swept(FromHost::new(0, true), sweep::desk_reader),
    }
}

fn swept<L: Line>(mut line: L, sweep: fn(&mut L)) -> Stream {
    line.draw_nothing();
    sweep(&mut line);
    line.done()
}

/// How many packets are kept, to be sent again.
const KEPT: usize = 8;

/// What both sides' streams write with.
struct Hand {
    pen: Pen,
    /// Packets sent not long ago.
    kept: Vec<Vec<u8>>,
    /// The size of the answer room, where it has been set.
    room: Option<usize>,
    /// Draws others, in desk's streams.
    rooms: Option<Rooms>,
    /// Packets follow one another without a gap.
    joined: bool,
}

impl Hand {
    /// With what the machine needs for an answer, where rooms are to be drawn.
    fn new(seed: u64, need: Option<usize>) -> Hand {
        // Far from the pen's seed, so that rooms and spacing have nothing to do with each other.
        let rooms = need.map(|need| Rooms::new(!seed, need));
        Hand { pen: Pen::new(seed), kept: Vec::new(), room: None, rooms, joined: false }
    }

    /// The size of an event's answer room.
    fn room(&self) -> usize {
        self.room.unwrap_or(LONGEST)
    }

    fn done(self, sights: Sights) -> Stream {
        Stream { text: self.pen.text, events: self.pen.events, sights }
    }
}

/// What both sides' streams have in common: a line to disturb and to resend on, and a room to change.
trait Line: Sized {
    fn dice(&mut self) -> &mut Dice;
    fn hand(&mut self) -> &mut Hand;
    fn framer(&self) -> &Framer;
    /// The last accepted packet, without mark and checksum.
    fn last_accepted(&self) -> Option<Vec<u8>>;
    /// Whether the machine is in a state, rarer than others, in which another room is worth more.
    fn rare_state(&self) -> bool;
    /// Something drawn for the state that the machine is in.
    fn step(&mut self);
    /// A packet that has not been sent before.
    fn fresh(&mut self);
    /// Changes a packet that is to be resent, or leaves it.
    fn alter(&mut self, status: &mut u8, data: &mut Vec<u8>);
    /// Writes the event and has the machine take it in the present room.
    fn take(&mut self, event: LineEvent);
    /// Has the watch see the present room.
    fn room_set(&mut self);
    /// What else of desk's may stand before an event.
    fn aside(&mut self) {}
    /// Writes what has been taken and is not yet in the text.
    fn flush(&mut self) {}
    /// From here on no room and no block comes that is not asked for.
    fn draw_nothing(&mut self) {
        self.hand().rooms = None;
    }
    fn done(self) -> Stream;

    fn stream(mut self, events: u64, endings: Option<Endings>) -> Stream {
        while self.hand().pen.events < events {
            // A deaf machine hears nothing, so most of what is sent then is lost work.
            if self.framer().deaf() && self.dice().chance(60) {
                self.event(LineEvent::Gap);
            } else {
                self.step();
            }
        }
        self.flush();
        endings.into_iter().for_each(|endings| self.hand().pen.ending(endings));
        self.done()
    }

    fn set_room(&mut self, room: usize) {
        self.flush();
        self.hand().pen.room(room);
        self.hand().room = Some(room);
        self.room_set();
    }

    /// How likely another room comes before an event, of a thousand: the rarer the event, the likelier.
    fn room_chance(&self, event: LineEvent) -> usize {
        let by_event = match event {
            LineEvent::Byte(_) if self.framer().deaf() => 40,
            LineEvent::Byte(_) => 10,
            LineEvent::Gap => 60,
            LineEvent::MessageGap => 200,
        };
        by_event + if self.rare_state() { 15 } else { 0 }
    }

    fn event(&mut self, event: LineEvent) {
        let chance = self.room_chance(event);
        if let Some(rooms) = &mut self.hand().rooms {
            let change = rooms.before_event(chance);
            for room in change.refused {
                self.set_room(room);
                self.take(event);
            }
            change.room.into_iter().for_each(|room| self.set_room(room));
            self.aside();
        }
        self.take(event);
    }

    fn send(&mut self, bytes: &[u8]) {
        for byte in bytes {
            self.event(LineEvent::Byte(*byte));
        }
    }

    /// A packet and what comes after it.
    fn packet(&mut self, packet: &[u8]) {
        self.send(packet);
        self.after_packet();
    }

    /// Sends a whole packet and keeps it for later.
    fn whole(&mut self, packet: Vec<u8>) {
        self.send(&packet);
        if self.hand().kept.len() == KEPT {
            let at = self.dice().below(KEPT);
            self.hand().kept.swap_remove(at);
        }
        self.hand().kept.push(packet);
        self.after_packet();
    }

    /// The last accepted packet again: mostly marked and equal, at times with something else changed.
    fn resend_last(&mut self) {
        let Some(body) = self.last_accepted() else {
            return self.resend_kept();
        };
        let (mut status, mut data) = (body[3] | MARK, body[HEADER..].to_vec());
        self.alter(&mut status, &mut data);
        self.packet(&lay_out(body[1], body[2], status, &data));
    }

    /// Some earlier packet again.
    fn resend_kept(&mut self) {
        let kept = self.hand().kept.len();
        if kept == 0 {
            return self.fresh();
        }
        let at = self.dice().below(kept);
        let old = self.hand().kept[at].clone();
        let mark = self.dice().pick(&[MARK, MARK, MARK, 0]);
        self.packet(&lay_out(old[1], old[2], old[3] | mark, &old[HEADER..old.len() - CHECKSUM]));
    }

    /// What was accepted before the machine forgot it, marked.
    fn resend_forgotten(&mut self, last: Option<Vec<u8>>) {
        if let Some(body) = last.filter(|_| self.dice().chance(50)) {
            self.resend(&body);
        }
    }

    /// A packet without mark and checksum, marked.
    fn resend(&mut self, body: &[u8]) {
        self.packet(&lay_out(body[1], body[2], body[3] | MARK, &body[HEADER..]));
    }

    /// What comes after a packet: mostly its gap, sometimes nothing, so that the next one is joined to it.
    fn after_packet(&mut self) {
        if self.hand().joined {
            return;
        }
        match self.dice().weigh(&[72, 18, 5, 5]) {
            0 => self.event(LineEvent::Gap),
            1 => {}
            2 => self.event(LineEvent::MessageGap),
            _ => self.gaps(),
        }
    }

    fn gaps(&mut self) {
        for _ in 0..self.dice().between(1, 3) {
            let kind = self.dice().pick(&[LineEvent::Gap, LineEvent::Gap, LineEvent::Gap, LineEvent::MessageGap]);
            self.event(kind);
        }
    }

    fn garbage(&mut self) {
        let low = self.dice().chance(50);
        for _ in 0..self.dice().between(1, 12) {
            let byte = if low { self.dice().below(10) as u8 } else { self.dice().byte() };
            self.event(LineEvent::Byte(byte));
        }
    }
}
