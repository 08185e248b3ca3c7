//! The second program behind the same calls. None is inlined: a firmware's call of the library is not either.

use second::framer::LineEvent;
use second::hub::{self, Done, HubStep};
use second::kept::KeptTable;
use second::packet::{self, Packet, Refusal, CMD_ACK, CMD_NAK, HOST};
use second::reader::{self, Step};
use second::sender::{self, End, First, Sent};

use crate::calls::{self, Event, Fields, Told, ACK, HUB_ANSWER, MESSAGE, PACKET, READER_ANSWER, SET, TABLE, TIME_OUT};
use crate::calls::{ACTED, ADDED, COPY, DELIVERED, FAILED, FOUND, HANDED_OUT, REPEATED, WRITTEN};

pub struct Packets(pub [u8; PACKET]);

pub struct Hub {
    pub hub: hub::Hub,
    pub answer: [u8; HUB_ANSWER],
    pub message: [u8; MESSAGE],
}

pub struct Sender {
    sender: sender::Sender,
    copy: [u8; PACKET],
    /// The host's answers by the number heard, so that none has to be made for the call.
    answers: Vec<Packet>,
}

pub struct Reader {
    pub reader: reader::Reader,
    pub answer: [u8; READER_ANSWER],
    pub copy: [u8; PACKET],
}

pub struct Table(KeptTable);

fn event_of(event: Event) -> LineEvent {
    match event {
        Event::Byte(byte) => LineEvent::Byte(byte),
        Event::CharacterGap => LineEvent::Gap,
        Event::MessageGap => LineEvent::MessageGap,
    }
}

fn number(refusal: Refusal) -> u32 {
    refusal.number() as u32
}

fn refused(refusal: Refusal) -> Told<'static> {
    Told { number: number(refusal), ..Told::default() }
}

/// Writes the bytes at the front of the room and gives them there; what is behind them stays.
fn put<'a>(room: &'a mut [u8], bytes: &[u8]) -> &'a [u8] {
    let front = &mut room[..bytes.len()];
    front.copy_from_slice(bytes);
    front
}

impl calls::Packets for Packets {
    fn new() -> Packets {
        Packets([0; PACKET])
    }

    #[inline(never)]
    fn check(&self, bytes: &[u8]) -> Told<'_> {
        match packet::check(bytes) {
            Ok(packet) => {
                let values = [0, 1, 2, 3].map(|at: usize| packet.bytes()[at]);
                Told { number: FOUND, values, ..Told::default() }
            }
            Err(refusal) => refused(refusal),
        }
    }

    #[inline(never)]
    fn build(&mut self, Fields { opcode, source, status, data }: Fields) -> Told<'_> {
        match packet::build(&mut self.0, opcode, source, status, data) {
            Ok(size) => Told { number: WRITTEN, packet: &self.0[..size], ..Told::default() },
            Err(refusal) => refused(refusal),
        }
    }
}

impl calls::Machine for Hub {
    fn new() -> Hub {
        Hub { hub: hub::Hub::default(), answer: [0; HUB_ANSWER], message: [0; MESSAGE] }
    }

    fn switch_on(&mut self) {
        self.hub = hub::Hub::default();
    }

    #[inline(never)]
    fn event(&mut self, event: Event) -> Told<'_> {
        let step: HubStep = self.hub.take(event_of(event));
        let answer = step.answer();
        let packet = answer.map_or(&[][..], |answer| put(&mut self.answer, &answer));
        match step.done {
            Done::Nothing | Done::Ignored => Told::default(),
            Done::Refused(refusal) => Told { number: number(refusal), packet, ..Told::default() },
            Done::Repeated => Told { number: REPEATED, packet, ..Told::default() },
            Done::Added => Told { number: ADDED, packet, ..Told::default() },
            Done::HandedOut(joined) => Told {
                number: HANDED_OUT,
                values: [joined.code_type, 0, 0, 0],
                packet,
                message: put(&mut self.message, &joined.bytes),
                taken: 0,
            },
        }
    }
}

impl calls::Blocks for Hub {
    #[inline(never)]
    fn block<'a>(&'a mut self, bytes: &[u8], room: &'a mut [u8]) -> Told<'a> {
        let block = match self.hub.take_block(bytes, room.len()) {
            Ok(block) => block,
            Err(refusal) => return refused(refusal),
        };
        let (packet, taken) = (put(room, &block.answers), block.taken);
        match block.message {
            None => Told { number: block.refusal.map_or(0, number), packet, taken, ..Told::default() },
            Some(joined) => Told {
                number: HANDED_OUT,
                values: [joined.code_type, 0, 0, 0],
                packet,
                message: put(&mut self.message, &joined.bytes),
                taken,
            },
        }
    }
}

/// A copy stands in the room, or a message has ended.
fn sent(sent: Sent, room: &mut [u8]) -> Told<'_> {
    let ended = |number, copies: usize| Told { number, values: [copies as u8, 0, 0, 0], ..Told::default() };
    match sent {
        Sent::Nothing => Told::default(),
        Sent::Copy(bytes) => Told { number: COPY, packet: put(room, &bytes), ..Told::default() },
        Sent::Ended(End::Delivered(copies)) => ended(DELIVERED, copies),
        Sent::Ended(End::Failed(copies)) => ended(FAILED, copies),
    }
}

/// Of a start, which tells that a message gap is due before its copy, or that none is.
fn with_gap(gap: bool, told: Told<'_>) -> Told<'_> {
    Told { values: [gap.into(), 0, 0, 0], ..told }
}

impl calls::Sender for Sender {
    fn new() -> Sender {
        let nak = |cause| packet::lay_out(CMD_NAK, HOST, 0, &[cause]);
        let bytes = (0..=255).map(nak).chain([packet::lay_out(CMD_ACK, HOST, 0, &[])]);
        let answers = bytes.map(|bytes| packet::check(&bytes).expect("a packet just laid out")).collect();
        Sender { sender: sender::Sender::default(), copy: [0; PACKET], answers }
    }

    fn idle(&mut self) {
        self.sender = sender::Sender::default();
    }

    #[inline(never)]
    fn start(&mut self, code: u8, message: &[u8]) -> Told<'_> {
        match self.sender.start(code, message) {
            Ok(First { copy, gap }) => with_gap(gap, sent(Sent::Copy(copy), &mut self.copy)),
            Err(refusal) => refused(refusal),
        }
    }

    #[inline(never)]
    fn hear(&mut self, heard: u32) -> Told<'_> {
        let brought = match heard {
            0..=ACK => self.sender.answer(&self.answers[heard as usize]),
            TIME_OUT => self.sender.time_out(),
            _ => Sent::Nothing,
        };
        sent(brought, &mut self.copy)
    }
}

impl calls::Table for Table {
    fn of(bytes: [u8; TABLE]) -> Table {
        Table(KeptTable(bytes))
    }

    fn bytes(&self) -> &[u8; TABLE] {
        &self.0 .0
    }

    #[inline(never)]
    fn set(&mut self, pairs: &[u8], permanent: bool) -> u32 {
        self.0.set(pairs, permanent).map_or_else(number, |()| 0)
    }

    #[inline(never)]
    fn defaults(&mut self) {
        self.0.defaults();
    }

    #[inline(never)]
    fn power_up(&mut self) {
        self.0.power_up();
    }
}

impl Reader {
    fn told(&mut self, step: Step) -> Told<'_> {
        let brought = match (step.copy, step.end) {
            (Some(bytes), _) => Sent::Copy(bytes),
            (None, Some(end)) => Sent::Ended(end),
            (None, None) => Sent::Nothing,
        };
        if brought != Sent::Nothing {
            return sent(brought, &mut self.copy);
        }
        let number = match step.refusal {
            Some(refusal) => number(refusal),
            None if step.repeated => REPEATED,
            None if step.switches.is_some() => ACTED,
            None => 0,
        };
        let [duration, pitch, count] = step.beep.unwrap_or_default();
        let values = [duration, pitch, count, step.changed.into()];
        let packet = step.answer.map_or(&[][..], |answer| put(&mut self.answer, &answer));
        Told { number, values, packet, ..Told::default() }
    }

    pub fn save<'a>(&self, room: &'a mut [u8; SET]) -> Told<'a> {
        Told { number: WRITTEN, packet: put(room, &self.reader.save()), ..Told::default() }
    }

    pub fn load(&mut self, form: &[u8]) -> Told<'_> {
        self.reader.load(form).map_or_else(refused, |()| Told::default())
    }

    pub fn start(&mut self, code: u8, message: &[u8]) -> Told<'_> {
        let step = self.reader.start(code, message);
        let gap = step.gap;
        with_gap(gap, self.told(step))
    }

    pub fn time_out(&mut self) -> Told<'_> {
        let step = self.reader.time_out();
        self.told(step)
    }
}

impl calls::Machine for Reader {
    fn new() -> Reader {
        Reader { reader: reader::Reader::new(), answer: [0; READER_ANSWER], copy: [0; PACKET] }
    }

    fn switch_on(&mut self) {
        self.reader = reader::Reader::new();
    }

    #[inline(never)]
    fn event(&mut self, event: Event) -> Told<'_> {
        let step = self.reader.take(event_of(event));
        self.told(step)
    }
}
