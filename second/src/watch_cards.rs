//! Watches a reader's messages: before which of them a message gap is told, and where their pieces are cut.

use crate::hub::LONGEST_MESSAGE;
use crate::packet::{CHECKSUM, HEADER, MARK, MORE};
use crate::reader::Step;
use crate::sender::{End, PIECE};
use crate::sights::{Name, Sights};

pub const CARD_NAMES: [Name; 21] = [
    ("gap told after a failed message", 1),
    ("gap told after a failed message, for a card equal to its last packet", 1),
    ("gap told after two failed messages in a row", 1),
    (FAILED_OVER, 5),
    ("gap told for an equal card: empty, of 1 byte, of more, of 250", 4),
    ("gap told for a card equal to the last piece of a longer message", 1),
    ("gap told for a card equal to a packet that was resent", 1),
    ("gap told for the third equal card in a row", 1),
    (EQUAL_OVER, 5),
    ("no gap after a power-up: equal card, failed message, equal card that was out", 3),
    (UNLIKE, 7),
    ("no gap for a message of several pieces that equals the one before", 1),
    ("no gap for the second message after a failed one", 1),
    ("piece cut: the second, a later one", 2),
    ("cut piece resent", 1),
    ("piece not cut, unlike the one before in its first byte, its last, another alone", 3),
    ("piece not cut behind a cut one that it starts with", 1),
    ("last piece equal to the one before it: a whole one, a cut one", 2),
    ("delivered with 1, 2, 3 to 7, 8 pieces cut", 4),
    ("message of 4,096 bytes delivered, its last piece of 96, 97 to 103, 104", 3),
    ("failed at a cut piece", 1),
];

const FAILED_OVER: &str =
    "gap told after a failed message over a command, a refusal, a set, a start refused, one refused on its way";
const EQUAL_OVER: &str =
    "gap told for an equal card over a command, a refusal, a set, a start refused, one refused on its way";
const UNLIKE: &str =
    "no gap, unlike the packet before: type, first byte, last byte, a byte less, one more, many more, bit 1 alone";

/// What may come between two messages.
#[derive(Clone, Copy)]
pub enum Between {
    Command,
    Refusal,
    Set,
    Start,
    /// A start that was refused while the message before was out.
    OnTheWay,
}

/// A message, from its start until the next one's.
struct Sent {
    /// Code type and bytes.
    message: Vec<u8>,
    /// Its packets so far, without mark and checksum.
    packets: Vec<Vec<u8>>,
    /// The last of them was resent.
    resent: bool,
    cuts: usize,
    /// A gap was told for it: after a failed message, for an equal packet.
    after_failure: bool,
    after_equal: bool,
    end: Option<End>,
    between: [bool; 5],
    powered_up: bool,
}

#[derive(Default)]
pub struct CardWatch {
    last: Option<Sent>,
}

fn piece_of(packet: &[u8]) -> &[u8] {
    &packet[HEADER + 1..]
}

fn has_more(packet: &[u8]) -> bool {
    packet[3] & MORE != 0
}

fn is_cut(packet: &[u8]) -> bool {
    has_more(packet) && piece_of(packet).len() < PIECE
}

/// Where two slices of one length differ, if it is in one place.
fn one_difference(one: &[u8], other: &[u8]) -> Option<usize> {
    let mut places = one.iter().zip(other).enumerate().filter(|(_, (one, other))| one != other).map(|(place, _)| place);
    places.next().filter(|_| places.next().is_none() && one.len() == other.len())
}

impl CardWatch {
    pub fn between(&mut self, what: Between) {
        if let Some(last) = &mut self.last {
            let on_the_way = last.end.is_none();
            match (what, on_the_way) {
                (Between::Start, true) => last.between[Between::OnTheWay as usize] = true,
                (_, true) => {}
                (what, false) => last.between[what as usize] = true,
            }
        }
    }

    pub fn power_up(&mut self) {
        if let Some(last) = &mut self.last {
            last.powered_up = true;
        }
    }

    /// A start that was not refused, with code type and bytes.
    pub fn start(&mut self, message: &[u8], step: &Step, sights: &mut Sights) {
        let copy = step.copy.as_ref().expect("a start that is not refused writes a copy");
        let last = self.last.take();
        let (mut after_failure, mut after_equal) = (false, false);
        match &last {
            None => {}
            Some(last) if last.powered_up => forgotten(last, message, sights),
            Some(last) if step.gap => {
                after_failure = last.failed();
                after_equal = !after_failure;
                gap_told(last, message, sights);
            }
            Some(last) => no_gap(last, message, sights),
        }
        self.last = Some(Sent {
            message: message.to_vec(),
            packets: vec![copy[..copy.len() - CHECKSUM].to_vec()],
            resent: false,
            cuts: 0,
            after_failure,
            after_equal,
            end: None,
            between: [false; 5],
            powered_up: false,
        });
    }

    /// What a heeded answer or a time-out brought.
    pub fn sent(&mut self, step: &Step, sights: &mut Sights) {
        let last = self.last.as_mut().expect("a message that is out");
        if let Some(copy) = &step.copy {
            last.copy(&copy[..copy.len() - CHECKSUM], sights);
        }
        if let Some(end) = step.end {
            last.ended(end, sights);
        }
    }
}

impl Sent {
    fn failed(&self) -> bool {
        matches!(self.end, Some(End::Failed(_)))
    }

    fn last_packet(&self) -> &[u8] {
        self.packets.last().expect("a message has a packet")
    }

    /// Code type and last piece.
    fn last_data(&self) -> &[u8] {
        &self.last_packet()[HEADER..]
    }

    fn copy(&mut self, packet: &[u8], sights: &mut Sights) {
        if packet[3] & MARK != 0 {
            self.resent = true;
            return sights.see_if(is_cut(packet), "cut piece resent");
        }
        next_piece(&self.packets, packet, sights);
        self.cuts += usize::from(is_cut(packet));
        self.resent = false;
        self.packets.push(packet.to_vec());
    }

    fn ended(&mut self, end: End, sights: &mut Sights) {
        self.end = Some(end);
        if self.failed() {
            return sights.see_if(is_cut(self.last_packet()), "failed at a cut piece");
        }
        if let Some(member) = self.cuts.checked_sub(1) {
            let member = [0, 1, 2, 2, 2, 2, 2, 3][member];
            sights.see_member("delivered with 1, 2, 3 to 7, 8 pieces cut", member);
        }
        if self.message.len() == 1 + LONGEST_MESSAGE {
            let member = match piece_of(self.last_packet()).len() {
                96 => 0,
                104 => 2,
                _ => 1,
            };
            sights.see_member("message of 4,096 bytes delivered, its last piece of 96, 97 to 103, 104", member);
        }
    }
}

// Starts.

fn forgotten(last: &Sent, message: &[u8], sights: &mut Sights) {
    let equal = !has_more(last.last_packet()) && last.last_data() == message;
    let member = match last.end {
        Some(End::Failed(_)) => 1,
        Some(End::Delivered(_)) if equal => 0,
        None if equal => 2,
        _ => return,
    };
    sights.see_member("no gap after a power-up: equal card, failed message, equal card that was out", member);
}

fn gap_told(last: &Sent, message: &[u8], sights: &mut Sights) {
    let name = if last.failed() {
        sights.see("gap told after a failed message");
        let equal = !has_more(last.last_packet()) && last.last_data() == message;
        sights.see_if(equal, "gap told after a failed message, for a card equal to its last packet");
        sights.see_if(last.after_failure, "gap told after two failed messages in a row");
        FAILED_OVER
    } else {
        let member = match message.len() - 1 {
            0 => 0,
            1 => 1,
            PIECE => 3,
            _ => 2,
        };
        sights.see_member("gap told for an equal card: empty, of 1 byte, of more, of 250", member);
        let longer = last.packets.len() > 1;
        sights.see_if(longer, "gap told for a card equal to the last piece of a longer message");
        sights.see_if(last.resent, "gap told for a card equal to a packet that was resent");
        sights.see_if(last.after_equal, "gap told for the third equal card in a row");
        EQUAL_OVER
    };
    for (member, _) in last.between.iter().enumerate().filter(|(_, came)| **came) {
        sights.see_member(name, member);
    }
}

fn no_gap(last: &Sent, message: &[u8], sights: &mut Sights) {
    if let Some(member) = unlike(last.last_data(), message) {
        sights.see_member(UNLIKE, member);
    }
    let again = last.packets.len() > 1 && last.message == message;
    sights.see_if(again, "no gap for a message of several pieces that equals the one before");
    sights.see_if(last.after_failure, "no gap for the second message after a failed one");
}

/// In what a message alone differs from the packet before, each with its code type in front.
fn unlike(before: &[u8], message: &[u8]) -> Option<usize> {
    if let Some(place) = one_difference(before, message) {
        let last = before.len() - 1;
        return [0, 1, last].iter().position(|known| *known == place);
    }
    if before.strip_prefix(message).is_some_and(|rest| rest.len() == 1) {
        return Some(3);
    }
    match message.strip_prefix(before)?.len() {
        0 => None,
        _ if before.len() == 1 + PIECE => Some(6),
        1 => Some(4),
        _ if message.len() > 1 + PIECE => Some(5),
        _ => None,
    }
}

// Pieces.

fn next_piece(packets: &[Vec<u8>], packet: &[u8], sights: &mut Sights) {
    let before = piece_of(packets.last().expect("a packet before"));
    let piece = piece_of(packet);
    if is_cut(packet) {
        return sights.see_member("piece cut: the second, a later one", usize::from(packets.len() > 1));
    }
    if !has_more(packet) {
        if piece == before {
            let member = usize::from(piece.len() < PIECE);
            sights.see_member("last piece equal to the one before it: a whole one, a cut one", member);
        }
        return;
    }
    if let Some(place) = one_difference(before, piece) {
        let member = [0, PIECE - 1].iter().position(|known| *known == place).unwrap_or(2);
        let name = "piece not cut, unlike the one before in its first byte, its last, another alone";
        sights.see_member(name, member);
    }
    let starts = before.len() < PIECE && piece.starts_with(before);
    sights.see_if(starts, "piece not cut behind a cut one that it starts with");
}
