//! The story is played: a line that loses one ACK, and on it the library's reader and hub, beside a hub that adds every
//! packet.

use motikhund::packet::check;
use motikhund::{Event, Hub, HubTold, Outcome, Reader, ReaderTold};

const CODE_TYPE: u8 = 0x1B;

/// Which of the hub's answers the line loses.
const LOST: usize = 2;

/// What happened.
#[derive(Default)]
pub struct Played {
    /// All packets on the line, in order.
    pub sent: Vec<Sent>,
    /// With how many resends the reader called the card delivered.
    pub delivered: Option<usize>,
    /// What this hub handed out.
    pub filed: Vec<u8>,
    /// What the adding hub has when the line falls silent.
    pub added: Vec<u8>,
}

pub struct Sent {
    pub packet: Vec<u8>,
    pub lost: bool,
}

pub fn play(card: &[u8]) -> Played {
    let mut played = Played::default();
    let (mut reader, mut hub) = (Reader::new(), Hub::new());
    let mut answers = 0;
    let (mut copy, gap) = copied(reader.send(CODE_TYPE, card));
    if gap {
        // Nothing is sent until the hub has heard it.
        let _ = hub.event(Event::MessageGap);
    }
    while let Some(packet) = copy.take() {
        let mut answer = Vec::new();
        for event in events(&packet) {
            let told = hub.event(event);
            answer.extend(told.answer());
            // Filed before the answer goes out: nothing here takes longer than the reader waits.
            if let HubTold::Message { message, .. } = told {
                played.filed.extend(message);
            }
        }
        played.added.extend(piece(&packet));
        played.sent.push(Sent { packet, lost: false });

        answers += 1;
        let lost = answers == LOST;
        if lost {
            (copy, _) = copied(reader.expire());
        } else {
            for event in events(&answer) {
                match reader.event(event) {
                    ReaderTold::Copy(next) => copy = Some(next.to_vec()),
                    ReaderTold::Delivered { copies } => played.delivered = Some(copies),
                    _ => {}
                }
            }
        }
        played.sent.push(Sent { packet: answer, lost });
    }
    played
}

/// What one end sends, as the other hears it.
fn events(packet: &[u8]) -> impl Iterator<Item = Event> + '_ {
    packet.iter().map(|byte| Event::Byte(*byte)).chain([Event::CharacterGap])
}

/// The copy that is to be sent, if there is one, and whether a message gap is due before it.
fn copied(outcome: Outcome) -> (Option<Vec<u8>>, bool) {
    match outcome {
        Outcome::Copy { copy, gap } => (Some(copy.to_vec()), gap),
        _ => (None, false),
    }
}

/// What a packet has of the card: its data without the code type.
pub fn piece(packet: &[u8]) -> &[u8] {
    check(packet).ok().and_then(|head| head.data(packet).get(1..)).unwrap_or_default()
}
