//! The story of sample 8. It is played first; what is told is read from what was played.

mod play;

use motikhund::constants::{OPCODE_CMD_ACK, OPCODE_DECODE_DATA, SOURCE_READER, STATUS_RESEND};
use motikhund::packet::check;

use play::{piece, play, Played, Sent};

const SCORES: &str = "CUPPING TABLE 4 / WASHED / ROASTED 12 NOVEMBER / 12 G TO 200 ML AT 93 C / AROMA 8.25 \
    FLAVOUR 8.00 AFTERTASTE 7.75 ACIDITY 8.50 BODY 7.50 BALANCE 8.00 UNIFORMITY 10 CLEAN CUP 10 SWEETNESS 10 \
    OVERALL 8.00";
const SAMPLE: &str = "SAMPLE ";

pub fn told() -> String {
    // Filled up so that the 8 stands alone in the last packet.
    let card = format!("{SCORES:<243}{SAMPLE}8");
    let played = play(card.as_bytes());
    [opening(&card), on_the_line(&played), filed(&played)].concat()
}

fn opening(card: &str) -> String {
    let (count, lines) = (card.len(), folded(card, 90));
    format!(
        "\
THE STORY OF SAMPLE 8

A card is read at a cupping table. It has {count} characters: the scores, and last the number of the
sample they are for.

{lines}
The reader sends it to the hub in packets. The first is full before the last character, so the 8
goes alone in a second one. The hub answers every packet with an ACK. If the reader hears none in
time, it sends the same packet again, marked as a resend.

"
    )
}

fn on_the_line(played: &Played) -> String {
    let pieces = played.sent.iter().filter(|sent| is_new_piece(sent)).count();
    let mut number = 0;
    let mut text = String::from("ON THE LINE\n\n");
    for sent in &played.sent {
        number += usize::from(is_new_piece(sent));
        text += &packet(sent, &format!("piece {number} of {pieces}"));
    }
    let resends = played.delivered.map_or("never".into(), |resends| format!("resends: {resends}"));
    text + &format!(
        "  reader   delivered, {resends}

The bytes of a packet: length; what it is (F3 card data, D0 ACK); who sends it (00 reader, 04 hub);
status (01 resend, 02 more to come); the data, here the kind of code (1B) and characters (38 is an
8); a checksum of two bytes.

"
    )
}

/// Marked copies are not new, nor are answers.
fn is_new_piece(sent: &Sent) -> bool {
    check(&sent.packet).is_ok_and(|head| head.opcode == OPCODE_DECODE_DATA && head.status & STATUS_RESEND == 0)
}

/// The bytes of a packet, and below them what they mean.
fn packet(sent: &Sent, number: &str) -> String {
    let Ok(head) = check(&sent.packet) else { return String::new() };
    let who = if head.source == SOURCE_READER { "reader" } else { "hub" };
    let bytes: Vec<String> = sent.packet.iter().map(|byte| format!("{byte:02X}")).collect();
    let characters: Vec<String> = piece(&sent.packet).iter().map(|byte| char::from(*byte).to_string()).collect();
    let meaning = match head.opcode {
        OPCODE_CMD_ACK => "ACK".into(),
        _ if head.status & STATUS_RESEND == 0 => format!("{number}: \"{}\"", shortened(&characters, "")),
        _ => format!("{number} again, marked as a resend: \"{}\"", shortened(&characters, "")),
    };
    let fate = if sent.lost { ", lost on the way: the reader does not hear it" } else { "" };
    format!("  {who:6}   {}\n           {meaning}{fate}\n", shortened(&bytes, " "))
}

fn filed(played: &Played) -> String {
    format!(
        "\
WHAT IS FILED

  A hub that adds every packet:   {}
  This hub:                       {}

The adding hub took the resend for one more piece. This hub compares it with the packet it took
last: the same but for the mark. So it sends the ACK again and adds nothing. Nor does it drop all
that is marked: had the first copy been lost, the marked one would be the only 8, and be added.
That each card called delivered is handed out whole and once is proved: docs/DEMANDS.md, demand 3.
",
        entry(&played.added),
        entry(&played.filed)
    )
}

/// What a message is filed under: the digits at its end.
fn entry(message: &[u8]) -> String {
    let text = String::from_utf8_lossy(message);
    let (_, sample) = text.rsplit_once(SAMPLE).unwrap_or_default();
    format!("{} characters, the last \"{SAMPLE}{sample}\", filed under sample {sample}", message.len())
}

/// The first and the last of many.
fn shortened(parts: &[String], between: &str) -> String {
    const FIRST: usize = 17;
    const LAST: usize = 7;
    if parts.len() <= FIRST + LAST {
        return parts.join(between);
    }
    [&parts[..FIRST].join(between), " .. ", &parts[parts.len() - LAST..].join(between)].concat()
}

/// Lines of so many characters at most, cut at blanks.
fn folded(text: &str, width: usize) -> String {
    let mut lines = String::new();
    let mut rest = text;
    while !rest.is_empty() {
        let cut = if rest.len() <= width { rest.len() } else { rest[..width].rfind(' ').map_or(width, |at| at + 1) };
        lines += &format!("    {}\n", rest[..cut].trim_end());
        rest = &rest[cut..];
    }
    lines
}
