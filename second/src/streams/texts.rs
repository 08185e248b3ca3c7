//! Short texts for the notation: characters in each of its states, and tokens that are wrong as a whole.

use super::endings::{Endings, DESK_HUB_ENDINGS, DESK_READER_ENDINGS, HUB_ENDINGS, READER_ENDINGS};
use crate::form::{save, LONGEST_FORM, WITHOUT_LOCKS};
use crate::listing::{push_bytes, Listing, Side};
use crate::packet::{lay_out, DECODE_DATA, READER};
use crate::table::{Table, ROWS};

/// Lines are due before the end, and a program that stops too early doesn't write them.
const LEAD: &[u8] = b"03 . ";
const AFTER: &[u8] = b" 03 . 04 D0 04 00 FF 28 / 03 .\n";

/// A front after which the notation is in one state, and an end that is right in that state.
type State = (&'static [u8], &'static [u8]);

/// Between tokens, and after a lone digit.
const BASE: [State; 2] = [(b"", b" 03 ."), (b"0", b" 03 .")];
/// After a `K` with none to two pairs, and after a lone digit there.
const ROOM: [State; 4] =
    [(b"K", b" 00 06 ; 03 ."), (b"K 00", b" 06 ; 03 ."), (b"K 00 0", b" ; 03 ."), (b"K 00 06", b" ; 03 .")];
/// With other numbers of pairs.
const MORE_ROOM: [State; 4] =
    [(b"K 0", b" 06 ; 03 ."), (b"K 00 06 0", b" ; 03 ."), (b"K 00 06 00", b" ; 03 ."), (b"K 00 06 00 0", b" ; 03 .")];
/// After a `[` with no pair, with one and with a packet's, and after a lone digit there.
const BLOCK: [State; 4] = [
    (b"[", b" 03 ] . 03 ."),
    (b"[ 0", b" ] 03 ."),
    (b"[ 06", b" F3 00 00 1B 38 FE B4 ] 03 ."),
    (b"[ 06 F3 00 00 1B 38 FE B4", b" 03 ] . 03 ."),
];
/// Behind a block, and inside one that stands inside a packet.
const MORE_BLOCK: [State; 4] =
    [(b"[ 06 0", b" ] 03 ."), (b"[ ]", b" 03 ."), (b"[ 06 F3 ]", b" . 03 ."), (b"06 F3 [ 00", b" ] . 03 .")];
/// After an `S` with no pair and with one, and after a lone digit there.
const START: [State; 3] = [(b"S", b" 1B 38 ; T"), (b"S 1B", b" 38 ; T"), (b"S 1B 3", b" 38 ; T")];
const MORE_START: [State; 1] = [(b"S 1", b" 38 ; T")];
/// After an `L` with no pair, with one and with all that a form has but one, and after a lone digit there.
const FORM: [State; 4] = [
    (b"L", b" 01 ; W"),
    (b"L 0", b" ; W"),
    (b"L 01", b" 09 ; W"),
    (b"L 01 09 80 01 89 63 8A 08 9B 00 9C 01 9E 00 9F 01 ED 63 EE 00 01", b" EE ; W"),
];

/// Characters that a program may take for others: ones that are not printed, the neighbours of the digits, signs and
/// letters of other states and requests, small letters, and with the highest bit set.
const NOTABLE: &[u8] = b"\0\t\n\x0C\r (./0:;@FGKLPSTUW[\\]^`gklwx{}\x7F\x80\xA0\xAE\xDB\xDD\xFF";

/// After a lone digit nothing but another is right.
const NOTABLE_AFTER_DIGIT: &[u8] = b"\t\n .;GKT[]fg";

/// The texts of every comparison: few enough for programs that take long to start.
pub fn texts(side: Side) -> Vec<Vec<u8>> {
    let (states, endings): (&[&[State]], [Endings; 2]) = match side {
        Side::Hub => (&[&BASE], [&HUB_ENDINGS, &DESK_HUB_ENDINGS]),
        Side::DeskHub => (&[&BASE, &ROOM, &BLOCK], [&HUB_ENDINGS, &DESK_HUB_ENDINGS]),
        Side::DeskReader => (&[&BASE, &ROOM, &START, &FORM], [&READER_ENDINGS, &DESK_READER_ENDINGS]),
    };
    let mut texts = vec![Vec::new()];
    for state in states.concat() {
        let notable = if after_digit(state) { NOTABLE_AFTER_DIGIT } else { NOTABLE };
        characters(side, state, notable, &mut texts);
    }
    endings.concat().iter().for_each(|ending| try_out(side, ending, AFTER, &mut texts));
    if side != Side::Hub {
        texts.extend(long_tokens());
    }
    match side {
        Side::Hub => {}
        Side::DeskHub => texts.extend(long_blocks()),
        Side::DeskReader => texts.extend(long_forms()),
    }
    texts
}

/// Every character in every state.
pub fn every_text(side: Side) -> Vec<Vec<u8>> {
    let states: &[&[State]] = match side {
        Side::Hub => &[&BASE],
        Side::DeskHub => &[&BASE, &ROOM, &MORE_ROOM, &BLOCK, &MORE_BLOCK],
        Side::DeskReader => &[&BASE, &ROOM, &MORE_ROOM, &START, &MORE_START, &FORM],
    };
    let mut texts = Vec::new();
    let every: Vec<u8> = (0..=255).collect();
    states.concat().iter().for_each(|state| characters(side, *state, &every, &mut texts));
    texts
}

fn after_digit((front, _): State) -> bool {
    let last = front.rsplit(|character| *character == b' ').next();
    last.is_some_and(|last| last.len() == 1 && last[0].is_ascii_hexdigit())
}

fn characters(side: Side, (front, end): State, characters: &[u8], texts: &mut Vec<Vec<u8>>) {
    characters.iter().for_each(|character| try_out(side, &[front, &[*character]].concat(), end, texts));
}

/// With more after it; and without, where the program has not stopped before its end.
fn try_out(side: Side, text: &[u8], after: &[u8], texts: &mut Vec<Vec<u8>>) {
    let text = [LEAD, text].concat();
    let mut listing = Listing::new(side);
    listing.feed(&text, &mut Vec::new());
    texts.push([&text[..], after].concat());
    if listing.stopped().is_none() {
        texts.push(text);
    }
}

/// Far longer than any that is right.
fn long_tokens() -> Vec<Vec<u8>> {
    let mut texts = Vec::new();
    for (letter, pairs) in [(b'K', 4_097), (b'K', 65_537), (b'S', 4_099), (b'S', 65_537), (b'S', 200_000)] {
        let token = [&[letter][..], &b" 00".repeat(pairs)].concat();
        texts.push([LEAD, &token].concat());
        texts.push([LEAD, &token, b" ;", AFTER].concat());
    }
    texts
}

/// A right form with so much behind it that a program which keeps a front alone, or the low bytes of a length, may take
/// it; then the set as it is.
fn long_forms() -> Vec<Vec<u8>> {
    let table = Table { permanent: ROWS.map(|row| row[1]), ..Table::house_defaults() };
    let text = |size: usize| {
        let mut form = save(&table);
        form.resize(size, 0);
        let mut text = b"L".to_vec();
        push_bytes(&form, &mut text);
        text.extend_from_slice(b" ; W\n");
        text
    };
    [LONGEST_FORM, LONGEST_FORM + 1, 255, 256, 4_097, 4_098, 4_099, 65_536, 200_000]
        .into_iter()
        .flat_map(|size| [text(size), text(size + WITHOUT_LOCKS)])
        .collect()
}

/// Of lengths around the longest and far above it, at which low bytes of a length may look right: bytes that a deaf hub
/// ignores, and cards that fill whole calls; in the room there is from the start, in a small one and in a large one.
fn long_blocks() -> Vec<Vec<u8>> {
    let card = lay_out(DECODE_DATA, READER, 0, &[0x1B, 0x38]);
    let mut texts = Vec::new();
    for size in [4_095, 4_096, 4_097, 4_098, 8_192, 65_536, 65_537, 69_632, 200_000] {
        let mut token = b" [ 03".to_vec();
        push_bytes(&vec![card[0]; size - 1], &mut token);
        texts.push([LEAD, &token].concat());
        for room in [&b""[..], b"K 00 06 ;", b"K FF FF ;"] {
            texts.push([LEAD, room, &token, b" ]", AFTER].concat());
            let mut cards = b" [".to_vec();
            let bytes: Vec<u8> = card.iter().copied().cycle().take(size).collect();
            push_bytes(&bytes, &mut cards);
            texts.push([LEAD, room, &cards, b" ]", AFTER].concat());
        }
    }
    texts
}
