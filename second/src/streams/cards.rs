//! Draws messages that a reader may mistake: equal to the packet before or nearly, and long ones with equal pieces.

use crate::dice::Dice;
use crate::hub::LONGEST_MESSAGE;
use crate::sender::PIECE;

/// Code types, few enough to come again.
pub fn code_type(dice: &mut Dice) -> u8 {
    dice.pick(&[0x1B, 0x01, 0x00, 0xFF])
}

/// A message of one piece, with its code type in front.
pub fn card(dice: &mut Dice) -> Vec<u8> {
    let size = match dice.weigh(&[15, 25, 40, 20]) {
        0 => 0,
        1 => 1,
        2 => dice.between(2, 12),
        _ => dice.pick(&[PIECE - 1, PIECE, PIECE]),
    };
    let mut card = vec![code_type(dice)];
    card.extend((0..size).map(|_| dice.pick(&[0x38, 0x39])));
    card
}

/// Equal to the card, which has its code type in front, or unlike it in one way.
pub fn near(dice: &mut Dice, card: &[u8]) -> Vec<u8> {
    let mut near = card.to_vec();
    match dice.weigh(&[60, 6, 6, 6, 6, 6, 10]) {
        0 => {}
        1 => near[0] ^= 1,
        2 => near.iter_mut().skip(1).take(1).for_each(|first| *first ^= 1),
        3 => near.iter_mut().skip(1).last().into_iter().for_each(|last| *last ^= 1),
        4 => near.truncate(card.len().max(2) - 1),
        5 => near.push(dice.pick(&[0x38, 0x39])),
        _ => near.extend((0..dice.between(PIECE, 2 * PIECE)).map(|_| 0x38)),
    }
    near
}

/// A message of several pieces, with its code type in front, whose neighbouring pieces are mostly equal.
pub fn alike(dice: &mut Dice) -> Vec<u8> {
    let size = match dice.weigh(&[60, 25, 15]) {
        0 => dice.pick(&[500, 501, 748, 749, 750, 751, 752, 998, 999, 1_000]),
        1 => dice.between(501, 2_500),
        _ => dice.pick(&[LONGEST_MESSAGE - 1, LONGEST_MESSAGE, LONGEST_MESSAGE, LONGEST_MESSAGE]),
    };
    let mut message = vec![code_type(dice)];
    message.extend(repeated(dice, size));
    message
}

/// Blocks of 250 bytes, each the one before it once more or changed. In many messages none is changed, so that as many
/// pieces are cut as can be.
fn repeated(dice: &mut Dice, size: usize) -> Vec<u8> {
    let one = dice.byte();
    let letters = dice.pick(&[[one, one], [0x38, 0x39]]);
    let changes = dice.pick(&[0, 0, 30, 60]);
    let mut bytes: Vec<u8> = (0..PIECE).map(|_| dice.pick(&letters)).collect();
    while bytes.len() < size {
        let start = bytes.len();
        bytes.extend_from_within(start - PIECE..);
        if dice.chance(changes) {
            let inside = dice.below(PIECE);
            bytes[start + dice.pick(&[0, PIECE - 1, inside])] ^= 1;
        }
    }
    bytes.truncate(size);
    bytes
}
