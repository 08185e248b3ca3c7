//! Ways to spoil a packet, and to fill one.

use crate::dice::Dice;
use crate::packet::{checksum, lay_out, CHECKSUM, HEADER};

/// Puts the right checksum behind a changed body.
fn sealed(mut bytes: Vec<u8>) -> Vec<u8> {
    let body = bytes.len() - CHECKSUM;
    let sum = checksum(&bytes[..body]);
    bytes[body..].copy_from_slice(&sum);
    bytes
}

/// One field of a whole packet changed, with or without a right checksum behind it.
pub fn damaged(dice: &mut Dice, packet: &[u8]) -> Vec<u8> {
    let mut bytes = packet.to_vec();
    let end = bytes.len();
    let kind = dice.weigh(&[12, 6, 6, 6, 10, 14, 10, 8, 8, 4, 8, 8]);
    match kind {
        0 => bytes[0] = near_length(dice, bytes[0]),
        1 => bytes[1] = dice.byte(),
        2 => bytes[2] = dice.byte(),
        3 => bytes[3] = dice.byte(),
        4 => bytes[2] = dice.pick(&[0, 4, 1, 3, 5, 255]),
        5 => bytes[3] ^= 1 << dice.below(8),
        6 => {
            let at = dice.below(end);
            bytes[at] ^= 1 << dice.below(8);
        }
        7 => bytes[end - 1] = bytes[end - 1].wrapping_add(dice.pick(&[1, 255, 128])),
        8 => bytes[end - 2] = bytes[end - 2].wrapping_add(dice.pick(&[1, 255, 128])),
        9 => bytes.swap(end - 1, end - 2),
        10 => return longer(dice, packet),
        _ => return shorter(dice, packet),
    }
    let seal = match kind {
        1 | 4 | 5 => dice.chance(85),
        0 | 2 | 3 => dice.chance(50),
        _ => false,
    };
    if seal {
        sealed(bytes)
    } else {
        bytes
    }
}

fn near_length(dice: &mut Dice, length: u8) -> u8 {
    match dice.below(4) {
        0 => length.wrapping_add(1),
        1 => length.wrapping_sub(1),
        2 => dice.below(4) as u8,
        _ => dice.byte(),
    }
}

/// A right packet with one data byte more, or a few.
fn longer(dice: &mut Dice, packet: &[u8]) -> Vec<u8> {
    let mut data = packet[HEADER..packet.len() - CHECKSUM].to_vec();
    for _ in 0..dice.pick(&[1, 1, 1, 2, 3]) {
        data.push(dice.byte());
    }
    data.truncate(251);
    lay_out(packet[1], packet[2], packet[3], &data)
}

/// A right packet with one data byte less, or none left.
fn shorter(dice: &mut Dice, packet: &[u8]) -> Vec<u8> {
    let mut data = packet[HEADER..packet.len() - CHECKSUM].to_vec();
    if dice.chance(70) {
        data.pop();
    } else {
        data.clear();
    }
    lay_out(packet[1], packet[2], packet[3], &data)
}

/// A packet that lost its end, its front or something inside.
pub fn cut(dice: &mut Dice, packet: &[u8]) -> Vec<u8> {
    let one = dice.below(packet.len());
    let other = dice.between(one, packet.len());
    match dice.below(4) {
        0 | 1 => packet[..one].to_vec(),
        2 => packet[one..].to_vec(),
        _ => [&packet[..one], &packet[other..]].concat(),
    }
}

/// A packet spoiled in one of these ways, or with bytes put in. It may by chance still hold a packet.
pub fn spoiled(dice: &mut Dice, packet: &[u8]) -> Vec<u8> {
    match dice.below(4) {
        0 | 1 => damaged(dice, packet),
        2 => cut(dice, packet),
        _ => {
            let at = dice.below(packet.len());
            let more: Vec<u8> = (0..dice.between(1, 4)).map(|_| dice.byte()).collect();
            [&packet[..at], &more, &packet[at..]].concat()
        }
    }
}

/// `size` data bytes: mixed, all alike, of two kinds, or with a right packet hidden in them.
pub fn contents(dice: &mut Dice, size: usize) -> Vec<u8> {
    let same = dice.byte();
    match dice.below(4) {
        0 => vec![same; size],
        1 => (0..size).map(|_| dice.pick(&[0x38, 0x39])).collect(),
        2 => (0..size).map(|_| dice.byte()).collect(),
        _ => with_packet(dice, size),
    }
}

fn with_packet(dice: &mut Dice, size: usize) -> Vec<u8> {
    let hidden = hidden_packet(dice);
    let mut bytes: Vec<u8> = (0..size).map(|_| dice.byte()).collect();
    if size >= hidden.len() {
        let at = dice.between(0, size - hidden.len());
        bytes[at..at + hidden.len()].copy_from_slice(&hidden);
    }
    bytes
}

fn hidden_packet(dice: &mut Dice) -> Vec<u8> {
    match dice.below(5) {
        0 => lay_out(0xD0, 4, 0, &[]),
        1 => lay_out(0xD1, 4, 0, &[1]),
        2 => lay_out(0xF3, 0, dice.pick(&[0, 1, 2, 3]), &[0x1B, 0x38]),
        3 => lay_out(0xF3, 0, 0, &[0x1C]),
        _ => lay_out(0xE6, 4, 0, &[dice.below(0x1C) as u8]),
    }
}
