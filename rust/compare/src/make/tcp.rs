//! MEMX-TCP packets, lawful and damaged, and what is to be written as one.

use super::{near, number};
use crate::dice::Dice;
use hinurapay::flat::hp_tcp;

/// Every type that there is.
pub const TCP_TYPES: [u8; 17] = [
    0, 1, 2, 3, 4, 5, 6, 7, 8, 9, 10, 11, 100, 101, 102, 103, 104,
];

/// A type, seldom one that there is not.
fn kind(dice: &mut Dice) -> u8 {
    match dice.below(40) {
        0 => dice.byte(),
        1 => dice.pick(&[12, 99, 105]),
        _ => dice.pick(&TCP_TYPES),
    }
}

/// A letter, mostly of the type's own table.
fn letter(kind: u8, dice: &mut Dice) -> u8 {
    let table: &[u8] = match kind {
        1 => b"SRT",
        2 => b"TUVA",
        6 => b"RAPS",
        9 => b"RPS",
        _ => b"P",
    };
    match dice.below(8) {
        0 => dice.pick(b"PSRTUVApQ\0"),
        _ => dice.pick(table),
    }
}

/// The length of a body behind fields of this width: mostly short, at times such that the packet is
/// about as long as may be.
fn body_length(kind: u8, width: usize, dice: &mut Dice) -> usize {
    let about_the_limit = |dice: &mut Dice| 65_534 - width + dice.below(3);
    match dice.below(400) {
        0..=2 => about_the_limit(dice),
        3..=9 if !bodied(kind) => about_the_limit(dice),
        3..=60 if kind == 100 => 253 + dice.below(6),
        3..=120 => dice.pick(&[0, 1]),
        _ => dice.below(40),
    }
}

/// Whether a type has a token or a payload.
fn bodied(kind: u8) -> bool {
    matches!(kind, 11 | 100 | 104)
}

/// A packet to be written, with anything in every field, and its body; mostly none where the type
/// has none.
pub fn tcp_to_write(dice: &mut Dice) -> (hp_tcp, Vec<u8>) {
    let kind = kind(dice);
    let fields = hp_tcp {
        r#type: kind,
        letter: letter(kind, dice),
        count: number(dice) as u32,
        session: number(dice),
        number: number(dice),
        top: number(dice),
        start: number(dice),
        length: number(dice),
    };
    let length = if bodied(kind) || dice.one_in(6) {
        body_length(kind, laid(&fields).len(), dice)
    } else {
        0
    };
    (fields, dice.bytes(length))
}

/// The fields of fixed width, as they stand in a packet of their type.
fn laid(fields: &hp_tcp) -> Vec<u8> {
    let mut bytes = Vec::new();
    if matches!(fields.r#type, 1 | 2 | 6 | 9 | 100) {
        bytes.push(fields.letter);
    }
    if matches!(fields.r#type, 3 | 101..=103) {
        bytes.extend(fields.session.to_be_bytes());
    }
    if matches!(fields.r#type, 5 | 8 | 10 | 101 | 103) {
        bytes.extend(fields.number.to_be_bytes());
    }
    if fields.r#type == 8 {
        bytes.extend(fields.top.to_be_bytes());
    }
    if matches!(fields.r#type, 5 | 7 | 101) {
        bytes.extend(fields.count.to_be_bytes());
    }
    bytes
}

/// A MEMX-TCP packet: at times a byte more or less than its type carries, or with another length
/// than it has.
pub fn tcp(dice: &mut Dice) -> Vec<u8> {
    let (fields, body) = tcp_to_write(dice);
    let mut carried = laid(&fields);
    if bodied(fields.r#type) || dice.one_in(4) {
        carried.extend(body);
    }
    match dice.below(24) {
        0 => carried.push(dice.byte()),
        1 => _ = carried.pop(),
        _ => {}
    }
    let length = carried.len() as u64;
    let stated = match dice.below(24) {
        0 => near(length, dice),
        1 => number(dice),
        _ => length,
    };
    [
        &[fields.r#type],
        &(stated as u16).to_be_bytes()[..],
        &carried,
    ]
    .concat()
}
