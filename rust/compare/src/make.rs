//! What the cases are made of: numbers, text and blocks here, packets and the desk's own things apart.

mod decimals;
mod held;
mod jumbo;
mod kept;
mod packets;
mod pieces;
mod tcp;

pub use decimals::*;
pub use held::*;
pub use jumbo::*;
pub use kept::*;
pub use packets::*;
pub use pieces::*;
pub use tcp::*;

use crate::dice::Dice;

/// Numbers at which something changes.
const EDGES: [u64; 12] = [
    0,
    1,
    2,
    0xffff,
    0x1_0000,
    0xffff_fffd,
    0xffff_fffe,
    0xffff_ffff,
    0x1_0000_0000,
    u64::MAX - 2,
    u64::MAX - 1,
    u64::MAX,
];

/// Any number, small and edgy ones above all.
pub fn number(dice: &mut Dice) -> u64 {
    match dice.below(4) {
        0 => dice.pick(&EDGES),
        1 => dice.roll() >> dice.below(64),
        _ => dice.below(12) as u64,
    }
}

/// A number near another.
pub fn near(number: u64, dice: &mut Dice) -> u64 {
    let step = dice.below(5) as u64;
    if dice.one_in(2) {
        number.wrapping_add(step)
    } else {
        number.wrapping_sub(step)
    }
}

/// A place in so many bytes: mostly one of those given.
pub fn place(places: &[u64], length: usize, dice: &mut Dice) -> u64 {
    match dice.below(8) {
        0 => number(dice),
        1 => near(length as u64, dice),
        2 => dice.below(length + 1) as u64,
        _ if places.is_empty() => 0,
        _ => dice.pick(places),
    }
}

/// A flag: 0 or 1, and seldom another byte.
pub fn flag(dice: &mut Dice) -> u8 {
    if dice.one_in(12) {
        dice.byte()
    } else {
        dice.pick(&[0, 0, 1])
    }
}

/// A text field, padded right or left, at times blank and at times not lawful.
pub fn text<const N: usize>(left: bool, dice: &mut Dice) -> [u8; N] {
    let mut field = [b' '; N];
    let length = match dice.below(6) {
        0 => 0,
        1 => N,
        _ => 1 + dice.below(N - 1),
    };
    let start = if left { N - length } else { 0 };
    for byte in &mut field[start..start + length] {
        *byte = dice.pick(b"azAZ09mM58");
    }
    if dice.one_in(8) {
        field[dice.below(N)] = dice.pick(b" \n\0/:@[`{x0\x7f\x80\xff");
    }
    field
}

/// A message's length: mostly short.
fn length(dice: &mut Dice) -> usize {
    match dice.below(400) {
        0 => dice.pick(&[1452, 1463, 1464, 1465, 1469, 1470]),
        1..=8 => dice.below(1500),
        9..=200 => dice.pick(&[0, 0, 1, 2]),
        _ => dice.below(40),
    }
}

/// A block of that length.
fn block(length: usize, dice: &mut Dice) -> Vec<u8> {
    [&(length as u16).to_be_bytes()[..], &dice.bytes(length)].concat()
}

/// So many blocks.
pub fn blocks(count: usize, dice: &mut Dice) -> Vec<u8> {
    let mut bytes = Vec::new();
    for _ in 0..count {
        let length = length(dice);
        bytes.extend(block(length, dice));
    }
    bytes
}

/// Blocks for a log, or none, at times with one among them that is as long as may be, or longer.
pub fn many(dice: &mut Dice) -> Vec<u8> {
    let mut bytes = blocks(few(dice), dice);
    if dice.one_in(20) {
        let length = dice.pick(&[1462, 1463, 1464, 2000, 65_535]);
        bytes.extend(block(length, dice));
        bytes.extend(blocks(few(dice), dice));
    }
    bytes
}

/// A count of blocks: mostly small.
fn few(dice: &mut Dice) -> usize {
    match dice.below(100) {
        0 => dice.below(60),
        _ => dice.below(5),
    }
}

/// Damages a packet half of the time: cuts, grows, flips, changes, takes out, puts in.
pub fn damage(packet: &mut Vec<u8>, limit: usize, dice: &mut Dice) {
    let place = dice.below(packet.len().max(1));
    match dice.below(16) {
        0 => packet.truncate(place),
        1 => packet.push(dice.pick(b"\n \0x")),
        2 if !packet.is_empty() => packet[place] = dice.pick(b"\n \0\x01x19Z\xff"),
        3 | 4 if !packet.is_empty() => packet[place] ^= 1 << dice.below(8),
        5 if !packet.is_empty() => _ = packet.remove(place),
        6 => packet.insert(place, dice.pick(b"\n \0x0")),
        7 if dice.one_in(200) => packet.resize(65_530 + dice.below(70), dice.byte()),
        7 if dice.one_in(20) => packet.resize(limit - 1 + dice.below(4), dice.pick(b"\n \0x")),
        7 => {
            let length = dice.below(30);
            *packet = dice.bytes(length);
        }
        _ => {}
    }
}
