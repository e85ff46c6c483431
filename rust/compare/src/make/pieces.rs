//! Soup streams: lines that are packets, lawful, damaged or overlong, and how a stream stands between
//! two pieces, mostly so that it hangs together.

use super::{damage, flag, near, number, soup, spelt_somehow, without_linefeeds};
use crate::both::blank;
use crate::dice::Dice;
use hinurapay::flat::hp_pieces;

/// How many bytes a buffer has at least, and how many a packet may have.
const LIMIT: usize = 4098;

/// A stream, its buffer, a piece of it and a place there.
pub struct ToFeed {
    /// The stream.
    pub pieces: hp_pieces,
    /// Its buffer.
    pub buffer: Vec<u8>,
    /// The piece.
    pub piece: Vec<u8>,
    /// The place.
    pub place: u64,
}

impl ToFeed {
    /// Makes a case: lines that are cut before their first linefeed, so that what stands before is
    /// kept, and what stands behind is in the piece from the place on.
    pub fn made(dice: &mut Dice) -> ToFeed {
        let mut lines = stream(dice);
        if dice.one_in(12) {
            lines.splice(..0, vec![dice.pick(b"SSA+X"); LIMIT - 4 + dice.below(6)]);
        }
        let ended = lines.iter().position(|&byte| byte == b'\n');
        let most = ended.unwrap_or(lines.len()).min(LIMIT - 1);
        let cut = match dice.below(4) {
            0 | 1 => 0,
            2 => most,
            _ => dice.below(most + 1),
        };
        let (pieces, buffer) = stood(&lines[..cut], dice);
        let before = dice.pick(&[0, 0, 1, 5]);
        let piece = [&dice.bytes(before), &lines[cut..]].concat();
        let place = match dice.below(16) {
            0 => number(dice),
            1 => near(piece.len() as u64, dice),
            _ => before as u64,
        };
        ToFeed {
            pieces,
            buffer,
            piece,
            place,
        }
    }
}

/// Some lines of a stream, the last at times unfinished.
pub fn stream(dice: &mut Dice) -> Vec<u8> {
    let mut bytes = Vec::new();
    for _ in 0..dice.below(6) {
        bytes.extend(line(dice));
    }
    if dice.one_in(2) {
        let end = bytes.len() - dice.below(bytes.len().min(40) + 1);
        bytes.truncate(end);
    }
    bytes
}

/// A line of a stream: a message, a login that is taken, another packet, one in eight of them damaged,
/// or one that is as long as may be, or longer.
pub fn line(dice: &mut Dice) -> Vec<u8> {
    let mut line = match dice.below(10) {
        0..=3 => message(dice),
        4 => {
            let number = spelt_somehow(next(dice).max(1), dice);
            [b"A      8841", &number[..], b"\n"].concat()
        }
        5 if dice.one_in(3) => long(dice),
        6 if dice.one_in(4) => b"\n".to_vec(),
        _ => soup(dice),
    };
    if dice.one_in(4) {
        damage(&mut line, LIMIT, dice);
    }
    line
}

/// A short `S`.
fn message(dice: &mut Dice) -> Vec<u8> {
    let length = dice.below(12);
    let mut payload = dice.bytes(length);
    without_linefeeds(&mut payload);
    [b"S", &payload[..], b"\n"].concat()
}

/// A line that is about as long as a packet may be, or much longer.
fn long(dice: &mut Dice) -> Vec<u8> {
    let length = match dice.below(4) {
        0 => dice.below(3 * LIMIT),
        _ => LIMIT - 3 + dice.below(6),
    };
    let mut line = vec![dice.pick(b"x\0\x0b\x8a"); length];
    line[..1.min(length)].fill(dice.pick(b"SSS+UAX"));
    line.push(b'\n');
    line
}

/// The number of a next message, those about the last one above all.
fn next(dice: &mut Dice) -> u64 {
    match dice.below(4) {
        0 => number(dice),
        1 => u64::MAX - dice.below(3) as u64,
        _ => 1 + dice.below(9) as u64,
    }
}

/// How a stream stands that keeps these bytes, and its buffer; at times it keeps none and drops, and
/// at times it does not hang together.
fn stood(kept: &[u8], dice: &mut Dice) -> (hp_pieces, Vec<u8>) {
    let mut pieces = hp_pieces {
        kept: kept.len() as u64,
        dropping: u8::from(kept.is_empty() && dice.one_in(4)),
        next: if dice.one_in(3) { 0 } else { next(dice) },
    };
    let mut buffer = blank(LIMIT);
    buffer[..kept.len()].copy_from_slice(kept);
    match dice.below(48) {
        0 => buffer.truncate(LIMIT - 1),
        1 => buffer.truncate(dice.below(LIMIT)),
        2 | 3 => buffer.resize(LIMIT + dice.below(3000), dice.byte()),
        4 => pieces.kept = dice.pick(&[LIMIT as u64, LIMIT as u64 + 1, u64::MAX]),
        5 => pieces.kept = near(pieces.kept, dice),
        6 => pieces.kept = number(dice),
        7 | 8 if !kept.is_empty() => buffer[dice.below(kept.len())] = b'\n',
        9 => pieces.dropping = 1,
        10 => pieces.dropping = flag(dice),
        11 => pieces.dropping = dice.byte(),
        _ => {}
    }
    (pieces, buffer)
}
