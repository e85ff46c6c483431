//! Jumbo frames: long messages, packets near the limit, and records with as much to deliver as there can be.

use super::block;
use crate::both::blank;
use crate::dice::Dice;
use crate::limits::{AREA, LONGEST, MEMX, SLOT, UFO};
use hinurapay::flat::hp_record;

/// Messages where there is so much room for their blocks, and how many they are: up to four, of which
/// some are about as long as can be held, and half of the time one more, with which they fill the room
/// or miss it by a few bytes, or by more.
pub fn long_blocks(room: usize, dice: &mut Dice) -> (usize, Vec<u8>) {
    let (mut count, mut bytes) = (dice.pick(&[0, 0, 1, 2, 3, 4]), Vec::new());
    for _ in 0..count {
        let length = dice.pick(&[0, 12, 600, LONGEST - 1, LONGEST, LONGEST + 1, LONGEST + 2]);
        bytes.extend(block(length, dice));
    }
    if count == 0 || dice.one_in(2) {
        let left = room.saturating_sub(bytes.len() + 2);
        let past = dice.pick(&[-3, -2, -1, -1, 0, 0, 0, 1, 1, 2, 3, 28, 900]);
        bytes.extend(block(left.saturating_add_signed(past), dice));
        count += 1;
    }
    (count, bytes)
}

/// A record that holds most of what can be held behind its next number, each message as long as can
/// be or a byte less; its area; and a packet of that number as long as may be, or a little less.
pub fn brimming(dice: &mut Dice) -> (hp_record, Vec<u8>, Vec<u8>) {
    let style = dice.pick(&[1, 2]);
    let next = 1 + dice.below(1000) as u64;
    let far = 23 + dice.below(9) as u64;
    let mut record = hp_record {
        style,
        name: *b"8841      ",
        session: dice.roll(),
        next,
        top: next + far + dice.below(3) as u64,
        ..hp_record::default()
    };
    let mut area = blank(AREA);
    for number in next + 1..=next + far {
        let slot = (number % 32) as usize;
        let held = block(LONGEST - dice.below(2), dice);
        area[slot * SLOT..][..held.len()].copy_from_slice(&held);
        record.held |= 1 << slot;
    }
    let (header, limit) = if style == 2 {
        let (session, number) = (record.session.to_be_bytes(), next.to_be_bytes());
        ([&[2, 18][..], &session, &number].concat(), MEMX)
    } else {
        ([b"S", &(next as u32).to_be_bytes()[..]].concat(), UFO)
    };
    // a count of one, and the message's length
    let left = limit - header.len() - 2 - 2;
    let message = block(left - dice.pick(&[0, 0, 1, 100]), dice);
    (record, area, [&header[..], &[0, 1], &message].concat())
}
