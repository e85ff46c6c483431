//! Records, what they hold, and areas to go with them, mostly such as hang together.

use super::{block, flag, length, near, number, text};
use crate::both::copied;
use crate::dice::Dice;
use crate::limits::{AREA, LONGEST, SLOT};
use crate::twin::Twin;
use hinurapay::flat::hp_record;
use ordinary::flat::hp_standing_of;

/// A session record: mostly one that hangs together.
pub fn record(dice: &mut Dice) -> hp_record {
    let style = if dice.one_in(16) {
        dice.byte()
    } else {
        dice.pick(&[1, 2])
    };
    let name = if dice.one_in(8) {
        text(false, dice)
    } else {
        *b"8841      "
    };
    let mut top = number(dice);
    if style == 1 && !dice.one_in(8) {
        top = top.min(0xffff_fffe);
    }
    let next = match dice.below(12) {
        0 => near(top, dice),
        1 => number(dice),
        2 | 3 => top.wrapping_add(1),
        4..=7 => top.saturating_sub(dice.below(50) as u64).max(1),
        _ => top.saturating_sub(dice.below(6) as u64).max(1),
    };
    let asked = match dice.below(8) {
        0 => near(next, dice),
        1 => number(dice),
        2 | 3 => 0,
        4 => 1,
        _ => next,
    };
    hp_record {
        style,
        ended: flag(dice),
        name,
        session: number(dice),
        next,
        top,
        asked,
        held: held(next, top, dice),
    }
}

/// A session record, drawn again up to four times if it doesn't hang together, but for one in four.
pub fn sound_record(dice: &mut Dice) -> hp_record {
    let draws = if dice.one_in(4) { 1 } else { 5 };
    let mut drawn = record(dice);
    for _ in 1..draws {
        if hp_standing_of(drawn.twin()).refusal == 0 {
            break;
        }
        drawn = record(dice);
    }
    drawn
}

/// Which slots are full: a third of the time none, else mostly only such as stand for numbers after
/// the next, up to the top.
fn held(next: u64, top: u64, dice: &mut Dice) -> u32 {
    let any = match dice.below(6) {
        0 | 1 => 0,
        2 => u32::MAX,
        3 => dice.pick(&[0x5555_5555, 0xaaaa_aaaa]),
        4 => 1 << dice.below(32) | 1 << dice.below(32),
        _ => dice.roll() as u32,
    };
    let wrong = match dice.below(24) {
        0 => return any,
        1 => 1 << (next % 32),
        2 => 1 << (top.wrapping_add(1) % 32),
        _ => 0,
    };
    // a number's slot is the same whether or not it passes 2^64
    let numbers = (1..32).map(|far| (far, next.wrapping_add(far) % 32));
    let lawful = numbers.filter(|&(far, _)| next <= top && far <= top - next);
    lawful.fold(0, |bits, (_, slot)| bits | any & 1 << slot) | wrong
}

/// An area for these full slots: blocks in them, and at times in others; mostly none that is longer
/// than its slot, and mostly just as many bytes as there must be.
pub fn area(held: u32, dice: &mut Dice) -> Vec<u8> {
    let mut area = if dice.one_in(32) {
        dice.bytes(AREA)
    } else {
        // what could be lengths of lawful messages, and of others
        let empty = [dice.pick(&[0, 1, 5, 0xff]); SLOT];
        copied(&[&empty[..]; 32])
    };
    for slot in 0..32 {
        if held >> slot & 1 == 0 && !dice.one_in(8) {
            continue;
        }
        let length = if dice.one_in(200) {
            LONGEST - dice.below(3)
        } else {
            length(dice).min(LONGEST)
        };
        let mut block = block(length, dice);
        if dice.one_in(300) {
            let over = dice.pick(&[1471, 1472, 0x8000, 0xffff]);
            block[..2].copy_from_slice(&u16::to_be_bytes(over));
        }
        area[slot * SLOT..][..block.len()].copy_from_slice(&block);
    }
    match dice.below(48) {
        0 => area.truncate(AREA - 1),
        1 => area.truncate(dice.below(AREA)),
        2 => area.resize(AREA + dice.below(3000), dice.byte()),
        _ => {}
    }
    area
}

/// A record and a place among its missing ranges.
pub fn to_look_up(dice: &mut Dice) -> (hp_record, u64) {
    let record = record(dice);
    let place = match dice.below(12) {
        0 => number(dice),
        1 => dice.below(40) as u64,
        2..=5 => dice.below(18) as u64,
        _ => dice.below(4) as u64,
    };
    (record, place)
}
