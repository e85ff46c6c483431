//! What else the desk keeps: sheets, rules of patience and logs, mostly such as hang together.

use super::{blocks, flag, near, number};
use crate::dice::Dice;
use hinurapay::flat::{hp_log, hp_patience, hp_sheet};

/// A time in milliseconds: mostly lawful, else edges, not-a-number and bits of any kind.
pub fn time(longest: f64, dice: &mut Dice) -> f64 {
    match dice.below(8) {
        0 => dice.pick(&[
            0.0,
            -0.0,
            longest,
            longest.next_up(),
            longest.next_down(),
            f64::MIN_POSITIVE,
            f64::from_bits(1),
            f64::from_bits(0x000f_ffff_ffff_ffff),
            -f64::from_bits(1),
            1e-310,
        ]),
        1 => match dice.below(4) {
            0 => f64::NAN,
            1 => f64::from_bits(0x7ff0_0000_0000_0001 | dice.roll()),
            2 => dice.pick(&[f64::INFINITY, f64::NEG_INFINITY, f64::MAX, -1.0]),
            _ => f64::from_bits(dice.roll()),
        },
        2 => dice.below(2000) as f64,
        3 => dice.below(2000) as f64 / 8.0,
        _ => (dice.roll() >> 11) as f64 / (1u64 << 53) as f64 * dice.pick(&[1.0, 300.0, longest]),
    }
}

/// A line sheet.
pub fn sheet(dice: &mut Dice) -> hp_sheet {
    hp_sheet {
        mean: time(60_000.0, dice),
        spread: time(60_000.0, dice),
        timed: if dice.one_in(12) {
            dice.byte()
        } else {
            dice.pick(&[0, 1, 1])
        },
    }
}

/// A rule of patience.
pub fn patience(dice: &mut Dice) -> hp_patience {
    let (one, two) = (time(60_000.0, dice), time(60_000.0, dice));
    let ordered = one > two && !dice.one_in(4);
    hp_patience {
        rule: if dice.one_in(12) {
            dice.byte()
        } else {
            dice.pick(&[0, 1, 2, 2])
        },
        first: if ordered { two } else { one },
        second: if ordered { one } else { two },
    }
}

/// A log and its lent bytes: mostly one that hangs together.
pub fn log(dice: &mut Dice) -> (hp_log, Vec<u8>) {
    let count = match dice.below(40) {
        0 => 30 + dice.below(60),
        1 => 725 + dice.below(15),
        _ => dice.below(7),
    };
    let mut bytes = if count > 700 {
        vec![0; 2 * count]
    } else {
        blocks(count, dice)
    };
    let used = bytes.len();
    let spare = dice.pick(&[0, 0, 1, 2, 3, 20, 60]);
    bytes.extend(dice.bytes(spare));
    if dice.one_in(16) && !bytes.is_empty() {
        let place = dice.below(bytes.len());
        bytes[place] = dice.byte();
    }
    let log = hp_log {
        count: match dice.below(16) {
            0 => near(count as u64, dice),
            1 => number(dice),
            _ => count as u64,
        },
        used: match dice.below(16) {
            0 => near(used as u64, dice),
            1 => number(dice),
            _ => used as u64,
        },
        ended: flag(dice),
    };
    (log, bytes)
}
