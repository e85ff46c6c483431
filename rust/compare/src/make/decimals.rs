//! Soup's number in twenty characters: a list that goes to every edge, and what is drawn from it.

use super::number;
use crate::dice::Dice;
use std::collections::BTreeSet;
use std::fmt::Display;
use std::str;
use std::sync::LazyLock;

/// A number as it stands in a packet.
pub type Decimal = [u8; 20];

/// The least number that is too great.
const ABOVE: u128 = 1 << 64;

/// The list: of each length the least number, the greatest and one between, behind every number of
/// noughts that there is room for; behind none of them, and behind as many as there can be, also with
/// 0, 9, a space and a bad character at each place; noughts, alone and before 42; all about 2^64.
pub static DECIMALS: LazyLock<Vec<Decimal>> = LazyLock::new(|| {
    let mut listed = BTreeSet::from([spelt(""), spelt("9".repeat(20))]);
    for length in 1..=20 {
        let least = 10u64.pow(length - 1);
        let greatest = least.checked_mul(10).map_or(u64::MAX, |above| above - 1);
        for number in [least, least + (greatest - least) / 7 * 3, greatest] {
            listed.extend((1..=20).map(|digits| padded(number, digits)));
            for place in 0..20 {
                listed.extend(b"09 x".map(|byte| with(spelt(number), place, byte)));
                listed.extend(b"09 x".map(|byte| with(padded(number, 20), place, byte)));
            }
        }
        listed.extend([0, 42].map(|number| padded(number, length as usize)));
    }
    listed.extend((ABOVE - 20..ABOVE + 20).map(spelt));
    listed.into_iter().collect()
});

/// The numbers that the list says.
pub static DECIMAL_NUMBERS: LazyLock<Vec<u64>> = LazyLock::new(|| {
    let numbers: BTreeSet<u64> = DECIMALS.iter().filter_map(said).collect();
    numbers.into_iter().collect()
});

/// The field that ends with this, spaces before it.
pub fn spelt(number: impl Display) -> Decimal {
    let field = format!("{number:>20}").into_bytes();
    field.try_into().expect("at most twenty characters")
}

/// The number's field with noughts before it, up to so many digits.
pub fn padded(number: u64, digits: usize) -> Decimal {
    spelt(format!("{number:0>digits$}"))
}

/// The field with another byte at a place.
pub fn with(mut field: Decimal, place: usize, byte: u8) -> Decimal {
    field[place] = byte;
    field
}

/// The number that a field says, if it says one.
pub fn said(field: &Decimal) -> Option<u64> {
    let digits = str::from_utf8(field).ok()?.trim_start_matches(' ');
    let lawful = digits.bytes().all(|byte| byte.is_ascii_digit());
    digits.parse().ok().filter(|_| lawful)
}

/// A number to be spelt, half of the time one of the list.
pub fn decimal_number(dice: &mut Dice) -> u64 {
    if dice.one_in(2) {
        dice.pick(&DECIMAL_NUMBERS)
    } else {
        number(dice)
    }
}

/// A number as a venue may spell it: half of the time behind as many noughts as there is room for, or
/// behind fewer.
pub fn spelt_somehow(number: u64, dice: &mut Dice) -> Decimal {
    let length = number.to_string().len();
    match dice.below(8) {
        0..=3 => spelt(number),
        4 => padded(number, 20),
        _ => padded(number, length + dice.below(21 - length)),
    }
}

/// A number as it stands in a packet, mostly a lawful one.
pub fn decimal(dice: &mut Dice) -> Decimal {
    let field = match dice.below(40) {
        0 => spelt(""),
        1..=4 => spelt(ABOVE - 20 + dice.below(40) as u128),
        5..=9 => dice.pick(&DECIMALS),
        _ => spelt_somehow(decimal_number(dice), dice),
    };
    if dice.one_in(10) {
        with(field, dice.below(20), dice.pick(b" \n0129/:x"))
    } else {
        field
    }
}

#[cfg(test)]
mod tests {
    use super::*;

    #[test]
    fn a_number_is_spaces_and_then_digits() {
        for (field, number) in [
            ("42", Some(42)),
            ("00000000000000000042", Some(42)),
            ("      00000000000042", Some(42)),
            ("00000000000000000000", Some(0)),
            ("18446744073709551615", Some(u64::MAX)),
            ("18446744073709551616", None),
            ("", None),
            ("42 ", None),
            ("0 42", None),
            ("+42", None),
            ("-0", None),
        ] {
            assert_eq!(said(&spelt(field)), number, "{field:?}");
        }
    }
}
