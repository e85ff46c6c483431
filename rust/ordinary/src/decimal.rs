//! Soup's number in twenty characters: spaces, then digits.
//!
//! Eight characters are read at a time, as a word that has the first of them in its lowest byte.

use crate::fields::take;
use crate::refusal::Refusal;
use crate::words::each;

/// A word of spaces.
const BLANK: u64 = each(b' ');

/// One more than eight digits can say.
const EIGHT_DIGITS: u64 = 100_000_000;

/// The number that a field says: spaces, then digits, noughts before the others or not; else it is 5.
/// Blank is 6, above 2^64-1 is 7.
#[inline]
pub fn read(field: &[u8; 20]) -> Result<u64, Refusal> {
    let mut rest = &field[..];
    // with four spaces more before them the first four characters are a word, too
    let four = u32::from_le_bytes(take(&mut rest)?);
    let high = u64::from(four) << 32 | BLANK >> 32;
    let middle = u64::from_le_bytes(take(&mut rest)?);
    let low = u64::from_le_bytes(take(&mut rest)?);
    match (high, middle, low) {
        (BLANK, BLANK, BLANK) => Err(Refusal::Blank),
        (BLANK, BLANK, _) => leading(low),
        (BLANK, _, _) => Ok(leading(middle)? * EIGHT_DIGITS + following(low)?),
        _ => {
            let high = leading(high)?;
            let rest = following(middle)? * EIGHT_DIGITS + following(low)?;
            let high = high.checked_mul(EIGHT_DIGITS * EIGHT_DIGITS);
            high.and_then(|high| high.checked_add(rest))
                .ok_or(Refusal::Bound)
        }
    }
}

/// What the word says in which the digits begin, after spaces or at once: spaces count as noughts.
#[inline]
fn leading(word: u64) -> Result<u64, Refusal> {
    let padding = (word ^ BLANK).trailing_zeros() & !7;
    sum((word ^ each(b'0')) >> padding << padding)
}

/// What a word of eight digits says.
#[inline]
fn following(word: u64) -> Result<u64, Refusal> {
    sum(word ^ each(b'0'))
}

/// The values of eight digits, put together by two, by four and all; a value above 9 is 5.
#[inline]
fn sum(digits: u64) -> Result<u64, Refusal> {
    // a byte above 9 has its highest bit set, or has it set by 0x76 more
    if (digits | digits.wrapping_add(each(0x76))) & each(0x80) != 0 {
        return Err(Refusal::Form);
    }
    let twos = digits.wrapping_mul(10 << 8 | 1) >> 8 & 0x00ff_00ff_00ff_00ff;
    let fours = twos.wrapping_mul(100 << 16 | 1) >> 16 & 0x0000_ffff_0000_ffff;
    Ok(fours.wrapping_mul(10_000 << 32 | 1) >> 32)
}

/// The number as the field that says it, no noughts before it.
pub fn field(number: u64) -> [u8; 20] {
    let mut field = [b' '; 20];
    let mut rest = number;
    for place in field.iter_mut().rev() {
        *place = b'0' + (rest % 10) as u8;
        rest /= 10;
        if rest == 0 {
            break;
        }
    }
    field
}

#[cfg(test)]
mod tests {
    use super::*;

    fn padded(text: &str) -> [u8; 20] {
        format!("{text:>20}").into_bytes().try_into().unwrap()
    }

    fn read(text: &str) -> Result<u64, Refusal> {
        super::read(&padded(text))
    }

    /// What the standard library reads, where there is nothing but digits behind the spaces.
    fn expected(field: &[u8; 20]) -> Result<u64, Refusal> {
        let text = std::str::from_utf8(field).map_err(|_| Refusal::Form)?;
        let digits = text.trim_start_matches(' ');
        if digits.is_empty() {
            return Err(Refusal::Blank);
        }
        if !digits.bytes().all(|byte| byte.is_ascii_digit()) {
            return Err(Refusal::Form);
        }
        digits.parse().map_err(|_| Refusal::Bound)
    }

    #[test]
    fn every_number_of_digits_is_read_and_written() {
        for power in (0..20).map(|place| 10u64.pow(place)) {
            for number in [power - 1, power, power + 1, power + power / 3] {
                assert_eq!(read(&number.to_string()), Ok(number));
                assert_eq!(field(number), padded(&number.to_string()));
            }
        }
        assert_eq!(read("18446744073709551615"), Ok(u64::MAX));
        assert_eq!(field(u64::MAX), *b"18446744073709551615");
    }

    #[test]
    fn noughts_in_front_change_nothing() {
        for power in (0..20).map(|place| 10u64.pow(place)) {
            for number in [power - 1, power, power + 1, power + power / 3] {
                for width in 0..=20 {
                    let text = format!("{number:0>width$}");
                    assert_eq!(read(&text), Ok(number), "{text}");
                }
            }
        }
        assert_eq!(read("01844674407370955161"), Ok(1844674407370955161));
        assert_eq!(read("09999999999999999999"), Ok(9999999999999999999));
    }

    #[test]
    fn any_number_of_noughts_is_0() {
        for count in 1..=20 {
            assert_eq!(read(&"0".repeat(count)), Ok(0), "{count}");
        }
        assert_eq!(field(0), padded("0"));
    }

    #[test]
    fn every_digit_counts_at_its_place() {
        for place in 0..20 {
            for digit in 1..=9 {
                let text = format!("{digit}{}", "0".repeat(place));
                assert_eq!(read(&text), expected(&padded(&text)), "{text}");
            }
        }
    }

    #[test]
    fn any_byte_at_any_place_is_judged() {
        for text in [
            "",
            "0",
            "7",
            "42",
            "12345678",
            "123456789",
            "1234567890123456",
            "12345678901234567",
            "9999999999999999999",
            "18446744073709551615",
            "99999999999999999999",
            "007",
            "000000007",
            "00000000012345678",
            "00000000000000000042",
            "00000000000000000000",
        ] {
            for place in 0..20 {
                for byte in 0..=u8::MAX {
                    let mut field = padded(text);
                    field[place] = byte;
                    assert_eq!(super::read(&field), expected(&field), "{field:?}");
                }
            }
        }
    }

    #[test]
    fn above_the_bound_is_7() {
        for text in [
            "18446744073709551616",
            "18446744073709551620",
            "18446744080000000000",
            "18450000000000000000",
            "20000000000000000000",
            "36893488147419103232",
            "99999999999999999999",
        ] {
            assert_eq!(read(text), Err(Refusal::Bound), "{text}");
        }
    }

    #[test]
    fn bad_forms_are_5_and_blank_is_6() {
        for text in [
            "0 ",
            "0 1",
            "00 42",
            "0       1",
            "0000 00000000",
            "0                  0",
            "0000000000000000000 ",
            "1 ",
            "1 2",
            "1        2",
            "1                  2",
            "9999999999999999999 ",
            "-1",
            "+1",
            "-0",
            "1a",
            "1\n",
        ] {
            assert_eq!(read(text), Err(Refusal::Form), "{text:?}");
        }
        assert_eq!(read(""), Err(Refusal::Blank));
    }
}
