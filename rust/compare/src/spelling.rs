//! The one spelling of a Soup packet: the bytes that are written where it was read.

use crate::make::{said, spelt};

/// Where the number of a packet begins, if its type has one.
fn number_of(packet: &[u8]) -> Option<usize> {
    match packet.first() {
        Some(b'A') => Some(11),
        Some(b'L') => Some(27),
        _ => None,
    }
}

/// The spelling of a packet that can be read: the same bytes, but for noughts before its number.
pub fn spelling(packet: &[u8]) -> Vec<u8> {
    let mut spelling = packet.to_vec();
    if let Some(place) = number_of(packet) {
        let field = spelling[place..].first_chunk_mut().expect("a number");
        *field = spelt(said(field).expect("a lawful number"));
    }
    spelling
}

#[cfg(test)]
mod tests {
    use super::*;

    /// The two packets that have a number, up to there, with noughts in their other fields.
    const STARTS: [&str; 2] = [
        concat!("A", "      0841"),
        concat!("L", "0me   ", "00secret  ", "      0841"),
    ];

    #[test]
    fn noughts_before_the_number_are_spaces_and_nothing_else_moves() {
        for (number, digits) in [
            ("00000000000000000042", "42"),
            ("      00000000000042", "42"),
            ("01", "1"),
            ("0", "0"),
            ("00000000000000000000", "0"),
            ("                  00", "0"),
            ("00000000000000010100", "10100"),
            ("01844674407370955161", "1844674407370955161"),
            ("18446744073709551615", "18446744073709551615"),
        ] {
            for start in STARTS {
                let packet = format!("{start}{number:>20}\n").into_bytes();
                let spelt = format!("{start}{digits:>20}\n").into_bytes();
                assert_eq!(spelling(&packet), spelt, "{number}");
                assert_eq!(spelling(&spelt), spelt, "{digits}");
            }
        }
    }

    #[test]
    fn a_packet_without_a_number_is_its_own_spelling() {
        for kind in *b"+SUJHZRO" {
            let packet = [&[kind][..], &[b'0'; 47], b"\n"].concat();
            assert_eq!(spelling(&packet), packet);
            let bare = [kind, b'\n'];
            assert_eq!(spelling(&bare), bare);
        }
    }
}
