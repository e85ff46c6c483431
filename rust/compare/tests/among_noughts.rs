//! Numbers with noughts before them are among the cases on which the two desks agree, wherever a number
//! can stand.

use compare::make::{self, ToFeed};
use compare::plan::cases_of;
use compare::spelling;
use compare::twin::Twin;
use ordinary::flat::{hp_soup_read, hp_soup_take};
use std::collections::{BTreeMap, BTreeSet};

/// The field of a packet's number, if it has noughts before the last place, behind spaces or not.
fn padded(packet: &[u8]) -> Option<&[u8]> {
    let field = match (packet.first(), packet.len()) {
        (Some(b'A'), 32) => &packet[11..31],
        (Some(b'L'), 48) => &packet[27..47],
        _ => return None,
    };
    let first = field.iter().position(|&byte| byte != b' ')?;
    (field[first] == b'0' && first < 19).then_some(field)
}

/// What came up of numbers with noughts before them.
#[derive(Default)]
struct Seen {
    /// How often a type was refused so, 0 standing for not at all.
    refusals: BTreeMap<(u8, u64), u64>,
    /// How often a space stood behind a nought.
    broken: u64,
    /// How many spaces, noughts and other digits there were where one was taken.
    mixtures: [BTreeSet<usize>; 3],
}

impl Seen {
    /// Counts a packet that was refused so (0: not at all), if it has such a number.
    fn add(&mut self, packet: &[u8], refusal: u64) {
        let Some(field) = padded(packet) else {
            return;
        };
        *self.refusals.entry((packet[0], refusal)).or_default() += 1;
        if refusal == 0 {
            assert_ne!(spelling(packet), packet, "it is written otherwise");
            for (seen, count) in self.mixtures.iter_mut().zip(mixture(field)) {
                seen.insert(count);
            }
        } else if field.windows(2).any(|pair| pair == b"0 ") {
            assert!(matches!(refusal, 4 | 5 | 8), "{refusal}");
            self.broken += 1;
        }
    }

    /// Asks that these refusals came up for both types, that every number of spaces, of noughts and of
    /// other digits was taken, and that no number with noughts before it is too great.
    fn tells(&self, refusals: &[u64]) {
        for kind in [b'A', b'L'] {
            for &refusal in refusals {
                let times = self.refusals.get(&(kind, refusal));
                assert!(times > Some(&20), "{refusal}: {:?}", self.refusals);
            }
            assert_eq!(self.refusals.get(&(kind, 7)), None);
        }
        assert!(self.broken > 20, "{}", self.broken);
        let [spaces, noughts, others] = &self.mixtures;
        // such a number has two digits at least
        assert!(spaces.iter().copied().eq(0..=18), "{spaces:?}");
        assert!(noughts.iter().copied().eq(1..=20), "{noughts:?}");
        assert!(others.iter().copied().eq(0..=19), "{others:?}");
    }
}

/// How many spaces, then noughts, then other digits a number is.
fn mixture(field: &[u8]) -> [usize; 3] {
    let digits = field.trim_ascii_start();
    let noughts = digits.iter().take_while(|&&byte| byte == b'0').count();
    [20 - digits.len(), noughts, digits.len() - noughts]
}

#[test]
fn padded_numbers_are_read_and_written_again_among_the_cases() {
    let mut seen = Seen::default();
    for mut dice in cases_of("hp_soup_read") {
        let packet = make::soup_to_read(&mut dice);
        seen.add(&packet, hp_soup_read(&packet).refusal);
    }
    seen.tells(&[0, 5, 6, 8]);
}

#[test]
fn padded_numbers_are_in_streams_among_the_cases() {
    let mut seen = Seen::default();
    for mut dice in cases_of("hp_soup_take") {
        let mut case = ToFeed::made(&mut dice);
        let pieces = case.pieces.twin();
        let answer = hp_soup_take(pieces, &mut case.buffer, &case.piece, case.place);
        seen.add(&case.buffer[..answer.bytes as usize], answer.why);
    }
    seen.tells(&[0, 5, 6]);
    // a stream's own logins, first ones and second ones, beside those among other packets
    let accepted = |refusal| seen.refusals.get(&(b'A', refusal));
    assert!(accepted(0) > Some(&250), "{:?}", seen.refusals);
    assert!(accepted(16) > Some(&500), "{:?}", seen.refusals);
}
