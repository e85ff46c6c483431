//! Both desks come to the same checksum in every replay, and more messages to another one.

use bench::{REPLAYS, TURN};

/// How many turns of the tape are replayed; in the last a Soup stream is more than two of the longest
/// pieces.
const TURNS: [u64; 4] = [1, 2, 3, 12];

#[test]
fn both_desks_do_the_same() {
    for replay in &REPLAYS {
        let mut sums = Vec::new();
        for turns in TURNS {
            let sum = (replay.proved)(turns * TURN);
            assert_eq!(sum, (replay.ordinary)(turns * TURN), "{}", replay.name);
            assert!(!sums.contains(&sum), "{}", replay.name);
            sums.push(sum);
        }
    }
}

#[test]
fn logins_come_to_the_same_with_noughts_before_their_numbers() {
    let logins = REPLAYS
        .iter()
        .filter(|one| ["login", "login-noughts"].contains(&one.name));
    let sums: Vec<u64> = logins.map(|one| (one.proved)(TURN)).collect();
    assert_eq!(sums, [sums[0]; 2]);
}

#[test]
fn a_stream_comes_to_the_same_wherever_it_is_cut() {
    let pieces = REPLAYS.iter().filter(|one| one.name.starts_with("pieces-"));
    let sums: Vec<u64> = pieces.map(|one| (one.proved)(12 * TURN)).collect();
    assert_eq!(sums, [sums[0]; 4]);
}
