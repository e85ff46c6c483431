//! The replay of a Soup stream as it comes off the wire: a login, then packets, in pieces of one length.

use crate::desk::Desk;
use crate::stream::{Soup, Stream};
use crate::tape::{messages, Sum, TURN};
use std::hint::black_box;

/// The login, which names 1 as the first message.
const ACCEPTED: &[u8] = b"A      8841                   1\n";

/// Replays so many messages, in pieces of `LENGTH` bytes and a last one of what is left, and gives the
/// checksum.
pub fn replay<D: Desk, const LENGTH: usize>(count: u64) -> u64 {
    let turn: Vec<u8> = messages()
        .iter()
        .flat_map(|one| Soup::packet(one))
        .collect();
    // with so much more behind it a piece can begin anywhere in the turn
    let tape: Vec<u8> = turn
        .iter()
        .copied()
        .cycle()
        .take(turn.len() + LENGTH)
        .collect();
    let mut pieces = D::pieces();
    let mut sum = Sum::default();
    let mut feed = |piece: &[u8]| {
        D::feed(&mut pieces, black_box(piece), |seen| {
            let seen = black_box(seen);
            sum.add(seen.first);
            sum.written(seen.body);
        });
    };
    ACCEPTED.chunks(LENGTH).for_each(&mut feed);
    let mut left = turn.len() * (count / TURN) as usize;
    let mut start = 0;
    while left > 0 {
        let length = LENGTH.min(left);
        feed(&tape[start..start + length]);
        left -= length;
        start += LENGTH % turn.len();
        if start >= turn.len() {
            start -= turn.len();
        }
    }
    let next = D::next_number(&pieces);
    assert_eq!(next, count + 1, "every message is handed out");
    sum.add(next);
    sum.total()
}
