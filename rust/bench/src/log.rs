//! The replay of the lending end: messages are added to a log, then asked for.
//!
//! Every call passes over the whole log, as document 01 asks, so that a log has a hundred messages
//! at most; then another is begun in the same bytes.

use crate::desk::Desk;
use crate::tape::{messages, Sum, TURN};
use ordinary::ufo;
use std::hint::black_box;

/// How many messages a log has at most.
const MOST: usize = 100;

/// How many messages a request asks for.
const ASKED: u16 = 10;

/// Replays so many messages and gives the checksum.
pub fn replay<D: Desk>(count: u64) -> u64 {
    let tape = messages();
    let (mut bytes, mut out) = ([0; 2 * ufo::LIMIT], [0; ufo::LIMIT]);
    let mut sum = Sum::default();
    for _ in 0..count / TURN {
        for messages in tape.chunks(MOST) {
            let mut log = D::log(&mut bytes);
            for message in messages {
                D::add(&mut log, black_box(message));
            }
            for first in (1..=MOST as u32).step_by(ASKED.into()) {
                sum.written(D::answer(&log, black_box(first), ASKED, &mut out));
            }
        }
    }
    sum.total()
}
