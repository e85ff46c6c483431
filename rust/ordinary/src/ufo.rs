//! UFO 1.0: packets from the server down to the client, and from the client up.

mod down;
mod up;

pub use down::{read_down, write_down, Down, DATA_HEADER};
pub use up::{read_message, read_up, write_message, Packet, Up};

use crate::held;
use crate::refusal::Refusal;

/// The most bytes that a packet may have.
pub const LIMIT: usize = 1472;

/// Output enough for a packet's messages and all that are held.
pub const ROOM: usize = LIMIT + held::MOST;

/// The highest number that a message, or a session's total, may have.
pub const HIGHEST: u64 = u32::MAX as u64 - 1;

/// The four bytes of a number; one that they cannot hold is 7.
#[inline]
fn four_bytes(number: u64) -> Result<[u8; 4], Refusal> {
    u32::try_from(number)
        .map(u32::to_be_bytes)
        .map_err(|_| Refusal::Bound)
}

/// The number that four bytes say.
#[inline]
fn number(bytes: [u8; 4]) -> u64 {
    u64::from(u32::from_be_bytes(bytes))
}
