//! The messages that are replayed, and the checksum of what comes of them.

use std::hint::black_box;

/// How many messages there are before they come again.
pub const TURN: u64 = 800;

/// The message at a place of the tape: 4 to 20 bytes, none of them a linefeed.
fn message(place: u64) -> Vec<u8> {
    let length = 4 + place * 7 % 17;
    (place..place + length)
        .map(|value| b'!' + (value % 90) as u8)
        .collect()
}

/// Every message of the tape.
pub fn messages() -> Vec<Vec<u8>> {
    (0..TURN).map(message).collect()
}

/// A checksum in which every number counts, and its place.
#[derive(Default)]
pub struct Sum(u64);

impl Sum {
    /// Counts in one more number.
    pub fn add(&mut self, number: u64) {
        self.0 = (self.0.rotate_left(5) ^ number).wrapping_mul(0x9e37_79b9_7f4a_7c15);
    }

    /// Counts in bytes that were written, by how many there are and by the last; all of them are
    /// held to be needed.
    pub fn written(&mut self, bytes: &[u8]) {
        let bytes = black_box(bytes);
        self.add(bytes.len() as u64);
        self.add(bytes.last().copied().unwrap_or_default().into());
    }

    /// Counts in a name of at most sixteen bytes, all of them.
    pub fn name<const LENGTH: usize>(&mut self, name: [u8; LENGTH]) {
        let mut bytes = [0; 16];
        bytes[..LENGTH].copy_from_slice(&name);
        let number = u128::from_le_bytes(bytes);
        self.add(number as u64);
        self.add((number >> 64) as u64);
    }

    /// What it came to.
    pub fn total(self) -> u64 {
        self.0
    }
}
