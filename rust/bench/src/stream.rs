//! The replay of streams: packets are read, one for each message.

use crate::desk::{Desk, Seen};
use crate::tape::{messages, Sum, TURN};
use std::hint::black_box;

/// A protocol that sends each message as a packet of its own.
pub trait Stream {
    /// The packet of a sequenced message.
    fn packet(message: &[u8]) -> Vec<u8>;
    fn read<D: Desk>(packet: &[u8]) -> Seen<'_>;
}

/// SoupTCP.
pub struct Soup;

impl Stream for Soup {
    fn packet(message: &[u8]) -> Vec<u8> {
        [b"S", message, b"\n"].concat()
    }

    fn read<D: Desk>(packet: &[u8]) -> Seen<'_> {
        D::read_soup(packet)
    }
}

/// MEMX-TCP.
pub struct Tcp;

impl Stream for Tcp {
    fn packet(message: &[u8]) -> Vec<u8> {
        [&[11, 0, message.len() as u8], message].concat()
    }

    fn read<D: Desk>(packet: &[u8]) -> Seen<'_> {
        D::read_tcp(packet)
    }
}

/// Replays so many messages and gives the checksum.
pub fn replay<S: Stream, D: Desk>(count: u64) -> u64 {
    let packets: Vec<Vec<u8>> = messages().iter().map(|one| S::packet(one)).collect();
    let mut sum = Sum::default();
    for _ in 0..count / TURN {
        for packet in &packets {
            let seen = black_box(S::read::<D>(black_box(packet)));
            sum.written(seen.body);
        }
    }
    sum.total()
}
