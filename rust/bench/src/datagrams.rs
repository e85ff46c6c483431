//! The replay of datagrams: each is read, then taken into a session record.

use crate::desk::{Desk, Seen};
use crate::tape::{messages, Sum, TURN};
use ordinary::memx;
use std::hint::black_box;

/// A protocol whose datagrams go into a session record.
pub trait Protocol {
    /// What stands before the count and the blocks, the number being 0.
    const HEADER: &'static [u8];
    /// Where the last four bytes of the number begin; a replay has no greater numbers.
    const NUMBER: usize;
    /// Whether every datagram is as long as may be, and how long that is.
    const FULL: Option<usize> = None;
    fn open<D: Desk>() -> D::Record;
    fn read<D: Desk>(datagram: &[u8]) -> Seen<'_>;
}

/// UFO.
pub struct Ufo;

impl Protocol for Ufo {
    const HEADER: &'static [u8] = &[b'S', 0, 0, 0, 0];
    const NUMBER: usize = 1;

    fn open<D: Desk>() -> D::Record {
        D::open_ufo(*b"8841      ")
    }

    fn read<D: Desk>(datagram: &[u8]) -> Seen<'_> {
        D::read_ufo(datagram)
    }
}

/// MEMX-UDP.
pub struct Memx;

impl Protocol for Memx {
    const HEADER: &'static [u8] = &[2, 18, 0, 0, 0, 0, 0, 0, 0, 7, 0, 0, 0, 0, 0, 0, 0, 0];
    const NUMBER: usize = 14;

    fn open<D: Desk>() -> D::Record {
        D::open_memx(7)
    }

    fn read<D: Desk>(datagram: &[u8]) -> Seen<'_> {
        D::read_memx(datagram)
    }
}

/// MEMX-UDP in jumbo frames, each of which is full.
pub struct MemxJumbo;

impl Protocol for MemxJumbo {
    const HEADER: &'static [u8] = Memx::HEADER;
    const NUMBER: usize = Memx::NUMBER;
    const FULL: Option<usize> = Some(memx::LIMIT);

    fn open<D: Desk>() -> D::Record {
        Memx::open::<D>()
    }

    fn read<D: Desk>(datagram: &[u8]) -> Seen<'_> {
        Memx::read::<D>(datagram)
    }
}

/// In which order datagrams come.
pub trait Order {
    /// Puts datagrams that stand in the order of their numbers into the order in which they come.
    fn arrange(datagrams: &mut [(u32, Vec<u8>)]);
}

/// One after another.
pub struct InOrder;

impl Order for InOrder {
    fn arrange(_: &mut [(u32, Vec<u8>)]) {}
}

/// Every second one is late: it comes after its successor, which is held until then.
pub struct SecondLate;

impl Order for SecondLate {
    fn arrange(datagrams: &mut [(u32, Vec<u8>)]) {
        datagrams.chunks_exact_mut(2).for_each(<[_]>::reverse);
    }
}

/// Lengthens messages by their own bytes, each by one in turn, until their blocks have so many bytes.
fn lengthen(messages: &mut [Vec<u8>], blocks: usize) {
    let now: usize = messages.iter().map(|message| 2 + message.len()).sum();
    let count = messages.len();
    for place in 0..blocks - now {
        let message = &mut messages[place % count];
        message.push(message[place / count]);
    }
}

/// The datagram of some messages, the number being 0.
fn datagram<P: Protocol>(messages: &mut [Vec<u8>]) -> Vec<u8> {
    if let Some(length) = P::FULL {
        lengthen(messages, length - P::HEADER.len() - 2);
    }
    let mut bytes = [P::HEADER, &(messages.len() as u16).to_be_bytes()].concat();
    for message in messages {
        bytes.extend((message.len() as u16).to_be_bytes());
        bytes.extend(&message[..]);
    }
    assert!(P::FULL.is_none_or(|length| bytes.len() == length));
    bytes
}

/// The tape's messages, so many to a datagram, each with how many messages come before it.
fn datagrams<P: Protocol>(count: usize) -> Vec<(u32, Vec<u8>)> {
    let before = (0..).step_by(count);
    let mut messages = messages();
    let datagrams = messages.chunks_mut(count).map(datagram::<P>);
    before.zip(datagrams).collect()
}

/// Replays so many messages, `COUNT` to a datagram, and gives the checksum.
pub fn replay<P: Protocol, O: Order, D: Desk, const COUNT: usize>(messages: u64) -> u64 {
    let mut datagrams = datagrams::<P>(COUNT);
    O::arrange(&mut datagrams);
    let (mut area, mut out) = (D::area(), [0; memx::LIMIT]);
    let mut record = P::open::<D>();
    let mut sum = Sum::default();
    let mut first = 1;
    while first <= messages as u32 {
        for (before, datagram) in &mut datagrams {
            let number = first + *before;
            datagram[P::NUMBER..P::NUMBER + 4].copy_from_slice(&number.to_be_bytes());
            let seen = black_box(P::read::<D>(black_box(datagram)));
            sum.add(seen.first);
            sum.add(seen.count.into());
            sum.add(seen.body.len() as u64);
            let (delivered, count) = D::take(&mut record, &mut area, black_box(datagram), &mut out);
            sum.add(count);
            sum.written(delivered);
        }
        first += TURN as u32;
    }
    assert_eq!(D::next(&record), first.into(), "every message is delivered");
    sum.add(D::next(&record));
    sum.total()
}
