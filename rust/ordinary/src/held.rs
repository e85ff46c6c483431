//! Messages that came early: a lent area of 32 slots, and which of the slots are full.

use crate::blocks::Blocks;
use crate::refusal::Refusal;

/// How many slots an area has.
pub const SLOTS: usize = 32;

/// How many bytes a slot has.
pub const SLOT: usize = 1472;

/// How many bytes an area has at least.
pub const AREA: usize = SLOTS * SLOT;

/// How many bytes of data the longest held message has: a slot's, but for the two of its length.
pub const LONGEST: usize = SLOT - 2;

/// How many bytes all held messages have together at most: the next one's own slot is never full.
pub const MOST: usize = (SLOTS - 1) * SLOT;

/// Which slots are full: bit i is 1 where slot i is. Message m has slot m mod 32, and with `next`
/// the next message to be delivered the slots stand for `next` to `next + 31`.
#[derive(Clone, Copy, Debug, Default, PartialEq, Eq)]
pub struct Held(pub u32);

impl Held {
    /// What is held from a number on: bit k is 1 where the message k after it is held. Seen so, no
    /// number is ever added up that could pass 2^64.
    #[inline]
    pub(crate) fn seen_from(self, next: u64) -> u32 {
        self.0.rotate_right(turn(next))
    }

    /// The slots of what is held from a number on.
    #[inline]
    fn turned_back(held: u32, next: u64) -> Held {
        Held(held.rotate_left(turn(next)))
    }

    /// Whether what is held comes after the next message and not above the top.
    #[inline]
    pub(crate) fn lies_within(self, next: u64, top: u64) -> bool {
        if self.0 == 0 {
            return true;
        }
        let held = self.seen_from(next);
        let farthest = u64::from(held.ilog2());
        held & 1 == 0 && top.checked_sub(next).is_some_and(|far| farthest <= far)
    }

    /// 10 if the area is shorter than 32 slots, or a full slot states more bytes than it has.
    #[inline]
    pub(crate) fn check(self, area: &[u8]) -> Result<(), Refusal> {
        if area.len() < AREA {
            return Err(Refusal::Broken);
        }
        let mut full = self.0;
        while full != 0 {
            block(area, full.trailing_zeros() as usize)?;
            full &= full - 1;
        }
        Ok(())
    }

    /// Holds what can be held of the messages from `first` on, all of which come after the next:
    /// those up to 31 after it that are not held yet and not too long.
    pub(crate) fn hold(&mut self, area: &mut [u8], next: u64, first: u64, blocks: &[u8]) {
        let near = first - next..SLOTS as u64;
        // the reader has seen that every block is whole
        for (far, message) in near.zip(Blocks::over(blocks).flatten()) {
            let slot = slot(next + far);
            let bit = 1 << slot;
            if self.0 & bit == 0 && message.len() <= LONGEST {
                let place = &mut area[slot * SLOT..][..2 + message.len()];
                place[..2].copy_from_slice(&(message.len() as u16).to_be_bytes());
                place[2..].copy_from_slice(message);
                self.0 |= bit;
            }
        }
    }

    /// Frees the slots of the messages from the next one to `last`, and puts the messages that are
    /// held without a gap behind them into the room, whose slots fall free too; how many bytes and
    /// messages these are. 9, with nothing changed, if they don't fit.
    pub(crate) fn release(
        &mut self,
        area: &[u8],
        next: u64,
        last: u64,
        room: &mut [u8],
    ) -> Result<(usize, u64), Refusal> {
        // more own messages than there are slots leave none full
        let own = u32::try_from(last - next + 1).unwrap_or(u32::MAX);
        let behind = self.seen_from(next).checked_shr(own).unwrap_or(0);
        let messages = behind.trailing_ones();
        let after = last + 1 + u64::from(messages);
        let mut bytes = 0;
        for number in last + 1..after {
            bytes += block(area, slot(number))?.len();
        }
        let mut room = room.get_mut(..bytes).ok_or(Refusal::Room)?;
        for number in last + 1..after {
            let block = block(area, slot(number))?;
            let (place, rest) = room.split_at_mut(block.len());
            place.copy_from_slice(block);
            room = rest;
        }
        *self = Held::turned_back(behind >> messages, after);
        Ok((bytes, messages.into()))
    }
}

/// The block of a held message, length bytes and all; 10 if it is longer than its slot.
#[inline]
fn block(area: &[u8], slot: usize) -> Result<&[u8], Refusal> {
    let slot = &area[slot * SLOT..][..SLOT];
    let length = usize::from(u16::from_be_bytes([slot[0], slot[1]]));
    slot.get(..2 + length).ok_or(Refusal::Broken)
}

/// The slot of a message.
#[inline]
fn slot(number: u64) -> usize {
    (number % SLOTS as u64) as usize
}

/// How far the slots are turned where this number is the next.
#[inline]
fn turn(next: u64) -> u32 {
    slot(next) as u32
}
