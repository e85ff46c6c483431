//! The held area: where messages that came early wait until they are next.

use core::fmt;

/// An area of 32 slots of 1,472 bytes, lent to a record with every datagram. The record notes which
/// slots are full; so it is to be lent the same area each time, as it was left. A message of more than
/// [`Area::LONGEST`] bytes, which only MEMX-UDP brings, is not held; see [`Record::take`].
///
/// [`Record::take`]: crate::Record::take
///
/// ```
/// use hinurapay::{Area, Name, Record};
///
/// let mut record = Record::open_ufo(Name(*b"8841      "))?;
/// let mut area = Area::new();
/// let mut out = [0; 1472];
/// // message 2 comes before message 1: it is held in slot 2
/// let taken = record.take(&mut area, b"S\0\0\0\x02\0\x01\0\x02HI", &mut out)?;
/// assert_eq!((taken.messages, record.held()), (0, 1 << 2));
/// assert_eq!(&area.0[2 * Area::SLOT..][..4], b"\0\x02HI");
/// // and goes out behind message 1
/// let taken = record.take(&mut area, b"S\0\0\0\x01\0\x01\0\x01!", &mut out)?;
/// assert_eq!((taken.messages, taken.blocks), (2, &b"\0\x01!\0\x02HI"[..]));
/// assert_eq!(record.held(), 0);
/// # Ok::<(), hinurapay::Refusal>(())
/// ```
#[derive(Clone, PartialEq, Eq)]
pub struct Area(
    /// Its bytes, to be kept with the record.
    pub [u8; Area::BYTES],
);

impl Area {
    /// How many slots it has; message m has slot m mod 32.
    pub const SLOTS: usize = 32;

    /// How many bytes a slot has.
    pub const SLOT: usize = 1472;

    /// How many bytes it has.
    pub const BYTES: usize = Area::SLOTS * Area::SLOT;

    /// The longest message that is held: two bytes of its slot are its length.
    pub const LONGEST: usize = Area::SLOT - 2;

    /// How many bytes all held messages have together at most: the next one's own slot is never full.
    pub const MOST_HELD: usize = (Area::SLOTS - 1) * Area::SLOT;

    /// An area for a fresh record.
    pub const fn new() -> Area {
        Area([0; Area::BYTES])
    }
}

impl Default for Area {
    fn default() -> Area {
        Area::new()
    }
}

impl fmt::Debug for Area {
    fn fmt(&self, f: &mut fmt::Formatter<'_>) -> fmt::Result {
        f.write_str("Area(..)")
    }
}
