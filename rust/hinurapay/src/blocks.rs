//! Data blocks: two bytes of length, then the data.

use crate::flat::hp_next_block;
use crate::refusal::{taken, Refusal};

/// Hands out the data of one block after another, and ends after the first that is refused.
///
/// ```
/// use hinurapay::Blocks;
///
/// let mut blocks = Blocks::over(b"\0\x02HI\0\0");
/// assert_eq!(blocks.next(), Some(Ok(&b"HI"[..])));
/// assert_eq!(blocks.next(), Some(Ok(&b""[..])));
/// assert_eq!(blocks.next(), None);
/// ```
#[derive(Clone, Debug)]
pub struct Blocks<'a> {
    bytes: &'a [u8],
    place: u64,
}

impl<'a> Blocks<'a> {
    /// A walk over these blocks.
    pub fn over(bytes: &'a [u8]) -> Blocks<'a> {
        Blocks { bytes, place: 0 }
    }
}

impl<'a> Iterator for Blocks<'a> {
    type Item = Result<&'a [u8], Refusal>;

    fn next(&mut self) -> Option<Self::Item> {
        if self.place >= self.bytes.len() as u64 {
            return None;
        }
        let block = hp_next_block(self.bytes, self.place);
        let data = taken(block.refusal, ()).map(|()| part(self.bytes, block.start, block.length));
        self.place = if data.is_ok() { block.next } else { u64::MAX };
        Some(data)
    }
}

/// The bytes that an answer names by start and length.
#[inline]
pub(crate) fn part(bytes: &[u8], start: u64, length: u64) -> &[u8] {
    &bytes[start as usize..][..length as usize]
}
