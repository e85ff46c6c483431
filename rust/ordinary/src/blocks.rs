//! Message blocks: two bytes of length, then that many bytes of data.

use crate::refusal::Refusal;
use std::iter::FusedIterator;

/// Where one block's data stand, and where the block after it begins.
#[derive(Clone, Copy, Debug, PartialEq, Eq)]
pub struct Block {
    /// The place of the first byte after the length.
    pub start: usize,
    /// How many bytes of data there are.
    pub length: usize,
    /// The place just past the data.
    pub next: usize,
}

/// The block at a place; 4 if it runs past the end or the place is at or past it.
pub fn next_block(bytes: &[u8], place: usize) -> Result<Block, Refusal> {
    let here = bytes.get(place..).ok_or(Refusal::Framing)?;
    let (data, rest) = split_block(here)?;
    let next = bytes.len() - rest.len();
    Ok(Block {
        start: next - data.len(),
        length: data.len(),
        next,
    })
}

/// The first block's data and what follows the block; 4 if there is no whole block.
#[inline]
pub fn split_block(bytes: &[u8]) -> Result<(&[u8], &[u8]), Refusal> {
    let (length, rest) = bytes.split_first_chunk().ok_or(Refusal::Framing)?;
    rest.split_at_checked(usize::from(u16::from_be_bytes(*length)))
        .ok_or(Refusal::Framing)
}

/// What follows the first `count` blocks; 4 if there are not so many.
#[inline]
pub fn after(bytes: &[u8], count: u64) -> Result<&[u8], Refusal> {
    let mut rest = bytes;
    for _ in 0..count {
        (_, rest) = split_block(rest)?;
    }
    Ok(rest)
}

/// Whether the bytes are exactly `count` blocks; 4 if not.
#[inline]
pub fn exactly(bytes: &[u8], count: u16) -> Result<(), Refusal> {
    match after(bytes, u64::from(count))? {
        [] => Ok(()),
        _ => Err(Refusal::Framing),
    }
}

/// How many messages an upstream packet's blocks hold; 4 if they don't end at its end or one is
/// empty.
pub fn upstream(packet: &[u8]) -> Result<usize, Refusal> {
    let mut messages = 0;
    for message in Blocks::over(packet) {
        if message?.is_empty() {
            return Err(Refusal::Framing);
        }
        messages += 1;
    }
    Ok(messages)
}

/// Walks over blocks, handing out the data of one after another. A block that runs past the end
/// is handed out as 4, and then the walk is over.
#[derive(Clone, Debug)]
pub struct Blocks<'a> {
    rest: &'a [u8],
}

impl<'a> Blocks<'a> {
    /// A walk from the first byte to the last.
    pub fn over(bytes: &'a [u8]) -> Self {
        Blocks { rest: bytes }
    }
}

impl<'a> Iterator for Blocks<'a> {
    type Item = Result<&'a [u8], Refusal>;

    #[inline]
    fn next(&mut self) -> Option<Self::Item> {
        if self.rest.is_empty() {
            return None;
        }
        let split = split_block(self.rest);
        self.rest = split.map_or(&[], |(_, rest)| rest);
        Some(split.map(|(data, _)| data))
    }
}

impl FusedIterator for Blocks<'_> {}

#[cfg(test)]
mod tests {
    use super::*;

    const THREE: &[u8] = b"\0\x02HI\0\0\0\x01!";

    #[test]
    fn a_block_is_found_at_its_place() {
        let block = |start, length, next| {
            Ok(Block {
                start,
                length,
                next,
            })
        };
        assert_eq!(next_block(THREE, 0), block(2, 2, 4));
        assert_eq!(next_block(THREE, 4), block(6, 0, 6));
        assert_eq!(next_block(THREE, 6), block(8, 1, 9));
    }

    #[test]
    fn a_place_without_a_whole_block_is_4() {
        for place in [1, 3, 8, 9, 10, usize::MAX] {
            assert_eq!(next_block(THREE, place), Err(Refusal::Framing), "{place}");
        }
        assert_eq!(next_block(b"", 0), Err(Refusal::Framing));
        assert_eq!(next_block(&THREE[..8], 6), Err(Refusal::Framing));
    }

    #[test]
    fn the_walk_hands_out_each_block_and_stops() {
        let all: Vec<_> = Blocks::over(THREE).collect();
        assert_eq!(all, [Ok(&b"HI"[..]), Ok(b""), Ok(b"!")]);
        let mut cut = Blocks::over(&THREE[..5]);
        assert_eq!(cut.next(), Some(Ok(&b"HI"[..])));
        assert_eq!(cut.next(), Some(Err(Refusal::Framing)));
        assert_eq!(cut.next(), None);
        assert_eq!(Blocks::over(b"").next(), None);
    }

    #[test]
    fn counting_is_exact() {
        assert_eq!(exactly(THREE, 3), Ok(()));
        assert_eq!(exactly(b"", 0), Ok(()));
        for count in [0, 1, 2, 4, u16::MAX] {
            assert_eq!(exactly(THREE, count), Err(Refusal::Framing), "{count}");
        }
        assert_eq!(after(THREE, 0), Ok(THREE));
        assert_eq!(after(THREE, 2), Ok(&b"\0\x01!"[..]));
        assert_eq!(after(THREE, 3), Ok(&b""[..]));
        assert_eq!(after(THREE, 4), Err(Refusal::Framing));
    }

    #[test]
    fn upstream_blocks_have_a_byte_at_least() {
        assert_eq!(upstream(b"\0\x01R\0\x02U!"), Ok(2));
        assert_eq!(upstream(THREE), Err(Refusal::Framing));
        assert_eq!(upstream(b"\0\x01R\0"), Err(Refusal::Framing));
        assert_eq!(upstream(b"\0\x03R!"), Err(Refusal::Framing));
    }
}
