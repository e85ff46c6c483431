//! Fields of fixed width: taken off the front of a packet, laid one after another onto a slip.

use crate::refusal::Refusal;

/// A packet of no bytes is 1, one over its limit is 2.
#[inline]
pub fn measured(length: usize, limit: usize) -> Result<(), Refusal> {
    if length == 0 {
        Err(Refusal::Empty)
    } else if length > limit {
        Err(Refusal::Oversize)
    } else {
        Ok(())
    }
}

/// Takes the next field off the front; a packet too short for it is 4.
#[inline]
pub fn take<const WIDTH: usize>(packet: &mut &[u8]) -> Result<[u8; WIDTH], Refusal> {
    let (field, rest) = packet.split_first_chunk().ok_or(Refusal::Framing)?;
    *packet = rest;
    Ok(*field)
}

/// After the last field nothing may be left over (4).
#[inline]
pub fn end(packet: &[u8]) -> Result<(), Refusal> {
    if packet.is_empty() {
        Ok(())
    } else {
        Err(Refusal::Framing)
    }
}

/// Lays the parts one after another from the slip's start and says how many bytes they took; 9,
/// with the slip untouched, if they don't fit.
#[inline]
pub fn lay(parts: &[&[u8]], slip: &mut [u8]) -> Result<usize, Refusal> {
    let bytes = parts.iter().map(|part| part.len()).sum();
    let mut room = slip.get_mut(..bytes).ok_or(Refusal::Room)?;
    for part in parts {
        let (place, rest) = room.split_at_mut(part.len());
        place.copy_from_slice(part);
        room = rest;
    }
    Ok(bytes)
}

#[cfg(test)]
mod tests {
    use super::*;

    #[test]
    fn fields_come_off_in_order_until_the_end() {
        let mut packet = &b"abcde"[..];
        assert_eq!(take(&mut packet), Ok(*b"ab"));
        assert_eq!(end(packet), Err(Refusal::Framing));
        assert_eq!(take::<4>(&mut packet), Err(Refusal::Framing));
        assert_eq!(take(&mut packet), Ok(*b"cde"));
        assert_eq!(end(packet), Ok(()));
    }

    #[test]
    fn parts_are_laid_whole_or_not_at_all() {
        let mut slip = *b"......";
        assert_eq!(lay(&[b"ab", b"", b"c"], &mut slip), Ok(3));
        assert_eq!(&slip, b"abc...");
        assert_eq!(lay(&[b"wxyz", b"123"], &mut slip), Err(Refusal::Room));
        assert_eq!(&slip, b"abc...");
    }
}
