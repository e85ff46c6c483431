//! The cases of Soup as it comes off the wire.

use crate::both::{both, Agreed, Difference};
use crate::dice::Dice;
use crate::make::ToFeed;
use hinurapay::flat::{hp_piece, hp_pieces};

/// Takes a piece from its place on, and then goes on to its end; the refusal is the first call's.
pub fn take(dice: &mut Dice) -> Result<u64, Difference> {
    let ToFeed {
        pieces,
        buffer,
        piece,
        place,
    } = ToFeed::made(dice);
    let mut agreed = fed(pieces, buffer, &piece, place)?;
    let refusal = agreed.answer.refusal;
    while agreed.answer.what != 0 {
        let Agreed { answer, out, .. } = agreed;
        agreed = fed(answer.pieces, out, &piece, answer.place)?;
    }
    Ok(refusal)
}

/// Takes a piece of a Soup stream from a place on by both desks, which are lent the same buffer.
pub fn fed(
    pieces: hp_pieces,
    buffer: Vec<u8>,
    piece: &[u8],
    place: u64,
) -> Result<Agreed<hp_piece>, Difference> {
    both!(
        hp_soup_take(pieces, buffer, bytes, place);
        lent bytes = piece; room buffer = buffer
    )
}
