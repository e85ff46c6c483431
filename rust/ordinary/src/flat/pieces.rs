//! The flat face of SoupTCP as it comes off the wire.

use super::packets::{from_soup, spot};
use super::{flag, hp_packet, number};
use crate::kinds::Sequence;
use crate::refusal::Refusal;
use crate::soup_pieces::{Handed, Pieces};

/// How a stream stands between two pieces; all zeros to begin with.
#[repr(C)]
#[derive(Clone, Copy, Debug, Default, PartialEq, Eq)]
pub struct hp_pieces {
    /// How many bytes of an unfinished packet stand at the buffer's start.
    pub kept: u64,
    /// 1 while the rest of an overlong packet is dropped, else 0; another is 10.
    pub dropping: u8,
    /// The number of the next `S`; 0 before Login Accepted.
    pub next: u64,
}

impl hp_pieces {
    /// The stream, if its flag is known and what it keeps could lie in any buffer; else 10.
    fn pieces(&self) -> Result<Pieces, Refusal> {
        Ok(Pieces {
            kept: usize::try_from(self.kept).map_err(|_| Refusal::Broken)?,
            dropping: flag(self.dropping)?,
            next: Sequence(self.next),
        })
    }
}

impl From<Pieces> for hp_pieces {
    fn from(pieces: Pieces) -> Self {
        hp_pieces {
            kept: pieces.kept as u64,
            dropping: u8::from(pieces.dropping),
            next: pieces.next.0,
        }
    }
}

/// What a piece gave, from a place on.
#[repr(C)]
#[derive(Clone, Copy, Debug, Default, PartialEq, Eq)]
pub struct hp_piece {
    /// 0 or why the call was refused.
    pub refusal: u64,
    /// Where to go on in the piece.
    pub place: u64,
    /// 0 the piece is used up and no packet ended; 1 a packet; 2 a refused packet.
    pub what: u8,
    /// 2: why it was refused.
    pub why: u64,
    /// 1, an `S`: the message's number.
    pub number: u64,
    /// 1, 2: the packet is the buffer's first so many bytes; of an overlong one 4,098.
    pub bytes: u64,
    /// 1: its fields, as [`hp_soup_read`](super::hp_soup_read) gives them.
    pub packet: hp_packet,
    /// The stream afterwards.
    pub pieces: hp_pieces,
}

impl hp_piece {
    /// The answer where this is handed out.
    fn handing(handed: &Handed<'_>) -> hp_piece {
        let bytes = handed.bytes.len() as u64;
        match &handed.packet {
            Ok(packet) => hp_piece {
                what: 1,
                number: handed.number.unwrap_or_default().0,
                bytes,
                packet: from_soup(packet),
                ..hp_piece::default()
            },
            Err(refusal) => hp_piece {
                what: 2,
                why: number(*refusal),
                bytes,
                ..hp_piece::default()
            },
        }
    }
}

/// Takes a piece from a place on, up to the first packet that ends or is refused, or to the piece's
/// end; 10, then 4 for a place past the end.
pub fn hp_soup_take(pieces: hp_pieces, buffer: &mut [u8], piece: &[u8], place: u64) -> hp_piece {
    taken(&pieces, buffer, piece, place).unwrap_or_else(|refusal| hp_piece {
        refusal: number(refusal),
        pieces,
        ..hp_piece::default()
    })
}

fn taken(
    pieces: &hp_pieces,
    buffer: &mut [u8],
    piece: &[u8],
    place: u64,
) -> Result<hp_piece, Refusal> {
    let mut pieces = pieces.pieces()?;
    pieces.check(buffer)?;
    let mut rest = piece.get(spot(place)..).ok_or(Refusal::Framing)?;
    let handed = pieces.take_on(buffer, &mut rest);
    let answer = handed.map_or_else(hp_piece::default, |handed| hp_piece::handing(&handed));
    Ok(hp_piece {
        place: (piece.len() - rest.len()) as u64,
        pieces: pieces.into(),
        ..answer
    })
}
