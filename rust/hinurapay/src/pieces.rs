//! SoupTCP as it comes off the wire: whole packets out of pieces that were cut anywhere.

use crate::flat::{hp_piece, hp_pieces, hp_soup_take};
use crate::kinds::Sequence;
use crate::refusal::{taken, Refusal};
use crate::soup::{self, Packet};
use core::fmt;

/// A Soup stream between two pieces: what there is of an unfinished packet, and the number of the next
/// message. It has the buffer in which packets are put together.
///
/// ```
/// use hinurapay::soup::Packet;
/// use hinurapay::{Pieces, Sequence};
///
/// let mut pieces = Pieces::new();
/// let mut lengths = [0; 9];
/// for piece in [&b"A      8841                   7\nShel"[..], b"lo\nH", b"\nS\n"] {
///     let mut fed = pieces.feed(piece);
///     while let Some(handed) = fed.next() {
///         if let (Packet::Sequenced(message), Some(number)) = (handed.packet?, handed.number) {
///             lengths[number.0 as usize] = message.len();
///         }
///     }
/// }
/// assert_eq!(lengths[7..], [5, 0]);
/// assert_eq!(pieces.next_number(), Some(Sequence(9)));
/// # Ok::<(), hinurapay::Refusal>(())
/// ```
///
/// Two streams are equal if they go on alike: the buffer behind what is kept doesn't count.
#[derive(Clone)]
pub struct Pieces {
    pieces: hp_pieces,
    buffer: [u8; soup::LIMIT],
}

/// What is handed out: a packet, or one that was refused and is used up all the same.
#[derive(Clone, Copy, Debug, PartialEq, Eq)]
pub struct Handed<'a> {
    /// Its bytes as they came, linefeed and all; of an overlong one the first 4,098.
    pub bytes: &'a [u8],
    /// The packet, or why it was refused: 2 if it is overlong, 3, 4, 5, 6 and 7 as
    /// [`soup::read`] has it, 16 for an `S` before Login Accepted or a second `A`, 7 for an `S` whose
    /// number would be 2^64-1.
    pub packet: Result<Packet<'a>, Refusal>,
    /// The number of an `S` that was taken.
    pub number: Option<Sequence>,
}

impl Pieces {
    /// A stream of which nothing came yet.
    pub const fn new() -> Pieces {
        Pieces {
            pieces: hp_pieces {
                kept: 0,
                dropping: 0,
                next: 0,
            },
            buffer: [0; soup::LIMIT],
        }
    }

    /// A stream that was kept, as [`Pieces::flat`] and [`Pieces::unfinished`] gave it; 10 if it
    /// doesn't hang together.
    ///
    /// ```
    /// use hinurapay::{Pieces, Refusal};
    ///
    /// let mut pieces = Pieces::new();
    /// assert_eq!(pieces.feed(b"Unfini").next(), None);
    /// let kept = pieces.flat();
    /// assert_eq!(Pieces::resumed(kept, b"Unfini"), Ok(pieces));
    /// assert_eq!(Pieces::resumed(kept, b"Unfin"), Err(Refusal::Broken));
    /// assert_eq!(Pieces::resumed(kept, b"Un\nini"), Err(Refusal::Broken));
    /// ```
    pub fn resumed(kept: hp_pieces, unfinished: &[u8]) -> Result<Pieces, Refusal> {
        let mut pieces = Pieces {
            pieces: kept,
            ..Pieces::new()
        };
        let start = pieces.buffer.get_mut(..unfinished.len());
        start.ok_or(Refusal::Broken)?.copy_from_slice(unfinished);
        if kept.kept != unfinished.len() as u64 {
            return Err(Refusal::Broken);
        }
        // an empty piece changes nothing, and is taken only by a stream that hangs together
        let answer = hp_soup_take(kept, &mut pieces.buffer, &[], 0);
        taken(answer.refusal, pieces)
    }

    /// The stream's own numbers as the C face has them, to be kept with what is unfinished.
    pub fn flat(&self) -> hp_pieces {
        self.pieces
    }

    /// What came of a packet that is not finished yet.
    pub fn unfinished(&self) -> &[u8] {
        &self.buffer[..self.pieces.kept as usize]
    }

    /// Whether the rest of an overlong packet is dropped, up to its linefeed.
    pub fn dropping(&self) -> bool {
        self.pieces.dropping == 1
    }

    /// The number of the next `S`; none before Login Accepted.
    pub fn next_number(&self) -> Option<Sequence> {
        (self.pieces.next != 0).then_some(Sequence(self.pieces.next))
    }

    /// Feeds a piece, whose packets are then to be asked for one by one; see [`Fed`].
    #[inline]
    pub fn feed<'a>(&mut self, piece: &'a [u8]) -> Fed<'_, 'a> {
        Fed {
            pieces: self,
            piece,
            place: 0,
        }
    }
}

impl Default for Pieces {
    fn default() -> Pieces {
        Pieces::new()
    }
}

impl PartialEq for Pieces {
    fn eq(&self, other: &Pieces) -> bool {
        self.pieces == other.pieces && self.unfinished() == other.unfinished()
    }
}

impl Eq for Pieces {}

impl fmt::Debug for Pieces {
    fn fmt(&self, f: &mut fmt::Formatter<'_>) -> fmt::Result {
        f.debug_struct("Pieces")
            .field("unfinished", &self.unfinished())
            .field("dropping", &self.dropping())
            .field("next_number", &self.next_number())
            .finish()
    }
}

/// A piece that is being fed. [`Fed::next`] hands out its packets; each stands in the stream's buffer,
/// and is lent until the next one is asked for.
///
/// If it is dropped before it has handed out all, **the rest is fed all the same**, and the packets in
/// it are not handed out. Were it not fed, the stream would go on in the middle of a packet, and every
/// message behind it would have a wrong number; fed, they are counted, and a gap in the numbers tells
/// what was not asked for. Whoever wants to go on later asks for [`Fed::rest`].
///
/// ```
/// use hinurapay::{Pieces, Sequence};
///
/// let mut pieces = Pieces::new();
/// drop(pieces.feed(b"A      8841                   1\n"));
/// assert_eq!(pieces.next_number(), Some(Sequence(1)));
///
/// let mut fed = pieces.feed(b"Sone\nStwo\nSthree\nSfo");
/// assert_eq!(fed.next().and_then(|handed| handed.number), Some(Sequence(1)));
/// drop(fed);
/// assert_eq!((pieces.next_number(), pieces.unfinished()), (Some(Sequence(4)), &b"Sfo"[..]));
/// ```
#[derive(Debug)]
#[must_use = "its packets are to be asked for"]
pub struct Fed<'s, 'a> {
    pieces: &'s mut Pieces,
    piece: &'a [u8],
    place: u64,
}

impl<'a> Fed<'_, 'a> {
    /// The next packet, or the next that is refused; none once the piece is used up.
    #[allow(clippy::should_implement_trait)] // an iterator can't lend what it hands out
    #[inline]
    pub fn next(&mut self) -> Option<Handed<'_>> {
        if self.is_used_up() {
            return None;
        }
        let answer = self.go_on();
        if answer.what == 0 {
            return None;
        }
        let bytes = &self.pieces.buffer[..answer.bytes as usize];
        Some(Handed {
            bytes,
            packet: taken(answer.why, ()).map(|()| soup::of(&answer.packet, bytes)),
            number: (answer.number != 0).then_some(Sequence(answer.number)),
        })
    }

    /// Ends the feeding here: what of the piece was not fed. It is to be fed before anything else.
    ///
    /// ```
    /// use hinurapay::Pieces;
    ///
    /// let mut pieces = Pieces::new();
    /// let mut fed = pieces.feed(b"H\nH\nUnfin");
    /// fed.next();
    /// let rest = fed.rest();
    /// assert_eq!((rest, pieces.unfinished()), (&b"H\nUnfin"[..], &b""[..]));
    /// drop(pieces.feed(rest));
    /// assert_eq!(pieces.unfinished(), b"Unfin");
    /// ```
    #[must_use = "what is not fed is missing in the stream"]
    pub fn rest(mut self) -> &'a [u8] {
        let (fed, rest) = self.piece.split_at(self.place as usize);
        self.piece = fed; // so that nothing is left when this is dropped
        rest
    }

    /// Whether all of the piece was fed.
    #[inline]
    fn is_used_up(&self) -> bool {
        self.place == self.piece.len() as u64
    }

    /// Goes on up to the next packet, or to the end if there is none.
    #[inline]
    fn go_on(&mut self) -> hp_piece {
        let Pieces { pieces, buffer } = &mut *self.pieces;
        let answer = hp_soup_take(*pieces, buffer, self.piece, self.place);
        taken(answer.refusal, ()).expect("a stream that the desk left hangs together");
        *pieces = answer.pieces;
        self.place = answer.place;
        answer
    }
}

impl Drop for Fed<'_, '_> {
    #[inline]
    fn drop(&mut self) {
        while !self.is_used_up() {
            self.go_on();
        }
    }
}
