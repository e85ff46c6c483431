//! SoupTCP as it comes off the wire: whole packets out of pieces that were cut anywhere.

use crate::kinds::Sequence;
use crate::refusal::Refusal;
use crate::soup::{self, Packet, LINEFEED};
use crate::words;

/// How many bytes a buffer has at least: as many as a packet may have.
pub const BUFFER: usize = soup::LIMIT;

/// How a stream stands between two pieces. What there is of an unfinished packet stands in a buffer
/// that is lent to each call, and that buffer is to be lent as it was left. The default is a stream
/// of which nothing came yet.
///
/// ```
/// use ordinary::kinds::Sequence;
/// use ordinary::soup::Packet;
/// use ordinary::soup_pieces::{Pieces, BUFFER};
///
/// let (mut pieces, mut buffer) = (Pieces::default(), [0; BUFFER]);
/// let mut messages = Vec::new();
/// for mut piece in [&b"A      8841                   7\nShel"[..], b"lo\nH", b"\nS!\n"] {
///     while let Some(handed) = pieces.take(&mut buffer, &mut piece)? {
///         if let Packet::Sequenced(payload) = handed.packet? {
///             messages.push((handed.number, payload.to_vec()));
///         }
///     }
/// }
/// let numbered = |number, payload: &[u8]| (Some(Sequence(number)), payload.to_vec());
/// assert_eq!(messages, [numbered(7, b"hello"), numbered(8, b"!")]);
/// assert_eq!(pieces.next, Sequence(9));
/// # Ok::<(), ordinary::refusal::Refusal>(())
/// ```
#[derive(Clone, Copy, Debug, Default, PartialEq, Eq)]
pub struct Pieces {
    /// How many bytes of an unfinished packet stand at the buffer's start.
    pub kept: usize,
    /// Whether the rest of an overlong packet is dropped.
    pub dropping: bool,
    /// The number of the next `S`, 0 before Login Accepted.
    pub next: Sequence,
}

/// What is handed out: a packet, or one that was refused and is used up all the same.
#[derive(Clone, Copy, Debug, PartialEq, Eq)]
pub struct Handed<'a> {
    /// Its bytes, which stand at the buffer's start; of an overlong one the first 4,098.
    pub bytes: &'a [u8],
    /// The packet, or why it was refused: 2 if it is overlong, 3, 4, 5, 6 and 7 as a reader has it,
    /// 16 for an `S` before Login Accepted or a second `A`, 7 for an `S` past the last number.
    pub packet: Result<Packet<'a>, Refusal>,
    /// The number of an `S`.
    pub number: Option<Sequence>,
}

impl Pieces {
    /// 10 if the stream doesn't hang together: a short buffer, a packet kept that would be overlong
    /// or finished, or any kept of one that is dropped.
    #[inline]
    pub fn check(&self, buffer: &[u8]) -> Result<(), Refusal> {
        let lawful = buffer.len() >= BUFFER
            && self.kept < BUFFER
            && words::find(LINEFEED, &buffer[..self.kept]).is_none()
            && !(self.dropping && self.kept > 0);
        lawful.then_some(()).ok_or(Refusal::Broken)
    }

    /// Takes bytes off the front of a piece, up to the end of the first packet, and hands that out;
    /// all of them if none ends. 10, with nothing changed.
    #[inline]
    pub fn take<'a>(
        &mut self,
        buffer: &'a mut [u8],
        piece: &mut &[u8],
    ) -> Result<Option<Handed<'a>>, Refusal> {
        self.check(buffer)?;
        Ok(self.take_on(buffer, piece))
    }

    /// Takes as [`Pieces::take`] does, where the stream hangs together.
    #[inline]
    pub(crate) fn take_on<'a>(
        &mut self,
        buffer: &'a mut [u8],
        piece: &mut &[u8],
    ) -> Option<Handed<'a>> {
        if self.dropping {
            self.drop_from(piece);
        }
        let room = &mut buffer[self.kept..BUFFER];
        let near = &piece[..piece.len().min(room.len())];
        let end = words::find(LINEFEED, near);
        let (stretch, rest) = piece.split_at(end.map_or(near.len(), |end| end + 1));
        room[..stretch.len()].copy_from_slice(stretch);
        *piece = rest;
        let bytes = &buffer[..self.kept + stretch.len()];
        self.kept = 0;
        if end.is_some() {
            return Some(self.read(bytes));
        }
        if bytes.len() == BUFFER {
            self.dropping = true;
            return Some(Handed {
                bytes,
                packet: Err(Refusal::Oversize),
                number: None,
            });
        }
        self.kept = bytes.len();
        None
    }

    /// Drops the rest of an overlong packet from the front of a piece.
    fn drop_from(&mut self, piece: &mut &[u8]) {
        let end = words::find(LINEFEED, piece);
        self.dropping = end.is_none();
        *piece = &piece[end.map_or(piece.len(), |end| end + 1)..];
    }

    /// Reads a whole packet and counts it, if it is taken.
    #[inline]
    fn read<'a>(&mut self, bytes: &'a [u8]) -> Handed<'a> {
        let read = soup::read_line(bytes);
        let counted = read.and_then(|packet| Ok((packet, self.count(&packet)?)));
        Handed {
            bytes,
            packet: counted.map(|(packet, _)| packet),
            number: counted.ok().and_then(|(_, number)| number),
        }
    }

    /// Goes on to the next number, and says which one an `S` has; 16, 7, with nothing changed.
    #[inline]
    fn count(&mut self, packet: &Packet<'_>) -> Result<Option<Sequence>, Refusal> {
        match (*packet, self.next) {
            (Packet::Sequenced(_), Sequence(0)) => Err(Refusal::NotForRecord),
            (Packet::Sequenced(_), Sequence(u64::MAX)) => Err(Refusal::Bound),
            (Packet::Sequenced(_), number) => {
                self.next.0 += 1;
                Ok(Some(number))
            }
            (Packet::Accepted { next, .. }, Sequence(0)) => {
                self.next = next;
                Ok(None)
            }
            (Packet::Accepted { .. }, _) => Err(Refusal::NotForRecord),
            _ => Ok(None),
        }
    }
}
