//! UFO from the server: accept, reject, sequenced data and the end of the session.

use super::{four_bytes, number, HIGHEST, LIMIT};
use crate::blocks;
use crate::fields::{end, lay, measured, take};
use crate::kinds::{Name, Reason, Sequence};
use crate::refusal::Refusal;
use crate::text;

/// How many bytes of an `S` packet stand before its blocks.
pub const DATA_HEADER: usize = 7;

/// A packet from the server.
#[derive(Clone, Copy, Debug, PartialEq, Eq)]
pub enum Down<'a> {
    /// `A`: logged in to this session.
    Accept {
        /// The session, which may not be blank.
        session: Name,
        /// The number that the next message will have.
        next: Sequence,
    },
    /// `J`: not logged in.
    Reject {
        /// Why not.
        reason: Reason,
    },
    /// `S`: messages, or a heartbeat if there are none.
    Sequenced {
        /// The first message's number; in a heartbeat the number of the next to be sent.
        first: Sequence,
        /// How many messages there are.
        count: u16,
        /// Their blocks, length bytes and all.
        blocks: &'a [u8],
    },
    /// `E`: the session has ended.
    End {
        /// How many messages it had.
        total: u64,
    },
}

impl Down<'_> {
    /// What a reader says of the fields once the lengths are right: 5, 6, 7.
    #[inline]
    fn check(&self) -> Result<(), Refusal> {
        match *self {
            Down::Accept { session, next } => {
                text::padded_right(&session.0)?;
                text::not_blank(&session.0)?;
                if next.0 == 0 {
                    return Err(Refusal::Blank);
                }
                four_bytes(next.0).map(|_| ())
            }
            Down::Reject { reason } if reason.is_known() => Ok(()),
            Down::Reject { .. } => Err(Refusal::Form),
            Down::Sequenced { first, count, .. } => match first.0.checked_add(u64::from(count)) {
                _ if first.0 == 0 => Err(Refusal::Blank),
                Some(next) if next <= HIGHEST + 1 => Ok(()),
                _ => Err(Refusal::Bound),
            },
            Down::End { total } if total <= HIGHEST => Ok(()),
            Down::End { .. } => Err(Refusal::Bound),
        }
    }
}

/// Reads a packet from the server; 1, 2, 3, 4, 5, 6, 7.
#[inline]
pub fn read_down(datagram: &[u8]) -> Result<Down<'_>, Refusal> {
    measured(datagram.len(), LIMIT)?;
    let mut rest = datagram;
    let [kind] = take(&mut rest)?;
    let packet = match kind {
        b'A' => {
            let session = Name(take(&mut rest)?);
            let next = Sequence(number(take(&mut rest)?));
            end(rest)?;
            Down::Accept { session, next }
        }
        b'J' => {
            let [reason] = take(&mut rest)?;
            end(rest)?;
            Down::Reject {
                reason: Reason(reason),
            }
        }
        b'S' => {
            let first = Sequence(number(take(&mut rest)?));
            let count = u16::from_be_bytes(take(&mut rest)?);
            blocks::exactly(rest, count)?;
            Down::Sequenced {
                first,
                count,
                blocks: rest,
            }
        }
        b'E' => {
            let total = number(take(&mut rest)?);
            end(rest)?;
            Down::End { total }
        }
        _ => return Err(Refusal::UnknownType),
    };
    packet.check()?;
    Ok(packet)
}

/// Writes a packet from the server onto the slip and says how many bytes it has. It is refused as
/// a reader would refuse the packet, 7 for a number that its field cannot hold; then 9.
pub fn write_down(packet: &Down<'_>, slip: &mut [u8]) -> Result<usize, Refusal> {
    if let Down::Sequenced { count, blocks, .. } = *packet {
        measured(DATA_HEADER + blocks.len(), LIMIT)?;
        blocks::exactly(blocks, count)?;
    }
    packet.check()?;
    match *packet {
        Down::Accept { session, next } => lay(&[b"A", &session.0, &four_bytes(next.0)?], slip),
        Down::Reject { reason } => lay(&[b"J", &[reason.0]], slip),
        Down::Sequenced {
            first,
            count,
            blocks,
        } => {
            let first = four_bytes(first.0)?;
            lay(&[b"S", &first, &count.to_be_bytes(), blocks], slip)
        }
        Down::End { total } => lay(&[b"E", &four_bytes(total)?], slip),
    }
}
