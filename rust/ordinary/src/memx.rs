//! MEMX-UDP 1.1: heartbeat, shutdown and sequenced messages from a broadcaster.

use crate::blocks;
use crate::fields::{end, lay, measured, take};
use crate::held;
use crate::kinds::{Sequence, SessionId};
use crate::refusal::Refusal;

/// The most bytes that a packet may have: a frame of 9,000 less 28 for the headers around it.
pub const LIMIT: usize = 8972;

/// Output enough for a packet's messages and all that are held.
pub const ROOM: usize = LIMIT + held::MOST;

/// How many bytes the header has at least: those of its own fields, which every type shares.
pub const HEADER: usize = 18;

/// How many bytes of a type 2 packet stand before its blocks at least.
pub const DATA_HEADER: usize = HEADER + COUNT;

/// The highest number that a message may have.
pub const HIGHEST: u64 = u64::MAX - 1;

/// How many bytes the count of a type 2 packet has.
const COUNT: usize = 2;

/// A packet from the broadcaster.
#[derive(Clone, Copy, Debug, PartialEq, Eq)]
pub enum Packet<'a> {
    /// Type 0: the session is running.
    Heartbeat {
        /// Which session.
        session: SessionId,
        /// The highest number published, 0 if none.
        highest: Sequence,
        /// The header's bytes past its own fields, a later edition's; they are kept as they stand.
        extra: &'a [u8],
    },
    /// Type 1: no more messages will come.
    Shutdown {
        /// Which session.
        session: SessionId,
        /// The highest number published, 0 if none.
        highest: Sequence,
        /// The header's bytes past its own fields, a later edition's; they are kept as they stand.
        extra: &'a [u8],
    },
    /// Type 2: messages.
    Sequenced {
        /// Which session.
        session: SessionId,
        /// The first message's number.
        first: Sequence,
        /// How many messages there are, at least 1.
        count: u16,
        /// The header's bytes past its own fields, a later edition's; they are kept as they stand.
        extra: &'a [u8],
        /// Their blocks, length bytes and all.
        blocks: &'a [u8],
    },
}

impl<'a> Packet<'a> {
    /// What every header says: the type, the session, the number, and the extra bytes.
    fn header(&self) -> (u8, SessionId, Sequence, &'a [u8]) {
        match *self {
            Packet::Heartbeat {
                session,
                highest,
                extra,
            } => (0, session, highest, extra),
            Packet::Shutdown {
                session,
                highest,
                extra,
            } => (1, session, highest, extra),
            Packet::Sequenced {
                session,
                first,
                extra,
                ..
            } => (2, session, first, extra),
        }
    }

    /// What a reader says of the numbers once lengths and header are right: 6, 7.
    #[inline]
    fn check(&self) -> Result<(), Refusal> {
        match *self {
            Packet::Heartbeat { highest, .. } | Packet::Shutdown { highest, .. } => {
                if highest.0 <= HIGHEST {
                    Ok(())
                } else {
                    Err(Refusal::Bound)
                }
            }
            Packet::Sequenced { first, count, .. } => {
                if first.0 == 0 || count == 0 {
                    return Err(Refusal::Blank);
                }
                let next = first.0.checked_add(u64::from(count));
                next.map(|_| ()).ok_or(Refusal::Bound)
            }
        }
    }
}

/// Reads a packet; 1, 2, 3; 4 under 18 bytes; 5; 4 for any other wrong length; 6, 7.
#[inline]
pub fn read(datagram: &[u8]) -> Result<Packet<'_>, Refusal> {
    measured(datagram.len(), LIMIT)?;
    let mut rest = datagram;
    let [kind] = take(&mut rest)?;
    if kind > 2 {
        return Err(Refusal::UnknownType);
    }
    let [header_length] = take(&mut rest)?;
    let session = SessionId(u64::from_be_bytes(take(&mut rest)?));
    let sequence = Sequence(u64::from_be_bytes(take(&mut rest)?));
    let extra = usize::from(header_length)
        .checked_sub(HEADER)
        .ok_or(Refusal::Form)?;
    let (extra, mut rest) = rest.split_at_checked(extra).ok_or(Refusal::Framing)?;
    let packet = if kind == 2 {
        let count = u16::from_be_bytes(take(&mut rest)?);
        blocks::exactly(rest, count)?;
        Packet::Sequenced {
            session,
            first: sequence,
            count,
            extra,
            blocks: rest,
        }
    } else {
        end(rest)?;
        let highest = sequence;
        if kind == 0 {
            Packet::Heartbeat {
                session,
                highest,
                extra,
            }
        } else {
            Packet::Shutdown {
                session,
                highest,
                extra,
            }
        }
    };
    packet.check()?;
    Ok(packet)
}

/// What the length byte says of a header with these extra bytes and with so many bytes behind it:
/// 2 if they are over the limit together, 5 if a byte can't say it, which is over 237 extra bytes.
pub(crate) fn header_length(extra: &[u8], behind: usize) -> Result<u8, Refusal> {
    let length = HEADER + extra.len();
    measured(length + behind, LIMIT)?;
    u8::try_from(length).map_err(|_| Refusal::Form)
}

/// Writes a packet onto the slip and says how many bytes it has. It is refused as a reader would
/// refuse the packet; then 9.
pub fn write(packet: &Packet<'_>, slip: &mut [u8]) -> Result<usize, Refusal> {
    let (kind, session, sequence, extra) = packet.header();
    let behind = match *packet {
        Packet::Sequenced { blocks, .. } => COUNT + blocks.len(),
        Packet::Heartbeat { .. } | Packet::Shutdown { .. } => 0,
    };
    let start = [kind, header_length(extra, behind)?];
    let session = session.0.to_be_bytes();
    let sequence = sequence.0.to_be_bytes();
    match *packet {
        Packet::Sequenced { count, blocks, .. } => {
            blocks::exactly(blocks, count)?;
            packet.check()?;
            let count = count.to_be_bytes();
            lay(&[&start, &session, &sequence, extra, &count, blocks], slip)
        }
        Packet::Heartbeat { .. } | Packet::Shutdown { .. } => {
            packet.check()?;
            lay(&[&start, &session, &sequence, extra], slip)
        }
    }
}
