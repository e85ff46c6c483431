//! MEMX-UDP packets.

use crate::area::Area;
use crate::blocks::part;
use crate::flat::{hp_memx_read, hp_memx_write, hp_packet};
use crate::kinds::{Sequence, SessionId};
use crate::refusal::{taken, written, Refusal};

/// The longest packet: a frame of 9,000 bytes less 28 for the headers around it.
pub const LIMIT: usize = 8972;

/// Output enough for whatever one packet can deliver: its own messages and all that are held.
pub const ROOM: usize = LIMIT + Area::MOST_HELD;

/// The most extra bytes that a header has: its length byte says 255 at most, and 18 are its own.
pub const MOST_EXTRA: usize = 237;

/// Where a header's extra bytes begin.
const EXTRA: u64 = 18;

/// A packet; extra bytes and blocks are slices of the caller's bytes.
#[derive(Clone, Copy, Debug, PartialEq, Eq)]
pub enum Packet<'a> {
    /// Type 0: the publisher is there.
    Heartbeat {
        /// Of this session.
        session: SessionId,
        /// The highest number published, 0 if none.
        highest: Sequence,
        /// The header's bytes past its own fields, which a later edition may have; mostly none.
        extra: &'a [u8],
    },
    /// Type 1: the session is over.
    Shutdown {
        /// Of this session.
        session: SessionId,
        /// The highest number published, 0 if none.
        highest: Sequence,
        /// The header's bytes past its own fields, which a later edition may have; mostly none.
        extra: &'a [u8],
    },
    /// Type 2: messages.
    Sequenced {
        /// Of this session.
        session: SessionId,
        /// The first message's number.
        first: Sequence,
        /// How many there are.
        count: u16,
        /// The header's bytes past its own fields, which a later edition may have; mostly none.
        extra: &'a [u8],
        /// Their blocks.
        blocks: &'a [u8],
    },
}

/// Reads a packet; 1, 2, 3; 4 under 18 bytes; 5 for a header length below 18; 4 for any other wrong
/// length; 6, 7.
///
/// ```
/// use hinurapay::memx::{read, Packet};
/// use hinurapay::{Sequence, SessionId};
///
/// // a header of 19 bytes, the last of which is no field of this edition
/// let mut packet = *b"\0\x13\0\0\0\0\0\0\0\x07\0\0\0\0\0\0\0\x03!";
/// let (session, highest) = (SessionId(7), Sequence(3));
/// let heartbeat = |extra| Packet::Heartbeat { session, highest, extra };
/// assert_eq!(read(&packet), Ok(heartbeat(b"!")));
/// packet[1] = 18;
/// assert_eq!(read(&packet[..18]), Ok(heartbeat(b"")));
/// assert_eq!(read(&packet).unwrap_err().number(), 4); // a byte is left over
/// packet[1] = 17;
/// assert_eq!(read(&packet).unwrap_err().number(), 5);
/// ```
#[inline]
pub fn read(packet: &[u8]) -> Result<Packet<'_>, Refusal> {
    let read = hp_memx_read(packet);
    let fields = taken(read.refusal, read.packet)?;
    let (session, number) = (SessionId(fields.session), Sequence(fields.number));
    let extra = part(packet, EXTRA, fields.extra.into());
    Ok(match fields.r#type {
        0 => Packet::Heartbeat {
            session,
            highest: number,
            extra,
        },
        1 => Packet::Shutdown {
            session,
            highest: number,
            extra,
        },
        _ => Packet::Sequenced {
            session,
            first: number,
            count: fields.count,
            extra,
            blocks: part(packet, fields.start, fields.length),
        },
    })
}

/// Writes a packet and says how many bytes it has; refused as a reader would refuse it, over
/// [`MOST_EXTRA`] extra bytes as 5, then 9.
///
/// ```
/// use hinurapay::memx::{read, write, Packet, MOST_EXTRA};
/// use hinurapay::{Sequence, SessionId};
///
/// let (session, first, blocks) = (SessionId(7), Sequence(3), b"\0\x02HI");
/// let packet = |extra| Packet::Sequenced { session, first, count: 1, extra, blocks };
/// let mut out = [0; 24];
/// assert_eq!(write(&packet(b""), &mut out), Ok(24));
/// assert_eq!(read(&out), Ok(packet(b"")));
/// assert_eq!(write(&packet(b"!"), &mut out).unwrap_err().number(), 9);
///
/// let mut out = [0; 300];
/// let length = write(&packet(&[0; MOST_EXTRA]), &mut out)?;
/// assert_eq!(read(&out[..length]), Ok(packet(&[0; MOST_EXTRA])));
/// assert_eq!(write(&packet(&[0; MOST_EXTRA + 1]), &mut out).unwrap_err().number(), 5);
/// # Ok::<(), hinurapay::Refusal>(())
/// ```
pub fn write(packet: &Packet<'_>, out: &mut [u8]) -> Result<usize, Refusal> {
    let (kind, session, number, count, extra, blocks): (u8, _, _, _, _, &[u8]) = match *packet {
        Packet::Heartbeat {
            session,
            highest,
            extra,
        } => (0, session, highest, 0, extra, &[]),
        Packet::Shutdown {
            session,
            highest,
            extra,
        } => (1, session, highest, 0, extra, &[]),
        Packet::Sequenced {
            session,
            first,
            count,
            extra,
            blocks,
        } => (2, session, first, count, extra, blocks),
    };
    let fields = hp_packet {
        r#type: kind,
        session: session.0,
        number: number.0,
        count,
        ..hp_packet::default()
    };
    written(hp_memx_write(fields, extra, blocks, out))
}
