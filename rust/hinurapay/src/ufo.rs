//! UFO packets, from the server (down) and from the client (up).

use crate::area::Area;
use crate::blocks::part;
use crate::flat::{
    hp_next_block, hp_packet, hp_ufo_add_message, hp_ufo_read_down, hp_ufo_read_message,
    hp_ufo_read_up, hp_ufo_write_down, hp_ufo_write_message,
};
use crate::kinds::{Name, Password, Reason, Sequence, User};
use crate::refusal::{taken, written, Refusal};

/// The longest packet.
pub const LIMIT: usize = 1472;

/// Output enough for whatever one packet can deliver: its own messages and all that are held.
pub const ROOM: usize = LIMIT + Area::MOST_HELD;

/// A packet from the server; blocks are a slice of the caller's bytes.
#[derive(Clone, Copy, Debug, PartialEq, Eq)]
pub enum Down<'a> {
    /// `A`: the login is taken.
    Accept {
        /// Into this session.
        session: Name,
        /// The number of the next message.
        next: Sequence,
    },
    /// `J`: the login is turned down.
    Reject(Reason),
    /// `S`: messages, or with a count of 0 a heartbeat.
    Sequenced {
        /// The first message's number; in a heartbeat the next to be sent.
        first: Sequence,
        /// How many there are.
        count: u16,
        /// Their blocks.
        blocks: &'a [u8],
    },
    /// `E`: the session is over.
    End {
        /// How many messages it had.
        total: u64,
    },
}

/// A message from the client; data are a slice of the caller's bytes.
#[derive(Clone, Copy, Debug, PartialEq, Eq)]
pub enum Up<'a> {
    /// `L`: a login.
    Login {
        /// Who; may not be blank.
        user: User,
        /// Proved by this, or blank.
        password: Password,
        /// The session wanted, or blank.
        session: Name,
    },
    /// `T`: a request for messages.
    Request {
        /// From this number on.
        first: Sequence,
        /// So many.
        count: u16,
    },
    /// `U`: a message without a number.
    Unsequenced(&'a [u8]),
    /// `R`: the client is there.
    Heartbeat,
    /// `O`: the client leaves.
    Logoff,
}

/// Reads a packet from the server; 1 to 7 in that order.
///
/// ```
/// use hinurapay::ufo::{read_down, Down};
/// use hinurapay::{Blocks, Sequence};
///
/// let packet = b"S\0\0\0\x06\0\x02\0\x02HI\0\0";
/// let Ok(Down::Sequenced { first, count, blocks }) = read_down(packet) else { panic!() };
/// assert_eq!((first, count), (Sequence(6), 2));
/// assert_eq!(Blocks::over(blocks).next(), Some(Ok(&b"HI"[..])));
/// ```
#[inline]
pub fn read_down(packet: &[u8]) -> Result<Down<'_>, Refusal> {
    let read = hp_ufo_read_down(packet);
    let fields = taken(read.refusal, read.packet)?;
    Ok(match fields.r#type {
        b'A' => Down::Accept {
            session: Name(fields.name),
            next: Sequence(fields.number),
        },
        b'J' => Down::Reject(Reason::read(fields.reason)),
        b'S' => Down::Sequenced {
            first: Sequence(fields.number),
            count: fields.count,
            blocks: part(packet, fields.start, fields.length),
        },
        _ => Down::End {
            total: fields.number,
        },
    })
}

/// Writes a packet from the server; refused as a reader would refuse it, then 9.
///
/// ```
/// use hinurapay::ufo::{write_down, Down};
///
/// let mut out = [0; 5];
/// assert_eq!(write_down(&Down::End { total: 3 }, &mut out), Ok(5));
/// assert_eq!(&out, b"E\0\0\0\x03");
/// assert_eq!(write_down(&Down::End { total: 1 << 32 }, &mut out).unwrap_err().number(), 7);
/// ```
pub fn write_down(packet: &Down<'_>, out: &mut [u8]) -> Result<usize, Refusal> {
    let mut fields = hp_packet::default();
    let (kind, number, blocks): (u8, u64, &[u8]) = match *packet {
        Down::Accept { session, next } => {
            fields.name = session.0;
            (b'A', next.0, &[])
        }
        Down::Reject(reason) => {
            fields.reason = reason as u8;
            (b'J', 0, &[])
        }
        Down::Sequenced {
            first,
            count,
            blocks,
        } => {
            fields.count = count;
            (b'S', first.0, blocks)
        }
        Down::End { total } => (b'E', total, &[]),
    };
    fields.r#type = kind;
    fields.number = number;
    written(hp_ufo_write_down(fields, blocks, out))
}

/// The messages of one packet from the client, all of which are lawful.
#[derive(Clone, Debug)]
pub struct Messages<'a> {
    blocks: &'a [u8],
}

impl<'a> Iterator for Messages<'a> {
    type Item = Up<'a>;

    fn next(&mut self) -> Option<Up<'a>> {
        if self.blocks.is_empty() {
            return None;
        }
        // a block alone is a packet too, so that not all of them are read again for each
        let next = hp_next_block(self.blocks, 0).next as usize;
        let (block, rest) = self.blocks.split_at(next);
        self.blocks = rest;
        let fields = hp_ufo_read_message(block, 0).packet;
        Some(match fields.r#type {
            b'L' => Up::Login {
                user: User(fields.user),
                password: Password(fields.password),
                session: Name(fields.name),
            },
            b'T' => Up::Request {
                first: Sequence(fields.number),
                count: fields.count,
            },
            b'U' => Up::Unsequenced(part(block, fields.start, fields.length)),
            b'R' => Up::Heartbeat,
            _ => Up::Logoff,
        })
    }
}

/// Reads a packet from the client. First 1, 2 and the block lengths (4) over the whole packet,
/// then the first message that is refused gives the number.
///
/// ```
/// use hinurapay::ufo::{read_up, Up};
/// use hinurapay::Sequence;
///
/// let mut messages = read_up(b"\0\x07T\0\0\0\x03\0\x02\0\x01R")?;
/// let first = Sequence(3);
/// assert_eq!(messages.next(), Some(Up::Request { first, count: 2 }));
/// assert_eq!(messages.next(), Some(Up::Heartbeat));
/// assert_eq!(messages.next(), None);
/// # Ok::<(), hinurapay::Refusal>(())
/// ```
pub fn read_up(packet: &[u8]) -> Result<Messages<'_>, Refusal> {
    let read = hp_ufo_read_up(packet);
    taken(read.refusal, Messages { blocks: packet })
}

/// Writes one message from the client as a packet of its own, and says how many bytes it has;
/// refused as a reader would refuse it, then 9. For several messages there is [`Upstream`].
///
/// ```
/// use hinurapay::ufo::{write_message, Up};
///
/// let mut out = [0; 8];
/// assert_eq!(write_message(&Up::Unsequenced(b"hello"), &mut out), Ok(8));
/// assert_eq!(&out, b"\0\x06Uhello");
/// ```
pub fn write_message(message: &Up<'_>, out: &mut [u8]) -> Result<usize, Refusal> {
    let (fields, data) = flat(message);
    written(hp_ufo_write_message(fields, data, out))
}

/// A packet from the client, put together message by message over bytes that are lent to it.
///
/// ```
/// use hinurapay::ufo::{Up, Upstream};
/// use hinurapay::{Refusal, Sequence};
///
/// let mut bytes = [0; 14];
/// let mut upstream = Upstream::over(&mut bytes);
/// upstream.add(&Up::Request { first: Sequence(3), count: 2 })?;
/// upstream.add(&Up::Heartbeat)?;
/// assert_eq!(upstream.packet(), b"\0\x07T\0\0\0\x03\0\x02\0\x01R");
///
/// // what is refused leaves the packet as it was
/// let request = Up::Request { first: Sequence(0), count: 2 };
/// assert_eq!(upstream.add(&request), Err(Refusal::Blank));
/// assert_eq!(upstream.add(&Up::Unsequenced(&[0; 1458])), Err(Refusal::Oversize));
/// assert_eq!(upstream.add(&Up::Logoff), Err(Refusal::Room));
/// assert_eq!(upstream.packet().len(), 12);
/// # Ok::<(), hinurapay::Refusal>(())
/// ```
#[derive(Debug)]
pub struct Upstream<'a> {
    bytes: &'a mut [u8],
    used: usize,
}

impl<'a> Upstream<'a> {
    /// A packet without a message yet; one with none is not lawful.
    pub fn over(bytes: &'a mut [u8]) -> Upstream<'a> {
        Upstream { bytes, used: 0 }
    }

    /// Adds a message behind the others; refused as a reader would refuse the whole packet, so that
    /// over [`LIMIT`] bytes in all are 2; then 9.
    pub fn add(&mut self, message: &Up<'_>) -> Result<(), Refusal> {
        let (fields, data) = flat(message);
        let wrote = hp_ufo_add_message(fields, data, self.bytes, self.used as u64);
        self.used = written(wrote)?;
        Ok(())
    }

    /// The packet so far.
    pub fn packet(&self) -> &[u8] {
        &self.bytes[..self.used]
    }
}

/// A message's fields and data as the C face has them.
fn flat<'a>(message: &Up<'a>) -> (hp_packet, &'a [u8]) {
    let mut fields = hp_packet::default();
    let (kind, data): (u8, &[u8]) = match *message {
        Up::Login {
            user,
            password,
            session,
        } => {
            fields.user = user.0;
            fields.password = password.0;
            fields.name = session.0;
            (b'L', &[])
        }
        Up::Request { first, count } => {
            fields.number = first.0;
            fields.count = count;
            (b'T', &[])
        }
        Up::Unsequenced(data) => (b'U', data),
        Up::Heartbeat => (b'R', &[]),
        Up::Logoff => (b'O', &[]),
    };
    fields.r#type = kind;
    (fields, data)
}
