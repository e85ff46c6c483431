//! MEMX-TCP packets.

mod letters;

pub use letters::{LoginReject, Mode, ReplayReject, StreamReject};

use crate::blocks::part;
use crate::flat::{hp_tcp, hp_tcp_read, hp_tcp_write};
use crate::kinds::{Sequence, SessionId};
use crate::refusal::{taken, written, Refusal};

/// The longest packet.
pub const LIMIT: usize = 65_538;

/// The token's type: a static password, which is the only one.
const STATIC_PASSWORD: u8 = b'P';

/// A packet; tokens and payloads are slices of the caller's bytes.
#[derive(Clone, Copy, Debug, PartialEq, Eq)]
pub enum Packet<'a> {
    /// Type 0: the sender is there.
    Heartbeat,
    /// Type 1: the login is taken, and this may be asked for.
    LoginAccepted(Mode),
    /// Type 2: the login is turned down.
    LoginRejected(LoginReject),
    /// Type 3: this session is there.
    StartOfSession(SessionId),
    /// Type 4: the session is over.
    EndOfSession,
    /// Type 5: a replay follows.
    ReplayBegin {
        /// The number of the next message.
        next: Sequence,
        /// How many messages will be sent.
        pending: u32,
    },
    /// Type 6: a request for a replay is turned down.
    ReplayRejected(ReplayReject),
    /// Type 7: the replay is over.
    ReplayComplete {
        /// How many messages were sent.
        sent: u32,
    },
    /// Type 8: a stream follows.
    StreamBegin {
        /// The number of the next message.
        next: Sequence,
        /// The highest number published.
        highest: Sequence,
    },
    /// Type 9: a request for a stream is turned down.
    StreamRejected(StreamReject),
    /// Type 10: the stream is over.
    StreamComplete {
        /// How many messages were sent.
        total: u64,
    },
    /// Type 11: a message with a number.
    Sequenced(&'a [u8]),
    /// Type 100: a login.
    LoginRequest {
        /// User and password, as `user:password`.
        token: &'a [u8],
    },
    /// Type 101: asks for a replay.
    ReplayRequest {
        /// Of this session.
        session: SessionId,
        /// The first message wanted.
        next: Sequence,
        /// How many are wanted.
        count: u32,
    },
    /// Type 102: asks for a replay of everything there is in a session.
    ReplayAllRequest(SessionId),
    /// Type 103: asks for a stream.
    StreamRequest {
        /// Of this session.
        session: SessionId,
        /// The first message wanted; 0 for the highest published.
        next: Sequence,
    },
    /// Type 104: a message without a number.
    Unsequenced(&'a [u8]),
}

/// Reads a packet; 1 to 6 in that order.
///
/// ```
/// use hinurapay::memx_tcp::{read, Packet};
/// use hinurapay::Sequence;
///
/// assert_eq!(read(b"\x0b\0\x05hello"), Ok(Packet::Sequenced(b"hello")));
/// let mut packet = [5, 0, 12, 0, 0, 0, 0, 0, 0, 0, 3, 0, 0, 0, 2];
/// let next = Sequence(3);
/// assert_eq!(read(&packet), Ok(Packet::ReplayBegin { next, pending: 2 }));
/// packet[10] = 0;
/// assert_eq!(read(&packet).unwrap_err().number(), 6);
/// assert_eq!(read(&packet[..14]).unwrap_err().number(), 4);
/// ```
#[inline]
pub fn read(packet: &[u8]) -> Result<Packet<'_>, Refusal> {
    let read = hp_tcp_read(packet);
    let fields = taken(read.refusal, read.packet)?;
    let body = || part(packet, fields.start, fields.length);
    let (session, next) = (SessionId(fields.session), Sequence(fields.number));
    let (letter, count) = (fields.letter, fields.count);
    Ok(match fields.r#type {
        0 => Packet::Heartbeat,
        1 => Packet::LoginAccepted(Mode::read(letter)),
        2 => Packet::LoginRejected(LoginReject::read(letter)),
        3 => Packet::StartOfSession(session),
        4 => Packet::EndOfSession,
        5 => Packet::ReplayBegin {
            next,
            pending: count,
        },
        6 => Packet::ReplayRejected(ReplayReject::read(letter)),
        7 => Packet::ReplayComplete { sent: count },
        8 => Packet::StreamBegin {
            next,
            highest: Sequence(fields.top),
        },
        9 => Packet::StreamRejected(StreamReject::read(letter)),
        10 => Packet::StreamComplete {
            total: fields.number,
        },
        11 => Packet::Sequenced(body()),
        100 => Packet::LoginRequest { token: body() },
        101 => Packet::ReplayRequest {
            session,
            next,
            count,
        },
        102 => Packet::ReplayAllRequest(session),
        103 => Packet::StreamRequest { session, next },
        _ => Packet::Unsequenced(body()),
    })
}

/// Writes a packet and says how many bytes it has; refused as a reader would refuse it, then 9.
///
/// ```
/// use hinurapay::memx_tcp::{write, Packet};
///
/// let login = Packet::LoginRequest { token: b"me:secret" };
/// let mut out = [0; 14];
/// assert_eq!(write(&login, &mut out), Ok(13));
/// assert_eq!(&out[..13], b"d\0\x0aPme:secret");
/// assert_eq!(write(&login, &mut out[..12]).unwrap_err().number(), 9);
/// let login = Packet::LoginRequest { token: &[b'x'; 256] };
/// assert_eq!(write(&login, &mut out).unwrap_err().number(), 4);
/// ```
pub fn write(packet: &Packet<'_>, out: &mut [u8]) -> Result<usize, Refusal> {
    let mut fields = hp_tcp::default();
    let (kind, body): (u8, &[u8]) = match *packet {
        Packet::Heartbeat => (0, &[]),
        Packet::LoginAccepted(mode) => {
            fields.letter = mode as u8;
            (1, &[])
        }
        Packet::LoginRejected(code) => {
            fields.letter = code as u8;
            (2, &[])
        }
        Packet::StartOfSession(session) => {
            fields.session = session.0;
            (3, &[])
        }
        Packet::EndOfSession => (4, &[]),
        Packet::ReplayBegin { next, pending } => {
            fields.number = next.0;
            fields.count = pending;
            (5, &[])
        }
        Packet::ReplayRejected(code) => {
            fields.letter = code as u8;
            (6, &[])
        }
        Packet::ReplayComplete { sent } => {
            fields.count = sent;
            (7, &[])
        }
        Packet::StreamBegin { next, highest } => {
            fields.number = next.0;
            fields.top = highest.0;
            (8, &[])
        }
        Packet::StreamRejected(code) => {
            fields.letter = code as u8;
            (9, &[])
        }
        Packet::StreamComplete { total } => {
            fields.number = total;
            (10, &[])
        }
        Packet::Sequenced(payload) => (11, payload),
        Packet::LoginRequest { token } => {
            fields.letter = STATIC_PASSWORD;
            (100, token)
        }
        Packet::ReplayRequest {
            session,
            next,
            count,
        } => {
            fields.session = session.0;
            fields.number = next.0;
            fields.count = count;
            (101, &[])
        }
        Packet::ReplayAllRequest(session) => {
            fields.session = session.0;
            (102, &[])
        }
        Packet::StreamRequest { session, next } => {
            fields.session = session.0;
            fields.number = next.0;
            (103, &[])
        }
        Packet::Unsequenced(payload) => (104, payload),
    };
    fields.r#type = kind;
    written(hp_tcp_write(fields, body, out))
}
