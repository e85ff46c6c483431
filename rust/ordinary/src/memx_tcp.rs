//! MEMX-TCP 1.2: packets of a type, a length and fields, in both directions.

mod letters;

pub use letters::{LoginReject, Mode, ReplayReject, StreamReject, TokenType};

use crate::fields::{end, lay, measured, take};
use crate::kinds::{Sequence, SessionId};
use crate::refusal::Refusal;
use std::mem;

/// How many bytes of every packet stand before its fields.
pub const HEADER: usize = 3;

/// The most bytes that a packet may have: what the length can say, and the header.
pub const LIMIT: usize = HEADER + u16::MAX as usize;

/// The most bytes that a token may have.
const TOKEN_LIMIT: usize = 255;

/// The most bytes that the fields of fixed width take up in a packet.
const WIDEST: usize = 8 + 8 + 4;

/// A packet in either direction.
#[derive(Clone, Copy, Debug, PartialEq, Eq)]
pub enum Packet<'a> {
    /// Type 0, from either end: still there.
    Heartbeat,
    /// Type 1, from the server: logged in, and these requests are supported.
    LoginAccepted(Mode),
    /// Type 2, from the server: not logged in.
    LoginRejected(LoginReject),
    /// Type 3, from the server: a session is available.
    StartOfSession(SessionId),
    /// Type 4, from the server: the session has ended.
    EndOfSession,
    /// Type 5, from the server: a replay begins.
    ReplayBegin {
        /// The number that the next message will have.
        next: Sequence,
        /// How many messages are to be delivered.
        pending: u32,
    },
    /// Type 6, from the server: there will be no replay.
    ReplayRejected(ReplayReject),
    /// Type 7, from the server: the replay has been completed.
    ReplayComplete {
        /// How many messages were sent.
        sent: u32,
    },
    /// Type 8, from the server: a stream begins.
    StreamBegin {
        /// The number that the next message will have.
        next: Sequence,
        /// The highest number published.
        highest: Sequence,
    },
    /// Type 9, from the server: there will be no stream.
    StreamRejected(StreamReject),
    /// Type 10, from the server: the stream has been completed.
    StreamComplete {
        /// How many messages were sent.
        total: u64,
    },
    /// Type 11, from the server: the next message.
    Sequenced(
        /// The message.
        &'a [u8],
    ),
    /// Type 100, from the client: asks to be logged in.
    LoginRequest {
        /// What the token is.
        token_type: TokenType,
        /// The token, at most 255 bytes.
        token: &'a [u8],
    },
    /// Type 101, from the client: asks for messages.
    ReplayRequest {
        /// Which session's.
        session: SessionId,
        /// The number of the first message wanted.
        next: Sequence,
        /// How many messages are wanted.
        count: u32,
    },
    /// Type 102, from the client: asks for every message of a session.
    ReplayAllRequest(SessionId),
    /// Type 103, from the client: asks for messages as they come.
    StreamRequest {
        /// Which session's.
        session: SessionId,
        /// The number of the first message wanted, 0 for the highest that there is.
        next: Sequence,
    },
    /// Type 104, from the client: a message without a number.
    Unsequenced(
        /// The message.
        &'a [u8],
    ),
}

impl<'a> Packet<'a> {
    /// The token or the payload, whatever stands behind the fields of fixed width.
    #[inline]
    fn body(&self) -> &'a [u8] {
        match *self {
            Packet::Sequenced(payload) | Packet::Unsequenced(payload) => payload,
            Packet::LoginRequest { token, .. } => token,
            _ => b"",
        }
    }

    /// What a reader says of the fields: 4 for a token that is too long, 5, 6.
    #[inline]
    fn check(&self) -> Result<(), Refusal> {
        match *self {
            Packet::LoginAccepted(mode) => known(mode.is_known()),
            Packet::LoginRejected(code) => known(code.is_known()),
            Packet::ReplayRejected(code) => known(code.is_known()),
            Packet::StreamRejected(code) => known(code.is_known()),
            Packet::LoginRequest { token, .. } if token.len() > TOKEN_LIMIT => {
                Err(Refusal::Framing)
            }
            Packet::LoginRequest { token_type, .. } => known(token_type.is_known()),
            Packet::ReplayBegin { next, .. }
            | Packet::StreamBegin { next, .. }
            | Packet::ReplayRequest { next, .. }
                if next.0 == 0 =>
            {
                Err(Refusal::Blank)
            }
            _ => Ok(()),
        }
    }
}

/// A letter that its table does not have is 5.
#[inline]
fn known(is_known: bool) -> Result<(), Refusal> {
    is_known.then_some(()).ok_or(Refusal::Form)
}

/// Reads a packet; 1, 2, 3, 4, 5, 6.
#[inline]
pub fn read(packet: &[u8]) -> Result<Packet<'_>, Refusal> {
    measured(packet.len(), LIMIT)?;
    let mut rest = packet;
    let [kind] = take(&mut rest)?;
    if !matches!(kind, 0..=11 | 100..=104) {
        return Err(Refusal::UnknownType);
    }
    let length = u16::from_be_bytes(take(&mut rest)?);
    if rest.len() != usize::from(length) {
        return Err(Refusal::Framing);
    }
    let packet = read_fields(kind, &mut rest)?;
    end(rest)?;
    packet.check()?;
    Ok(packet)
}

/// Takes the fields of a type off the front; 4 if there are too few bytes for them.
#[inline]
fn read_fields<'a>(kind: u8, rest: &mut &'a [u8]) -> Result<Packet<'a>, Refusal> {
    Ok(match kind {
        0 => Packet::Heartbeat,
        1 => Packet::LoginAccepted(Mode(letter(rest)?)),
        2 => Packet::LoginRejected(LoginReject(letter(rest)?)),
        3 => Packet::StartOfSession(SessionId(long(rest)?)),
        4 => Packet::EndOfSession,
        5 => Packet::ReplayBegin {
            next: Sequence(long(rest)?),
            pending: count(rest)?,
        },
        6 => Packet::ReplayRejected(ReplayReject(letter(rest)?)),
        7 => Packet::ReplayComplete { sent: count(rest)? },
        8 => Packet::StreamBegin {
            next: Sequence(long(rest)?),
            highest: Sequence(long(rest)?),
        },
        9 => Packet::StreamRejected(StreamReject(letter(rest)?)),
        10 => Packet::StreamComplete { total: long(rest)? },
        11 => Packet::Sequenced(mem::take(rest)),
        100 => Packet::LoginRequest {
            token_type: TokenType(letter(rest)?),
            token: mem::take(rest),
        },
        101 => Packet::ReplayRequest {
            session: SessionId(long(rest)?),
            next: Sequence(long(rest)?),
            count: count(rest)?,
        },
        102 => Packet::ReplayAllRequest(SessionId(long(rest)?)),
        103 => Packet::StreamRequest {
            session: SessionId(long(rest)?),
            next: Sequence(long(rest)?),
        },
        104 => Packet::Unsequenced(mem::take(rest)),
        _ => return Err(Refusal::UnknownType),
    })
}

/// The next field of one byte.
#[inline]
fn letter(rest: &mut &[u8]) -> Result<u8, Refusal> {
    take(rest).map(u8::from_be_bytes)
}

/// The next field of four bytes.
#[inline]
fn count(rest: &mut &[u8]) -> Result<u32, Refusal> {
    take(rest).map(u32::from_be_bytes)
}

/// The next field of eight bytes.
#[inline]
fn long(rest: &mut &[u8]) -> Result<u64, Refusal> {
    take(rest).map(u64::from_be_bytes)
}

/// Writes a packet onto the slip and says how many bytes it has. It is refused as a reader would
/// refuse the packet; then 9.
pub fn write(packet: &Packet<'_>, slip: &mut [u8]) -> Result<usize, Refusal> {
    let mut fields = [0; WIDEST];
    let mut fixed = |parts: &[&[u8]]| lay(parts, &mut fields);
    let (kind, width) = match *packet {
        Packet::Heartbeat => (0, 0),
        Packet::LoginAccepted(mode) => (1, fixed(&[&[mode.0]])?),
        Packet::LoginRejected(code) => (2, fixed(&[&[code.0]])?),
        Packet::StartOfSession(session) => (3, fixed(&[&session.0.to_be_bytes()])?),
        Packet::EndOfSession => (4, 0),
        Packet::ReplayBegin { next, pending } => {
            let (next, pending) = (next.0.to_be_bytes(), pending.to_be_bytes());
            (5, fixed(&[&next, &pending])?)
        }
        Packet::ReplayRejected(code) => (6, fixed(&[&[code.0]])?),
        Packet::ReplayComplete { sent } => (7, fixed(&[&sent.to_be_bytes()])?),
        Packet::StreamBegin { next, highest } => {
            let (next, highest) = (next.0.to_be_bytes(), highest.0.to_be_bytes());
            (8, fixed(&[&next, &highest])?)
        }
        Packet::StreamRejected(code) => (9, fixed(&[&[code.0]])?),
        Packet::StreamComplete { total } => (10, fixed(&[&total.to_be_bytes()])?),
        Packet::Sequenced(_) => (11, 0),
        Packet::LoginRequest { token_type, .. } => (100, fixed(&[&[token_type.0]])?),
        Packet::ReplayRequest {
            session,
            next,
            count,
        } => {
            let (session, next) = (session.0.to_be_bytes(), next.0.to_be_bytes());
            (101, fixed(&[&session, &next, &count.to_be_bytes()])?)
        }
        Packet::ReplayAllRequest(session) => (102, fixed(&[&session.0.to_be_bytes()])?),
        Packet::StreamRequest { session, next } => {
            let (session, next) = (session.0.to_be_bytes(), next.0.to_be_bytes());
            (103, fixed(&[&session, &next])?)
        }
        Packet::Unsequenced(_) => (104, 0),
    };
    let body = packet.body();
    let length = u16::try_from(width + body.len()).map_err(|_| Refusal::Oversize)?;
    packet.check()?;
    lay(
        &[&[kind], &length.to_be_bytes(), &fields[..width], body],
        slip,
    )
}
