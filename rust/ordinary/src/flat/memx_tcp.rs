//! The flat face of MEMX-TCP packets.

use super::packets::{bodiless, unknown};
use super::{hp_wrote, number};
use crate::kinds::{Sequence, SessionId};
use crate::memx_tcp::{
    read, write, LoginReject, Mode, Packet, ReplayReject, StreamReject, TokenType, HEADER, LIMIT,
};
use crate::refusal::Refusal;

/// The fields of one MEMX-TCP packet, those that its type lacks being 0.
#[repr(C)]
#[derive(Clone, Copy, Debug, Default, PartialEq, Eq)]
pub struct hp_tcp {
    /// 0 to 11, 100 to 104.
    pub r#type: u8,
    /// 1: the mode; 2, 6, 9: the reject code; 100: the token's type.
    pub letter: u8,
    /// 5: pending; 7: sent; 101: asked for.
    pub count: u32,
    /// 3, 101, 102, 103.
    pub session: u64,
    /// 5, 8, 101, 103: the next number; 10: the total.
    pub number: u64,
    /// 8: the highest number published.
    pub top: u64,
    /// 100: where the token begins; 11, 104: the payload.
    pub start: u64,
    /// And how many bytes it has.
    pub length: u64,
}

/// A MEMX-TCP packet that was read.
#[repr(C)]
#[derive(Clone, Copy, Debug, Default, PartialEq, Eq)]
pub struct hp_tcp_reading {
    /// 0 or why it was refused.
    pub refusal: u64,
    /// Its fields.
    pub packet: hp_tcp,
}

/// Reads one whole MEMX-TCP packet, its three-byte header first.
pub fn hp_tcp_read(packet: &[u8]) -> hp_tcp_reading {
    match read(packet) {
        Ok(read) => hp_tcp_reading {
            refusal: 0,
            packet: from_packet(&read),
        },
        Err(refusal) => hp_tcp_reading {
            refusal: number(refusal),
            ..hp_tcp_reading::default()
        },
    }
}

/// Writes a MEMX-TCP packet; `body` is the token or the payload.
pub fn hp_tcp_write(fields: hp_tcp, body: &[u8], out: &mut [u8]) -> hp_wrote {
    let written = to_packet(&fields, body).and_then(|packet| write(&packet, out));
    written.into()
}

/// The fields of a packet that has nothing but its type.
fn bare(kind: u8) -> hp_tcp {
    hp_tcp {
        r#type: kind,
        ..hp_tcp::default()
    }
}

/// The fields of a packet that has a type and a letter.
fn lettered(kind: u8, letter: u8) -> hp_tcp {
    hp_tcp {
        letter,
        ..bare(kind)
    }
}

/// The fields of a packet that has a type and a session.
fn of_session(kind: u8, session: SessionId) -> hp_tcp {
    hp_tcp {
        session: session.0,
        ..bare(kind)
    }
}

/// The fields of a packet that has a type and a payload.
fn with_payload(kind: u8, payload: &[u8]) -> hp_tcp {
    hp_tcp {
        start: HEADER as u64,
        length: payload.len() as u64,
        ..bare(kind)
    }
}

fn from_packet(packet: &Packet<'_>) -> hp_tcp {
    match *packet {
        Packet::Heartbeat => bare(0),
        Packet::LoginAccepted(mode) => lettered(1, mode.0),
        Packet::LoginRejected(code) => lettered(2, code.0),
        Packet::StartOfSession(session) => of_session(3, session),
        Packet::EndOfSession => bare(4),
        Packet::ReplayBegin { next, pending } => hp_tcp {
            number: next.0,
            count: pending,
            ..bare(5)
        },
        Packet::ReplayRejected(code) => lettered(6, code.0),
        Packet::ReplayComplete { sent } => hp_tcp {
            count: sent,
            ..bare(7)
        },
        Packet::StreamBegin { next, highest } => hp_tcp {
            number: next.0,
            top: highest.0,
            ..bare(8)
        },
        Packet::StreamRejected(code) => lettered(9, code.0),
        Packet::StreamComplete { total } => hp_tcp {
            number: total,
            ..bare(10)
        },
        Packet::Sequenced(payload) => with_payload(11, payload),
        Packet::LoginRequest { token_type, token } => hp_tcp {
            start: HEADER as u64 + 1,
            length: token.len() as u64,
            ..lettered(100, token_type.0)
        },
        Packet::ReplayRequest {
            session,
            next,
            count,
        } => hp_tcp {
            number: next.0,
            count,
            ..of_session(101, session)
        },
        Packet::ReplayAllRequest(session) => of_session(102, session),
        Packet::StreamRequest { session, next } => hp_tcp {
            number: next.0,
            ..of_session(103, session)
        },
        Packet::Unsequenced(payload) => with_payload(104, payload),
    }
}

fn to_packet<'a>(fields: &hp_tcp, body: &'a [u8]) -> Result<Packet<'a>, Refusal> {
    let &hp_tcp { letter, count, .. } = fields;
    let (session, next) = (SessionId(fields.session), Sequence(fields.number));
    let (packet, fixed) = match fields.r#type {
        11 => return Ok(Packet::Sequenced(body)),
        100 => {
            return Ok(Packet::LoginRequest {
                token_type: TokenType(letter),
                token: body,
            })
        }
        104 => return Ok(Packet::Unsequenced(body)),
        0 => (Packet::Heartbeat, 0),
        1 => (Packet::LoginAccepted(Mode(letter)), 1),
        2 => (Packet::LoginRejected(LoginReject(letter)), 1),
        3 => (Packet::StartOfSession(session), 8),
        4 => (Packet::EndOfSession, 0),
        5 => {
            let pending = count;
            (Packet::ReplayBegin { next, pending }, 8 + 4)
        }
        6 => (Packet::ReplayRejected(ReplayReject(letter)), 1),
        7 => (Packet::ReplayComplete { sent: count }, 4),
        8 => {
            let highest = Sequence(fields.top);
            (Packet::StreamBegin { next, highest }, 8 + 8)
        }
        9 => (Packet::StreamRejected(StreamReject(letter)), 1),
        10 => {
            let total = fields.number;
            (Packet::StreamComplete { total }, 8)
        }
        101 => {
            let request = Packet::ReplayRequest {
                session,
                next,
                count,
            };
            (request, 8 + 8 + 4)
        }
        102 => (Packet::ReplayAllRequest(session), 8),
        103 => (Packet::StreamRequest { session, next }, 8 + 8),
        _ => return Err(unknown(HEADER, body, LIMIT)),
    };
    bodiless(HEADER + fixed, body, LIMIT)?;
    Ok(packet)
}
