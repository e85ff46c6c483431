//! The flat face of packets and blocks.

use super::{hp_wrote, number};
use crate::fields::end;
use crate::kinds::{Name, Password, Reason, Sequence, SessionId, User};
use crate::refusal::Refusal;
use crate::ufo::{Down, Up};
use crate::{blocks, memx, soup, ufo};

/// The fields of one packet or message, those that its type lacks being 0.
#[repr(C)]
#[derive(Clone, Copy, Debug, Default, PartialEq, Eq)]
pub struct hp_packet {
    /// The type byte of the wire.
    pub r#type: u8,
    /// `J`: `A` or `S`.
    pub reason: u8,
    /// UFO `S` and `T`, MEMX-UDP 2; of a whole upstream packet, its messages.
    pub count: u16,
    /// `L`, as the bytes of the wire, padding and all.
    pub user: [u8; 6],
    /// `L`.
    pub password: [u8; 10],
    /// The session in Soup and UFO `A` and `L`.
    pub name: [u8; 10],
    /// MEMX-UDP.
    pub session: u64,
    /// A sequence number, or the total of UFO `E`.
    pub number: u64,
    /// Where the blocks (UFO `S`, MEMX-UDP 2) or the payload (Soup `+` `S` `U`, UFO `U`) begin.
    pub start: u64,
    /// And how many bytes they have.
    pub length: u64,
    /// [`hp_ufo_read_message`]: the place of the block after this one; else 0.
    pub next: u64,
    /// MEMX-UDP: how many header bytes there are past the 18; they stand from 18 on.
    pub extra: u8,
}

/// A packet that was read.
#[repr(C)]
#[derive(Clone, Copy, Debug, Default, PartialEq, Eq)]
pub struct hp_read {
    /// 0 or why it was refused.
    pub refusal: u64,
    /// Its fields.
    pub packet: hp_packet,
}

impl From<Result<hp_packet, Refusal>> for hp_read {
    fn from(read: Result<hp_packet, Refusal>) -> Self {
        match read {
            Ok(packet) => hp_read { refusal: 0, packet },
            Err(refusal) => hp_read {
                refusal: number(refusal),
                ..hp_read::default()
            },
        }
    }
}

/// Where a block's data stand.
#[repr(C)]
#[derive(Clone, Copy, Debug, Default, PartialEq, Eq)]
pub struct hp_block {
    /// 0 or why it was refused.
    pub refusal: u64,
    /// The place of the first byte after the length.
    pub start: u64,
    /// How many bytes of data there are.
    pub length: u64,
    /// The place of the block after this one.
    pub next: u64,
}

/// Reads a Soup packet.
pub fn hp_soup_read(packet: &[u8]) -> hp_read {
    soup::read(packet).map(|read| from_soup(&read)).into()
}

/// Reads a UFO packet from the server.
pub fn hp_ufo_read_down(packet: &[u8]) -> hp_read {
    ufo::read_down(packet).map(|read| from_down(&read)).into()
}

/// Reads a whole UFO packet from the client: type 0, and as count its messages.
pub fn hp_ufo_read_up(packet: &[u8]) -> hp_read {
    let read = ufo::read_up(packet).map(|messages| hp_packet {
        count: messages as u16,
        ..hp_packet::default()
    });
    read.into()
}

/// Reads the UFO message from the client whose block starts at place; refused as [`hp_ufo_read_up`]
/// refuses the packet, then 4 where no block starts there.
pub fn hp_ufo_read_message(packet: &[u8], place: u64) -> hp_read {
    let read = ufo::read_message(packet, spot(place)).map(|(message, next)| hp_packet {
        next: next as u64,
        ..from_up(&message, place)
    });
    read.into()
}

/// Reads a MEMX-UDP packet.
pub fn hp_memx_read(packet: &[u8]) -> hp_read {
    memx::read(packet).map(|read| from_memx(&read)).into()
}

/// The data block at place; a block that runs past the end, or a place at or past it, is 4.
pub fn hp_next_block(bytes: &[u8], place: u64) -> hp_block {
    match blocks::next_block(bytes, spot(place)) {
        Ok(block) => hp_block {
            refusal: 0,
            start: block.start as u64,
            length: block.length as u64,
            next: block.next as u64,
        },
        Err(refusal) => hp_block {
            refusal: number(refusal),
            ..hp_block::default()
        },
    }
}

/// Writes a Soup packet.
pub fn hp_soup_write(fields: hp_packet, body: &[u8], out: &mut [u8]) -> hp_wrote {
    let written = to_soup(&fields, body).and_then(|packet| soup::write(&packet, out));
    written.into()
}

/// Writes a UFO packet from the server.
pub fn hp_ufo_write_down(fields: hp_packet, body: &[u8], out: &mut [u8]) -> hp_wrote {
    let written = to_down(&fields, body).and_then(|packet| ufo::write_down(&packet, out));
    written.into()
}

/// Writes one UFO message from the client as a block; refused as the packet of that one block
/// would be.
pub fn hp_ufo_write_message(fields: hp_packet, body: &[u8], out: &mut [u8]) -> hp_wrote {
    let written = to_up(&fields, body, 0).and_then(|message| ufo::write_message(&message, out));
    written.into()
}

/// Adds one UFO message more behind the packet, or the nothing, that the output's first `used` bytes
/// are, and says how many bytes the whole has.
pub fn hp_ufo_add_message(fields: hp_packet, body: &[u8], out: &mut [u8], used: u64) -> hp_wrote {
    let used = spot(used);
    let written = ufo::Packet::begun(out, used)
        .and_then(|mut packet| packet.add(&to_up(&fields, body, used)?));
    written.into()
}

/// Writes a MEMX-UDP packet with these extra bytes in its header, whatever the field `extra` says.
pub fn hp_memx_write(fields: hp_packet, extra: &[u8], body: &[u8], out: &mut [u8]) -> hp_wrote {
    let written = to_memx(&fields, extra, body).and_then(|packet| memx::write(&packet, out));
    written.into()
}

/// A place that no slice could have is past every slice's end.
pub(super) fn spot(place: u64) -> usize {
    usize::try_from(place).unwrap_or(usize::MAX)
}

/// A body where the type has none makes a packet of `fixed` bytes too long: 2 over the limit,
/// else 4.
pub(super) fn bodiless(fixed: usize, body: &[u8], limit: usize) -> Result<(), Refusal> {
    if fixed + body.len() > limit {
        Err(Refusal::Oversize)
    } else if !body.is_empty() {
        Err(Refusal::Framing)
    } else {
        Ok(())
    }
}

/// A type that there is not, with as much around the body as any packet has: 2 over the limit,
/// else 3.
pub(super) fn unknown(around: usize, body: &[u8], limit: usize) -> Refusal {
    if around + body.len() > limit {
        Refusal::Oversize
    } else {
        Refusal::UnknownType
    }
}

/// The fields of a packet that has a type and a payload or blocks from `start` on.
fn with_body(kind: u8, start: u64, body: &[u8]) -> hp_packet {
    hp_packet {
        r#type: kind,
        start,
        length: body.len() as u64,
        ..hp_packet::default()
    }
}

/// The fields of a packet that has nothing but its type.
fn bare(kind: u8) -> hp_packet {
    hp_packet {
        r#type: kind,
        ..hp_packet::default()
    }
}

pub(super) fn from_soup(packet: &soup::Packet<'_>) -> hp_packet {
    match *packet {
        soup::Packet::Debug(payload) => with_body(b'+', 1, payload),
        soup::Packet::Sequenced(payload) => with_body(b'S', 1, payload),
        soup::Packet::Unsequenced(payload) => with_body(b'U', 1, payload),
        soup::Packet::ServerHeartbeat => bare(b'H'),
        soup::Packet::EndOfSession => bare(b'Z'),
        soup::Packet::ClientHeartbeat => bare(b'R'),
        soup::Packet::Logout => bare(b'O'),
        soup::Packet::Rejected { reason } => hp_packet {
            reason: reason.0,
            ..bare(b'J')
        },
        soup::Packet::Accepted { session, next } => hp_packet {
            name: session.0,
            number: next.0,
            ..bare(b'A')
        },
        soup::Packet::Login {
            user,
            password,
            session,
            next,
        } => hp_packet {
            user: user.0,
            password: password.0,
            name: session.0,
            number: next.0,
            ..bare(b'L')
        },
    }
}

fn to_soup<'a>(fields: &hp_packet, body: &'a [u8]) -> Result<soup::Packet<'a>, Refusal> {
    let (packet, fixed) = match fields.r#type {
        b'+' => return Ok(soup::Packet::Debug(body)),
        b'S' => return Ok(soup::Packet::Sequenced(body)),
        b'U' => return Ok(soup::Packet::Unsequenced(body)),
        b'H' => (soup::Packet::ServerHeartbeat, 2),
        b'Z' => (soup::Packet::EndOfSession, 2),
        b'R' => (soup::Packet::ClientHeartbeat, 2),
        b'O' => (soup::Packet::Logout, 2),
        b'J' => {
            let reason = Reason(fields.reason);
            (soup::Packet::Rejected { reason }, 3)
        }
        b'A' => {
            let session = Name(fields.name);
            let next = Sequence(fields.number);
            (soup::Packet::Accepted { session, next }, 32)
        }
        b'L' => {
            let login = soup::Packet::Login {
                user: User(fields.user),
                password: Password(fields.password),
                session: Name(fields.name),
                next: Sequence(fields.number),
            };
            (login, 48)
        }
        _ => return Err(unknown(2, body, soup::LIMIT)),
    };
    bodiless(fixed, body, soup::LIMIT)?;
    Ok(packet)
}

fn from_down(packet: &Down<'_>) -> hp_packet {
    match *packet {
        Down::Accept { session, next } => hp_packet {
            name: session.0,
            number: next.0,
            ..bare(b'A')
        },
        Down::Reject { reason } => hp_packet {
            reason: reason.0,
            ..bare(b'J')
        },
        Down::Sequenced {
            first,
            count,
            blocks,
        } => hp_packet {
            number: first.0,
            count,
            ..with_body(b'S', ufo::DATA_HEADER as u64, blocks)
        },
        Down::End { total } => hp_packet {
            number: total,
            ..bare(b'E')
        },
    }
}

fn to_down<'a>(fields: &hp_packet, body: &'a [u8]) -> Result<Down<'a>, Refusal> {
    let (packet, fixed) = match fields.r#type {
        b'S' => {
            return Ok(Down::Sequenced {
                first: Sequence(fields.number),
                count: fields.count,
                blocks: body,
            })
        }
        b'A' => {
            let session = Name(fields.name);
            let next = Sequence(fields.number);
            (Down::Accept { session, next }, 15)
        }
        b'J' => {
            let reason = Reason(fields.reason);
            (Down::Reject { reason }, 2)
        }
        b'E' => {
            let total = fields.number;
            (Down::End { total }, 5)
        }
        _ => return Err(unknown(1, body, ufo::LIMIT)),
    };
    bodiless(fixed, body, ufo::LIMIT)?;
    Ok(packet)
}

fn from_up(message: &Up<'_>, place: u64) -> hp_packet {
    match *message {
        Up::Login {
            user,
            password,
            session,
        } => hp_packet {
            user: user.0,
            password: password.0,
            name: session.0,
            ..bare(b'L')
        },
        Up::Request { first, count } => hp_packet {
            number: first.0,
            count,
            ..bare(b'T')
        },
        Up::Unsequenced(data) => with_body(b'U', place + 3, data),
        Up::Heartbeat => bare(b'R'),
        Up::Logoff => bare(b'O'),
    }
}

/// The message, to stand behind so many bytes of its packet.
fn to_up<'a>(fields: &hp_packet, body: &'a [u8], behind: usize) -> Result<Up<'a>, Refusal> {
    let (message, fixed) = match fields.r#type {
        b'U' => return Ok(Up::Unsequenced(body)),
        b'L' => {
            let login = Up::Login {
                user: User(fields.user),
                password: Password(fields.password),
                session: Name(fields.name),
            };
            (login, 2 + 27)
        }
        b'T' => {
            let first = Sequence(fields.number);
            let count = fields.count;
            (Up::Request { first, count }, 2 + 7)
        }
        b'R' => (Up::Heartbeat, 2 + 1),
        b'O' => (Up::Logoff, 2 + 1),
        _ => return Err(unknown(behind + 2 + 1, body, ufo::LIMIT)),
    };
    bodiless(behind + fixed, body, ufo::LIMIT)?;
    Ok(message)
}

fn from_memx(packet: &memx::Packet<'_>) -> hp_packet {
    match *packet {
        memx::Packet::Heartbeat {
            session,
            highest,
            extra,
        } => headed(session, highest, extra, bare(0)),
        memx::Packet::Shutdown {
            session,
            highest,
            extra,
        } => headed(session, highest, extra, bare(1)),
        memx::Packet::Sequenced {
            session,
            first,
            count,
            extra,
            blocks,
        } => {
            let start = memx::DATA_HEADER + extra.len();
            let counted = hp_packet {
                count,
                ..with_body(2, start as u64, blocks)
            };
            headed(session, first, extra, counted)
        }
    }
}

/// The fields with what every MEMX-UDP header has beside the type; of the extra bytes of one that
/// was read, 237 at most, a byte can say how many they are.
fn headed(session: SessionId, number: Sequence, extra: &[u8], fields: hp_packet) -> hp_packet {
    hp_packet {
        session: session.0,
        number: number.0,
        extra: extra.len() as u8,
        ..fields
    }
}

fn to_memx<'a>(
    fields: &hp_packet,
    extra: &'a [u8],
    body: &'a [u8],
) -> Result<memx::Packet<'a>, Refusal> {
    let session = SessionId(fields.session);
    let sequence = Sequence(fields.number);
    let packet = match fields.r#type {
        0 => memx::Packet::Heartbeat {
            session,
            highest: sequence,
            extra,
        },
        1 => memx::Packet::Shutdown {
            session,
            highest: sequence,
            extra,
        },
        2 => {
            return Ok(memx::Packet::Sequenced {
                session,
                first: sequence,
                count: fields.count,
                extra,
                blocks: body,
            })
        }
        _ => return Err(unknown(memx::HEADER + extra.len(), body, memx::LIMIT)),
    };
    // a header length comes before a body where there is none
    memx::header_length(extra, body.len())?;
    end(body)?;
    Ok(packet)
}
