//! SoupTCP 3.00: packets of a type, a payload and a linefeed, in both directions.

use crate::decimal;
use crate::fields::{lay, measured, take};
use crate::kinds::{Name, Password, Reason, Sequence, User};
use crate::refusal::Refusal;
use crate::text;

/// The most bytes that a packet may have.
pub const LIMIT: usize = 1 + PAYLOAD_LIMIT + 1;

/// The most bytes that a payload may have.
const PAYLOAD_LIMIT: usize = 4096;

/// What ends every packet, and stands nowhere else in one.
pub(crate) const LINEFEED: u8 = b'\n';

/// A packet in either direction.
#[derive(Clone, Copy, Debug, PartialEq, Eq)]
pub enum Packet<'a> {
    /// `+`: words for whoever looks for a fault.
    Debug(
        /// The words.
        &'a [u8],
    ),
    /// `A`, from the server: logged in to this session.
    Accepted {
        /// The session, which may not be blank.
        session: Name,
        /// The number that the next message will have.
        next: Sequence,
    },
    /// `J`, from the server: not logged in.
    Rejected {
        /// Why not.
        reason: Reason,
    },
    /// `S`, from the server: the next message.
    Sequenced(
        /// The message.
        &'a [u8],
    ),
    /// `H`: the server is still there.
    ServerHeartbeat,
    /// `Z`, from the server: the session has ended.
    EndOfSession,
    /// `L`, from the client: asks to be logged in.
    Login {
        /// Who asks; may not be blank.
        user: User,
        /// The user's password, which may be blank.
        password: Password,
        /// The session wanted, blank for the one that is running.
        session: Name,
        /// The number of the first message wanted, 0 for the latest.
        next: Sequence,
    },
    /// `U`, from the client: a message without a number.
    Unsequenced(
        /// The message.
        &'a [u8],
    ),
    /// `R`: the client is still there.
    ClientHeartbeat,
    /// `O`: the client leaves.
    Logout,
}

/// Reads a packet; 1, 2, 3, 4, 8, 5, 6, 7.
#[inline]
pub fn read(packet: &[u8]) -> Result<Packet<'_>, Refusal> {
    measured(packet.len(), LIMIT)?;
    let (kind, payload) = framed(packet)?;
    read_payload(kind, payload)
}

/// Reads a packet that is not too long and has its only linefeed at its end; 3, 4, 5, 6, 7.
#[inline]
pub(crate) fn read_line(packet: &[u8]) -> Result<Packet<'_>, Refusal> {
    let (kind, payload) = framed(packet)?;
    read_fields(kind, payload)
}

/// The type, and what stands between it and the last byte, which is a linefeed: 3, 4.
#[inline]
fn framed(packet: &[u8]) -> Result<(u8, &[u8]), Refusal> {
    let mut rest = packet;
    let [kind] = take(&mut rest)?;
    let fixed = fixed_payload(kind)?;
    match rest.split_last() {
        Some((&LINEFEED, payload)) if fixed.is_none_or(|length| length == payload.len()) => {
            Ok((kind, payload))
        }
        _ => Err(Refusal::Framing),
    }
}

/// How many bytes the payload of a type has, if that is fixed; a type that there is not is 3.
#[inline]
fn fixed_payload(kind: u8) -> Result<Option<usize>, Refusal> {
    match kind {
        b'+' | b'S' | b'U' => Ok(None),
        b'H' | b'Z' | b'R' | b'O' => Ok(Some(0)),
        b'J' => Ok(Some(1)),
        b'A' => Ok(Some(10 + 20)),
        b'L' => Ok(Some(6 + 10 + 10 + 20)),
        _ => Err(Refusal::UnknownType),
    }
}

/// Reads what stands between the type and the last linefeed: 8, 5, 6, 7.
#[inline]
fn read_payload(kind: u8, payload: &[u8]) -> Result<Packet<'_>, Refusal> {
    if payload.contains(&LINEFEED) {
        return Err(Refusal::Linefeed);
    }
    read_fields(kind, payload)
}

/// Reads the fields of a payload without a linefeed: 5, 6, 7.
#[inline]
fn read_fields(kind: u8, payload: &[u8]) -> Result<Packet<'_>, Refusal> {
    let mut rest = payload;
    match kind {
        b'+' => Ok(Packet::Debug(payload)),
        b'S' => Ok(Packet::Sequenced(payload)),
        b'U' => Ok(Packet::Unsequenced(payload)),
        b'H' => Ok(Packet::ServerHeartbeat),
        b'Z' => Ok(Packet::EndOfSession),
        b'R' => Ok(Packet::ClientHeartbeat),
        b'O' => Ok(Packet::Logout),
        b'J' => {
            let [reason] = take(&mut rest)?;
            let reason = Reason(reason);
            let rejected = Packet::Rejected { reason };
            reason.is_known().then_some(rejected).ok_or(Refusal::Form)
        }
        b'A' => {
            let session = take(&mut rest)?;
            let number = rest.first_chunk().ok_or(Refusal::Framing)?;
            text::padded_left(&session)?;
            match named_number(&session, number)? {
                0 => Err(Refusal::Blank),
                next => Ok(Packet::Accepted {
                    session: Name(session),
                    next: Sequence(next),
                }),
            }
        }
        b'L' => {
            let user = take(&mut rest)?;
            let password = take(&mut rest)?;
            let session = take(&mut rest)?;
            let number = rest.first_chunk().ok_or(Refusal::Framing)?;
            text::padded_right(&user)?;
            text::padded_right(&password)?;
            text::padded_left(&session)?;
            let next = named_number(&user, number)?;
            Ok(Packet::Login {
                user: User(user),
                password: Password(password),
                session: Name(session),
                next: Sequence(next),
            })
        }
        _ => Err(Refusal::UnknownType),
    }
}

/// The number in a packet whose session or user may not be blank. A blank one is told after a number
/// of bad form, but before one that is too great: 5, 6, 7.
#[inline]
fn named_number<const N: usize>(name: &[u8; N], number: &[u8; 20]) -> Result<u64, Refusal> {
    let number = decimal::read(number);
    if number != Err(Refusal::Form) {
        text::not_blank(name)?;
    }
    number
}

/// Writes a packet onto the slip and says how many bytes it has. It is refused as a reader would
/// refuse the packet; then 9.
pub fn write(packet: &Packet<'_>, slip: &mut [u8]) -> Result<usize, Refusal> {
    match *packet {
        Packet::Debug(payload) => close(b'+', payload, slip),
        Packet::Sequenced(payload) => close(b'S', payload, slip),
        Packet::Unsequenced(payload) => close(b'U', payload, slip),
        Packet::ServerHeartbeat => close(b'H', b"", slip),
        Packet::EndOfSession => close(b'Z', b"", slip),
        Packet::ClientHeartbeat => close(b'R', b"", slip),
        Packet::Logout => close(b'O', b"", slip),
        Packet::Rejected { reason } => close(b'J', &[reason.0], slip),
        Packet::Accepted { session, next } => {
            let mut payload = [0; 10 + 20];
            lay(&[&session.0, &decimal::field(next.0)], &mut payload)?;
            close(b'A', &payload, slip)
        }
        Packet::Login {
            user,
            password,
            session,
            next,
        } => {
            let mut payload = [0; 6 + 10 + 10 + 20];
            let number = decimal::field(next.0);
            lay(&[&user.0, &password.0, &session.0, &number], &mut payload)?;
            close(b'L', &payload, slip)
        }
    }
}

/// Puts the type before a payload and the linefeed after it, if a reader would take that.
fn close(kind: u8, payload: &[u8], slip: &mut [u8]) -> Result<usize, Refusal> {
    if payload.len() > PAYLOAD_LIMIT {
        return Err(Refusal::Oversize);
    }
    read_payload(kind, payload)?;
    lay(&[&[kind], payload, &[LINEFEED]], slip)
}
