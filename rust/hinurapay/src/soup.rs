//! SoupTCP packets.

use crate::blocks::part;
use crate::flat::{hp_packet, hp_soup_read, hp_soup_write};
use crate::kinds::{Name, Password, Reason, Sequence, User};
use crate::refusal::{taken, written, Refusal};

/// The longest packet.
pub const LIMIT: usize = 4098;

/// A packet; payloads are slices of the caller's bytes.
#[derive(Clone, Copy, Debug, PartialEq, Eq)]
pub enum Packet<'a> {
    /// `+`: a remark.
    Debug(&'a [u8]),
    /// `S`: a message with a number.
    Sequenced(&'a [u8]),
    /// `U`: a message without one.
    Unsequenced(&'a [u8]),
    /// `H`: the server is there.
    ServerHeartbeat,
    /// `Z`: the session is over.
    EndOfSession,
    /// `R`: the client is there.
    ClientHeartbeat,
    /// `O`: the client leaves.
    Logout,
    /// `J`: the login is turned down.
    Rejected(Reason),
    /// `A`: the login is taken.
    Accepted {
        /// Into this session.
        session: Name,
        /// The number of the next message.
        next: Sequence,
    },
    /// `L`: a login.
    Login {
        /// Who; may not be blank.
        user: User,
        /// Proved by this, or blank.
        password: Password,
        /// The session wanted, or blank.
        session: Name,
        /// The first message wanted; 0 for the latest.
        next: Sequence,
    },
}

/// Reads a packet; 1, 2, 3, 4, 8, 5, 6, 7.
///
/// ```
/// use hinurapay::soup::{read, Packet};
///
/// assert_eq!(read(b"Shello\n"), Ok(Packet::Sequenced(b"hello")));
/// assert_eq!(read(b"Shello").unwrap_err().number(), 4);
/// ```
///
/// Noughts between a number's spaces and its digits say nothing; [`write()`] puts spaces for them.
///
/// ```
/// use hinurapay::soup::{read, write, Packet};
/// use hinurapay::{Name, Sequence};
///
/// let accepted = Packet::Accepted {
///     session: Name(*b"      8841"),
///     next: Sequence(42),
/// };
/// assert_eq!(read(b"A      884100000000000000000042\n"), Ok(accepted));
/// let mut out = [0; 32];
/// assert_eq!(write(&accepted, &mut out), Ok(32));
/// assert_eq!(&out, b"A      8841                  42\n");
/// assert_eq!(read(&out), Ok(accepted));
/// ```
#[inline]
pub fn read(packet: &[u8]) -> Result<Packet<'_>, Refusal> {
    let read = hp_soup_read(packet);
    taken(read.refusal, ())?;
    Ok(of(&read.packet, packet))
}

/// The packet of which a reader found these fields in these bytes.
#[inline]
pub(crate) fn of<'a>(fields: &hp_packet, bytes: &'a [u8]) -> Packet<'a> {
    let payload = || part(bytes, fields.start, fields.length);
    let (session, next) = (Name(fields.name), Sequence(fields.number));
    match fields.r#type {
        b'+' => Packet::Debug(payload()),
        b'S' => Packet::Sequenced(payload()),
        b'U' => Packet::Unsequenced(payload()),
        b'H' => Packet::ServerHeartbeat,
        b'Z' => Packet::EndOfSession,
        b'R' => Packet::ClientHeartbeat,
        b'O' => Packet::Logout,
        b'J' => Packet::Rejected(Reason::read(fields.reason)),
        b'A' => Packet::Accepted { session, next },
        _ => Packet::Login {
            user: User(fields.user),
            password: Password(fields.password),
            session,
            next,
        },
    }
}

/// Writes a packet and says how many bytes it has; refused as a reader would refuse it, then 9.
///
/// ```
/// use hinurapay::soup::{write, Packet};
///
/// let mut out = [0; 8];
/// assert_eq!(write(&Packet::Sequenced(b"hello"), &mut out), Ok(7));
/// assert_eq!(&out[..7], b"Shello\n");
/// ```
///
/// A login names its user; password and session may be blank.
///
/// ```
/// use hinurapay::soup::{write, Packet};
/// use hinurapay::{Name, Password, Refusal, Sequence, User};
///
/// let login = |user: &[u8; 6]| Packet::Login {
///     user: User(*user),
///     password: Password([b' '; 10]),
///     session: Name([b' '; 10]),
///     next: Sequence(0),
/// };
/// let mut out = [0; 48];
/// assert_eq!(write(&login(b"      "), &mut out), Err(Refusal::Blank));
/// assert_eq!(out, [0; 48]);
/// assert_eq!(write(&login(b"desk7 "), &mut out), Ok(48));
/// ```
pub fn write(packet: &Packet<'_>, out: &mut [u8]) -> Result<usize, Refusal> {
    let mut fields = hp_packet::default();
    let (kind, payload): (u8, &[u8]) = match *packet {
        Packet::Debug(payload) => (b'+', payload),
        Packet::Sequenced(payload) => (b'S', payload),
        Packet::Unsequenced(payload) => (b'U', payload),
        Packet::ServerHeartbeat => (b'H', &[]),
        Packet::EndOfSession => (b'Z', &[]),
        Packet::ClientHeartbeat => (b'R', &[]),
        Packet::Logout => (b'O', &[]),
        Packet::Rejected(reason) => {
            fields.reason = reason as u8;
            (b'J', &[])
        }
        Packet::Accepted { session, next } => {
            fields.name = session.0;
            fields.number = next.0;
            (b'A', &[])
        }
        Packet::Login {
            user,
            password,
            session,
            next,
        } => {
            fields.user = user.0;
            fields.password = password.0;
            fields.name = session.0;
            fields.number = next.0;
            (b'L', &[])
        }
    };
    fields.r#type = kind;
    written(hp_soup_write(fields, payload, out))
}
