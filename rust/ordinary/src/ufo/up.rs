//! UFO from the client: login, request, unsequenced data, heartbeat and logoff, each in a block.

use super::{four_bytes, number, LIMIT};
use crate::blocks::{self, Blocks};
use crate::fields::{end, lay, measured, take};
use crate::kinds::{Name, Password, Sequence, User};
use crate::refusal::Refusal;
use crate::text;

/// A message from the client.
#[derive(Clone, Copy, Debug, PartialEq, Eq)]
pub enum Up<'a> {
    /// `L`: asks to be logged in.
    Login {
        /// Who asks; may not be blank.
        user: User,
        /// The user's password, which may be blank.
        password: Password,
        /// The session wanted, blank for the one that is running.
        session: Name,
    },
    /// `T`: asks for messages again.
    Request {
        /// The first one's number.
        first: Sequence,
        /// How many are wanted.
        count: u16,
    },
    /// `U`: data without a number.
    Unsequenced(
        /// The data.
        &'a [u8],
    ),
    /// `R`: the client is still there.
    Heartbeat,
    /// `O`: the client leaves.
    Logoff,
}

impl Up<'_> {
    /// How many bytes the message has, its type among them.
    fn length(&self) -> usize {
        match *self {
            Up::Login { .. } => 1 + 6 + 10 + 10,
            Up::Request { .. } => 1 + 4 + 2,
            Up::Unsequenced(data) => 1 + data.len(),
            Up::Heartbeat | Up::Logoff => 1,
        }
    }

    /// What a reader says of the fields once the lengths are right: 5, 6, 7.
    fn check(&self) -> Result<(), Refusal> {
        match *self {
            Up::Login {
                user,
                password,
                session,
            } => {
                text::padded_right(&user.0)?;
                text::padded_right(&password.0)?;
                text::padded_right(&session.0)?;
                text::not_blank(&user.0)
            }
            Up::Request { first, count } => {
                if first.0 == 0 || count == 0 {
                    return Err(Refusal::Blank);
                }
                four_bytes(first.0).map(|_| ())
            }
            Up::Unsequenced(_) | Up::Heartbeat | Up::Logoff => Ok(()),
        }
    }
}

/// Reads a whole packet from the client and says how many messages it has. 1, 2 and the block
/// lengths (4) come first over the whole packet; then the first message that is refused gives the
/// number.
pub fn read_up(datagram: &[u8]) -> Result<usize, Refusal> {
    measured(datagram.len(), LIMIT)?;
    let messages = blocks::upstream(datagram)?;
    for message in Blocks::over(datagram) {
        read(message?)?;
    }
    Ok(messages)
}

/// Reads the message whose block starts at a place of a packet, and says where the next block
/// begins. It is refused as the whole packet is; then 4 if no block starts there.
pub fn read_message(datagram: &[u8], place: usize) -> Result<(Up<'_>, usize), Refusal> {
    read_up(datagram)?;
    let mut start = 0;
    for message in Blocks::over(datagram) {
        let message = message?;
        let next = start + 2 + message.len();
        if start == place {
            return Ok((read(message)?, next));
        }
        start = next;
    }
    Err(Refusal::Framing)
}

/// Reads what is inside a block: 4 if there is nothing, then 3, 4, 5, 6.
fn read(message: &[u8]) -> Result<Up<'_>, Refusal> {
    let mut rest = message;
    let [kind] = take(&mut rest)?;
    let message = match kind {
        b'L' => {
            let user = User(take(&mut rest)?);
            let password = Password(take(&mut rest)?);
            let session = Name(take(&mut rest)?);
            end(rest)?;
            Up::Login {
                user,
                password,
                session,
            }
        }
        b'T' => {
            let first = Sequence(number(take(&mut rest)?));
            let count = u16::from_be_bytes(take(&mut rest)?);
            end(rest)?;
            Up::Request { first, count }
        }
        b'U' => Up::Unsequenced(rest),
        b'R' => {
            end(rest)?;
            Up::Heartbeat
        }
        b'O' => {
            end(rest)?;
            Up::Logoff
        }
        _ => return Err(Refusal::UnknownType),
    };
    message.check()?;
    Ok(message)
}

/// Writes a message from the client onto the slip as a block and says how many bytes the block
/// has. It is refused as the packet of that one block would be, 7 for a number that its field
/// cannot hold; then 9.
pub fn write_message(message: &Up<'_>, slip: &mut [u8]) -> Result<usize, Refusal> {
    measured(2 + message.length(), LIMIT)?;
    message.check()?;
    let length = (message.length() as u16).to_be_bytes();
    match *message {
        Up::Login {
            user,
            password,
            session,
        } => lay(&[&length, b"L", &user.0, &password.0, &session.0], slip),
        Up::Request { first, count } => {
            let first = four_bytes(first.0)?;
            lay(&[&length, b"T", &first, &count.to_be_bytes()], slip)
        }
        Up::Unsequenced(data) => lay(&[&length, b"U", data], slip),
        Up::Heartbeat => lay(&[&length, b"R"], slip),
        Up::Logoff => lay(&[&length, b"O"], slip),
    }
}

/// A packet from the client that is put together, message by message, at a slip's start.
#[derive(Debug)]
pub struct Packet<'a> {
    slip: &'a mut [u8],
    used: usize,
}

impl<'a> Packet<'a> {
    /// Goes on with the packet, or the nothing, that the slip's first `used` bytes are. 4 if the
    /// slip has not so many, else as the reader refuses them if there are any.
    pub fn begun(slip: &'a mut [u8], used: usize) -> Result<Packet<'a>, Refusal> {
        let packet = slip.get(..used).ok_or(Refusal::Framing)?;
        if !packet.is_empty() {
            read_up(packet)?;
        }
        Ok(Packet { slip, used })
    }

    /// Puts one message more behind the others and says how many bytes the packet has then. It is
    /// refused as the reader would refuse that packet, 7 for a number that its field cannot hold;
    /// then 9.
    pub fn add(&mut self, message: &Up<'_>) -> Result<usize, Refusal> {
        measured(self.used + 2 + message.length(), LIMIT)?;
        self.used += write_message(message, &mut self.slip[self.used..])?;
        Ok(self.used)
    }
}
