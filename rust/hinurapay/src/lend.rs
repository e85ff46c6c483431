//! The lending end: a log of messages in lent bytes, and UFO packets out of it.

use crate::flat::{
    hp_log, hp_log_add, hp_log_add_many, hp_log_answer, hp_log_declare_end, hp_log_end_packet,
    hp_log_heartbeat, hp_logged,
};
use crate::kinds::Sequence;
use crate::refusal::{taken, written, Refusal};

/// A log over bytes that are lent to it. Every call passes over the log once.
///
/// ```
/// use hinurapay::{Log, Refusal, Sequence};
///
/// let mut bytes = [0; 100];
/// let mut log = Log::over(&mut bytes);
/// log.add(b"HI")?;
/// log.add(b"")?;
/// let mut out = [0; 1472];
/// let length = log.answer(Sequence(1), 9, &mut out)?;
/// assert_eq!(&out[..length], b"S\0\0\0\x01\0\x02\0\x02HI\0\0");
/// assert_eq!(log.end_packet(&mut out), Err(Refusal::Contradiction));
/// log.declare_end()?;
/// assert_eq!(log.add(b"more"), Err(Refusal::AfterEnd));
/// # Ok::<(), hinurapay::Refusal>(())
/// ```
#[derive(Debug)]
pub struct Log<'a> {
    bytes: &'a mut [u8],
    log: hp_log,
}

impl<'a> Log<'a> {
    /// An empty log.
    pub fn over(bytes: &'a mut [u8]) -> Log<'a> {
        let log = hp_log::default();
        Log { bytes, log }
    }

    /// A log that was kept, over the bytes in which its blocks stand; 10 if it doesn't hang together.
    ///
    /// ```
    /// use hinurapay::{Log, Refusal};
    ///
    /// let mut bytes = [0; 100];
    /// let mut log = Log::over(&mut bytes);
    /// log.add(b"HI")?;
    /// let mut kept = log.flat();
    /// assert_eq!(Log::resumed(&mut bytes, kept)?.blocks(), b"\0\x02HI");
    /// kept.count = 2;
    /// assert_eq!(Log::resumed(&mut bytes, kept).unwrap_err(), Refusal::Broken);
    /// # Ok::<(), hinurapay::Refusal>(())
    /// ```
    pub fn resumed(bytes: &'a mut [u8], kept: hp_log) -> Result<Log<'a>, Refusal> {
        // there is no room for a heartbeat, which is found only once the log hangs together
        match written(hp_log_heartbeat(kept, bytes, &mut [])) {
            Ok(_) | Err(Refusal::Room) => Ok(Log { bytes, log: kept }),
            Err(refusal) => Err(refusal),
        }
    }

    /// The log's own numbers as the C face has them, to be kept with the bytes.
    pub fn flat(&self) -> hp_log {
        self.log
    }

    /// How many messages there are.
    pub fn count(&self) -> u64 {
        self.log.count
    }

    /// Whether the end was declared.
    pub fn ended(&self) -> bool {
        self.log.ended == 1
    }

    /// The blocks of its messages.
    pub fn blocks(&self) -> &[u8] {
        &self.bytes[..self.log.used as usize]
    }

    /// Adds a message; 13, 2 (over 1,463 bytes), 7, 9.
    #[inline]
    pub fn add(&mut self, message: &[u8]) -> Result<(), Refusal> {
        let logged = hp_log_add(self.log, self.bytes, message);
        self.keep(logged)
    }

    /// Adds many messages in one pass, given as their blocks, all of them or none; 13, 4 if the blocks
    /// don't end exactly at the end, 2 (any over 1,463 bytes), 7, 9. None at all change nothing.
    ///
    /// ```
    /// use hinurapay::{Log, Refusal};
    ///
    /// let mut bytes = [0; 10];
    /// let mut log = Log::over(&mut bytes);
    /// log.add_many(b"\0\x02HI\0\0")?;
    /// assert_eq!((log.count(), log.blocks()), (2, &b"\0\x02HI\0\0"[..]));
    /// assert_eq!(log.add_many(b"\0\0\0\x01"), Err(Refusal::Framing));
    /// assert_eq!(log.add_many(b"\0\0\0\x01!"), Err(Refusal::Room));
    /// assert_eq!(log.count(), 2, "not even the first was added");
    /// # Ok::<(), hinurapay::Refusal>(())
    /// ```
    pub fn add_many(&mut self, blocks: &[u8]) -> Result<(), Refusal> {
        let logged = hp_log_add_many(self.log, self.bytes, blocks);
        self.keep(logged)
    }

    /// Declares the end; 13.
    pub fn declare_end(&mut self) -> Result<(), Refusal> {
        let logged = hp_log_declare_end(self.log, self.bytes);
        self.keep(logged)
    }

    /// Answers a request for `count` messages from `first` on, into at least 1,472 bytes: as many
    /// of them as there are and as one packet holds, or past the log's end a heartbeat or the end.
    /// Says how many bytes the packet has; 6, 9.
    #[inline]
    pub fn answer(&self, first: Sequence, count: u16, out: &mut [u8]) -> Result<usize, Refusal> {
        // no log reaches the highest number of four bytes, so that a higher one is answered alike
        let first = u32::try_from(first.0).unwrap_or(u32::MAX);
        written(hp_log_answer(self.log, self.bytes, first, count, out))
    }

    /// Writes a heartbeat, which names the next message to be sent; 9.
    ///
    /// ```
    /// let mut out = [0; 7];
    /// assert_eq!(hinurapay::Log::over(&mut []).heartbeat(&mut out), Ok(7));
    /// assert_eq!(&out, b"S\0\0\0\x01\0\0");
    /// ```
    pub fn heartbeat(&self, out: &mut [u8]) -> Result<usize, Refusal> {
        written(hp_log_heartbeat(self.log, self.bytes, out))
    }

    /// Writes the end packet; 12 before the end was declared, 9.
    pub fn end_packet(&self, out: &mut [u8]) -> Result<usize, Refusal> {
        written(hp_log_end_packet(self.log, self.bytes, out))
    }

    #[inline]
    fn keep(&mut self, logged: hp_logged) -> Result<(), Refusal> {
        self.log = logged.log;
        taken(logged.refusal, ())
    }
}
