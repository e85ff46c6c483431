//! The lending end: a log of messages in lent bytes, and UFO packets out of it.

use crate::blocks::{self, Blocks};
use crate::fields::lay;
use crate::kinds::Sequence;
use crate::refusal::Refusal;
use crate::ufo::{self, Down};

/// The most bytes that a message may have to be sent, alone, in one packet.
pub const LONGEST_MESSAGE: usize = ufo::LIMIT - ufo::DATA_HEADER - 2;

/// A log's own numbers. Its messages stand as blocks in bytes that are lent to each call. The
/// default is an empty log.
///
/// Every call passes over the lent log once, since 10 is to be found wherever a log is taken.
#[derive(Clone, Copy, Debug, Default, PartialEq, Eq)]
pub struct Log {
    /// How many messages there are.
    pub count: u64,
    /// How many of the lent bytes their blocks take up.
    pub used: usize,
    /// Whether the end was declared.
    pub ended: bool,
}

impl Log {
    /// 10 if the log doesn't hang together.
    pub fn check(&self, bytes: &[u8]) -> Result<(), Refusal> {
        self.blocks_after(bytes, self.count).map(|_| ())
    }

    /// Adds a message; 10, 13, 2, 7, 9.
    #[inline]
    pub fn add(&mut self, bytes: &mut [u8], message: &[u8]) -> Result<(), Refusal> {
        self.growing(bytes)?;
        let grown = self.grown(1, message.len(), 2 + message.len(), bytes.len())?;
        let length = (message.len() as u16).to_be_bytes();
        lay(&[&length, message], &mut bytes[self.used..grown.used])?;
        *self = grown;
        Ok(())
    }

    /// Adds messages that are lent as blocks, all of them or none, and says how many there were.
    /// 10, 13, 4 if the blocks don't end exactly at the end, 2 if any message is too long, 7, 9.
    pub fn add_many(&mut self, bytes: &mut [u8], messages: &[u8]) -> Result<u64, Refusal> {
        self.growing(bytes)?;
        let (mut added, mut longest) = (0, 0);
        for message in Blocks::over(messages) {
            longest = longest.max(message?.len());
            added += 1;
        }
        let grown = self.grown(added, longest, messages.len(), bytes.len())?;
        bytes[self.used..grown.used].copy_from_slice(messages);
        *self = grown;
        Ok(added)
    }

    /// Declares the end; 10, 13.
    pub fn declare_end(&mut self, bytes: &[u8]) -> Result<(), Refusal> {
        self.growing(bytes)?;
        self.ended = true;
        Ok(())
    }

    /// Answers a request for `count` messages from `first` on: as many of them as there are and
    /// as one packet holds, or past the log's end a heartbeat or the end. Says how many bytes the
    /// packet has; 10, 6, 9.
    #[inline]
    pub fn answer(
        &self,
        bytes: &[u8],
        first: u32,
        count: u16,
        slip: &mut [u8],
    ) -> Result<usize, Refusal> {
        let from = self.blocks_after(bytes, u64::from(first).saturating_sub(1))?;
        if first == 0 || count == 0 {
            return Err(Refusal::Blank);
        }
        if slip.len() < ufo::LIMIT {
            return Err(Refusal::Room);
        }
        if u64::from(first) > self.count {
            return if self.ended {
                self.lay_end(slip)
            } else {
                self.lay_heartbeat(slip)
            };
        }
        let mut fitting = 0;
        let mut length = 0;
        for message in Blocks::over(from).take(usize::from(count)) {
            let longer = length + 2 + message?.len();
            if longer > ufo::LIMIT - ufo::DATA_HEADER {
                break;
            }
            fitting += 1;
            length = longer;
        }
        let packet = Down::Sequenced {
            first: Sequence(first.into()),
            count: fitting,
            blocks: &from[..length],
        };
        ufo::write_down(&packet, slip)
    }

    /// Writes a heartbeat, which names the next message to be sent; 10, 9.
    pub fn heartbeat(&self, bytes: &[u8], slip: &mut [u8]) -> Result<usize, Refusal> {
        self.check(bytes)?;
        self.lay_heartbeat(slip)
    }

    /// Writes the end packet; 10, 12 before the end was declared, 9.
    pub fn end_packet(&self, bytes: &[u8], slip: &mut [u8]) -> Result<usize, Refusal> {
        self.check(bytes)?;
        if !self.ended {
            return Err(Refusal::Contradiction);
        }
        self.lay_end(slip)
    }

    fn lay_heartbeat(&self, slip: &mut [u8]) -> Result<usize, Refusal> {
        let packet = Down::Sequenced {
            first: Sequence(self.count + 1),
            count: 0,
            blocks: &[],
        };
        ufo::write_down(&packet, slip)
    }

    fn lay_end(&self, slip: &mut [u8]) -> Result<usize, Refusal> {
        ufo::write_down(&Down::End { total: self.count }, slip)
    }

    /// 10, then 13 if the end was declared.
    #[inline]
    fn growing(&self, bytes: &[u8]) -> Result<(), Refusal> {
        self.check(bytes)?;
        if self.ended {
            return Err(Refusal::AfterEnd);
        }
        Ok(())
    }

    /// The log with so many more messages, the longest of them of that length and their blocks of
    /// that many bytes, in lent bytes with that room; 2, 7, 9.
    #[inline]
    fn grown(self, added: u64, longest: usize, length: usize, room: usize) -> Result<Log, Refusal> {
        if longest > LONGEST_MESSAGE {
            return Err(Refusal::Oversize);
        }
        let count = self.count + added;
        if count > ufo::HIGHEST {
            return Err(Refusal::Bound);
        }
        let used = self.used + length;
        if used > room {
            return Err(Refusal::Room);
        }
        Ok(Log {
            count,
            used,
            ..self
        })
    }

    /// The blocks after the first `skipped` ones, none if there are not so many; 10 if the log as
    /// a whole doesn't hang together.
    #[inline]
    fn blocks_after<'a>(&self, bytes: &'a [u8], skipped: u64) -> Result<&'a [u8], Refusal> {
        if self.count > ufo::HIGHEST {
            return Err(Refusal::Broken);
        }
        let used = bytes.get(..self.used).ok_or(Refusal::Broken)?;
        let skipped = skipped.min(self.count);
        let from = pass(used, skipped)?;
        match pass(from, self.count - skipped)? {
            [] => Ok(from),
            _ => Err(Refusal::Broken),
        }
    }
}

/// What follows the first `count` blocks of a log; 10 if there are not so many, or one is too
/// long to be sent.
#[inline]
fn pass(log: &[u8], count: u64) -> Result<&[u8], Refusal> {
    let mut rest = log;
    for _ in 0..count {
        rest = match blocks::split_block(rest) {
            Ok((message, rest)) if message.len() <= LONGEST_MESSAGE => rest,
            _ => return Err(Refusal::Broken),
        };
    }
    Ok(rest)
}

#[cfg(test)]
mod tests {
    use super::*;

    const FULL: Log = Log {
        count: ufo::HIGHEST,
        used: 2 * ufo::HIGHEST as usize,
        ended: false,
    };

    #[test]
    fn a_full_log_takes_no_more() {
        let nearly = Log {
            count: FULL.count - 2,
            ..FULL
        };
        for (added, count) in [(0, FULL.count - 2), (1, FULL.count - 1), (2, FULL.count)] {
            assert_eq!(nearly.grown(added, 0, 0, usize::MAX).unwrap().count, count);
        }
        assert_eq!(nearly.grown(3, 0, 6, usize::MAX), Err(Refusal::Bound));
        assert_eq!(FULL.grown(1, 0, 2, usize::MAX), Err(Refusal::Bound));
    }

    #[test]
    fn refusals_of_growing_come_in_order() {
        let long = LONGEST_MESSAGE + 1;
        assert_eq!(FULL.grown(1, long, 2 + long, 0), Err(Refusal::Oversize));
        assert_eq!(FULL.grown(1, 0, 2, 0), Err(Refusal::Bound));
        assert_eq!(Log::default().grown(1, 0, 2, 1), Err(Refusal::Room));
        assert_eq!(Log::default().grown(1, 0, 2, 2).unwrap().used, 2);
    }

    #[test]
    fn more_messages_than_can_be_numbered_are_10_whatever_the_bytes() {
        let over = Log {
            count: ufo::HIGHEST + 1,
            used: 0,
            ended: false,
        };
        assert_eq!(over.check(&[]), Err(Refusal::Broken));
    }
}
