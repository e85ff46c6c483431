//! The flat face of the lending end.

use super::{flag, hp_wrote, number};
use crate::lend::Log;
use crate::refusal::Refusal;

/// A log's own numbers.
#[repr(C)]
#[derive(Clone, Copy, Debug, Default, PartialEq, Eq)]
pub struct hp_log {
    /// How many messages there are.
    pub count: u64,
    /// How many of the lent bytes their blocks take up.
    pub used: u64,
    /// 0 or 1; another is 10.
    pub ended: u8,
}

impl hp_log {
    /// The log, if its flag is known and its mark could lie in any slice; else 10.
    fn log(&self) -> Result<Log, Refusal> {
        Ok(Log {
            count: self.count,
            used: usize::try_from(self.used).map_err(|_| Refusal::Broken)?,
            ended: flag(self.ended)?,
        })
    }

    /// The log after a change of it, or as it was given if that is refused.
    fn changed(self, change: impl FnOnce(&mut Log) -> Result<(), Refusal>) -> hp_logged {
        let after = self.log().and_then(|mut log| {
            change(&mut log)?;
            Ok(log)
        });
        match after {
            Ok(log) => hp_logged {
                refusal: 0,
                log: hp_log {
                    count: log.count,
                    used: log.used as u64,
                    ended: u8::from(log.ended),
                },
            },
            Err(refusal) => hp_logged {
                refusal: number(refusal),
                log: self,
            },
        }
    }
}

/// A log after a change.
#[repr(C)]
#[derive(Clone, Copy, Debug, Default, PartialEq, Eq)]
pub struct hp_logged {
    /// 0 or why it was refused.
    pub refusal: u64,
    /// The log afterwards.
    pub log: hp_log,
}

/// Adds a message to the log.
pub fn hp_log_add(log: hp_log, bytes: &mut [u8], message: &[u8]) -> hp_logged {
    log.changed(|log| log.add(bytes, message))
}

/// Adds many messages to the log at once, given as their blocks.
pub fn hp_log_add_many(log: hp_log, bytes: &mut [u8], blocks: &[u8]) -> hp_logged {
    log.changed(|log| log.add_many(bytes, blocks).map(|_| ()))
}

/// Declares the log's end.
pub fn hp_log_declare_end(log: hp_log, bytes: &[u8]) -> hp_logged {
    log.changed(|log| log.declare_end(bytes))
}

/// Answers a request for `count` messages from `first` on.
pub fn hp_log_answer(
    log: hp_log,
    bytes: &[u8],
    first: u32,
    count: u16,
    out: &mut [u8],
) -> hp_wrote {
    let written = log
        .log()
        .and_then(|log| log.answer(bytes, first, count, out));
    written.into()
}

/// Writes a heartbeat.
pub fn hp_log_heartbeat(log: hp_log, bytes: &[u8], out: &mut [u8]) -> hp_wrote {
    let written = log.log().and_then(|log| log.heartbeat(bytes, out));
    written.into()
}

/// Writes the end packet.
pub fn hp_log_end_packet(log: hp_log, bytes: &[u8], out: &mut [u8]) -> hp_wrote {
    let written = log.log().and_then(|log| log.end_packet(bytes, out));
    written.into()
}
