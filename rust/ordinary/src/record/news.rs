//! What a datagram tells a record, whichever protocol it came by.

use crate::kinds::{Sequence, SessionId};
use crate::memx;
use crate::refusal::Refusal;
use crate::ufo::{self, Down};

/// What a datagram tells, whichever protocol it came by.
pub(super) enum News<'a> {
    /// Messages `first` to `last`.
    Messages {
        first: u64,
        last: u64,
        blocks: &'a [u8],
    },
    /// The highest number published so far.
    Highest(u64),
    /// The highest number that the ended session has.
    End(u64),
}

impl News<'_> {
    /// The packet's own top, and whether it is an end.
    #[inline]
    pub fn top(&self) -> (u64, bool) {
        match *self {
            News::Messages { last, .. } => (last, false),
            News::Highest(top) => (top, false),
            News::End(total) => (total, true),
        }
    }

    /// What a UFO datagram tells; the reader's refusals, then 16.
    #[inline]
    pub fn from_ufo(datagram: &[u8]) -> Result<News<'_>, Refusal> {
        match ufo::read_down(datagram)? {
            Down::Accept { .. } | Down::Reject { .. } => Err(Refusal::NotForRecord),
            Down::Sequenced {
                first, count: 0, ..
            } => Ok(News::Highest(first.0 - 1)),
            Down::Sequenced {
                first,
                count,
                blocks,
            } => Ok(News::messages(first, count, blocks)),
            Down::End { total } => Ok(News::End(total)),
        }
    }

    /// What a MEMX-UDP datagram tells about this session; the reader's refusals, then 11.
    #[inline]
    pub fn from_memx(datagram: &[u8], ours: SessionId) -> Result<News<'_>, Refusal> {
        let (theirs, news) = match memx::read(datagram)? {
            memx::Packet::Heartbeat {
                session, highest, ..
            } => (session, News::Highest(highest.0)),
            memx::Packet::Shutdown {
                session, highest, ..
            } => (session, News::End(highest.0)),
            memx::Packet::Sequenced {
                session,
                first,
                count,
                blocks,
                ..
            } => (session, News::messages(first, count, blocks)),
        };
        if theirs == ours {
            Ok(news)
        } else {
            Err(Refusal::OtherSession)
        }
    }

    #[inline]
    fn messages(first: Sequence, count: u16, blocks: &[u8]) -> News<'_> {
        News::Messages {
            first: first.0,
            last: first.0 + (u64::from(count) - 1),
            blocks,
        }
    }
}
