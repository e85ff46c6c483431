//! The session record: what a receiver has had, what it knows of, and what it lacks.

mod news;

use crate::blocks;
use crate::clock::{Patience, Sheet};
use crate::held::Held;
use crate::kinds::{Name, Sequence, SessionId};
use crate::memx;
use crate::missing::Missing;
use crate::refusal::Refusal;
use crate::text;
use crate::ufo;
use news::News;

/// The longest time since asking, in milliseconds, that is taken: a day.
const LONGEST_ELAPSED: f64 = 86_400_000.0;

/// The most messages that one request names.
const MOST_ASKED: u64 = u16::MAX as u64;

/// Which session is recorded, and by that in which style.
#[derive(Clone, Copy, Debug, PartialEq, Eq)]
pub enum Session {
    /// A UFO session of this name.
    Ufo(Name),
    /// A MEMX-UDP session of this number.
    Memx(SessionId),
}

/// What is known of one session.
#[derive(Clone, Copy, Debug, PartialEq, Eq)]
pub struct Record {
    /// Which session it is.
    pub session: Session,
    /// The number of the next message to be delivered.
    pub next: Sequence,
    /// The highest number known to be published.
    pub top: Sequence,
    /// Whether the end was heard.
    pub ended: bool,
    /// The number last asked from, 0 if none.
    pub asked: Sequence,
    /// Which slots of its area hold messages that came early.
    pub held: Held,
}

/// What taking a datagram gave.
#[derive(Clone, Copy, Debug, PartialEq, Eq)]
pub struct Taken {
    /// How many bytes were delivered, from the tape's start.
    pub bytes: usize,
    /// How many messages they are.
    pub messages: u64,
    /// The record afterwards.
    pub record: Record,
}

/// What taking a datagram delivered.
#[derive(Clone, Copy, Debug, Default, PartialEq, Eq)]
pub struct Delivered {
    /// How many bytes, from the tape's start.
    pub bytes: usize,
    /// How many messages they are.
    pub messages: u64,
}

/// How a record stands.
#[derive(Clone, Copy, Debug, PartialEq, Eq)]
pub struct Standing {
    /// Whether the end was heard and every message was delivered.
    pub complete: bool,
    /// How many ranges of numbers are missing; [`Record::missing`] hands them out.
    pub missing: usize,
    /// The first and the last number of the first range, if any is missing.
    pub first: Option<(Sequence, Sequence)>,
}

/// What to ask now.
#[derive(Clone, Copy, Debug, PartialEq, Eq)]
pub enum Asked {
    /// Nothing is missing.
    Nothing,
    /// Something is missing that was asked for already: wait.
    Wait,
    /// Ask.
    Request {
        /// The first number wanted.
        first: Sequence,
        /// How many are wanted.
        count: u16,
        /// The record afterwards.
        record: Record,
    },
}

impl Record {
    /// A fresh record of a UFO session; 5 or 6 if its name could not stand in a UFO accept.
    pub fn open_ufo(name: Name) -> Result<Record, Refusal> {
        check_name(&name)?;
        Ok(Record::fresh(Session::Ufo(name)))
    }

    /// A fresh record of a MEMX-UDP session.
    pub fn open_memx(session: SessionId) -> Record {
        Record::fresh(Session::Memx(session))
    }

    fn fresh(session: Session) -> Record {
        Record {
            session,
            next: Sequence(1),
            top: Sequence(0),
            ended: false,
            asked: Sequence(0),
            held: Held::default(),
        }
    }

    /// 10 if the record doesn't hang together.
    #[inline]
    pub fn check(&self) -> Result<(), Refusal> {
        let (named, highest) = match &self.session {
            Session::Ufo(name) => (check_name(name).is_ok(), ufo::HIGHEST),
            Session::Memx(_) => (true, memx::HIGHEST),
        };
        let numbered = self.top.0 <= highest
            && (1..=self.top.0 + 1).contains(&self.next.0)
            && self.asked <= self.next
            && self.held.lies_within(self.next.0, self.top.0);
        (named && numbered).then_some(()).ok_or(Refusal::Broken)
    }

    /// Takes a datagram: what is next goes onto the tape, from its start, as blocks with their
    /// length bytes, and what was held behind it follows; what comes early is held in the area,
    /// unless its block is longer than a slot. 10; the reader's refusals; 16; 11; 12; 9. A tape of
    /// [`ufo::ROOM`] bytes, or in MEMX-UDP of [`memx::ROOM`], is never too short.
    #[inline]
    pub fn take(
        mut self,
        area: &mut [u8],
        datagram: &[u8],
        tape: &mut [u8],
    ) -> Result<Taken, Refusal> {
        let delivered = self.take_in_place(area, datagram, tape)?;
        Ok(Taken {
            bytes: delivered.bytes,
            messages: delivered.messages,
            record: self,
        })
    }

    /// Takes a datagram as [`Record::take`] does, into the record where it lies; the record is
    /// changed only if the datagram is taken.
    #[inline]
    pub fn take_in_place(
        &mut self,
        area: &mut [u8],
        datagram: &[u8],
        tape: &mut [u8],
    ) -> Result<Delivered, Refusal> {
        self.check()?;
        self.held.check(area)?;
        let news = match self.session {
            Session::Ufo(_) => News::from_ufo(datagram)?,
            Session::Memx(session) => News::from_memx(datagram, session)?,
        };
        let (top, end) = news.top();
        if (self.ended && top > self.top.0) || (end && top < self.top.0) {
            return Err(Refusal::Contradiction);
        }
        let mut delivered = Delivered::default();
        if let News::Messages {
            first,
            last,
            blocks,
        } = news
        {
            if first > self.next.0 {
                self.held.hold(area, self.next.0, first, blocks);
            } else if last >= self.next.0 {
                let own = blocks::after(blocks, self.next.0 - first)?;
                delivered = self.deliver(own, last, area, tape)?;
            }
        }
        self.top = self.top.max(Sequence(top));
        self.ended |= end;
        Ok(delivered)
    }

    /// Puts a packet's own messages, the next one to `last`, onto the tape, and behind them what is
    /// held from there on; 9, with nothing changed, if all of them together don't fit.
    #[inline]
    fn deliver(
        &mut self,
        own: &[u8],
        last: u64,
        area: &[u8],
        tape: &mut [u8],
    ) -> Result<Delivered, Refusal> {
        let room = tape.split_at_mut_checked(own.len());
        let (place, behind) = room.ok_or(Refusal::Room)?;
        let mut delivered = Delivered {
            bytes: own.len(),
            messages: last - self.next.0 + 1,
        };
        if self.held != Held::default() {
            let (bytes, messages) = self.held.release(area, self.next.0, last, behind)?;
            delivered.bytes += bytes;
            delivered.messages += messages;
        }
        place.copy_from_slice(own);
        self.next.0 += delivered.messages;
        Ok(delivered)
    }

    /// The ranges of numbers that are missing, from the first on; 10.
    pub fn missing(&self) -> Result<Missing, Refusal> {
        self.check()?;
        Ok(Missing::between(self.next, self.top, self.held))
    }

    /// Whether the record is complete, and what is missing; 10.
    pub fn standing(&self) -> Result<Standing, Refusal> {
        let mut ranges = self.missing()?;
        let first = ranges.next();
        Ok(Standing {
            complete: self.ended && first.is_none(),
            missing: usize::from(first.is_some()) + ranges.count(),
            first,
        })
    }

    /// What to ask now, `elapsed` milliseconds after asking last: nothing if nothing is missing,
    /// a request for the first missing range if none was made from its number yet or the wait is
    /// over. 10 for the record or the sheet; then 15.
    pub fn ask(self, sheet: &Sheet, patience: &Patience, elapsed: f64) -> Result<Asked, Refusal> {
        let first_missing = self.missing()?.next();
        let wait = patience.wait(sheet)?;
        if !(0.0..=LONGEST_ELAPSED).contains(&elapsed) {
            return Err(Refusal::Range);
        }
        let Some((first, last)) = first_missing else {
            return Ok(Asked::Nothing);
        };
        if self.asked == first && wait.is_none_or(|wait| elapsed < wait) {
            return Ok(Asked::Wait);
        }
        Ok(Asked::Request {
            first,
            count: (last.0 - first.0 + 1).min(MOST_ASKED) as u16,
            record: Record {
                asked: first,
                ..self
            },
        })
    }
}

/// A name that could not stand in a UFO accept is 5 or 6.
#[inline]
fn check_name(name: &Name) -> Result<(), Refusal> {
    text::padded_right(&name.0)?;
    text::not_blank(&name.0)
}
