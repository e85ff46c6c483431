//! The session record: what a receiver has had, what it knows of, and what it lacks.

use crate::area::Area;
use crate::clock::{Patience, Sheet};
use crate::flat::{hp_ask, hp_open_memx, hp_open_ufo, hp_record, hp_standing_of, hp_take};
use crate::kinds::{Name, Sequence, SessionId};
use crate::memx;
use crate::missing::Missing;
use crate::refusal::{taken, Refusal};

/// What is known of one session. It is changed where it lies, and only where nothing is refused.
///
/// ```
/// use hinurapay::{Area, Asked, Name, Patience, Record, Sequence, Sheet};
///
/// let mut record = Record::open_ufo(Name(*b"8841      "))?;
/// let mut area = Area::new();
/// let mut out = [0; 1472];
/// // messages 1 and 2, "HI" and an empty one
/// let taken = record.take(&mut area, b"S\0\0\0\x01\0\x02\0\x02HI\0\0", &mut out)?;
/// assert_eq!((taken.messages, taken.blocks), (2, &b"\0\x02HI\0\0"[..]));
/// assert_eq!((record.next(), record.top()), (Sequence(3), Sequence(2)));
///
/// // a heartbeat that names 5 as the next: 3 and 4 are missing
/// record.take(&mut area, b"S\0\0\0\x05\0\0", &mut out)?;
/// let asked = record.ask(&Sheet::default(), &Patience::Never, 0.0)?;
/// assert_eq!(asked, Asked::Request { first: Sequence(3), count: 2 });
/// # Ok::<(), hinurapay::Refusal>(())
/// ```
#[derive(Clone, Copy, Debug, PartialEq)]
pub struct Record(hp_record);

/// What taking a datagram delivered.
#[derive(Clone, Copy, Debug, PartialEq, Eq)]
pub struct Taken<'a> {
    /// How many messages.
    pub messages: u64,
    /// Their blocks, which stand at the output's start.
    pub blocks: &'a [u8],
}

/// How a record stands.
#[derive(Clone, Copy, Debug, PartialEq, Eq)]
pub struct Standing {
    /// Whether the end was heard and every message was delivered.
    pub complete: bool,
    /// How many ranges of numbers are missing; [`Record::missing`] hands them out.
    pub missing: usize,
    /// The first and the last number of the first range, if any is missing.
    pub first: Option<(Sequence, Sequence)>,
}

/// What to ask now.
#[derive(Clone, Copy, Debug, PartialEq, Eq)]
pub enum Asked {
    /// Nothing is missing.
    Nothing,
    /// Something is missing that was asked for already: wait.
    Wait,
    /// Ask.
    Request {
        /// The first number wanted.
        first: Sequence,
        /// How many are wanted.
        count: u16,
    },
}

impl Record {
    /// Output enough for whatever one datagram can deliver to a record of either style;
    /// [`ufo::ROOM`](crate::ufo::ROOM) is less, and enough for UFO.
    pub const ROOM: usize = memx::ROOM;

    /// A fresh record of a UFO session; 5 or 6 for a name that could not stand in `A`.
    pub fn open_ufo(name: Name) -> Result<Record, Refusal> {
        let opened = hp_open_ufo(&name.0);
        taken(opened.refusal, Record(opened.record))
    }

    /// A fresh record of a MEMX-UDP session.
    pub fn open_memx(session: SessionId) -> Record {
        Record(hp_open_memx(session.0).record)
    }

    /// A record that was kept, as [`Record::flat`] gave it; 10 if it doesn't hang together. Where it
    /// holds messages, its [`Area`] is to be kept with it.
    ///
    /// ```
    /// use hinurapay::{Record, Refusal, SessionId};
    ///
    /// let record = Record::open_memx(SessionId(7));
    /// let mut kept = record.flat();
    /// assert_eq!(Record::resumed(kept), Ok(record));
    /// kept.next = 0;
    /// assert_eq!(Record::resumed(kept), Err(Refusal::Broken));
    /// ```
    pub fn resumed(kept: hp_record) -> Result<Record, Refusal> {
        taken(hp_standing_of(kept).refusal, Record(kept))
    }

    /// The record as the C face has it, to be kept.
    pub fn flat(&self) -> hp_record {
        self.0
    }

    /// The number of the next message to be delivered.
    pub fn next(&self) -> Sequence {
        Sequence(self.0.next)
    }

    /// The highest number known to be published.
    pub fn top(&self) -> Sequence {
        Sequence(self.0.top)
    }

    /// Whether the end was heard.
    pub fn ended(&self) -> bool {
        self.0.ended == 1
    }

    /// The number last asked from, if any.
    pub fn asked(&self) -> Option<Sequence> {
        (self.0.asked != 0).then_some(Sequence(self.0.asked))
    }

    /// Which slots of its area hold messages that came early: bit i is 1 where slot i does.
    pub fn held(&self) -> u32 {
        self.0.held
    }

    /// Takes a datagram: delivers the blocks that are next into the output, and behind them those that
    /// were held for it, and holds early ones in the area. An early message of over [`Area::LONGEST`]
    /// bytes is not held: it is known of and missing, and delivered when it comes again and is next.
    /// Refused: 10 for an area that can't be the record's own, then the reader's refusals, 16, 11, 12, 9.
    /// [`Record::ROOM`] bytes of output are never too few.
    ///
    /// ```
    /// use hinurapay::memx::{write, Packet};
    /// use hinurapay::{Area, Record, Sequence, SessionId};
    ///
    /// let session = SessionId(7);
    /// let mut record = Record::open_memx(session);
    /// let (mut area, mut out) = (Area::new(), [0; Record::ROOM]);
    /// let (mut first, mut second) = ([0; 22], [0; 1493]);
    /// let packet = |first, blocks| Packet::Sequenced { session, first, count: 1, extra: b"", blocks };
    /// write(&packet(Sequence(1), b"\0\0"), &mut first)?; // message 1 is empty
    /// let mut long = [b'x'; 2 + 1471]; // and message 2 has 1,471 bytes
    /// long[..2].copy_from_slice(&1471_u16.to_be_bytes());
    /// write(&packet(Sequence(2), &long), &mut second)?;
    ///
    /// // message 2 comes early, is too long for a slot, and is missing still
    /// record.take(&mut area, &second, &mut out)?;
    /// assert_eq!((record.top(), record.held()), (Sequence(2), 0));
    /// assert!(record.missing().eq([(Sequence(1), Sequence(2))]));
    /// // after message 1 it is the next, and when it comes again it is delivered
    /// record.take(&mut area, &first, &mut out)?;
    /// assert_eq!(record.take(&mut area, &second, &mut out)?.blocks, long);
    /// assert_eq!(record.next(), Sequence(3));
    /// # Ok::<(), hinurapay::Refusal>(())
    /// ```
    #[inline]
    pub fn take<'a>(
        &mut self,
        area: &mut Area,
        datagram: &[u8],
        out: &'a mut [u8],
    ) -> Result<Taken<'a>, Refusal> {
        let took = hp_take(self.0, &mut area.0, datagram, out);
        taken(took.refusal, ())?;
        self.0 = took.record;
        Ok(Taken {
            messages: took.messages,
            blocks: &out[..took.bytes as usize],
        })
    }

    /// Whether the record is complete, and what is missing.
    ///
    /// ```
    /// use hinurapay::{Area, Name, Record, Sequence};
    ///
    /// let mut record = Record::open_ufo(Name(*b"8841      "))?;
    /// record.take(&mut Area::new(), b"E\0\0\0\x02", &mut [])?; // the end, after two messages
    /// let standing = record.standing()?;
    /// assert_eq!(standing.missing, 1);
    /// assert_eq!(standing.first, Some((Sequence(1), Sequence(2))));
    /// assert!(!standing.complete);
    /// # Ok::<(), hinurapay::Refusal>(())
    /// ```
    pub fn standing(&self) -> Result<Standing, Refusal> {
        let standing = hp_standing_of(self.0);
        let first = (Sequence(standing.first), Sequence(standing.last));
        let answer = Standing {
            complete: standing.complete == 1,
            missing: standing.missing.into(),
            first: (standing.missing != 0).then_some(first),
        };
        taken(standing.refusal, answer)
    }

    /// Every range of numbers that is missing, from the first on.
    ///
    /// ```
    /// use hinurapay::{Area, Record, Sequence, SessionId};
    ///
    /// let mut record = Record::open_memx(SessionId(7));
    /// // of session 7 message 3, which is empty, and a heartbeat: 5 is the highest number
    /// let third = b"\x02\x12\0\0\0\0\0\0\0\x07\0\0\0\0\0\0\0\x03\0\x01\0\0";
    /// let heartbeat = b"\0\x12\0\0\0\0\0\0\0\x07\0\0\0\0\0\0\0\x05";
    /// let mut area = Area::new();
    /// record.take(&mut area, third, &mut [])?;
    /// record.take(&mut area, heartbeat, &mut [])?;
    /// let ranges = [(Sequence(1), Sequence(2)), (Sequence(4), Sequence(5))];
    /// assert!(record.missing().eq(ranges));
    /// # Ok::<(), hinurapay::Refusal>(())
    /// ```
    pub fn missing(&self) -> Missing {
        Missing::of(self.0)
    }

    /// What to ask now, `elapsed` milliseconds after asking last; a request names the first range that
    /// is missing, or its first 65,535 numbers. Refused: 10 for the sheet, then 15 for the
    /// patience, or for a time outside 0 to 86,400,000 or not a number.
    pub fn ask(
        &mut self,
        sheet: &Sheet,
        patience: &Patience,
        elapsed: f64,
    ) -> Result<Asked, Refusal> {
        let asked = hp_ask(self.0, sheet.flat(), patience.flat(), elapsed);
        taken(asked.refusal, ())?;
        self.0 = asked.record;
        Ok(match asked.what {
            0 => Asked::Nothing,
            1 => Asked::Wait,
            _ => Asked::Request {
                first: Sequence(asked.first),
                count: asked.count as u16,
            },
        })
    }
}
