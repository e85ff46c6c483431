//! The flat face of the session record.

use super::{flag, hp_patience, hp_sheet, number};
use crate::held::Held;
use crate::kinds::{Name, Sequence, SessionId};
use crate::record::{Asked, Record, Session};
use crate::refusal::Refusal;

/// A session record.
#[repr(C)]
#[derive(Clone, Copy, Debug, Default, PartialEq, Eq)]
pub struct hp_record {
    /// 1 UFO, 2 MEMX-UDP; another is 10.
    pub style: u8,
    /// 0 or 1; another is 10.
    pub ended: u8,
    /// UFO: the session's bytes. MEMX-UDP: not looked at, and kept.
    pub name: [u8; 10],
    /// MEMX-UDP: the session's number. UFO: not looked at, and kept.
    pub session: u64,
    /// The number of the next message to be delivered.
    pub next: u64,
    /// The highest number known to be published.
    pub top: u64,
    /// The number last asked from, 0 if none.
    pub asked: u64,
    /// Bit i is 1 where slot i of the held area is full.
    pub held: u32,
}

impl hp_record {
    /// The record, if its style and flag are known; else 10.
    fn record(&self) -> Result<Record, Refusal> {
        let session = match self.style {
            1 => Session::Ufo(Name(self.name)),
            2 => Session::Memx(SessionId(self.session)),
            _ => return Err(Refusal::Broken),
        };
        Ok(Record {
            session,
            next: Sequence(self.next),
            top: Sequence(self.top),
            ended: flag(self.ended)?,
            asked: Sequence(self.asked),
            held: Held(self.held),
        })
    }

    /// The record as it was given, with what has changed since.
    fn changed(self, after: &Record) -> hp_record {
        hp_record {
            ended: u8::from(after.ended),
            next: after.next.0,
            top: after.top.0,
            asked: after.asked.0,
            held: after.held.0,
            ..self
        }
    }

    /// The flat form of a record that was just opened.
    fn opened(record: &Record) -> hp_record {
        let session = match record.session {
            Session::Ufo(name) => hp_record {
                style: 1,
                name: name.0,
                ..hp_record::default()
            },
            Session::Memx(session) => hp_record {
                style: 2,
                session: session.0,
                ..hp_record::default()
            },
        };
        session.changed(record)
    }
}

/// A record that was opened; on a refusal a record of zeros.
#[repr(C)]
#[derive(Clone, Copy, Debug, Default, PartialEq, Eq)]
pub struct hp_opened {
    /// 0 or why it was refused.
    pub refusal: u64,
    /// The fresh record.
    pub record: hp_record,
}

/// What taking a datagram gave.
#[repr(C)]
#[derive(Clone, Copy, Debug, Default, PartialEq, Eq)]
pub struct hp_taken {
    /// 0 or why it was refused.
    pub refusal: u64,
    /// How many bytes were delivered.
    pub bytes: u64,
    /// How many messages they are.
    pub messages: u64,
    /// The record afterwards.
    pub record: hp_record,
}

/// How a record stands.
#[repr(C)]
#[derive(Clone, Copy, Debug, Default, PartialEq, Eq)]
pub struct hp_standing {
    /// 0 or why it was refused.
    pub refusal: u64,
    /// 1 where the end was heard and every message was delivered.
    pub complete: u8,
    /// How many ranges are missing.
    pub missing: u8,
    /// The first number of the first of them, 0 where there is none.
    pub first: u64,
    /// Its last number, 0 where there is none.
    pub last: u64,
}

/// A missing range.
#[repr(C)]
#[derive(Clone, Copy, Debug, Default, PartialEq, Eq)]
pub struct hp_range {
    /// 0 or why it was refused.
    pub refusal: u64,
    /// Its first number, 0 where there is no such range.
    pub first: u64,
    /// Its last number, 0 where there is no such range.
    pub last: u64,
}

/// What to ask now.
#[repr(C)]
#[derive(Clone, Copy, Debug, Default, PartialEq, Eq)]
pub struct hp_asked {
    /// 0 or why it was refused.
    pub refusal: u64,
    /// 0 nothing, 1 wait, 2 request.
    pub what: u8,
    /// The first number wanted.
    pub first: u64,
    /// How many are wanted.
    pub count: u64,
    /// The record afterwards.
    pub record: hp_record,
}

/// Opens a record of a UFO session; its `session` is 0.
pub fn hp_open_ufo(name: &[u8; 10]) -> hp_opened {
    match Record::open_ufo(Name(*name)) {
        Ok(record) => hp_opened {
            refusal: 0,
            record: hp_record::opened(&record),
        },
        Err(refusal) => hp_opened {
            refusal: number(refusal),
            ..hp_opened::default()
        },
    }
}

/// Opens a record of a MEMX-UDP session; its `name` is zeros.
pub fn hp_open_memx(session: u64) -> hp_opened {
    hp_opened {
        refusal: 0,
        record: hp_record::opened(&Record::open_memx(SessionId(session))),
    }
}

/// Takes a datagram, delivers what is next, and holds what is early in the area.
pub fn hp_take(record: hp_record, area: &mut [u8], datagram: &[u8], out: &mut [u8]) -> hp_taken {
    let given = record.record();
    match given.and_then(|given| given.take(area, datagram, out)) {
        Ok(taken) => hp_taken {
            refusal: 0,
            bytes: taken.bytes as u64,
            messages: taken.messages,
            record: record.changed(&taken.record),
        },
        Err(refusal) => hp_taken {
            refusal: number(refusal),
            record,
            ..hp_taken::default()
        },
    }
}

/// Whether a record is complete, and what is missing.
pub fn hp_standing_of(record: hp_record) -> hp_standing {
    match record.record().and_then(|given| given.standing()) {
        Ok(standing) => {
            let (first, last) = standing.first.unwrap_or_default();
            hp_standing {
                refusal: 0,
                complete: u8::from(standing.complete),
                missing: standing.missing as u8,
                first: first.0,
                last: last.0,
            }
        }
        Err(refusal) => hp_standing {
            refusal: number(refusal),
            ..hp_standing::default()
        },
    }
}

/// The missing range at that place, counted from 0.
pub fn hp_missing_range(record: hp_record, place: u64) -> hp_range {
    match record.record().and_then(|given| given.missing()) {
        Ok(mut ranges) => {
            let place = usize::try_from(place).unwrap_or(usize::MAX);
            let (first, last) = ranges.nth(place).unwrap_or_default();
            hp_range {
                refusal: 0,
                first: first.0,
                last: last.0,
            }
        }
        Err(refusal) => hp_range {
            refusal: number(refusal),
            ..hp_range::default()
        },
    }
}

/// What to ask now, given how long ago the last request was.
pub fn hp_ask(record: hp_record, sheet: hp_sheet, patience: hp_patience, elapsed: f64) -> hp_asked {
    let asked = || {
        let given = record.record()?;
        let sheet = sheet.sheet()?;
        given.check()?;
        sheet.check()?;
        // every 10 comes before the 15 of a rule that there is not
        given.ask(&sheet, &patience.rule()?, elapsed)
    };
    let nothing = hp_asked {
        record,
        ..hp_asked::default()
    };
    match asked() {
        Ok(Asked::Nothing) => nothing,
        Ok(Asked::Wait) => hp_asked { what: 1, ..nothing },
        Ok(Asked::Request {
            first,
            count,
            record: after,
        }) => hp_asked {
            refusal: 0,
            what: 2,
            first: first.0,
            count: u64::from(count),
            record: record.changed(&after),
        },
        Err(refusal) => hp_asked {
            refusal: number(refusal),
            ..nothing
        },
    }
}
