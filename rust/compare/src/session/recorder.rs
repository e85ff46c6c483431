//! The recording end of a session, through both desks at once.

use super::{agreed, written, Heard};
use crate::both::{blank, both};
use crate::cases::taken;
use crate::limits::{AREA, LONGEST, SLOT};
use hinurapay::flat::{hp_patience, hp_record, hp_sheet};
use hinurapay::Blocks;
use std::collections::BTreeSet;

/// How patient it is.
const PATIENCE: hp_patience = hp_patience {
    rule: 2,
    first: 50.0,
    second: 200.0,
};

/// A record with its area, what was delivered to it, and how its requests went.
pub struct Recorder {
    record: hp_record,
    /// Lent with each datagram as it was left by the one before.
    area: Vec<u8>,
    /// The numbers that must be held, by what came.
    early: BTreeSet<u64>,
    /// The highest number that was told.
    top: u64,
    sheet: hp_sheet,
    /// Milliseconds since it asked last.
    elapsed: f64,
    /// The blocks that were delivered.
    pub tape: Vec<u8>,
    /// How many datagrams it took.
    pub taken: u64,
    /// How many requests it made.
    pub requests: u64,
    /// How many messages were held, and how many at most at one time.
    pub held: (u64, u64),
    /// How many messages came early and were too long to be held.
    pub too_long: u64,
    /// How many ranges were missing at most at one time.
    pub ranges: usize,
    /// How many numbers at most were published and not delivered.
    pub behind: u64,
}

impl Recorder {
    /// A recorder with a fresh record.
    pub fn opened(record: hp_record) -> Recorder {
        Recorder {
            record,
            area: vec![0xff; AREA],
            early: BTreeSet::new(),
            top: 0,
            sheet: hp_sheet::default(),
            elapsed: 0.0,
            tape: Vec::new(),
            taken: 0,
            requests: 0,
            held: (0, 0),
            too_long: 0,
            ranges: 0,
            behind: 0,
        }
    }

    /// Takes a datagram, which tells this, and times it where it answers a request.
    pub fn take(&mut self, datagram: &[u8], heard: &Heard) {
        let (record, sheet, elapsed) = (self.record, self.sheet, self.elapsed);
        // room for the packet and all held messages
        let held = slots(record.held).map(|slot| 2 + self.held_in(slot).len());
        let room = datagram.len() + held.sum::<usize>();
        let took = agreed(taken(record, &self.area, datagram, blank(room)));
        self.record = took.answer.record;
        self.area = took.area;
        self.tape.extend(written(took.out, took.answer.bytes));
        self.taken += 1;
        self.hear(heard, record.next);
        let (before, now) = (record.held, self.record.held);
        self.held.0 += u64::from((now & !before).count_ones());
        self.held.1 = self.held.1.max(now.count_ones().into());
        self.behind = self.behind.max(self.record.top + 1 - self.record.next);
        if took.answer.messages > 0 && record.asked != 0 && elapsed > 0.0 {
            let timed = both!(hp_time(sheet, elapsed));
            self.sheet = agreed(timed).answer.sheet;
        }
    }

    /// Works out what must be held after a datagram that told this, `next` having been the next number:
    /// what came early, is near, and is not too long, and was not delivered since.
    fn hear(&mut self, heard: &Heard, next: u64) {
        self.top = self.top.max(heard.top);
        if heard.first > next {
            let near = heard.first..next + 32;
            for (number, &length) in near.zip(&heard.lengths) {
                if length <= LONGEST {
                    self.early.insert(number);
                } else {
                    self.too_long += 1;
                }
            }
        }
        let next = self.record.next;
        self.early.retain(|&number| number >= next);
        assert!(!self.early.contains(&next), "{next} was held and is next");
    }

    /// The message in a slot.
    fn held_in(&self, slot: usize) -> &[u8] {
        let mut blocks = Blocks::over(&self.area[slot * SLOT..][..SLOT]);
        blocks
            .next()
            .expect("a slot has bytes")
            .expect("a whole block")
    }

    /// Whether the record is complete.
    pub fn complete(&self) -> bool {
        let record = self.record;
        let standing = both!(hp_standing_of(record));
        agreed(standing).answer.complete == 1
    }

    /// Lets some time go by and asks, where a request is due: from which number, and how many.
    pub fn ask(&mut self) -> Option<(u64, u64)> {
        self.elapsed = f64::min(self.elapsed + 40.0, 60_000.0);
        let (record, sheet, elapsed) = (self.record, self.sheet, self.elapsed);
        let asked = both!(hp_ask(record, sheet, PATIENCE, elapsed));
        let asked = agreed(asked).answer;
        self.record = asked.record;
        if asked.what != 2 {
            return None;
        }
        self.elapsed = 0.0;
        self.requests += 1;
        Some((asked.first, asked.count))
    }

    /// The missing ranges, as the record tells them one by one.
    fn missing(&self) -> Vec<(u64, u64)> {
        let record = self.record;
        let standing = agreed(both!(hp_standing_of(record))).answer;
        let range = |place: u64| {
            let range = agreed(both!(hp_missing_range(record, place))).answer;
            (range.first, range.last)
        };
        let told = u64::from(standing.missing);
        assert_eq!(range(0), (standing.first, standing.last));
        assert_eq!(range(told), (0, 0));
        (0..told).map(range).collect()
    }

    /// Holds the record against the log: past what is delivered just the numbers that must be held are,
    /// each with its message in its slot, and just the others are missing.
    pub fn check(&mut self, log: &[u8]) {
        let messages: Vec<_> = Blocks::over(log).map(Result::unwrap).collect();
        let delivered = Blocks::over(&self.tape).count() as u64;
        assert_eq!(self.record.next, delivered + 1);
        assert_eq!(self.record.top, self.top);
        let mut lacking = Vec::new();
        for number in delivered + 1..=self.top {
            let slot = (number % 32) as usize;
            let far = number - self.record.next;
            let full = far < 32 && self.record.held >> slot & 1 == 1;
            assert_eq!(full, self.early.contains(&number), "{number}");
            if full {
                assert_eq!(self.held_in(slot), messages[number as usize - 1]);
            } else {
                lacking.push(number);
            }
        }
        let ranges = lacking.chunk_by(|one, next| one + 1 == *next);
        let ranges: Vec<_> = ranges.map(|run| (run[0], run[run.len() - 1])).collect();
        assert_eq!(self.missing(), ranges);
        let held = u64::from(self.record.held.count_ones());
        assert_eq!(lacking.len() as u64 + held, self.top - delivered);
        self.ranges = self.ranges.max(ranges.len());
    }
}

/// The full slots.
fn slots(held: u32) -> impl Iterator<Item = usize> {
    (0..32).filter(move |slot| held >> slot & 1 == 1)
}
