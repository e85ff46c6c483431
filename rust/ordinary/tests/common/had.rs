//! What a recorder must have by now, and what it must lack, whatever came in which order.

use super::held;
use ordinary::record::Record;
use std::collections::BTreeSet;

/// Every missing range of a record.
pub fn ranges(record: &Record) -> Vec<(u64, u64)> {
    let ranges = record.missing().unwrap();
    ranges.map(|(first, last)| (first.0, last.0)).collect()
}

/// Which messages a recorder must have by now, delivered or held, worked out number by number from
/// what arrived.
pub struct Had {
    numbers: BTreeSet<u64>,
    /// Which messages are too long to be held.
    too_long: fn(u64) -> bool,
    /// The number of the next message to be delivered.
    pub next: u64,
    /// The highest number known to be published.
    pub top: u64,
}

impl Had {
    /// Nothing from that number on.
    pub fn nothing_from(next: u64) -> Had {
        Had {
            numbers: BTreeSet::new(),
            too_long: |_| false,
            next,
            top: next - 1,
        }
    }

    /// The same where these messages are too long to be held.
    pub fn but_for(self, too_long: fn(u64) -> bool) -> Had {
        Had { too_long, ..self }
    }

    /// So many messages arrive, from `first` on; none of them if it is a heartbeat or an end.
    pub fn arrive(&mut self, first: u64, count: u64) {
        let after = first + count;
        self.top = self.top.max(after - 1);
        if first <= self.next {
            self.next = self.next.max(after);
        } else {
            let near = (first..after).take_while(|number| number - self.next <= 31);
            let short = near.filter(|&number| !(self.too_long)(number));
            self.numbers.extend(short);
        }
        while self.numbers.contains(&self.next) {
            self.next += 1;
        }
    }

    /// The numbers that are held.
    pub fn held(&self) -> Vec<u64> {
        let held = self.numbers.iter().copied();
        held.filter(|&number| number > self.next).collect()
    }

    /// The ranges that are missing.
    pub fn missing(&self) -> Vec<(u64, u64)> {
        let mut ranges: Vec<(u64, u64)> = Vec::new();
        let mut from = self.next;
        for held in self.held() {
            if held > from {
                ranges.push((from, held - 1));
            }
            from = held + 1;
        }
        if from <= self.top {
            ranges.push((from, self.top));
        }
        ranges
    }
}

/// Asks that a record has delivered and holds just what it should have, and that all else is
/// missing.
pub fn has_just(record: &Record, had: &Had) {
    assert_eq!((record.next.0, record.top.0), (had.next, had.top));
    assert_eq!(record.held, held(&had.held()));
    let missing = had.missing();
    let standing = record.standing().unwrap();
    assert_eq!(ranges(record), missing);
    assert_eq!(standing.missing, missing.len());
    assert_eq!(standing.complete, record.ended && missing.is_empty());
}
