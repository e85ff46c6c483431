//! Missing messages: the ranges of numbers that were neither delivered nor held.

use crate::flat::{hp_missing_range, hp_record};
use crate::kinds::Sequence;
use core::iter::FusedIterator;

/// Hands out one missing range after another, each as its first and its last number; see
/// [`Record::missing`](crate::Record::missing).
#[derive(Clone, Debug)]
pub struct Missing {
    record: hp_record,
    place: u64,
}

impl Missing {
    pub(crate) fn of(record: hp_record) -> Missing {
        Missing { record, place: 0 }
    }
}

impl Iterator for Missing {
    type Item = (Sequence, Sequence);

    fn next(&mut self) -> Option<Self::Item> {
        let range = hp_missing_range(self.record, self.place);
        if range.first == 0 {
            return None; // messages are counted from 1
        }
        self.place += 1;
        Some((Sequence(range.first), Sequence(range.last)))
    }
}

impl FusedIterator for Missing {}
