//! Missing messages: the ranges of numbers that were neither delivered nor held.

use crate::held::Held;
use crate::kinds::Sequence;
use std::iter::FusedIterator;

/// Hands out one missing range after another, each as its first and its last number.
#[derive(Clone, Debug, PartialEq, Eq)]
pub struct Missing {
    /// The number that comes next, which is not held.
    next: u64,
    top: u64,
    /// What is held from there on, bit k standing for `next + k`.
    held: u32,
}

impl Missing {
    /// The ranges from the next number to the top.
    pub(crate) fn between(next: Sequence, top: Sequence, held: Held) -> Missing {
        Missing {
            next: next.0,
            top: top.0,
            held: held.seen_from(next.0),
        }
    }
}

impl Iterator for Missing {
    type Item = (Sequence, Sequence);

    fn next(&mut self) -> Option<Self::Item> {
        if self.next > self.top {
            return None;
        }
        let first = self.next;
        let last = if self.held == 0 {
            self.next = self.top + 1;
            self.top
        } else {
            let gap = self.held.trailing_zeros();
            let held = (self.held >> gap).trailing_ones();
            self.held = self.held >> gap >> held;
            self.next += u64::from(gap + held);
            first + u64::from(gap) - 1
        };
        Some((Sequence(first), Sequence(last)))
    }
}

impl FusedIterator for Missing {}
