//! A record with its area, for the tests of what comes early.

use super::{area, held, take_into};
use ordinary::clock::{Patience, Sheet};
use ordinary::held::SLOT;
use ordinary::kinds::{Name, Sequence, SessionId};
use ordinary::record::{Asked, Record};

/// A record, and the area that it was always lent.
pub struct Desk {
    pub record: Record,
    pub area: Vec<u8>,
}

impl Desk {
    pub fn over(record: Record) -> Desk {
        let area = area();
        Desk { record, area }
    }

    /// A UFO record that waits for this number, and knows of those up to one less.
    pub fn ufo(next: u64) -> Desk {
        let fresh = Record::open_ufo(Name(*b"8841      ")).unwrap();
        Desk::over(waiting(fresh, next))
    }

    /// The same of MEMX-UDP session 7.
    pub fn memx(next: u64) -> Desk {
        Desk::over(waiting(Record::open_memx(SessionId(7)), next))
    }

    /// Takes a datagram that is not refused; what it delivers.
    pub fn take(&mut self, datagram: &[u8]) -> Vec<u8> {
        let before = self.record.next.0;
        let (tape, messages) = take_into(&mut self.record, &mut self.area, datagram).unwrap();
        assert_eq!(self.record.next.0 - before, messages);
        assert_eq!(self.record.check(), Ok(()));
        tape
    }

    /// Takes an early datagram, which delivers nothing and leaves just these numbers held.
    pub fn hold(&mut self, datagram: &[u8], numbers: &[u64]) {
        assert!(self.take(datagram).is_empty());
        assert_eq!(self.record.held, held(numbers));
    }

    /// The bytes of a message's slot.
    pub fn slot(&mut self, number: u64) -> &mut [u8] {
        &mut self.area[(number % 32) as usize * SLOT..][..SLOT]
    }

    /// The request that is due, and its count.
    pub fn request(&self) -> (u64, u16) {
        match self.record.ask(&Sheet::default(), &Patience::Never, 0.0) {
            Ok(Asked::Request { first, count, .. }) => (first.0, count),
            other => panic!("{other:?}"),
        }
    }
}

/// The record, waiting for this number and knowing of those up to one less.
pub fn waiting(record: Record, next: u64) -> Record {
    Record {
        next: Sequence(next),
        top: Sequence(next - 1),
        ..record
    }
}
