//! Where taking refuses for what is held: too little room, and slots or areas that don't hang together.

mod common;

use common::desk::{waiting, Desk};
use common::{held, number, numbered, take_into, take_with, ufo_e, ufo_numbered, ufo_s};
use ordinary::clock::{Patience, Sheet};
use ordinary::held::{Held, AREA, LONGEST, SLOT};
use ordinary::kinds::Sequence;
use ordinary::record::Record;

#[test]
fn room_is_needed_for_the_released_messages_as_well() {
    let mut desk = Desk::ufo(1);
    desk.take(&ufo_numbered(2, 2));
    desk.take(&ufo_numbered(5, 1));
    let before = desk.area.clone();
    let mut take = |room| take_with(room, &mut desk.record, &mut desk.area, &ufo_numbered(1, 1));
    let due = numbered(1, 3);
    for room in [0, numbered(1, 1).len(), due.len() - 1] {
        assert_eq!(take(room), Err(9), "{room}");
    }
    assert_eq!(take(due.len()), Ok((due, 3)));
    assert!(desk.area == before);
    assert_eq!((desk.record.next.0, desk.record.held), (4, held(&[5])));
}

/// Datagrams that are refused otherwise, by the reader or by a record of which T is above 4, and with
/// which number.
fn refused_otherwise() -> Vec<(Vec<u8>, u8)> {
    vec![
        (vec![], 1),
        (vec![b'S'; 1473], 2),
        (b"X".to_vec(), 3),
        (b"S".to_vec(), 4),
        (b"JX".to_vec(), 5),
        (ufo_s(0, &[]), 6),
        (ufo_s(u32::MAX, &[b""]), 7),
        (b"JA".to_vec(), 16),
        (ufo_e(4), 12),
    ]
}

#[test]
fn full_slots_that_do_not_go_with_the_record_are_10_everywhere() {
    let given = Record {
        next: Sequence(3),
        top: Sequence(6),
        ..Desk::ufo(1).record
    };
    for number_held in 3..35 {
        let record = Record {
            held: held(&[number_held, 5]),
            ..given
        };
        let refusal = if (4..=6).contains(&number_held) {
            0
        } else {
            10
        };
        assert_eq!(number(record.check()), refusal, "{number_held}");
        assert_eq!(number(record.standing()), refusal);
        assert_eq!(number(record.missing()), refusal);
        let asked = record.ask(&Sheet::default(), &Patience::Never, 0.0);
        assert_eq!(number(asked), refusal);
        let asked = record.ask(&Sheet::default(), &Patience::Never, f64::NAN);
        assert_eq!(number(asked), if refusal == 10 { 10 } else { 15 });
        for (datagram, otherwise) in refused_otherwise() {
            let mut desk = Desk::over(record);
            for full in [number_held, 5] {
                desk.slot(full)[..2].fill(0);
            }
            let taken = take_into(&mut desk.record, &mut desk.area, &datagram);
            let expected = if refusal == 10 { 10 } else { otherwise };
            assert_eq!(taken, Err(expected), "{number_held}: {datagram:?}");
        }
    }
}

#[test]
fn nothing_can_be_held_where_nothing_is_known_past_the_next_number() {
    for (next, top) in [(1, 0), (7, 6), (6, 6)] {
        for slot in 0..32 {
            let record = Record {
                next: Sequence(next),
                top: Sequence(top),
                held: Held(1 << slot),
                ..Desk::ufo(1).record
            };
            assert_eq!(number(record.check()), 10, "{slot} with {next}");
        }
    }
}

#[test]
fn a_short_area_is_10_in_taking_before_the_readers_refusals() {
    let record = waiting(Desk::ufo(1).record, 5);
    for length in [0, 1, SLOT, AREA - SLOT, AREA - 1] {
        let others = refused_otherwise().into_iter();
        let datagrams = others.map(|(datagram, _)| datagram);
        for datagram in datagrams.chain([ufo_numbered(5, 1), ufo_numbered(6, 1)]) {
            let (mut record, mut area) = (record, vec![0; length]);
            let taken = take_into(&mut record, &mut area, &datagram);
            assert_eq!(taken, Err(10), "{length}");
        }
    }
}

#[test]
fn a_longer_area_has_something_behind_it_that_stays() {
    let mut record = waiting(Desk::ufo(1).record, 5);
    let mut area = vec![9; AREA + 100];
    take_into(&mut record, &mut area, &ufo_numbered(31, 6)).unwrap();
    assert_eq!(record.held, held(&[31, 32, 33, 34, 35, 36]));
    assert_eq!(area[AREA..], [9; 100]);
}

#[test]
fn a_full_slot_that_states_more_than_it_has_is_10_in_taking() {
    for (stated, refusal) in [(0, 0), (1469, 0), (1470, 0), (1471, 10), (65_535, 10)] {
        let mut desk = Desk::ufo(1);
        desk.hold(&ufo_numbered(2, 3), &[2, 3, 4]);
        desk.slot(3)[..2].copy_from_slice(&u16::to_be_bytes(stated));
        assert_eq!(number(desk.record.standing()), 0, "it has no area");
        for (datagram, otherwise) in refused_otherwise() {
            let taken = take_into(&mut desk.record, &mut desk.area, &datagram);
            // an end at 4 is no contradiction here
            let expected = match (refusal, otherwise) {
                (10, _) => Err(10),
                (_, 12) => Ok((vec![], 0)),
                _ => Err(otherwise),
            };
            assert_eq!(taken, expected, "{stated}");
        }
        let held = desk.slot(3)[..2 + usize::from(stated).min(LONGEST)].to_vec();
        let taken = take_into(&mut desk.record, &mut desk.area, &ufo_numbered(1, 1));
        let due = [numbered(1, 2), held, numbered(4, 1)].concat();
        let expected = if refusal == 0 { Ok((due, 4)) } else { Err(10) };
        assert_eq!(taken, expected, "{stated}");
    }
}
