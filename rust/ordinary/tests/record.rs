//! The session record: what hangs together, what is taken, and when to ask.

mod common;

use common::{
    area, extended, held, memx, memx_data, number, numbered, take_into, ufo_e, ufo_numbered, ufo_s,
};
use ordinary::clock::{Patience, Sheet};
use ordinary::held::Held;
use ordinary::kinds::{Name, Sequence, SessionId};
use ordinary::record::{Asked, Delivered, Record, Session, Standing};
use ordinary::refusal::Refusal;

const NAME: Name = Name(*b"8841      ");
const UFO: Session = Session::Ufo(NAME);
const MEMX: Session = Session::Memx(SessionId(7));

fn record(session: Session, next: u64, top: u64, ended: bool, asked: u64) -> Record {
    Record {
        session,
        next: Sequence(next),
        top: Sequence(top),
        ended,
        asked: Sequence(asked),
        held: Held::default(),
    }
}

/// Takes a datagram with room to spare: the record afterwards and what was delivered.
fn take(mut record: Record, datagram: &[u8]) -> Result<(Record, Vec<u8>, u64), u8> {
    let (tape, messages) = take_into(&mut record, &mut area(), datagram)?;
    Ok((record, tape, messages))
}

#[test]
fn opening() {
    assert_eq!(Record::open_ufo(NAME), Ok(record(UFO, 1, 0, false, 0)));
    for (name, refusal) in [
        (b" 8841     ", 5),
        (b"88.41     ", 5),
        (b"\0\0\0\0\0\0\0\0\0\0", 5),
        (b"          ", 6),
    ] {
        assert_eq!(number(Record::open_ufo(Name(*name))), refusal);
    }
    let opened = Record::open_memx(SessionId(7));
    assert_eq!(opened, record(MEMX, 1, 0, false, 0));
}

#[test]
fn a_record_that_does_not_hang_together_is_10() {
    let highest_ufo = u64::from(u32::MAX) - 1;
    let bad_name = Session::Ufo(Name(*b" 8841     "));
    let blank_name = Session::Ufo(Name(*b"          "));
    for broken in [
        record(UFO, 0, 0, false, 0),
        record(UFO, 2, 0, false, 0),
        record(UFO, 7, 5, true, 0),
        record(UFO, 3, 5, false, 4),
        record(UFO, 1, highest_ufo + 1, false, 0),
        record(MEMX, 1, u64::MAX, false, 0),
        record(MEMX, 0, u64::MAX, false, 0),
        record(MEMX, 0, 0, false, 0),
        record(bad_name, 1, 0, false, 0),
        record(blank_name, 1, 0, false, 0),
    ] {
        assert_eq!(number(broken.check()), 10, "{broken:?}");
        assert_eq!(number(broken.standing()), 10);
        assert_eq!(take(broken, b""), Err(10));
        assert_eq!(take(broken, &ufo_e(5)), Err(10));
        let nan = Patience::Fixed(f64::NAN);
        let asked = broken.ask(&Sheet::default(), &nan, f64::NAN);
        assert_eq!(number(asked), 10);
    }
    for sound in [
        record(UFO, 1, 0, true, 1),
        record(UFO, highest_ufo + 1, highest_ufo, true, highest_ufo + 1),
        record(MEMX, u64::MAX, u64::MAX - 1, false, 0),
        record(MEMX, 1, highest_ufo + 1, false, 0),
    ] {
        assert_eq!(sound.check(), Ok(()), "{sound:?}");
    }
}

#[test]
fn the_readers_refusals_come_through() {
    let fresh = record(UFO, 1, 0, false, 0);
    let broadcast = record(MEMX, 1, 0, false, 0);
    for (datagram, ufo, memx_udp) in [
        (vec![], 1, 1),
        (vec![b'S'; 1473], 2, 3),
        (vec![2; 8972], 2, 5),
        (vec![2; 8973], 2, 2),
        (b"X".to_vec(), 3, 3),
        (b"S".to_vec(), 4, 3),
        (vec![2], 3, 4),
        (b"JX".to_vec(), 5, 3),
        (ufo_s(0, &[]), 6, 3),
        (memx_data(7, 0, &[b""]), 3, 6),
        (ufo_s(u32::MAX, &[b""]), 7, 3),
        (memx(0, 7, u64::MAX), 3, 7),
        (
            extended(&memx_data(7, 1, &[b""]), b"!")[..22].to_vec(),
            3,
            4,
        ),
        ([&[0, 17], &[0; 17][..]].concat(), 3, 5),
        (extended(&memx_data(7, 0, &[b""]), b"!"), 3, 6),
        (extended(&memx(1, 7, u64::MAX), b"!"), 3, 7),
    ] {
        assert_eq!(take(fresh, &datagram), Err(ufo), "{datagram:?}");
        assert_eq!(take(broadcast, &datagram), Err(memx_udp), "{datagram:?}");
    }
}

#[test]
fn accept_and_reject_are_not_for_the_record() {
    let fresh = record(UFO, 1, 0, false, 0);
    let accept = [b"A", &NAME.0[..], &[0, 0, 0, 1]].concat();
    assert_eq!(take(fresh, &accept), Err(16));
    assert_eq!(take(fresh, b"JA"), Err(16));
}

#[test]
fn another_session_is_11_before_any_contradiction() {
    let ended = record(MEMX, 3, 5, true, 0);
    assert_eq!(take(ended, &memx(1, 8, 4)), Err(11));
    assert_eq!(take(ended, &memx(0, 8, 6)), Err(11));
    assert_eq!(take(ended, &memx_data(8, 6, &[b"a"])), Err(11));
    assert_eq!(take(ended, &memx(1, 8, u64::MAX)), Err(7));
    assert_eq!(take(ended, &extended(&memx(1, 8, 4), b"!")), Err(11));
}

#[test]
fn contradictions() {
    let running = record(UFO, 3, 5, false, 0);
    let ended = record(UFO, 3, 5, true, 0);
    assert_eq!(take(running, &ufo_e(4)), Err(12));
    assert_eq!(take(ended, &ufo_e(4)), Err(12));
    assert_eq!(take(ended, &ufo_e(6)), Err(12));
    assert_eq!(take(ended, &ufo_s(7, &[])), Err(12));
    assert_eq!(take(ended, &ufo_numbered(6, 1)), Err(12));
    assert_eq!(take(ended, &ufo_numbered(3, 4)), Err(12));
    assert_eq!(take(ended, &ufo_e(5)), Ok((ended, vec![], 0)));
    assert_eq!(take(ended, &ufo_s(6, &[])), Ok((ended, vec![], 0)));

    let ended = record(MEMX, 3, 5, true, 0);
    assert_eq!(take(ended, &memx(0, 7, 6)), Err(12));
    assert_eq!(take(ended, &memx(1, 7, 4)), Err(12));
    assert_eq!(take(ended, &memx(1, 7, 6)), Err(12));
    assert_eq!(take(ended, &memx_data(7, 6, &[b"a"])), Err(12));
    assert_eq!(take(ended, &extended(&memx(0, 7, 6), b"!")), Err(12));
    assert_eq!(take(ended, &memx(0, 7, 5)), Ok((ended, vec![], 0)));
}

#[test]
fn contradiction_comes_before_room() {
    let ended = record(UFO, 3, 5, true, 0);
    let taken = ended.take(&mut area(), &ufo_numbered(3, 4), &mut []);
    assert_eq!(taken, Err(Refusal::Contradiction));
    let taken = ended.take(&mut area(), &ufo_numbered(3, 3), &mut []);
    assert_eq!(taken, Err(Refusal::Room));
}

#[test]
fn heartbeats_and_ends_move_the_top_only() {
    let given = record(UFO, 3, 5, false, 2);
    for (datagram, top, ended) in [
        (ufo_s(1, &[]), 5, false),
        (ufo_s(6, &[]), 5, false),
        (ufo_s(7, &[]), 6, false),
        (ufo_s(u32::MAX, &[]), 4_294_967_294, false),
        (ufo_e(5), 5, true),
        (ufo_e(9), 9, true),
    ] {
        let after = record(UFO, 3, top, ended, 2);
        assert_eq!(take(given, &datagram), Ok((after, vec![], 0)));
    }
    let given = record(MEMX, 3, 5, false, 2);
    for (datagram, top, ended) in [
        (memx(0, 7, 0), 5, false),
        (memx(0, 7, 6), 6, false),
        (memx(1, 7, 5), 5, true),
        (memx(1, 7, u64::MAX - 1), u64::MAX - 1, true),
        (extended(&memx(0, 7, 6), &[0; 237]), 6, false),
        (extended(&memx(1, 7, 5), b"\0\0\0\0\0\0\0\x09"), 5, true),
    ] {
        let after = record(MEMX, 3, top, ended, 2);
        assert_eq!(take(given, &datagram), Ok((after, vec![], 0)));
    }
}

#[test]
fn data_before_at_and_after_the_next_number() {
    let given = record(UFO, 5, 6, false, 5);
    for (first, count, delivered, next, top, early) in [
        (1, 4, None, 5, 6, &[][..]),
        (1, 5, Some((5, 1)), 6, 6, &[]),
        (4, 1, None, 5, 6, &[]),
        (4, 2, Some((5, 1)), 6, 6, &[]),
        (2, 6, Some((5, 3)), 8, 7, &[]),
        (5, 1, Some((5, 1)), 6, 6, &[]),
        (5, 9, Some((5, 9)), 14, 13, &[]),
        (6, 1, None, 5, 6, &[6]),
        (6, 4, None, 5, 9, &[6, 7, 8, 9]),
    ] {
        let after = Record {
            held: held(early),
            ..record(UFO, next, top, false, 5)
        };
        let (bytes, messages) = delivered.map_or((vec![], 0), |(first, count)| {
            (numbered(first, count), u64::from(count))
        });
        assert_eq!(
            take(given, &ufo_numbered(first, count)),
            Ok((after, bytes, messages)),
            "{count} from {first}"
        );
    }
}

#[test]
fn a_longer_header_is_skipped_and_the_blocks_are_delivered_from_the_next_number_on() {
    let texts: Vec<String> = (1..=9).map(|number| format!("message {number}")).collect();
    let messages: Vec<&[u8]> = texts.iter().map(|text| text.as_bytes()).collect();
    let given = record(MEMX, 5, 6, false, 5);
    // extra bytes that no field could have, and such as look like a count and blocks
    for extra in [
        &b"!"[..],
        b"\0\x01",
        b"\0\x02\0\0\0\0",
        &[0xff; 237],
        &[0; 237],
    ] {
        for (first, count, delivered, top, early) in [
            (1, 4, 5..5, 6, &[][..]),
            (1, 5, 5..6, 6, &[]),
            (2, 6, 5..8, 7, &[]),
            (5, 1, 5..6, 6, &[]),
            (5, 5, 5..10, 9, &[]),
            (6, 1, 5..5, 6, &[6]),
            (6, 4, 5..5, 9, &[6, 7, 8, 9]),
        ] {
            let sent = &messages[first - 1..first - 1 + count];
            let datagram = extended(&memx_data(7, first as u64, sent), extra);
            let due = common::blocks(&messages[delivered.start - 1..delivered.end - 1]);
            let after = Record {
                held: held(early),
                ..record(MEMX, delivered.end as u64, top, false, 5)
            };
            let had = delivered.len() as u64;
            assert_eq!(
                take(given, &datagram),
                Ok((after, due, had)),
                "{count} from {first} behind {extra:?}"
            );
        }
    }
}

#[test]
fn a_longer_header_needs_no_room() {
    let datagram = extended(&memx_data(7, 1, &[b"had", b"two", b"three"]), &[0xff; 100]);
    needs_the_room_of_two_and_three(record(MEMX, 2, 3, false, 0), &datagram);
}

/// The record takes the datagram, which delivers it "two" and "three", in just the room for these,
/// and not in a byte less.
fn needs_the_room_of_two_and_three(given: Record, datagram: &[u8]) {
    let due = common::blocks(&[b"two", b"three"]);
    let mut tape = vec![0xee; due.len() - 1];
    let refused = given.take(&mut area(), datagram, &mut tape);
    assert_eq!(refused, Err(Refusal::Room));
    assert!(tape.iter().all(|&byte| byte == 0xee));
    tape.push(0xee);
    let taken = given.take(&mut area(), datagram, &mut tape).unwrap();
    assert_eq!((taken.bytes, taken.messages), (due.len(), 2));
    assert_eq!(tape, due);
}

#[test]
fn the_last_numbers_are_delivered() {
    let last = u64::from(u32::MAX) - 1;
    let given = record(UFO, last, last, true, 0);
    let datagram = ufo_s(u32::MAX - 1, &[b"last"]);
    let after = record(UFO, last + 1, last, true, 0);
    assert_eq!(
        take(given, &datagram),
        Ok((after, b"\0\x04last".to_vec(), 1))
    );

    let last = u64::MAX - 1;
    let given = record(MEMX, last - 1, last, false, 0);
    let datagram = memx_data(7, last - 1, &[b"", b"!"]);
    let after = record(MEMX, last + 1, last, false, 0);
    assert_eq!(
        take(given, &datagram),
        Ok((after, b"\0\0\0\x01!".to_vec(), 2))
    );
}

#[test]
fn room_is_compared_with_what_is_delivered() {
    let given = record(UFO, 2, 3, false, 0);
    let datagram = ufo_s(1, &[b"long and had already", b"two", b"three"]);
    needs_the_room_of_two_and_three(given, &datagram);
    // what delivers nothing needs no room
    let late = given.take(&mut area(), &ufo_numbered(1, 1), &mut []);
    let late = late.unwrap();
    assert_eq!((late.bytes, late.record), (0, given));
    let early = given.take(&mut area(), &ufo_numbered(3, 1), &mut []);
    let early = early.unwrap();
    assert_eq!((early.bytes, early.record.held), (0, held(&[3])));
}

#[test]
fn in_place_the_record_changes_only_if_the_datagram_is_taken() {
    let mut lent = record(UFO, 1, 0, false, 0);
    let before = lent;
    let (mut area, mut tape) = (area(), [0; 100]);
    assert_eq!(number(lent.take_in_place(&mut area, b"JA", &mut tape)), 16);
    let no_room = lent.take_in_place(&mut area, &ufo_numbered(1, 1), &mut []);
    assert_eq!(number(no_room), 9);
    assert_eq!(lent, before);
    for datagram in [ufo_numbered(3, 1), ufo_numbered(1, 2)] {
        let before = lent;
        let by_value = lent.take(&mut area.clone(), &datagram, &mut tape).unwrap();
        assert_eq!(lent, before);
        let in_place = lent.take_in_place(&mut area, &datagram, &mut tape);
        assert_eq!(
            in_place,
            Ok(Delivered {
                bytes: by_value.bytes,
                messages: by_value.messages
            })
        );
        assert_eq!(lent, by_value.record);
        assert_ne!(lent, before);
    }
}

#[test]
fn standing() {
    let stands = |complete, first: Option<(u64, u64)>| {
        Ok(Standing {
            complete,
            missing: usize::from(first.is_some()),
            first: first.map(|(first, last)| (Sequence(first), Sequence(last))),
        })
    };
    for session in [UFO, MEMX] {
        let standing = |next, top, ended| record(session, next, top, ended, 0).standing();
        assert_eq!(standing(1, 0, false), stands(false, None));
        assert_eq!(standing(1, 0, true), stands(true, None));
        assert_eq!(standing(6, 5, false), stands(false, None));
        assert_eq!(standing(6, 5, true), stands(true, None));
        assert_eq!(standing(5, 5, true), stands(false, Some((5, 5))));
        assert_eq!(standing(2, 5, false), stands(false, Some((2, 5))));
    }
}

fn ask(record: Record, patience: Patience, elapsed: f64) -> Result<Asked, u8> {
    let sheet = Sheet {
        mean: 100.0,
        spread: 50.0,
        timed: true,
    };
    record
        .ask(&sheet, &patience, elapsed)
        .map_err(Refusal::number)
}

#[test]
fn when_to_ask() {
    let measured = Patience::Measured {
        floor: 1.0,
        ceiling: 60_000.0,
    };
    let fixed = Patience::Fixed(250.0);
    let request = |first, count, record| {
        Ok(Asked::Request {
            first: Sequence(first),
            count,
            record,
        })
    };
    for session in [UFO, MEMX] {
        let none_missing = record(session, 6, 5, false, 6);
        assert_eq!(ask(none_missing, fixed, 86_400_000.0), Ok(Asked::Nothing));

        let unasked = record(session, 3, 5, false, 0);
        let asked = record(session, 3, 5, false, 3);
        for patience in [Patience::Never, fixed, measured] {
            assert_eq!(ask(unasked, patience, 0.0), request(3, 3, asked));
            let before = record(session, 3, 5, true, 2);
            let after = record(session, 3, 5, true, 3);
            assert_eq!(ask(before, patience, 0.0), request(3, 3, after));
            assert_eq!(ask(asked, patience, 0.0), Ok(Asked::Wait));
        }
        assert_eq!(ask(asked, Patience::Never, 86_400_000.0), Ok(Asked::Wait));
        assert_eq!(ask(asked, fixed, 249.999), Ok(Asked::Wait));
        assert_eq!(ask(asked, fixed, 250.0), request(3, 3, asked));
        assert_eq!(ask(asked, measured, 299.999), Ok(Asked::Wait));
        assert_eq!(ask(asked, measured, 300.0), request(3, 3, asked));
    }
}

#[test]
fn a_request_names_65_535_messages_at_most() {
    for (top, count) in [(65_534, 65_534), (65_535, 65_535), (65_536, 65_535)] {
        let Ok(Asked::Request {
            first,
            count: named,
            ..
        }) = ask(record(UFO, 1, top, false, 0), Patience::Never, 0.0)
        else {
            panic!("a request was due");
        };
        assert_eq!((first, named), (Sequence(1), count));
    }
    let widest = record(MEMX, 1, u64::MAX - 1, false, 0);
    let asked = record(MEMX, 1, u64::MAX - 1, false, 1);
    assert_eq!(
        ask(widest, Patience::Never, 0.0),
        Ok(Asked::Request {
            first: Sequence(1),
            count: 65_535,
            record: asked
        })
    );
}

#[test]
fn asking_out_of_range_is_15_even_if_nothing_is_missing() {
    let fresh = record(UFO, 1, 0, false, 0);
    for elapsed in [-1.0, 86_400_000.000_000_02, f64::INFINITY, f64::NAN] {
        assert_eq!(ask(fresh, Patience::Never, elapsed), Err(15), "{elapsed}");
    }
    assert_eq!(
        ask(fresh, Patience::Never, 86_400_000.0),
        Ok(Asked::Nothing)
    );
    assert_eq!(ask(fresh, Patience::Never, -0.0), Ok(Asked::Nothing));
    assert_eq!(ask(fresh, Patience::Fixed(0.0), 0.0), Err(15));
    let broken = Sheet {
        mean: f64::NAN,
        spread: 0.0,
        timed: true,
    };
    let asked = fresh.ask(&broken, &Patience::Fixed(0.0), f64::NAN);
    assert_eq!(number(asked), 10);
}
