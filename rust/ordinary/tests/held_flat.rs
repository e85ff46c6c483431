//! Held messages and missing ranges on the flat face.

mod common;

use common::{area, blocks, held, memx_data, ufo_e, ufo_numbered, ufo_s};
use ordinary::flat::*;
use ordinary::held::SLOT;

/// 3 is next, of the numbers up to 12 the record holds 5, 6 and 9.
fn record() -> hp_record {
    hp_record {
        style: 1,
        ended: 0,
        name: *b"8841      ",
        session: 1234,
        next: 3,
        top: 12,
        asked: 2,
        held: held(&[5, 6, 9]).0,
    }
}

/// Its area, each held message saying its number.
fn lent() -> Vec<u8> {
    let mut area = area();
    for number in [5, 6, 9] {
        let block = common::numbered(number, 1);
        area[number as usize * SLOT..][..block.len()].copy_from_slice(&block);
    }
    area
}

#[test]
fn a_fresh_record_holds_nothing() {
    assert_eq!(hp_open_ufo(b"8841      ").record.held, 0);
    assert_eq!(hp_open_memx(7).record.held, 0);
}

#[test]
fn missing_ranges_are_had_by_their_places() {
    let ranges = [(3, 4), (7, 8), (10, 12)];
    for place in 0..40 {
        let (first, last) = ranges.get(place).copied().unwrap_or_default();
        let range = hp_range {
            refusal: 0,
            first,
            last,
        };
        assert_eq!(hp_missing_range(record(), place as u64), range);
    }
    assert_eq!(hp_missing_range(record(), u64::MAX), hp_range::default());
    let standing = hp_standing {
        refusal: 0,
        complete: 0,
        missing: 3,
        first: 3,
        last: 4,
    };
    assert_eq!(hp_standing_of(record()), standing);
    let had = hp_record {
        next: 13,
        held: 0,
        ..record()
    };
    assert_eq!(hp_missing_range(had, 0), hp_range::default());
}

#[test]
fn taking_holds_and_releases() {
    let (mut area, mut out) = (lent(), [0xee; 100]);
    let early = hp_take(record(), &mut area, &ufo_numbered(13, 1), &mut out);
    let after = hp_record {
        top: 13,
        held: held(&[5, 6, 9, 13]).0,
        ..record()
    };
    let held_one = hp_taken {
        record: after,
        ..hp_taken::default()
    };
    assert_eq!(early, held_one);
    let mut expected = lent();
    let block = common::numbered(13, 1);
    expected[13 * SLOT..][..block.len()].copy_from_slice(&block);
    assert!(area == expected);
    assert_eq!(out, [0xee; 100]);

    let taken = hp_take(after, &mut area, &ufo_numbered(3, 2), &mut out);
    let due = common::numbered(3, 4);
    let released = hp_taken {
        refusal: 0,
        bytes: due.len() as u64,
        messages: 4,
        record: hp_record {
            next: 7,
            held: held(&[9, 13]).0,
            ..after
        },
    };
    assert_eq!(taken, released);
    assert_eq!(out[..due.len()], due);
    assert_eq!(out[due.len()..], [0xee; 100][due.len()..]);
    assert!(area == expected);
}

/// The same record of a MEMX-UDP session.
fn broadcast() -> hp_record {
    hp_record {
        style: 2,
        name: *b"\0not text\n",
        ..record()
    }
}

#[test]
fn a_broadcast_is_held_alike() {
    let (mut area, mut out) = (lent(), [0xee; 100]);
    let datagram = memx_data(1234, 3, &[b"three", b"four"]);
    let taken = hp_take(broadcast(), &mut area, &datagram, &mut out);
    let due = [blocks(&[b"three", b"four"]), common::numbered(5, 2)].concat();
    let after = hp_record {
        next: 7,
        held: held(&[9]).0,
        ..broadcast()
    };
    assert_eq!((taken.messages, taken.record), (4, after));
    assert_eq!(out[..due.len()], due);
}

#[test]
fn what_is_too_long_for_a_slot_is_missing_until_it_is_next() {
    let long = [b'x'; 1471];
    let (mut area, mut out) = (lent(), [0xee; 1500]);
    let early = memx_data(1234, 13, &[&long, b"14"]);
    let taken = hp_take(broadcast(), &mut area, &early, &mut out);
    let after = hp_record {
        top: 14,
        held: held(&[5, 6, 9, 14]).0,
        ..broadcast()
    };
    let held_one = hp_taken {
        record: after,
        ..hp_taken::default()
    };
    assert_eq!((taken, out), (held_one, [0xee; 1500]));
    let mut expected = lent();
    expected[14 * SLOT..][..4].copy_from_slice(b"\0\x0214");
    assert!(area == expected);
    let range = hp_missing_range(after, 2);
    assert_eq!((range.first, range.last), (10, 13));

    // once 13 is next it is delivered, and 14 behind it
    let given = hp_record {
        next: 13,
        held: held(&[14]).0,
        ..after
    };
    let taken = hp_take(given, &mut area, &memx_data(1234, 13, &[&long]), &mut out);
    let due = blocks(&[&long, b"14"]);
    let delivered = hp_taken {
        refusal: 0,
        bytes: due.len() as u64,
        messages: 2,
        record: hp_record {
            next: 15,
            held: 0,
            ..given
        },
    };
    assert_eq!(taken, delivered);
    assert_eq!(out[..due.len()], due);
    assert_eq!(out[due.len()..], [0xee; 1500][due.len()..]);
    assert!(area == expected);
}

/// Records with areas of which one thing is wrong, and whether it is the record.
fn broken() -> [(hp_record, Vec<u8>, bool); 4] {
    let full = |number| hp_record {
        held: held(&[number]).0,
        ..record()
    };
    let mut overlong = lent();
    overlong[9 * SLOT..][..2].copy_from_slice(&1471u16.to_be_bytes());
    let short = lent()[..47_103].to_vec();
    [
        (full(3), lent(), true),
        (full(13), lent(), true),
        (record(), overlong, false),
        (record(), short, false),
    ]
}

#[test]
fn what_does_not_hang_together_is_10_in_taking_and_changes_nothing() {
    for (record, given, _) in broken() {
        for datagram in [vec![], ufo_e(4), ufo_s(13, &[]), ufo_numbered(3, 1)] {
            let (mut area, mut out) = (given.clone(), [0xee; 100]);
            let taken = hp_take(record, &mut area, &datagram, &mut out);
            let refused = hp_taken {
                refusal: 10,
                record,
                ..hp_taken::default()
            };
            assert_eq!(taken, refused);
            assert!(area == given);
            assert_eq!(out, [0xee; 100]);
        }
    }
}

#[test]
fn a_record_that_does_not_hang_together_is_10_where_no_area_is_lent() {
    for (record, _, broken) in broken() {
        let refusal = if broken { 10 } else { 0 };
        assert_eq!(hp_standing_of(record).refusal, refusal);
        let asked = hp_ask(record, hp_sheet::default(), hp_patience::default(), 0.0);
        assert_eq!(asked.refusal, refusal);
        let none = hp_range {
            refusal,
            ..hp_range::default()
        };
        assert_eq!(hp_missing_range(record, 40), none);
        assert_eq!(hp_missing_range(record, 0) == none, broken);
    }
}

#[test]
fn a_request_names_the_first_range() {
    let asked = hp_ask(record(), hp_sheet::default(), hp_patience::default(), 0.0);
    let request = hp_asked {
        refusal: 0,
        what: 2,
        first: 3,
        count: 2,
        record: hp_record {
            asked: 3,
            ..record()
        },
    };
    assert_eq!(asked, request);
}
