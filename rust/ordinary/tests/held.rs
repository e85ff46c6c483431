//! Early messages: held in their slots, and released when they are next.

mod common;

use common::desk::Desk;
use common::had::{has_just, ranges, Had};
use common::{blocks, held, memx, memx_data, number, numbered, ufo_e, ufo_numbered, ufo_s, Dice};
use ordinary::held::{Held, SLOT};
use ordinary::kinds::Sequence;
use ordinary::record::Record;

#[test]
fn a_message_that_came_early_goes_out_as_soon_as_it_is_next() {
    let mut desk = Desk::ufo(1);
    assert_eq!(desk.take(&ufo_numbered(1, 2)), numbered(1, 2));
    desk.hold(&ufo_numbered(5, 1), &[5]);
    assert_eq!((desk.record.next.0, desk.record.top.0), (3, 5));
    assert_eq!(ranges(&desk.record), [(3, 4)]);
    assert_eq!(desk.request(), (3, 2));

    assert_eq!(desk.take(&ufo_numbered(2, 3)), numbered(3, 3));
    assert_eq!((desk.record.next.0, desk.record.held), (6, held(&[])));
    assert!(ranges(&desk.record).is_empty());
    assert!(!desk.record.standing().unwrap().complete);

    assert!(desk.take(&ufo_e(5)).is_empty());
    assert!(desk.record.standing().unwrap().complete);
}

#[test]
fn a_held_block_stands_at_its_slot_s_start_and_all_else_stays() {
    let mut desk = Desk::memx(30);
    let mut expected = desk.area.clone();
    for (number, message) in [(33, &b"three"[..]), (31, b""), (32, &[7; 1400])] {
        desk.take(&memx_data(7, number, &[message]));
        let block = blocks(&[message]);
        expected[(number % 32) as usize * SLOT..][..block.len()].copy_from_slice(&block);
        assert!(desk.area == expected, "{number}");
    }
    assert_eq!(desk.record.held, Held(1 << 31 | 0b11));
    // the slots from 31 on, and then from 0 on
    let tape = desk.take(&memx_data(7, 30, &[b"next"]));
    assert_eq!(tape, blocks(&[b"next", b"", &[7; 1400], b"three"]));
    assert_eq!((desk.record.next.0, desk.record.held), (34, Held(0)));
    assert!(desk.area == expected, "freed slots keep their bytes");
}

#[test]
fn a_packet_is_held_message_by_message() {
    let mut desk = Desk::ufo(10);
    desk.hold(&ufo_numbered(12, 3), &[12, 13, 14]);
    desk.hold(&ufo_numbered(11, 6), &[11, 12, 13, 14, 15, 16]);
    assert_eq!(desk.record.top.0, 16);
    assert_eq!(desk.take(&ufo_numbered(10, 1)), numbered(10, 7));
}

#[test]
fn a_full_slot_keeps_what_it_has() {
    let mut desk = Desk::ufo(1);
    desk.hold(&ufo_s(3, &[b"first"]), &[3]);
    let before = desk.area.clone();
    desk.hold(&ufo_s(3, &[b"again"]), &[3]);
    desk.hold(&ufo_s(3, &[b"2nd time longer"]), &[3]);
    assert!(desk.area == before);
    // the others of the packet are held all the same
    desk.hold(&ufo_s(2, &[b"two", b"3rd", b"four"]), &[2, 3, 4]);
    let tape = desk.take(&ufo_s(1, &[b"one"]));
    assert_eq!(tape, blocks(&[b"one", b"two", b"first", b"four"]));
}

#[test]
fn a_delivering_packet_s_own_blocks_go_out_and_their_slots_fall_free() {
    let mut desk = Desk::ufo(1);
    desk.hold(&ufo_s(2, &[b"held 2"]), &[2]);
    desk.hold(&ufo_s(4, &[b"held 4", b"held 5", b"held 6"]), &[2, 4, 5, 6]);
    desk.hold(&ufo_s(8, &[b"held 8"]), &[2, 4, 5, 6, 8]);
    let before = desk.area.clone();
    let own: [&[u8]; 4] = [b"own 1", b"own 2", b"own 3", b"own 4"];
    let tape = desk.take(&ufo_s(1, &own));
    assert_eq!(tape, blocks(&[&own[..], &[b"held 5", b"held 6"]].concat()));
    assert_eq!((desk.record.next.0, desk.record.held), (7, held(&[8])));
    assert!(desk.area == before, "nothing is laid where it is delivered");
}

#[test]
fn a_packet_of_more_messages_than_there_are_slots_frees_them_all() {
    for count in [31, 32, 33, 100] {
        let mut desk = Desk::ufo(1);
        desk.hold(&ufo_s(32, &[b"held"]), &[32]);
        let empty = vec![&b""[..]; count];
        let tape = desk.take(&ufo_s(1, &empty));
        let (due, next) = match count {
            31 => ([blocks(&empty), blocks(&[b"held"])].concat(), 33),
            _ => (blocks(&empty), count as u64 + 1),
        };
        assert_eq!((tape, desk.record.next.0), (due, next));
        assert_eq!(desk.record.held, held(&[]));
    }
}

#[test]
fn numbers_up_to_31_after_the_next_are_held_and_no_others() {
    let mut desk = Desk::ufo(5);
    let before = desk.area.clone();
    desk.hold(&ufo_numbered(37, 3), &[]);
    desk.hold(&ufo_numbered(u32::MAX - 3, 1), &[]);
    assert!(desk.area == before, "what is too early is thrown away");
    assert_eq!(desk.record.top.0, u64::from(u32::MAX) - 3);
    desk.hold(&ufo_numbered(35, 9), &[35, 36]);
    desk.hold(&ufo_numbered(6, 29), &(6..=36).collect::<Vec<_>>());
    assert_eq!(desk.record.held.0.count_ones(), 31);
    assert_eq!(desk.take(&ufo_numbered(5, 1)), numbered(5, 32));
    assert_eq!((desk.record.next.0, desk.record.held), (37, held(&[])));
    // 37 to 39 came too early and must come again
    desk.hold(&ufo_numbered(38, 1), &[38]);
}

#[test]
fn late_messages_heartbeats_and_ends_leave_what_is_held() {
    let mut desk = Desk::memx(40);
    desk.hold(&memx_data(7, 42, &[b"held"]), &[42]);
    let before = desk.area.clone();
    for datagram in [
        memx_data(7, 1, &[b"late"]),
        memx_data(7, 38, &[b"late", b"late"]),
        memx(0, 7, 50),
        memx(1, 7, 60),
    ] {
        desk.hold(&datagram, &[42]);
        assert!(desk.area == before);
    }
    assert_eq!(ranges(&desk.record), [(40, 41), (43, 60)]);
}

#[test]
fn slots_go_round() {
    // from each of the slots, with messages that take up the whole round
    for start in 1..=40 {
        let mut desk = Desk::memx(start);
        let name = |number: u64| format!("message {number}").into_bytes();
        for far in (1..=31).rev() {
            desk.take(&memx_data(7, start + far, &[&name(start + far)]));
        }
        assert_eq!(desk.record.held, Held(!(1 << (start % 32))));
        assert_eq!(ranges(&desk.record), [(start, start)]);
        let texts: Vec<Vec<u8>> = (start..start + 32).map(name).collect();
        let lent: Vec<&[u8]> = texts.iter().map(Vec::as_slice).collect();
        let tape = desk.take(&memx_data(7, start, &[&name(start)]));
        assert_eq!(tape, blocks(&lent));
        assert_eq!(desk.record.next.0, start + 32);
    }
}

#[test]
fn the_highest_numbers_are_held_and_released() {
    let last = u64::MAX - 1;
    let mut desk = Desk::memx(last - 3);
    desk.hold(&memx_data(7, last, &[b"last"]), &[last]);
    assert_eq!(ranges(&desk.record), [(last - 3, last - 1)]);
    desk.hold(&memx_data(7, last - 2, &[b"first"]), &[last - 2, last]);
    let missing = [(last - 3, last - 3), (last - 1, last - 1)];
    assert_eq!(ranges(&desk.record), missing);
    let tape = desk.take(&memx_data(7, last - 3, &[b"next"]));
    assert_eq!(tape, blocks(&[b"next", b"first"]));
    assert_eq!(desk.request(), (last - 1, 1));
    let tape = desk.take(&memx_data(7, last - 1, &[b"but one"]));
    assert_eq!(tape, blocks(&[b"but one", b"last"]));
    assert_eq!((desk.record.next.0, desk.record.held), (u64::MAX, Held(0)));
    desk.take(&memx(1, 7, last));
    assert!(desk.record.standing().unwrap().complete);

    // a slot that would stand for a number past the highest stands for one above the top
    for far in 0..32u64 {
        let record = Record {
            next: Sequence(last - 3),
            top: Sequence(last),
            held: held(&[(last - 3).wrapping_add(far)]),
            ..desk.record
        };
        let refusal = if (1..=3).contains(&far) { 0 } else { 10 };
        assert_eq!(number(record.check()), refusal, "{far}");
    }

    let last = u64::from(u32::MAX) - 1;
    let mut desk = Desk::ufo(last - 1);
    desk.hold(&ufo_s(u32::MAX - 1, &[b"last"]), &[last]);
    let tape = desk.take(&ufo_s(u32::MAX - 2, &[b"but one"]));
    assert_eq!(tape, blocks(&[b"but one", b"last"]));
    assert_eq!(desk.record.next.0, last + 1);
}

/// The message with this number, as a block: short, as long as a slot, or too long for it.
fn told(number: u64) -> Vec<u8> {
    let length = match number % 10 {
        3 => 1470,
        7 => 1471,
        _ => number % 50,
    };
    blocks(&[&vec![number as u8; length as usize]])
}

/// Some messages near the next number, before or after it, but none past the end: the first of them,
/// and how many they are.
fn near(next: u64, start: u64, dice: &mut Dice) -> (u64, u64) {
    let first = (next.max(start + 8) - 8).saturating_add(dice.roll() % 45);
    let left = (start + 115).saturating_sub(first);
    (first, left.min(1 + dice.roll() % 6))
}

#[test]
fn whatever_comes_early_late_or_twice_is_had_once() {
    let mut seen = [0; 4];
    for seed in 0..60 {
        let mut dice = Dice::seeded(seed);
        let start = match seed % 3 {
            0 => 1,
            1 => 1 + dice.roll() % 100,
            _ => u64::MAX - 120,
        };
        let mut desk = Desk::memx(start);
        let mut had = Had::nothing_from(start).but_for(|number| number % 10 == 7);
        let mut delivered = Vec::new();
        for _ in 0..200 {
            let (first, count) = near(had.next, start, &mut dice);
            if count == 0 {
                continue;
            }
            let mut datagram = memx_data(7, first, &vec![&b""[..]; count as usize]);
            datagram.truncate(20);
            datagram.extend((first..first + count).flat_map(told));
            seen[usize::from(first > had.next)] += 1;
            seen[2] += usize::from(first > had.next.saturating_add(31));
            delivered.extend(desk.take(&datagram));
            had.arrive(first, count);
            seen[3] += usize::from(had.next > first + count);
            has_just(&desk.record, &had);
            for number in had.held() {
                assert!(desk.slot(number).starts_with(&told(number)));
            }
        }
        let due: Vec<u8> = (start..had.next).flat_map(told).collect();
        assert_eq!(delivered, due, "seed {seed}");
    }
    assert!(seen.iter().all(|&times| times > 100), "{seen:?}");
}
