//! The lending end: logs that hang together, what is added, and what is answered.

mod common;

use common::{blocks, number, ufo_e, ufo_s, write_into, written, Dice};
use ordinary::lend::Log;
use ordinary::ufo::{read_down, Down};

fn log(count: u64, used: usize, ended: bool) -> Log {
    Log { count, used, ended }
}

/// A log of these messages, in lent bytes with a little room after them.
fn filled(messages: &[&[u8]]) -> (Log, Vec<u8>) {
    let mut bytes = blocks(messages);
    let log = log(messages.len() as u64, bytes.len(), false);
    bytes.extend([0xaa; 9]);
    (log, bytes)
}

#[test]
fn a_log_that_does_not_hang_together_is_10() {
    let (_, mut bytes) = filled(&[b"one", b"", b"three"]);
    let long = blocks(&[&[1; 1464]]);
    let cases: &[(Log, &[u8])] = &[
        (log(3, 13, false), &bytes),
        (log(3, 15, false), &bytes),
        (log(2, 14, false), &bytes),
        (log(4, 14, false), &bytes),
        (log(0, 14, false), &bytes),
        (log(3, 0, false), &bytes),
        (log(3, 14, true), &bytes[..13]),
        (log(3, usize::MAX, true), &bytes),
        (log(1, 1466, false), &long),
        (log(4_294_967_295, 14, false), &bytes),
        (log(u64::MAX, 0, false), &bytes),
        (log(1, 2, false), b"\0\x01!"),
    ];
    for (broken, bytes) in cases {
        let mut log = *broken;
        assert_eq!(number(log.check(bytes)), 10, "{broken:?}");
        assert_eq!(number(log.declare_end(bytes)), 10);
        let mut lent = bytes.to_vec();
        assert_eq!(number(log.add(&mut lent, &[0; 1464])), 10);
        assert_eq!(number(log.add_many(&mut lent, b"\0")), 10);
        assert_eq!(lent, *bytes);
        assert_eq!(log, *broken);
        for (first, count) in [(1, 1), (0, 0), (9, 1)] {
            let answer = write_into(0, |slip| log.answer(bytes, first, count, slip));
            assert_eq!(answer, Err(10));
        }
        let heartbeat = write_into(0, |slip| log.heartbeat(bytes, slip));
        assert_eq!(heartbeat, Err(10));
        let end = write_into(0, |slip| log.end_packet(bytes, slip));
        assert_eq!(end, Err(10));
    }
    bytes.truncate(14);
    assert_eq!(log(3, 14, true).check(&bytes), Ok(()));
    assert_eq!(log(0, 0, false).check(b""), Ok(()));
}

#[test]
fn adding() {
    let mut bytes = vec![0xee; 12];
    let mut log = Log::default();
    assert_eq!(log.add(&mut bytes, b"one"), Ok(()));
    assert_eq!(log.add(&mut bytes, b""), Ok(()));
    assert_eq!((log.count, log.used), (2, 7));
    assert_eq!(bytes, b"\0\x03one\0\0\xee\xee\xee\xee\xee");

    let before = (log, bytes.clone());
    assert_eq!(number(log.add(&mut bytes, b"four")), 9);
    assert_eq!(number(log.add(&mut bytes, &[0; 1464])), 2);
    assert_eq!((log, bytes.clone()), before);

    assert_eq!(log.add(&mut bytes, b"end"), Ok(()));
    assert_eq!(bytes, b"\0\x03one\0\0\0\x03end");
    assert_eq!(number(log.add(&mut bytes, b"")), 9);

    assert_eq!(log.declare_end(&bytes), Ok(()));
    assert!(log.ended);
    let before = (log, bytes.clone());
    assert_eq!(number(log.declare_end(&bytes)), 13);
    assert_eq!(number(log.add(&mut bytes, b"")), 13);
    assert_eq!(number(log.add(&mut bytes, &[0; 1464])), 13);
    assert_eq!((log, bytes), before);
}

#[test]
fn adding_many_is_adding_one_by_one_or_nothing() {
    let mut dice = Dice::seeded(1463);
    let mut seen = [0; 17];
    for _ in 0..2000 {
        let sizes: Vec<usize> = (0..dice.below(6))
            .map(|_| dice.pick(&[0, 1, 5, 40, 1463, 1464]))
            .collect();
        let messages: Vec<Vec<u8>> = sizes.iter().map(|&size| dice.bytes(size)).collect();
        let lent: Vec<&[u8]> = messages.iter().map(Vec::as_slice).collect();
        let room = dice.pick(&[30, 200, 1600, 5000, 20_000]);
        let mut one_by_one = (Log::default(), vec![0xee; room]);
        one_by_one
            .0
            .add(&mut one_by_one.1, b"already there")
            .unwrap();
        if dice.one_in(5) {
            one_by_one.0.declare_end(&one_by_one.1).unwrap();
        }
        let before = one_by_one.clone();
        let mut together = one_by_one.clone();
        let refused = lent
            .iter()
            .filter_map(|message| one_by_one.0.add(&mut one_by_one.1, message).err());
        let refused: Vec<u8> = refused.map(|refusal| refusal.number()).collect();
        // 2 before 9, whichever message meets it
        let expected = match [2, 9].into_iter().find(|one| refused.contains(one)) {
            _ if before.0.ended => Err(13),
            Some(one) => Err(one),
            None => Ok(lent.len() as u64),
        };
        let added = together.0.add_many(&mut together.1, &blocks(&lent));
        assert_eq!(added.map_err(|refusal| refusal.number()), expected);
        assert_eq!(together, if expected.is_ok() { one_by_one } else { before });
        seen[usize::from(number(added))] += 1;
    }
    for refusal in [0, 2, 9, 13] {
        assert!(seen[refusal] > 50, "{refusal} came {} times", seen[refusal]);
    }
}

#[test]
fn refusals_of_many_come_in_order_over_all_of_them() {
    let cut = b"\0\x02a";
    let long = blocks(&[b"a message without room for it", &[0; 1464]]);
    let long_and_cut = [&long[..], cut].concat();
    let mut bytes = [0xee; 20];
    let mut log = Log::default();
    log.add(&mut bytes, b"one").unwrap();
    let before = (log, bytes);
    for (many, expected) in [
        (&long_and_cut[..], 4),
        (cut, 4),
        (b"\0", 4),
        (b"\0\0\0\x02a", 4),
        (&long, 2), // not the 9 of the first
        (&blocks(&[b"", b"a message without room"]), 9),
    ] {
        assert_eq!(number(log.add_many(&mut bytes, many)), expected);
        let mut ended = log;
        ended.declare_end(&bytes).unwrap();
        assert_eq!(number(ended.add_many(&mut bytes, many)), 13);
        assert_eq!(number(ended.add_many(&mut bytes, b"")), 13);
        let broken = &mut Log { used: 4, ..ended };
        assert_eq!(number(broken.add_many(&mut bytes, many)), 10);
        assert_eq!((log, bytes), before);
    }
    assert_eq!(log.add_many(&mut bytes, b""), Ok(0));
    assert_eq!((log, bytes), before);
    assert_eq!(log.add_many(&mut bytes, b"\0\0\0\x02HI"), Ok(2));
    assert_eq!((log.count, log.used), (3, 11));
    assert_eq!(&bytes[5..12], b"\0\0\0\x02HI\xee");
}

#[test]
fn answering() {
    let (mut log, bytes) = filled(&[b"one", b"", b"three"]);
    let answer =
        |log: &Log, first, count| write_into(1472, |slip| log.answer(&bytes, first, count, slip));
    assert_eq!(answer(&log, 1, 1), Ok(ufo_s(1, &[b"one"])));
    assert_eq!(answer(&log, 1, 2), Ok(ufo_s(1, &[b"one", b""])));
    assert_eq!(answer(&log, 2, 2), Ok(ufo_s(2, &[b"", b"three"])));
    assert_eq!(answer(&log, 3, 65_535), Ok(ufo_s(3, &[b"three"])));
    assert_eq!(answer(&log, 4, 1), Ok(ufo_s(4, &[])));
    assert_eq!(answer(&log, u32::MAX, 1), Ok(ufo_s(4, &[])));
    log.declare_end(&bytes).unwrap();
    assert_eq!(answer(&log, 3, 9), Ok(ufo_s(3, &[b"three"])));
    assert_eq!(answer(&log, 4, 1), Ok(ufo_e(3)));

    for (first, count) in [(0, 1), (1, 0), (0, 0), (9, 0)] {
        assert_eq!(answer(&log, first, count), Err(6));
        let cramped = write_into(0, |slip| log.answer(&bytes, first, count, slip));
        assert_eq!(cramped, Err(6));
    }
    for first in [1, 4] {
        let cramped = write_into(1471, |slip| log.answer(&bytes, first, 1, slip));
        assert_eq!(cramped, Err(9));
        let spacious = write_into(3000, |slip| log.answer(&bytes, first, 1, slip));
        assert_eq!(spacious, answer(&log, first, 1));
    }
}

#[test]
fn an_answer_has_as_many_messages_as_fit_and_no_more() {
    let mut dice = Dice::seeded(1472);
    for _ in 0..300 {
        let sizes: Vec<usize> = (0..1 + dice.below(60))
            .map(|_| dice.pick(&[0, 1, 20, 100, 363, 700, 1463]))
            .collect();
        let messages: Vec<Vec<u8>> = sizes.iter().map(|&size| dice.bytes(size)).collect();
        let lent: Vec<&[u8]> = messages.iter().map(Vec::as_slice).collect();
        let (log, bytes) = filled(&lent);
        let first = 1 + dice.below(lent.len());
        let asked = 1 + dice.below(lent.len());
        let most = asked.min(lent.len() - (first - 1));
        let fitting = (1..=most)
            .rev()
            .find(|&count| 7 + blocks(&lent[first - 1..][..count]).len() <= 1472)
            .unwrap();
        let answer = write_into(1472, |slip| {
            log.answer(&bytes, first as u32, asked as u16, slip)
        })
        .unwrap();
        assert_eq!(answer, ufo_s(first as u32, &lent[first - 1..][..fitting]));
        assert!(read_down(&answer).is_ok());
    }
}

#[test]
fn four_messages_that_just_fill_a_packet() {
    let message = [7; 364];
    let three_and_a_bit = [&message[..], &message, &message, &message];
    let (log, bytes) = filled(&three_and_a_bit);
    let answer = write_into(1472, |slip| log.answer(&bytes, 1, 4, slip)).unwrap();
    assert_eq!(answer.len(), 7 + 4 * 366);
    let (log, bytes) = filled(&[&message, &message, &message, &[7; 366]]);
    let answer = write_into(1472, |slip| log.answer(&bytes, 1, 4, slip)).unwrap();
    assert_eq!(answer.len(), 7 + 3 * 366);
    let (log, bytes) = filled(&[&message, &message, &message, &[7; 365]]);
    let answer = write_into(1472, |slip| log.answer(&bytes, 1, 4, slip)).unwrap();
    assert_eq!(answer.len(), 1472);
}

#[test]
fn heartbeat_and_end_can_be_had_at_any_time() {
    let (mut log, bytes) = filled(&[b"one", b"two"]);
    let heartbeat = written(|slip| log.heartbeat(&bytes, slip));
    assert_eq!(heartbeat, Ok(ufo_s(3, &[])));
    assert_eq!(written(|slip| log.end_packet(&bytes, slip)), Err(12));
    log.declare_end(&bytes).unwrap();
    assert_eq!(written(|slip| log.heartbeat(&bytes, slip)), heartbeat);
    assert_eq!(written(|slip| log.end_packet(&bytes, slip)), Ok(ufo_e(2)));
    let empty = Log::default();
    let heartbeat = written(|slip| empty.heartbeat(b"", slip)).unwrap();
    assert!(matches!(
        read_down(&heartbeat),
        Ok(Down::Sequenced { first, count: 0, .. }) if first.0 == 1
    ));
}
