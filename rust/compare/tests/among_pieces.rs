//! What is to come up of Soup streams is among the cases on which the two desks agree.

use compare::make::ToFeed;
use compare::plan::cases_of;
use compare::twin::Twin;
use ordinary::flat::{hp_piece, hp_soup_take};
use std::collections::{BTreeMap, BTreeSet};

/// The first call of a case, on the ordinary desk.
fn first(case: &ToFeed) -> hp_piece {
    let mut buffer = case.buffer.clone();
    hp_soup_take(case.pieces.twin(), &mut buffer, &case.piece, case.place)
}

/// Every case, and what its first call answered.
fn all() -> impl Iterator<Item = (ToFeed, hp_piece)> {
    cases_of("hp_soup_take").map(|mut dice| {
        let case = ToFeed::made(&mut dice);
        let answer = first(&case);
        (case, answer)
    })
}

#[test]
fn every_type_and_every_refusal_of_a_packet_is_among_the_cases() {
    let (mut types, mut whys) = (BTreeSet::new(), BTreeMap::new());
    for (_, answer) in all() {
        match answer.what {
            1 => _ = types.insert(answer.packet.r#type),
            2 => *whys.entry(answer.why).or_insert(0) += 1,
            _ => {}
        }
    }
    assert!(types.into_iter().eq(*b"+AHJLORSUZ"));
    let seen: Vec<u64> = whys.keys().copied().collect();
    assert_eq!(seen, [2, 3, 4, 5, 6, 7, 16]);
    assert!(whys.values().all(|&times| times > 100), "{whys:?}");
}

/// What alone is wrong with a stream or its buffer where the call is refused as 10.
fn wrong(case: &ToFeed) -> Option<&'static str> {
    let ToFeed { pieces, buffer, .. } = case;
    let kept = usize::try_from(pieces.kept).unwrap_or(usize::MAX);
    let all = [
        (buffer.len() < 4098, "a short buffer"),
        (kept > 4097, "more kept than 4,097"),
        (
            buffer.get(..kept).is_some_and(|kept| kept.contains(&b'\n')),
            "a linefeed among the kept",
        ),
        (pieces.dropping == 1 && kept > 0, "kept while dropping"),
        (pieces.dropping > 1, "no flag"),
    ];
    let mut found = all.iter().filter(|(so, _)| *so);
    let (first, second) = (found.next(), found.next());
    first.filter(|_| second.is_none()).map(|&(_, what)| what)
}

/// What is so, by name.
type Told = (bool, &'static str);

/// What happens to what is kept or dropped.
fn of_bytes(case: &ToFeed, answer: &hp_piece) -> [Told; 10] {
    let (before, after) = (&case.pieces, &answer.pieces);
    let dropping = before.dropping == 1;
    let last = before.kept == 4097 && answer.bytes == 4098;
    [
        (dropping && after.dropping == 1, "dropped to the end"),
        (dropping && after.dropping == 0, "the dropping ends"),
        (dropping && answer.what == 1, "a packet behind the dropped"),
        (dropping && answer.why == 2, "overlong behind the dropped"),
        (before.kept > 0 && answer.what == 1, "a kept one is whole"),
        (after.kept > before.kept, "more is kept"),
        (after.kept == 4097, "as much is kept as may be"),
        (last && answer.why != 2, "the last byte is a linefeed"),
        (last && answer.why == 2, "the last byte is none"),
        (case.place == case.piece.len() as u64, "a place at the end"),
    ]
}

/// What happens to packets and numbers.
fn of_packets(case: &ToFeed, answer: &hp_piece) -> [Told; 7] {
    let (taken, next) = (answer.what == 1, case.pieces.next);
    // a login is not so short
    let past = answer.why == 7 && answer.bytes < 32;
    [
        (taken && answer.bytes == 4098, "the longest packet"),
        (taken && case.buffer.len() > 4098, "a longer buffer"),
        (answer.number == u64::MAX - 1, "the last number"),
        (past && next == u64::MAX, "an `S` past the last number"),
        (answer.why == 7 && next == 0, "a login past 2^64-1"),
        (answer.why == 16 && next == 0, "an `S` before the login"),
        (answer.why == 16 && next > 0, "a second login"),
    ]
}

/// What comes up in a case: what happens in its first call, or what alone is wrong.
fn told(case: &ToFeed, answer: &hp_piece) -> Vec<&'static str> {
    match answer.refusal {
        0 => {
            let bytes = of_bytes(case, answer).into_iter();
            let all = bytes.chain(of_packets(case, answer));
            all.filter_map(|(so, what)| so.then_some(what)).collect()
        }
        10 => wrong(case).into_iter().collect(),
        refusal => {
            assert_eq!(refusal, 4);
            assert!(case.place > case.piece.len() as u64);
            vec![]
        }
    }
}

/// All that is to come up.
const ALL: [&str; 22] = [
    "a kept one is whole",
    "a linefeed among the kept",
    "a login past 2^64-1",
    "a longer buffer",
    "a packet behind the dropped",
    "a place at the end",
    "a second login",
    "a short buffer",
    "an `S` before the login",
    "an `S` past the last number",
    "as much is kept as may be",
    "dropped to the end",
    "kept while dropping",
    "more is kept",
    "more kept than 4,097",
    "no flag",
    "overlong behind the dropped",
    "the dropping ends",
    "the last byte is a linefeed",
    "the last byte is none",
    "the last number",
    "the longest packet",
];

#[test]
fn whatever_can_happen_to_a_stream_is_among_the_cases() {
    let mut seen = BTreeMap::new();
    for (case, answer) in all() {
        for what in told(&case, &answer) {
            *seen.entry(what).or_insert(0) += 1;
        }
    }
    assert!(seen.keys().copied().eq(ALL), "{seen:?}");
    assert!(seen.values().all(|&times| times > 20), "{seen:?}");
}
