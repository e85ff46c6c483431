//! Jumbo frames are among the cases on which the two desks agree.

use compare::limits::{LONGEST, MEMX, MEMX_ROOM, UFO, UFO_ROOM};
use compare::make;
use compare::plan::cases_of;
use compare::twin::Twin;
use compare::ToTake;
use ordinary::blocks::Blocks;
use ordinary::flat::{hp_memx_read, hp_memx_write, hp_record, hp_take};
use std::collections::BTreeSet;

/// Those of several things that are so.
fn so(told: &[(bool, &'static str)]) -> Vec<&'static str> {
    let so = told.iter().filter(|(so, _)| *so);
    so.map(|&(_, what)| what).collect()
}

/// What comes up where a packet of so many bytes is answered with a refusal (0: none).
fn at_the_limit(whole: usize, refusal: u64) -> Vec<&'static str> {
    let told = [
        (whole > UFO && refusal == 0, "taken, over 1,472 bytes"),
        (whole == MEMX && refusal == 0, "taken at 8,972"),
        (whole == MEMX && refusal > 2, "refused at 8,972, not as 2"),
        (whole == MEMX + 1 && refusal == 2, "refused as 2 at 8,973"),
        (whole == 9000 && refusal == 2, "refused as 2 at 9,000"),
    ];
    so(&told)
}

const AT_THE_LIMIT: [&str; 5] = [
    "taken, over 1,472 bytes",
    "taken at 8,972",
    "refused at 8,972, not as 2",
    "refused as 2 at 8,973",
    "refused as 2 at 9,000",
];

#[test]
fn packets_at_the_limit_are_read_and_written_among_the_cases() {
    let (mut read, mut written) = (BTreeSet::new(), BTreeSet::new());
    for mut dice in cases_of("hp_memx_read") {
        let packet = make::memx_to_read(&mut dice);
        let longer = packet.get(1) > Some(&18);
        let came_up = at_the_limit(packet.len(), hp_memx_read(&packet).refusal);
        read.extend(came_up.into_iter().map(|what| (longer, what)));
    }
    for mut dice in cases_of("hp_memx_write") {
        let (fields, extra, body) = make::memx_to_write(&mut dice);
        let count = if fields.r#type == 2 { 2 } else { 0 };
        let whole = 18 + extra.len() + count + body.len();
        let mut out = vec![0; whole];
        let wrote = hp_memx_write(fields.twin(), &extra, &body, &mut out);
        let came_up = at_the_limit(whole, wrote.refusal);
        written.extend(came_up.into_iter().map(|what| (!extra.is_empty(), what)));
    }
    let all = [false, true].map(|longer| AT_THE_LIMIT.map(|what| (longer, what)));
    let all: BTreeSet<_> = all.into_iter().flatten().collect();
    assert_eq!(read, all, "read");
    assert_eq!(written, all, "written");
}

/// What happens where messages that are so long come early and leave this record.
fn early(case: &ToTake, after: &hp_record, first: u64, lengths: &[usize]) -> Vec<&'static str> {
    let full = |held: u32, number: u64| held >> (number % 32) & 1 == 1;
    let near = (first..)
        .zip(lengths)
        .filter(|(number, _)| number - after.next < 32);
    let (kept, free): (Vec<_>, Vec<_>) =
        near.partition(|&(number, _)| full(case.record.held, number));
    let (held, not_held): (Vec<_>, Vec<_>) = free
        .into_iter()
        .partition(|&(number, _)| full(after.held, number));
    let is = |numbered: &[(u64, &usize)], length| numbered.iter().any(|&(_, &one)| one == length);
    let told = [
        (is(&held, 1469), "1,469 bytes, held"),
        (is(&held, 1470), "1,470 bytes, held"),
        (is(&not_held, 1471), "1,471 bytes, not held"),
        (is(&not_held, 8949), "8,949 bytes, not held"),
        (is(&not_held, 8950), "8,950 bytes, not held"),
        (
            !held.is_empty() && !not_held.is_empty(),
            "some held, others not",
        ),
        (
            kept.iter().any(|&(_, &one)| one > LONGEST),
            "too long, and one is held",
        ),
    ];
    so(&told)
}

/// What happens where messages that are so long are next, so many being delivered in so many bytes.
fn due(case: &ToTake, lengths: &[usize], messages: usize, needed: usize) -> Vec<&'static str> {
    let (mut area, mut out) = (case.area.clone(), case.out.clone());
    let taken = hp_take(case.record.twin(), &mut area, &case.datagram, &mut out);
    let long = Blocks::over(&out[..taken.bytes as usize]).any(|one| one.unwrap().len() > LONGEST);
    let (room, no_room, much) = (out.len(), taken.refusal == 9, needed > UFO_ROOM);
    let told = [
        (long, "over 1,470 bytes, delivered"),
        (
            long && messages > lengths.len(),
            "and others released behind",
        ),
        (much && room == UFO_ROOM && no_room, "no room in 47,104"),
        (much && room == needed - 1 && no_room, "a byte too little"),
        (much && room == needed && !no_room, "just enough"),
        (much && room == MEMX_ROOM && !no_room, "room in 54,604"),
    ];
    so(&told)
}

/// What comes up in a case of taking.
fn seen(case: &ToTake) -> Vec<&'static str> {
    let ample = case.with_room();
    let mut seen = at_the_limit(case.datagram.len(), ample.refusal);
    let packet = hp_memx_read(&case.datagram).packet;
    if ample.refusal != 0 || packet.count == 0 {
        return seen;
    }
    let blocks = &case.datagram[packet.start as usize..];
    let lengths: Vec<usize> = Blocks::over(blocks).map(|one| one.unwrap().len()).collect();
    if ample.messages > 0 {
        let (messages, bytes) = (ample.messages as usize, ample.bytes as usize);
        seen.extend(due(case, &lengths, messages, bytes));
    } else if packet.number > case.record.next {
        seen.extend(early(case, &ample.record, packet.number, &lengths));
    }
    seen
}

#[test]
fn long_messages_are_taken_among_the_cases() {
    let mut all = BTreeSet::new();
    for mut dice in cases_of("hp_take") {
        let case = ToTake::made(&mut dice);
        if case.record.style == 2 {
            all.extend(seen(&case));
        }
    }
    let mut expected = BTreeSet::from([
        "1,469 bytes, held",
        "1,470 bytes, held",
        "1,471 bytes, not held",
        "8,949 bytes, not held",
        "8,950 bytes, not held",
        "some held, others not",
        "too long, and one is held",
        "over 1,470 bytes, delivered",
        "and others released behind",
        "no room in 47,104",
        "a byte too little",
        "just enough",
        "room in 54,604",
    ]);
    expected.extend(AT_THE_LIMIT);
    assert_eq!(all, expected);
}
