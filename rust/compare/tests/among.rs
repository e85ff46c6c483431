//! What is to come up is among the cases on which the two desks agree.

use compare::limits::{AREA, MEMX, SLOT, TCP};
use compare::make;
use compare::plan::cases_of;
use compare::twin::Twin;
use compare::ToTake;
use ordinary::flat::{
    hp_memx_read, hp_memx_write, hp_missing_range, hp_packet, hp_record, hp_standing_of, hp_take,
    hp_taken, hp_tcp_read, hp_tcp_write, hp_ufo_read_down,
};
use std::collections::BTreeSet;

#[test]
fn every_type_of_memx_tcp_is_among_the_cases() {
    let (mut read, mut written) = (BTreeSet::new(), BTreeSet::new());
    for mut dice in cases_of("hp_tcp_read") {
        let mut packet = make::tcp(&mut dice);
        make::damage(&mut packet, TCP, &mut dice);
        let reading = hp_tcp_read(&packet);
        if reading.refusal == 0 {
            read.insert(reading.packet.r#type);
        }
    }
    for mut dice in cases_of("hp_tcp_write") {
        let (fields, body) = make::tcp_to_write(&mut dice);
        let mut out = vec![0; body.len() + 64];
        if hp_tcp_write(fields.twin(), &body, &mut out).refusal == 0 {
            written.insert(fields.r#type);
        }
    }
    assert!(read.into_iter().eq(make::TCP_TYPES), "read");
    assert!(written.into_iter().eq(make::TCP_TYPES), "written");
}

/// Asks that some header of each length that matters is among those given, each as its type and how
/// many extra bytes it has, and that a third of them are longer than they need be.
fn of_every_length(headers: &[(u8, usize)], types: &[u8]) {
    for &r#type in types {
        for extras in [0, 1, 2, 9, 235, 236, 237] {
            let header = (r#type, extras);
            assert!(headers.contains(&header), "{header:?}");
        }
    }
    let longer = headers.iter().filter(|&&(_, extras)| extras > 0).count();
    assert!(longer > headers.len() / 3, "{longer} of {}", headers.len());
}

#[test]
fn longer_memx_headers_are_among_the_cases() {
    let (mut read, mut written, mut delivered) = (Vec::new(), Vec::new(), Vec::new());
    for mut dice in cases_of("hp_memx_read") {
        let packet = make::memx_to_read(&mut dice);
        let reading = hp_memx_read(&packet);
        if reading.refusal == 0 {
            read.push((packet[0], usize::from(reading.packet.extra)));
        }
    }
    for mut dice in cases_of("hp_memx_write") {
        let (fields, extra, body) = make::memx_to_write(&mut dice);
        let wrote = hp_memx_write(fields.twin(), &extra, &body, &mut [0; MEMX]);
        if wrote.refusal == 0 {
            written.push((fields.r#type, extra.len()));
        }
    }
    for mut dice in cases_of("hp_take") {
        let case = ToTake::made(&mut dice);
        if case.record.style == 2 && case.with_room().messages > 0 {
            delivered.push((case.datagram[0], usize::from(case.datagram[1]) - 18));
        }
    }
    of_every_length(&read, &[0, 1, 2]);
    of_every_length(&written, &[0, 1, 2]);
    of_every_length(&delivered, &[2]);
}

/// How far after the next number those are that a record holds, by its full slots alone.
fn far_held(record: &hp_record) -> Vec<u64> {
    let full = |far: &u64| record.held >> (record.next.wrapping_add(*far) % 32) & 1 == 1;
    (0..32).filter(full).collect()
}

/// What alone is wrong with the full slots or the area of a record that is refused as 10.
fn wrong(record: &hp_record, area: &[u8]) -> Option<&'static str> {
    let (far, mut slots) = (far_held(record), area.chunks(SLOT).enumerate());
    let overlong =
        |(slot, bytes): (usize, &[u8])| record.held >> slot & 1 == 1 && bytes[..2] > [5, 190][..];
    let all = [
        (area.len() < AREA, "a short area"),
        (far.contains(&0), "the next one's slot is full"),
        (
            far.last() > Some(&record.top.wrapping_sub(record.next)),
            "a full slot above the top",
        ),
        (
            area.len() == AREA && slots.any(overlong),
            "a full slot that states over 1,470 bytes",
        ),
    ];
    let emptied = hp_record { held: 0, ..*record };
    let sound = hp_standing_of(emptied).refusal == 0;
    let mut found = all.iter().filter(|(so, _)| *so && sound);
    let (first, second) = (found.next(), found.next());
    first.filter(|_| second.is_none()).map(|&(_, what)| what)
}

/// What happens to early messages where this packet is taken.
fn happens(record: &hp_record, packet: &hp_packet, taken: &hp_taken) -> Vec<&'static str> {
    let last = packet.number.wrapping_add(packet.count.into()) - 1;
    let far_held = far_held(record);
    let among = |far: u64| (packet.number..=last).contains(&record.next.wrapping_add(far));
    let own = last.wrapping_sub(record.next).wrapping_add(1);
    let messages = taken.messages;
    let all = if messages == 0 {
        let early = packet.number > record.next;
        let held = taken.record.held & !record.held;
        [
            (held != 0, "held"),
            (early && far_held.iter().any(|&far| among(far)), "kept"),
            (early && last - record.next > 31, "too early"),
        ]
    } else {
        let freed = far_held.iter().any(|&far| among(far));
        [
            (freed, "own where one is held"),
            (messages > own, "released"),
            (messages == 32 && own == 1, "all released"),
        ]
    };
    let so = all.into_iter().filter(|(so, _)| *so);
    so.map(|(_, what)| what).collect()
}

/// All that is to happen in the cases of taking.
const HAPPENS: [&str; 11] = [
    "a short area",
    "the next one's slot is full",
    "a full slot above the top",
    "a full slot that states over 1,470 bytes",
    "held",
    "kept",
    "too early",
    "own where one is held",
    "released",
    "all released",
    "no room for the released",
];

/// What happens in a case of taking.
fn seen(mut case: ToTake) -> Vec<&'static str> {
    let record = case.record.twin();
    let ample = case.with_room();
    if ample.refusal == 10 {
        return wrong(&record, &case.area).into_iter().collect();
    }
    let read = match record.style {
        2 => hp_memx_read(&case.datagram),
        _ => hp_ufo_read_down(&case.datagram),
    };
    if ample.refusal != 0 || read.packet.count == 0 {
        return vec![];
    }
    let mut seen = happens(&record, &read.packet, &ample);
    let room_for_own = case.out.len() as u64 >= read.packet.length;
    if seen.contains(&"released") && room_for_own {
        let taken = hp_take(record, &mut case.area, &case.datagram, &mut case.out);
        if taken.refusal == 9 {
            seen.push("no room for the released");
        }
    }
    seen
}

#[test]
fn held_messages_are_among_the_cases() {
    let mut all = BTreeSet::new();
    for mut dice in cases_of("hp_take") {
        let case = ToTake::made(&mut dice);
        let style = case.record.style;
        all.extend(seen(case).into_iter().map(|what| (style, what)));
    }
    let styles = [1, 2].into_iter();
    let expected = styles.flat_map(|style| HAPPENS.map(|what| (style, what)));
    assert_eq!(all, expected.collect());
}

#[test]
fn every_number_of_ranges_is_among_the_cases() {
    let (mut missing, mut places) = (BTreeSet::new(), BTreeSet::new());
    for mut dice in cases_of("hp_standing_of") {
        let standing = hp_standing_of(make::record(&mut dice).twin());
        missing.insert(standing.missing);
    }
    for mut dice in cases_of("hp_missing_range") {
        let (record, place) = make::to_look_up(&mut dice);
        if hp_missing_range(record.twin(), place).first > 0 {
            places.insert(place);
        }
    }
    assert!(missing.into_iter().eq(0..=17), "how many are missing");
    assert!(places.into_iter().eq(0..17), "at which places");
}
