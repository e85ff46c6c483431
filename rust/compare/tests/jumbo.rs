//! Jumbo frames taken into records: the two desks agree, and on what the paper says of long messages
//! and of room, which is worked out here apart from both.

use compare::limits::{AREA, LONGEST, MEMX, MEMX_ROOM, SLOT, UFO_ROOM};
use compare::taken;
use hinurapay::flat::{hp_record, hp_taken};
use std::collections::{BTreeMap, BTreeSet};

const SESSION: u64 = 0x0102_0304_0506_0708;

/// The byte that stands where nothing else does.
const FILL: u8 = 0xee;

/// A message of so many bytes, as a block.
fn block(number: u64, length: usize) -> Vec<u8> {
    let told = (length as u16).to_be_bytes();
    [&told[..], &vec![number as u8; length]].concat()
}

/// A packet of messages that are so long, and its blocks one by one.
fn packet(first: u64, lengths: &[usize]) -> (Vec<u8>, Vec<Vec<u8>>) {
    let numbered = (first..).zip(lengths);
    let blocks: Vec<_> = numbered
        .map(|(number, &length)| block(number, length))
        .collect();
    let count = (blocks.len() as u16).to_be_bytes();
    let (session, first) = (SESSION.to_be_bytes(), first.to_be_bytes());
    let header = [&[2, 18][..], &session, &first, &count].concat();
    ([header, blocks.concat()].concat(), blocks)
}

/// A receiver as the paper has it: what it holds by number, and its area.
#[derive(Clone)]
struct Receiver {
    next: u64,
    top: u64,
    held: BTreeMap<u64, Vec<u8>>,
    area: Vec<u8>,
}

impl Receiver {
    /// A receiver that waits for a number, and holds messages of so many bytes so far after it.
    fn holding(next: u64, far: &[u64], length: usize) -> Receiver {
        let mut receiver = Receiver {
            next,
            top: next + far.iter().max().unwrap_or(&0),
            held: BTreeMap::new(),
            area: vec![FILL; AREA],
        };
        for far in far {
            receiver.hold(next + far, block(!next, length));
        }
        receiver
    }

    /// Its record.
    fn record(&self) -> hp_record {
        let slots = self.held.keys().map(|number| 1 << (number % 32));
        hp_record {
            style: 2,
            session: SESSION,
            next: self.next,
            top: self.top,
            held: slots.sum(),
            ..hp_record::default()
        }
    }

    fn hold(&mut self, number: u64, block: Vec<u8>) {
        let slot = (number % 32) as usize;
        self.area[slot * SLOT..][..block.len()].copy_from_slice(&block);
        self.held.insert(number, block);
    }

    /// Takes messages from `first` on, given as blocks; what is delivered.
    fn take(&mut self, first: u64, blocks: &[Vec<u8>]) -> Vec<Vec<u8>> {
        let after = first + blocks.len() as u64;
        self.top = self.top.max(after - 1);
        let mut delivered = Vec::new();
        if first > self.next {
            for (number, block) in (first..).zip(blocks) {
                let near = number <= self.next + 31 && !self.held.contains_key(&number);
                if near && block.len() <= 2 + LONGEST {
                    self.hold(number, block.clone());
                }
            }
        } else if after > self.next {
            delivered.extend_from_slice(&blocks[(self.next - first) as usize..]);
            self.next = after;
            self.held.retain(|&number, _| number >= after);
            while let Some(block) = self.held.remove(&self.next) {
                delivered.push(block);
                self.next += 1;
            }
        }
        delivered
    }
}

/// What both desks must answer, and the area and the output that they must leave, where this is
/// delivered and there is so much room.
fn expected<'a>(
    before: &'a Receiver,
    after: &'a Receiver,
    delivered: &[Vec<u8>],
    room: usize,
) -> (hp_taken, &'a [u8], Vec<u8>) {
    let (due, mut out) = (delivered.concat(), vec![FILL; room]);
    if room < due.len() {
        let refused = hp_taken {
            refusal: 9,
            record: before.record(),
            ..hp_taken::default()
        };
        return (refused, &before.area, out);
    }
    out[..due.len()].copy_from_slice(&due);
    let answer = hp_taken {
        refusal: 0,
        bytes: due.len() as u64,
        messages: delivered.len() as u64,
        record: after.record(),
    };
    (answer, &after.area, out)
}

/// Lets both desks take a packet of messages that are so long into a receiver's record, with just the
/// room that is needed, with a byte less, and with these rooms; says what happened.
fn takes(
    before: &Receiver,
    first: u64,
    lengths: &[usize],
    rooms: &[usize],
) -> BTreeSet<&'static str> {
    let (datagram, blocks) = packet(first, lengths);
    let mut after = before.clone();
    let delivered = after.take(first, &blocks);
    let due = delivered.concat().len();
    for &room in [due, due.saturating_sub(1)].iter().chain(rooms) {
        let (answer, area, out) = expected(before, &after, &delivered, room);
        let lent = vec![FILL; room];
        let took = taken(before.record(), &before.area, &datagram, lent);
        let took = took.unwrap_or_else(|difference| panic!("{}", difference.how));
        let told = format!("{lengths:?} from {first}, room {room}");
        assert_eq!(took.answer, answer, "{told}");
        assert!(took.area == area && took.out == out, "{told}");
    }
    happened(before, &after, first, lengths, &delivered)
}

/// What happened to long messages.
fn happened(
    before: &Receiver,
    after: &Receiver,
    first: u64,
    lengths: &[usize],
    delivered: &[Vec<u8>],
) -> BTreeSet<&'static str> {
    let early = first > before.next;
    let long = lengths.iter().any(|&length| length > LONGEST);
    let held = after.held.len() > before.held.len();
    let long_out = delivered.iter().any(|block| block.len() > 2 + LONGEST);
    let released = delivered.len() > lengths.len();
    let all = [
        (early && long && !held, "too long"),
        (early && long && held, "some too long, others held"),
        (long_out, "delivered"),
        (long_out && released, "delivered, and others released"),
    ];
    let so = all.into_iter().filter(|(so, _)| *so);
    so.map(|(_, what)| what).collect()
}

/// One message near each edge, and three of which each is short, as long as can be held, or longer.
fn lengths() -> Vec<Vec<usize>> {
    let edges = [0, 1469, 1470, 1471, 1472, 8949, 8950];
    let mut all: Vec<Vec<usize>> = edges.iter().map(|&length| vec![length]).collect();
    let three = [3, 1470, 1471];
    for first in three {
        for second in three {
            all.extend(three.map(|third| vec![first, second, third]));
        }
    }
    all
}

#[test]
fn long_messages_are_held_or_not_and_delivered_as_the_paper_says() {
    let mut all = BTreeSet::new();
    for next in [3, 31, u64::MAX - 60] {
        for far in [&[][..], &[1, 3], &[2, 31]] {
            let before = Receiver::holding(next, far, 5);
            for lengths in lengths() {
                for first in next - 2..=next + 33 {
                    all.extend(takes(&before, first, &lengths, &[]));
                }
            }
        }
    }
    let expected = [
        "too long",
        "some too long, others held",
        "delivered",
        "delivered, and others released",
    ];
    assert_eq!(all, BTreeSet::from(expected));
}

#[test]
fn a_memx_packet_and_all_held_messages_have_room_in_54_604_bytes_and_not_in_47_104() {
    assert_eq!((UFO_ROOM, MEMX_ROOM), (47_104, 54_604));
    for next in [1, 30] {
        for held in 20..=31 {
            let far: Vec<u64> = (1..=held).collect();
            let before = Receiver::holding(next, &far, LONGEST);
            let happened = takes(&before, next, &[MEMX - 22], &[UFO_ROOM, MEMX_ROOM]);
            assert!(happened.contains("delivered, and others released"));
            let due = MEMX - 20 + held as usize * SLOT;
            assert_eq!((due > UFO_ROOM, due > MEMX_ROOM), (held >= 26, false));
        }
    }
}
