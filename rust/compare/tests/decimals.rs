//! The two desks agree on Soup's number, and with the paper: at every edge, and with every byte at
//! every place.

use compare::make::{spelt, with, Decimal, DECIMALS, DECIMAL_NUMBERS};
use compare::{soup_both_ways, soup_written, Difference};
use hinurapay::flat::{hp_packet, hp_soup_read};
use std::collections::{BTreeMap, BTreeSet};

/// The two packets that have a number, up to there, and one of them without a user.
const ACCEPTED: &str = "A      8841";
const LOGIN: &str = "Lme    secret          8841";
const NAMELESS: &str = "L      secret          8841";

/// Numbers of 0, 1, 2, 10, 19 and 20 digits, and some with noughts before them or nothing else.
const NUMBERS: [&str; 9] = [
    "",
    "7",
    "42",
    "1234567890",
    "9876543210987654321",
    "18446744073709551615",
    "000042",
    "00000000000000000042",
    "00000000000000000000",
];

/// The fields of the list, and those numbers with every byte at every place.
fn fields() -> BTreeSet<Decimal> {
    let mut fields = BTreeSet::from_iter(DECIMALS.iter().copied());
    for number in NUMBERS.map(spelt) {
        for place in 0..20 {
            fields.extend((0..=u8::MAX).map(|byte| with(number, place, byte)));
        }
    }
    fields
}

fn packet(start: &str, number: Decimal) -> Vec<u8> {
    [start.as_bytes(), &number, b"\n"].concat()
}

/// How many answers there were under each refusal (0: none).
fn counted(answers: impl Iterator<Item = u64>) -> BTreeMap<u64, usize> {
    let mut counts = BTreeMap::new();
    for refusal in answers {
        *counts.entry(refusal).or_default() += 1;
    }
    counts
}

fn agreed(answer: Result<u64, Difference>) -> u64 {
    answer.unwrap_or_else(|difference| panic!("{}", difference.how))
}

/// How the paper has a login with this number refused (0: not at all).
fn due(number: &Decimal) -> u64 {
    let digits = number.iter().skip_while(|&&byte| byte == b' ');
    if number.contains(&b'\n') {
        8
    } else if !digits.clone().all(u8::is_ascii_digit) {
        5
    } else if digits.count() == 0 {
        6
    } else if number > b"18446744073709551615" {
        // spaces come before digits, so that fields of that form are in the order of their numbers
        7
    } else {
        0
    }
}

/// Every field, read in a packet that begins so, where the paper's word on a login becomes this one.
fn read(start: &str, becomes: fn(&Decimal, u64) -> u64) -> BTreeMap<u64, usize> {
    let fields = fields().into_iter();
    counted(fields.map(|number| {
        let refusal = agreed(soup_both_ways(&packet(start, number)));
        assert_eq!(refusal, becomes(&number, due(&number)), "{number:?}");
        refusal
    }))
}

/// The fields of a packet that begins so.
fn beginning(start: &str) -> hp_packet {
    hp_soup_read(&packet(start, spelt(1))).packet
}

/// Every lawful number of the list, written with these fields in a packet that begins so.
fn written(fields: hp_packet, start: &str) -> BTreeMap<u64, usize> {
    let numbers = DECIMAL_NUMBERS.iter();
    counted(numbers.map(|&number| {
        let fields = hp_packet { number, ..fields };
        agreed(soup_written(fields, &packet(start, spelt(number))))
    }))
}

/// Whether a field is spaces and then noughts alone.
fn is_nought(number: &Decimal) -> bool {
    number.iter().all(|byte| b" 0".contains(byte))
}

#[test]
fn every_field_is_read_alike() {
    assert_eq!((DECIMALS.len(), fields().len()), (7798, 53_249));
    let login = [(0, 3501), (5, 49_376), (6, 1), (7, 192), (8, 179)];
    assert_eq!(read(LOGIN, |_, due| due), BTreeMap::from(login));
    // from one nought to twenty of them
    let accepted = [(0, 3501 - 20), (5, 49_376), (6, 1 + 20), (7, 192), (8, 179)];
    let nought_is_6 = |number: &Decimal, due| match due {
        0 if is_nought(number) => 6,
        due => due,
    };
    assert_eq!(read(ACCEPTED, nought_is_6), BTreeMap::from(accepted));
    // all that would be taken, the blank one, and those that are too great
    let nameless = [(5, 49_376), (6, 3501 + 1 + 192), (8, 179)];
    let all_but_5_and_8_are_6 = |_: &Decimal, due| match due {
        5 | 8 => due,
        _ => 6,
    };
    assert_eq!(
        read(NAMELESS, all_but_5_and_8_are_6),
        BTreeMap::from(nameless)
    );
}

#[test]
fn every_number_is_written_alike() {
    let (accepted, login) = (beginning(ACCEPTED), beginning(LOGIN));
    let nameless = hp_packet {
        user: *b"      ",
        ..login
    };
    assert_eq!(
        written(accepted, ACCEPTED),
        BTreeMap::from([(0, 1361), (6, 1)])
    );
    assert_eq!(written(login, LOGIN), BTreeMap::from([(0, 1362)]));
    assert_eq!(written(nameless, NAMELESS), BTreeMap::from([(6, 1362)]));
}
