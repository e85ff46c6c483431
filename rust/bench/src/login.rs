//! The replays of logins: Soup packets with a decimal number are read, some of them damaged, and written.

use crate::desk::{Desk, Login};
use crate::tape::{Sum, TURN};
use std::hint::black_box;

/// The ways of damage, in turn: a bad character among the digits, a space among them, noughts before
/// a space, a number above 2^64-1, no number. `<` and `>` stand for the halves of the digits.
const DAMAGE: [&str; 10] = [
    "<x>",
    "< >",
    "0 <>",
    "18446744073709551616",
    "",
    "</>",
    "<  >",
    "00 <>",
    "99999999999999999999",
    "",
];

/// The number at a place of the tape, of so many digits.
fn number(place: u64, length: u32) -> u64 {
    let least = 10u64.pow(length - 1);
    let others = least.saturating_mul(9).min(u64::MAX - least);
    let spread = (place + 1).wrapping_mul(0x9e37_79b9_7f4a_7c15);
    least + spread % others
}

/// The login at a place of the tape: accepted and asked for in turn, with a number of 1 to 20
/// digits. Forty logins have every length once in each type.
fn login(place: u64) -> Login {
    let turn = place % 40;
    let mut session = [b' '; 10];
    session[6..].copy_from_slice((8000 + place).to_string().as_bytes());
    Login {
        who: (turn % 2 == 1).then_some((*b"desk7 ", *b"secret    ")),
        session,
        next: number(place, 1 + turn as u32 / 2),
    }
}

/// The digits at a place of the tape, with noughts before them where they are fewer than `least`. Four
/// of forty are damaged instead, each time others.
fn digits(place: u64, number: u64, least: usize) -> String {
    let (round, turn) = (place / 40, place % 40);
    let digits = number.to_string();
    if (round + turn) % 10 != 0 {
        return format!("{digits:0>least$}");
    }
    let before = 4 * round + turn / 10;
    let (first, second) = digits.split_at(digits.len().div_ceil(2));
    DAMAGE[before as usize % DAMAGE.len()]
        .replace('<', first)
        .replace('>', second)
}

/// The packet at a place of the tape, whose number has at least so many digits.
fn packet(place: u64, least: usize) -> Vec<u8> {
    let Login { who, session, next } = login(place);
    let digits = digits(place, next, least);
    // twenty characters of the number, and no more if damage made it longer
    let number = format!("{digits:>20.20}\n").into_bytes();
    match who {
        None => [&b"A"[..], &session, &number].concat(),
        Some((user, password)) => [&b"L"[..], &user, &password, &session, &number].concat(),
    }
}

/// Every packet that is read. A number has at least so many digits, noughts among them, unless it is
/// damaged.
pub fn logins(least: usize) -> Vec<Vec<u8>> {
    (0..TURN).map(|place| packet(place, least)).collect()
}

/// Reads so many packets, whose numbers have at least `least` digits, and gives the checksum of all
/// that was read or why it was refused.
pub fn read<D: Desk>(least: usize, count: u64) -> u64 {
    // `least` is no constant: a loop compiled for each of them is slower on both desks
    let packets = logins(least);
    let mut sum = Sum::default();
    for _ in 0..count / TURN {
        for packet in &packets {
            match D::read_login(black_box(packet)) {
                Ok(login) => {
                    if let Some((user, password)) = login.who {
                        sum.name(user);
                        sum.name(password);
                    }
                    sum.name(login.session);
                    sum.add(login.next);
                }
                Err(refusal) => sum.add(refusal.into()),
            }
        }
    }
    sum.total()
}

/// Writes so many logins, none of them damaged, and gives the checksum.
pub fn write<D: Desk>(count: u64) -> u64 {
    let logins: Vec<Login> = (0..TURN).map(login).collect();
    let mut out = [0; 48];
    let mut sum = Sum::default();
    for _ in 0..count / TURN {
        for login in &logins {
            let packet = D::write_login(black_box(login), &mut out);
            // without the linefeed, so that the last byte is the number's last digit
            sum.written(&packet[..packet.len() - 1]);
        }
    }
    sum.total()
}
