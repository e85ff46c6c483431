//! Which cases are run in the tests: how many of each function, and from which seed.

use crate::dice::Dice;
use crate::FUNCTIONS;

/// Cases of each function but those of MEMX-TCP.
pub const CASES: u64 = 45_000;

/// Cases of each function of MEMX-TCP, which has seventeen types.
pub const TCP_CASES: u64 = 110_000;

/// From which they are made.
pub const SEED: u64 = 8841;

/// How many cases of a function are run.
pub fn cases(name: &str) -> u64 {
    if name.starts_with("hp_tcp") {
        TCP_CASES
    } else {
        CASES
    }
}

/// Those cases of a function, from their start; of taking, whose areas are long to make, a third.
pub fn cases_of(name: &str) -> impl Iterator<Item = Dice> {
    let place = FUNCTIONS.iter().position(|&(one, _)| one == name);
    let place = place.expect("the function has cases") as u64;
    let count = match name {
        "hp_take" => cases(name) / 3,
        _ => cases(name),
    };
    (0..count).map(move |case| Dice::seeded(SEED, place, case))
}
