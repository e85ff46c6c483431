//! The proved desk held against the ordinary one: the same inputs to both, every answer and byte compared.

#![deny(missing_docs)]

mod both;
mod cases;
pub mod dice;
pub mod limits;
pub mod make;
pub mod plan;
pub mod session;
mod smallest;
mod spelling;
pub mod twin;

pub use both::{Agreed, Difference};
pub use cases::{fed, taken, ToAdd, ToTake, FUNCTIONS};
pub use cases::{memx_both_ways, memx_written, soup_both_ways, soup_written};
pub use spelling::spelling;

use dice::Dice;

/// Makes one case, gives it to both desks, and says with which refusal they answered (0: none),
/// or how they differ.
pub type Case = fn(&mut Dice) -> Result<u64, Difference>;

/// How many cases were answered with each refusal, 0 standing for none.
pub type Tally = [u64; 17];

/// How many cases on which the desks differ are looked at before the smallest of them is told.
const ENOUGH: usize = 20;

/// Runs so many cases of a function, by its place in [`FUNCTIONS`]. If the desks differ on any, the
/// smallest found is told: the function, the seed, the case and its inputs.
pub fn run(function: usize, seed: u64, count: u64) -> Result<Tally, String> {
    let (name, case) = FUNCTIONS[function];
    let mut tally = Tally::default();
    let mut differing = Vec::new();
    for number in 0..count {
        match case(&mut Dice::seeded(seed, function as u64, number)) {
            Ok(refusal) => tally[refusal as usize] += 1,
            Err(difference) => differing.push((number, difference)),
        }
        if differing.len() == ENOUGH {
            break;
        }
    }
    match differing.iter().min_by_key(|(_, one)| one.size) {
        None => Ok(tally),
        Some((number, smallest)) => Err(format!(
            "{name}: seed {seed}, case {number}, the smallest of {} that differ\n{}",
            differing.len(),
            smallest.how
        )),
    }
}
