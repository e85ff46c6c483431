//! A long comparison: `compare SEED COUNT` runs so many cases of every function.

use compare::{run, FUNCTIONS};
use std::env;
use std::process::ExitCode;

fn main() -> ExitCode {
    let words: Vec<String> = env::args().skip(1).collect();
    let numbers: Vec<u64> = words.iter().flat_map(|word| word.parse().ok()).collect();
    let (&[seed, count], 2) = (&numbers[..], words.len()) else {
        eprintln!("compare SEED COUNT: two whole numbers, the seed and the cases of each function");
        return ExitCode::from(2);
    };
    let mut code = ExitCode::SUCCESS;
    for (place, (name, _)) in FUNCTIONS.iter().enumerate() {
        match run(place, seed, count) {
            Ok(tally) => println!("{name}: {count} cases agree; by refusal {tally:?}"),
            Err(how) => {
                println!("DISAGREEMENT in {how}");
                code = ExitCode::FAILURE;
            }
        }
    }
    code
}
