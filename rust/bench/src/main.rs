//! Times both desks: `bench [MESSAGES [REPLAY [DESK]]]`.
//!
//! Twenty million messages go through every replay, unless it is told otherwise. With a desk named
//! that desk makes one run, which is not timed: what counts instructions can be held to it.

use bench::{Replay, Run, REPLAYS, TURN};
use std::env;
use std::process::ExitCode;
use std::time::Instant;

/// How often each desk is timed, the two in turn; the best time counts.
const ROUNDS: usize = 5;

/// How many seconds a run takes, and its checksum.
fn timed(run: Run, messages: u64) -> (f64, u64) {
    let start = Instant::now();
    let sum = run(messages);
    (start.elapsed().as_secs_f64(), sum)
}

/// Times both desks in turn and prints how they compare.
fn compare(replay: &Replay, messages: u64) {
    let (mut proved, mut ordinary) = (f64::INFINITY, f64::INFINITY);
    for _ in 0..ROUNDS {
        let (time, sum) = timed(replay.proved, messages);
        let (other_time, other_sum) = timed(replay.ordinary, messages);
        assert_eq!(sum, other_sum, "the two desks did not do the same");
        proved = proved.min(time);
        ordinary = ordinary.min(other_time);
    }
    println!(
        "{}: proved {proved:.3} s, ordinary {ordinary:.3} s, proved / ordinary {:.2} ({})",
        replay.name,
        proved / ordinary,
        replay.about
    );
}

/// What the words ask for: how many messages, which replay, which desk.
fn asked(words: &[String]) -> Option<(u64, Option<&Replay>, Option<Run>)> {
    let messages = match words.first() {
        None => 20_000_000,
        Some(word) => word.parse::<u32>().ok()?,
    };
    let replay = match words.get(1) {
        None => None,
        Some(word) => Some(REPLAYS.iter().find(|replay| replay.name == word)?),
    };
    let run = match (replay, words.get(2).map(String::as_str)) {
        (_, None) => None,
        (Some(replay), Some("proved")) => Some(replay.proved),
        (Some(replay), Some("ordinary")) => Some(replay.ordinary),
        _ => return None,
    };
    let messages = u64::from(messages) / TURN * TURN;
    (messages > 0 && words.len() < 4).then_some((messages, replay, run))
}

fn main() -> ExitCode {
    let words: Vec<String> = env::args().skip(1).collect();
    let Some((messages, replay, run)) = asked(&words) else {
        let names = REPLAYS.map(|replay| replay.name).join("|");
        eprintln!("bench [MESSAGES [{names} [proved|ordinary]]]: {TURN} messages or more");
        return ExitCode::from(2);
    };
    if let Some(run) = run {
        println!("{:016x}", run(messages));
        return ExitCode::SUCCESS;
    }
    println!("{messages} messages of 4 to 20 bytes, of 12 to 29 in jumbo frames, or logins");
    println!("buffers not cleared; best of {ROUNDS}");
    for each in &REPLAYS {
        if replay.is_none_or(|one| one.name == each.name) {
            compare(each, messages);
        }
    }
    ExitCode::SUCCESS
}
