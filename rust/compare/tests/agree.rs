//! The two desks agree on every function of the C face, over more than a million seeded cases.

use compare::plan::{cases, CASES, SEED, TCP_CASES};
use compare::{run, FUNCTIONS};
use std::sync::atomic::{AtomicUsize, Ordering};
use std::thread;

/// Every function, and exactly which refusals must come up among its cases (0: none).
const EXPECTED: [(&str, &[usize]); 30] = [
    ("hp_soup_read", &[0, 1, 2, 3, 4, 5, 6, 7, 8]),
    ("hp_ufo_read_down", &[0, 1, 2, 3, 4, 5, 6, 7]),
    ("hp_ufo_read_up", &[0, 1, 2, 3, 4, 5, 6]),
    ("hp_ufo_read_message", &[0, 1, 2, 3, 4, 5, 6]),
    ("hp_memx_read", &[0, 1, 2, 3, 4, 5, 6, 7]),
    ("hp_next_block", &[0, 4]),
    ("hp_soup_write", &[0, 2, 3, 4, 5, 6, 8, 9]),
    ("hp_ufo_write_down", &[0, 2, 3, 4, 5, 6, 7, 9]),
    ("hp_ufo_write_message", &[0, 2, 3, 4, 5, 6, 7, 9]),
    ("hp_ufo_add_message", &[0, 2, 3, 4, 5, 6, 7, 9]),
    ("hp_memx_write", &[0, 2, 3, 4, 5, 6, 7, 9]),
    ("hp_soup_take", &[0, 4, 10]),
    ("hp_tcp_read", &[0, 1, 2, 3, 4, 5, 6]),
    ("hp_tcp_write", &[0, 2, 3, 4, 5, 6, 9]),
    ("hp_open_ufo", &[0, 5, 6]),
    ("hp_open_memx", &[0]),
    ("hp_take", &[0, 1, 2, 3, 4, 5, 6, 7, 9, 10, 11, 12, 16]),
    ("hp_standing_of", &[0, 10]),
    ("hp_missing_range", &[0, 10]),
    ("hp_time", &[0, 10, 15]),
    ("hp_wait_of", &[0, 10, 15]),
    ("hp_ask", &[0, 10, 15]),
    ("hp_line_lost", &[0, 14]),
    ("hp_heartbeat_due", &[0, 14]),
    ("hp_log_add", &[0, 2, 9, 10, 13]),
    ("hp_log_add_many", &[0, 2, 4, 9, 10, 13]),
    ("hp_log_declare_end", &[0, 10, 13]),
    ("hp_log_answer", &[0, 6, 9, 10]),
    ("hp_log_heartbeat", &[0, 9, 10]),
    ("hp_log_end_packet", &[0, 9, 10, 12]),
];

/// Runs the cases of one function; how many they were, or what is wrong.
fn agree(place: usize) -> Result<u64, String> {
    let (name, refusals) = EXPECTED[place];
    assert_eq!(FUNCTIONS[place].0, name);
    let tally = run(place, SEED, cases(name))?;
    let seen: Vec<usize> = (0..17).filter(|&number| tally[number] > 0).collect();
    if seen != refusals {
        return Err(format!(
            "{name}: refusals {seen:?} came up, not {refusals:?}"
        ));
    }
    Ok(tally.iter().sum())
}

#[test]
fn the_two_desks_agree_on_more_than_a_million_cases() {
    let upcoming = AtomicUsize::new(0);
    let work = || {
        let mut done = Vec::new();
        loop {
            let place = upcoming.fetch_add(1, Ordering::Relaxed);
            if place >= FUNCTIONS.len() {
                return done;
            }
            done.push(agree(place));
        }
    };
    let workers = thread::available_parallelism().map_or(1, usize::from);
    let done: Vec<Result<u64, String>> = thread::scope(|scope| {
        let workers: Vec<_> = (0..workers).map(|_| scope.spawn(work)).collect();
        let ended = workers.into_iter().map(|worker| worker.join());
        ended
            .flat_map(|done| done.expect("no case panics"))
            .collect()
    });
    let wrong: Vec<&str> = done
        .iter()
        .filter_map(|one| one.as_ref().err())
        .map(String::as_str)
        .collect();
    assert!(wrong.is_empty(), "{}", wrong.join("\n\n"));
    let cases: u64 = done.iter().flatten().sum();
    assert_eq!(cases, 28 * CASES + 2 * TCP_CASES);
    assert!(cases > 1_000_000);
}
