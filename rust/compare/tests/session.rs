//! Whole sessions over a lossy line, byte for byte through both desks at once.

use compare::session::{play, Memx, Sender, Terms, Ufo};

/// A publisher whose headers are as short as may be, and some of a later edition; no datagram has more
/// than 1,472 bytes.
type Memx18 = Memx<0, 600, 2>;
type Memx19 = Memx<1, 600, 2>;
type Memx20 = Memx<2, 600, 2>;
type Memx48 = Memx<30, 600, 2>;
type Memx255 = Memx<237, 600, 2>;

/// Publishers of jumbo frames, the longest message being as long as fits one.
type Jumbo = Memx<0, 8950, 6>;
type Jumbo255 = Memx<237, 8713, 6>;

/// A short session over a line that reorders a little.
const SHORT: Terms = Terms {
    messages: 40,
    loss: 3,
    delay: 0,
    rounds: 5000,
};

/// A long one over a line that delays some datagrams by more than can be held.
const LONG: Terms = Terms {
    messages: 400,
    loss: 12,
    delay: 60,
    ..SHORT
};

/// What came up in some sessions.
#[derive(Default)]
struct Seen {
    requests: u64,
    /// How many messages were held.
    held: u64,
    /// How many at most at one time.
    most_held: u64,
    /// How many came early and were too long to be held.
    too_long: u64,
    /// How many ranges were missing at most at one time.
    ranges: usize,
    /// How far the record was behind at most.
    behind: u64,
}

fn delivers_the_whole_log<S: Sender>(seeds: u64, terms: Terms) -> Seen {
    let mut seen = Seen::default();
    for seed in 0..seeds {
        let outcome = play::<S>(seed, terms);
        assert!(outcome.complete, "seed {seed}");
        assert_eq!(outcome.tape, outcome.log, "seed {seed}");
        seen.requests += outcome.requests;
        seen.held += outcome.held.0;
        seen.most_held = seen.most_held.max(outcome.held.1);
        seen.too_long += outcome.too_long;
        seen.ranges = seen.ranges.max(outcome.ranges);
        seen.behind = seen.behind.max(outcome.behind);
    }
    seen
}

#[test]
fn a_lossy_ufo_line_delivers_the_whole_log() {
    let seen = delivers_the_whole_log::<Ufo>(100, SHORT);
    assert!(seen.requests > 100 && seen.held > 100);
}

#[test]
fn a_lossy_memx_line_delivers_the_whole_log() {
    let seen = delivers_the_whole_log::<Memx18>(100, SHORT);
    assert!(seen.requests > 100 && seen.held > 100);
}

#[test]
fn a_lossy_memx_line_of_longer_headers_delivers_the_whole_log() {
    assert!(delivers_the_whole_log::<Memx19>(25, SHORT).requests > 25);
    assert!(delivers_the_whole_log::<Memx20>(25, SHORT).requests > 25);
    assert!(delivers_the_whole_log::<Memx48>(25, SHORT).requests > 25);
    assert!(delivers_the_whole_log::<Memx255>(25, SHORT).requests > 25);
}

#[test]
fn a_lossy_line_of_jumbo_frames_delivers_the_whole_log() {
    for seen in [
        delivers_the_whole_log::<Jumbo>(50, SHORT),
        delivers_the_whole_log::<Jumbo255>(50, SHORT),
    ] {
        assert!(seen.requests > 50 && seen.held > 50);
        assert!(seen.too_long > 50, "{} too long", seen.too_long);
    }
}

/// In long sessions the slots go round many times, come to be nearly all full, and are not enough.
fn holds_much<S: Sender>(seeds: u64, terms: Terms) -> Seen {
    let seen = delivers_the_whole_log::<S>(seeds, terms);
    assert!(seen.held > 1000, "{} held", seen.held);
    assert!(seen.most_held > 20, "{} held at most", seen.most_held);
    assert!(seen.ranges > 5, "{} ranges at most", seen.ranges);
    assert!(seen.behind > 40, "{} behind at most", seen.behind);
    seen
}

#[test]
fn a_long_ufo_session_holds_much_and_delivers_the_whole_log() {
    holds_much::<Ufo>(8, LONG);
}

#[test]
fn a_long_memx_session_holds_much_and_delivers_the_whole_log() {
    holds_much::<Memx18>(8, LONG);
}

#[test]
fn a_long_session_of_jumbo_frames_holds_much_and_delivers_the_whole_log() {
    let terms = Terms {
        delay: 4,
        loss: 100,
        ..LONG
    };
    assert!(holds_much::<Jumbo>(24, terms).too_long > 300);
}

#[test]
fn a_line_that_loses_nothing_delivers_the_whole_log() {
    let terms = Terms { loss: 0, ..SHORT };
    delivers_the_whole_log::<Ufo>(30, terms);
    delivers_the_whole_log::<Memx18>(30, terms);
    delivers_the_whole_log::<Memx48>(30, terms);
    delivers_the_whole_log::<Jumbo>(30, terms);
}

fn delivers_nothing<S: Sender>() {
    let terms = Terms {
        loss: 1,
        rounds: 200,
        ..SHORT
    };
    let outcome = play::<S>(1, terms);
    assert!(!outcome.complete);
    assert_eq!((outcome.taken, outcome.requests), (0, 0));
    assert!(outcome.tape.is_empty());
}

#[test]
fn a_line_that_loses_everything_delivers_nothing() {
    delivers_nothing::<Ufo>();
    delivers_nothing::<Memx18>();
    delivers_nothing::<Memx48>();
}

fn a_beginning_of_the_log<S: Sender>() {
    let terms = Terms {
        rounds: 45,
        ..SHORT
    };
    let mut lacking = 0;
    for seed in 0..60 {
        let outcome = play::<S>(seed, terms);
        assert!(outcome.log.starts_with(&outcome.tape), "seed {seed}");
        assert!(
            !outcome.complete || outcome.tape == outcome.log,
            "seed {seed}"
        );
        lacking += usize::from(outcome.tape.len() < outcome.log.len());
    }
    assert!(lacking > 30);
}

#[test]
fn a_session_that_breaks_off_has_a_beginning_of_the_log() {
    a_beginning_of_the_log::<Ufo>();
    a_beginning_of_the_log::<Memx18>();
    a_beginning_of_the_log::<Memx48>();
    a_beginning_of_the_log::<Jumbo>();
}
