//! Patience and silence: bounds, rounding and order.

mod common;

use common::{number, Dice};
use ordinary::clock::{heartbeat_due, line_lost, Patience, Sheet};
use ordinary::kinds::Tick;

const JUST_OVER: f64 = 60_000.000_000_000_01;

fn timed(mean: f64, spread: f64) -> Sheet {
    Sheet {
        mean,
        spread,
        timed: true,
    }
}

fn measured(floor: f64, ceiling: f64) -> Patience {
    Patience::Measured { floor, ceiling }
}

#[test]
fn samples_from_0_to_60_000_are_taken() {
    for sample in [0.0, f64::MIN_POSITIVE, 1.5, 60_000.0] {
        let first = Sheet::default().time(sample).unwrap();
        assert_eq!(first, timed(sample, sample / 2.0));
        assert_eq!(number(timed(60_000.0, 60_000.0).time(sample)), 0);
    }
    let negative_nought = Sheet::default().time(-0.0).unwrap();
    assert_eq!(negative_nought.mean.to_bits(), (-0.0f64).to_bits());
    assert_eq!(negative_nought.spread.to_bits(), (-0.0f64).to_bits());
    for sample in [-f64::MIN_POSITIVE, JUST_OVER, f64::INFINITY, f64::NAN] {
        assert_eq!(number(Sheet::default().time(sample)), 15, "{sample}");
        assert_eq!(number(timed(1.0, 1.0).time(sample)), 15, "{sample}");
    }
}

#[test]
fn a_broken_sheet_is_10_before_anything_is_15() {
    for wrong in [-1.0, JUST_OVER, f64::NEG_INFINITY, f64::NAN] {
        for sheet in [timed(wrong, 1.0), timed(1.0, wrong)] {
            assert_eq!(number(sheet.check()), 10);
            assert_eq!(number(sheet.time(1.0)), 10);
            assert_eq!(number(sheet.time(f64::NAN)), 10);
            assert_eq!(number(Patience::Never.wait(&sheet)), 10);
            assert_eq!(number(Patience::Fixed(f64::NAN).wait(&sheet)), 10);
        }
        let untimed = Sheet {
            mean: wrong,
            spread: wrong,
            timed: false,
        };
        assert_eq!(untimed.time(8.0), Ok(timed(8.0, 4.0)));
        assert_eq!(measured(1.0, 9000.0).wait(&untimed), Ok(Some(1000.0)));
    }
}

#[test]
fn a_rule_out_of_range_is_15() {
    for rule in [
        Patience::Fixed(0.0),
        Patience::Fixed(-1.0),
        Patience::Fixed(JUST_OVER),
        Patience::Fixed(f64::NAN),
        measured(0.0, 1.0),
        measured(2.0, 1.0),
        measured(1.0, JUST_OVER),
        measured(f64::NAN, 1.0),
        measured(1.0, f64::NAN),
        measured(-1.0, 1.0),
    ] {
        assert_eq!(number(rule.wait(&Sheet::default())), 15, "{rule:?}");
    }
}

#[test]
fn the_wait_stays_between_floor_and_ceiling() {
    let sheet = timed(100.0, 50.0);
    for (rule, wait) in [
        (Patience::Never, None),
        (Patience::Fixed(f64::MIN_POSITIVE), Some(f64::MIN_POSITIVE)),
        (Patience::Fixed(60_000.0), Some(60_000.0)),
        (measured(1.0, 60_000.0), Some(300.0)),
        (measured(300.0, 300.0), Some(300.0)),
        (measured(300.5, 400.0), Some(300.5)),
        (measured(1.0, 299.5), Some(299.5)),
    ] {
        assert_eq!(rule.wait(&sheet), Ok(wait), "{rule:?}");
    }
    let untimed = Sheet::default();
    assert_eq!(measured(1.0, 60_000.0).wait(&untimed), Ok(Some(1000.0)));
    assert_eq!(measured(1.0, 999.0).wait(&untimed), Ok(Some(999.0)));
    assert_eq!(measured(1001.0, 2000.0).wait(&untimed), Ok(Some(1001.0)));
}

#[test]
fn each_step_rounds_once_and_the_spread_goes_first() {
    let mut dice = Dice::seeded(6298);
    let mut sheet = Sheet::default();
    let mut last = Sheet::default();
    for step in 0..10_000 {
        let sample = dice.below(60_000_000) as f64 / 1000.0 / (1 + dice.below(7)) as f64;
        sheet = sheet.time(sample).unwrap();
        if step > 0 {
            let distance = (last.mean - sample).abs();
            let kept = 0.75 * last.spread;
            let added = 0.25 * distance;
            assert_eq!(sheet.spread.to_bits(), (kept + added).to_bits());
            let kept = 0.875 * last.mean;
            let added = 0.125 * sample;
            assert_eq!(sheet.mean.to_bits(), (kept + added).to_bits());
        }
        assert_eq!(number(sheet.check()), 0);
        last = sheet;
    }
}

#[test]
fn silence_is_counted_in_whole_ticks() {
    let base = 5;
    for (since, lost, due) in [
        (0, false, false),
        (1000, false, false),
        (1001, false, true),
        (10_000, false, true),
        (10_001, true, true),
        (u64::MAX - base, true, true),
    ] {
        let now = Tick(base + since);
        assert_eq!(line_lost(now, Tick(base)), Ok(lost), "{since}");
        assert_eq!(heartbeat_due(now, Tick(base)), Ok(due), "{since}");
    }
    assert_eq!(number(line_lost(Tick(4), Tick(5))), 14);
    assert_eq!(number(heartbeat_due(Tick(4), Tick(5))), 14);
    assert_eq!(number(line_lost(Tick(0), Tick(u64::MAX))), 14);
}
