//! Patience and silence: how long an answer takes, how long to wait for one, when a line is lost.

use crate::kinds::Tick;
use crate::refusal::Refusal;

/// The longest time, in milliseconds, that is timed or waited for.
const LONGEST: f64 = 60_000.0;

/// The wait, in milliseconds, while nothing was timed.
const UNTIMED_WAIT: f64 = 1000.0;

/// Silence on a line for more than this many milliseconds means that it is lost.
const LOST_AFTER: u64 = 10_000;

/// A Soup heartbeat is due when nothing was sent for more than this many milliseconds.
const HEARTBEAT_AFTER: u64 = 1000;

/// What was learnt from timed answers, in milliseconds. The default is a sheet on which nothing
/// was timed yet.
#[derive(Clone, Copy, Debug, Default, PartialEq)]
pub struct Sheet {
    /// The smoothed mean.
    pub mean: f64,
    /// The smoothed distance from the mean.
    pub spread: f64,
    /// Whether any answer was timed; if not, mean and spread don't matter.
    pub timed: bool,
}

impl Sheet {
    /// 10 if a timed mean or spread is outside 0 to 60,000 or not a number.
    pub fn check(&self) -> Result<(), Refusal> {
        if !self.timed || (measurable(self.mean) && measurable(self.spread)) {
            Ok(())
        } else {
            Err(Refusal::Broken)
        }
    }

    /// The sheet after one more answer that took `sample` milliseconds; 10, then 15 for a sample
    /// outside 0 to 60,000 or not a number.
    pub fn time(self, sample: f64) -> Result<Sheet, Refusal> {
        self.check()?;
        if !measurable(sample) {
            return Err(Refusal::Range);
        }
        let (mean, spread) = if self.timed {
            let difference = self.mean - sample;
            let distance = if difference < 0.0 {
                -difference
            } else {
                difference
            };
            let spread = 0.75 * self.spread + 0.25 * distance;
            (0.875 * self.mean + 0.125 * sample, spread)
        } else {
            (sample, sample / 2.0)
        };
        Ok(Sheet {
            mean,
            spread,
            timed: true,
        })
    }
}

/// How patient the desk is before it asks again, in milliseconds.
#[derive(Clone, Copy, Debug, PartialEq)]
pub enum Patience {
    /// Never asks twice.
    Never,
    /// Always waits as long.
    Fixed(
        /// How long.
        f64,
    ),
    /// Waits as the sheet says, within limits.
    Measured {
        /// The shortest wait.
        floor: f64,
        /// The longest wait.
        ceiling: f64,
    },
}

impl Patience {
    /// 15 if a wait is out of range or not a number.
    pub fn check(&self) -> Result<(), Refusal> {
        let lawful = match *self {
            Patience::Never => true,
            Patience::Fixed(wait) => 0.0 < wait && wait <= LONGEST,
            Patience::Measured { floor, ceiling } => {
                0.0 < floor && floor <= ceiling && ceiling <= LONGEST
            }
        };
        lawful.then_some(()).ok_or(Refusal::Range)
    }

    /// How long to wait, with what the sheet has learnt, before asking again; none if the rule
    /// never asks twice. 10, then 15.
    pub fn wait(&self, sheet: &Sheet) -> Result<Option<f64>, Refusal> {
        sheet.check()?;
        self.check()?;
        Ok(match *self {
            Patience::Never => None,
            Patience::Fixed(wait) => Some(wait),
            Patience::Measured { floor, ceiling } => {
                let wait = if sheet.timed {
                    sheet.mean + 4.0 * sheet.spread
                } else {
                    UNTIMED_WAIT
                };
                Some(wait.clamp(floor, ceiling))
            }
        })
    }
}

/// Whether a line last heard at `heard` is lost by now; 14 if now is earlier.
pub fn line_lost(now: Tick, heard: Tick) -> Result<bool, Refusal> {
    Ok(since(now, heard)? > LOST_AFTER)
}

/// Whether a Soup heartbeat is due when something was last sent at `sent`; 14 if now is earlier.
pub fn heartbeat_due(now: Tick, sent: Tick) -> Result<bool, Refusal> {
    Ok(since(now, sent)? > HEARTBEAT_AFTER)
}

fn since(now: Tick, then: Tick) -> Result<u64, Refusal> {
    now.0.checked_sub(then.0).ok_or(Refusal::ClockBack)
}

/// Whether a time lies between 0 and 60,000, which not-a-number doesn't.
fn measurable(milliseconds: f64) -> bool {
    (0.0..=LONGEST).contains(&milliseconds)
}
