//! Patience and silence: how long an answer takes, how long to wait for one, when a line is lost.

use crate::flat::{hp_heartbeat_due, hp_line_lost, hp_patience, hp_sheet, hp_time, hp_wait_of};
use crate::kinds::Tick;
use crate::refusal::{taken, Refusal};

/// What was learnt from timed answers, in milliseconds. The default is a sheet on which nothing
/// was timed yet.
///
/// ```
/// use hinurapay::{Patience, Sheet};
///
/// let sheet = Sheet::default().time(100.0)?.time(60.0)?.time(95.0)?;
/// assert_eq!((sheet.mean, sheet.spread), (95.0, 35.625));
/// let patience = Patience::Measured { floor: 50.0, ceiling: 1000.0 };
/// assert_eq!(sheet.wait(&patience), Ok(Some(237.5)));
/// # Ok::<(), hinurapay::Refusal>(())
/// ```
#[derive(Clone, Copy, Debug, Default, PartialEq)]
pub struct Sheet {
    /// The smoothed mean.
    pub mean: f64,
    /// The smoothed distance from the mean.
    pub spread: f64,
    /// Whether any answer was timed; if not, mean and spread don't matter.
    pub timed: bool,
}

impl Sheet {
    /// The sheet after one more answer that took `sample` milliseconds; 10, then 15 for a sample
    /// outside 0 to 60,000 or not a number.
    pub fn time(self, sample: f64) -> Result<Sheet, Refusal> {
        let timed = hp_time(self.flat(), sample);
        let after = Sheet {
            mean: timed.sheet.mean,
            spread: timed.sheet.spread,
            timed: timed.sheet.timed == 1,
        };
        taken(timed.refusal, after)
    }

    /// How long to wait before asking again; none if the rule never asks twice. 10, then 15.
    pub fn wait(&self, patience: &Patience) -> Result<Option<f64>, Refusal> {
        let wait = hp_wait_of(self.flat(), patience.flat());
        taken(wait.refusal, (wait.waits == 1).then_some(wait.milliseconds))
    }

    pub(crate) fn flat(&self) -> hp_sheet {
        hp_sheet {
            mean: self.mean,
            spread: self.spread,
            timed: u8::from(self.timed),
        }
    }
}

/// How patient the desk is before it asks again, in milliseconds.
///
/// ```
/// use hinurapay::{Patience, Refusal, Sheet};
///
/// let untimed = Sheet::default();
/// assert_eq!(untimed.wait(&Patience::Never), Ok(None));
/// assert_eq!(untimed.wait(&Patience::Fixed(250.0)), Ok(Some(250.0)));
/// assert_eq!(untimed.wait(&Patience::Fixed(f64::NAN)), Err(Refusal::Range));
/// ```
#[derive(Clone, Copy, Debug, PartialEq)]
pub enum Patience {
    /// Never asks twice.
    Never,
    /// Always waits as long: above 0, at most 60,000.
    Fixed(f64),
    /// Waits as the sheet says, within limits: 0 < floor ≤ ceiling ≤ 60,000.
    Measured {
        /// The shortest wait.
        floor: f64,
        /// The longest wait.
        ceiling: f64,
    },
}

impl Patience {
    pub(crate) fn flat(&self) -> hp_patience {
        let (rule, first, second) = match *self {
            Patience::Never => (0, 0.0, 0.0),
            Patience::Fixed(wait) => (1, wait, 0.0),
            Patience::Measured { floor, ceiling } => (2, floor, ceiling),
        };
        hp_patience {
            rule,
            first,
            second,
        }
    }
}

/// Whether a line last heard at `heard` is lost by now, after more than 10,000 ms; 14 if now is
/// earlier.
///
/// ```
/// use hinurapay::{line_lost, Refusal, Tick};
///
/// assert_eq!(line_lost(Tick(10_000), Tick(0)), Ok(false));
/// assert_eq!(line_lost(Tick(10_001), Tick(0)), Ok(true));
/// assert_eq!(line_lost(Tick(0), Tick(1)), Err(Refusal::ClockBack));
/// ```
pub fn line_lost(now: Tick, heard: Tick) -> Result<bool, Refusal> {
    let lost = hp_line_lost(now.0, heard.0);
    taken(lost.refusal, lost.yes == 1)
}

/// Whether a Soup heartbeat is due when something was last sent at `sent`, after more than
/// 1,000 ms; 14 if now is earlier.
///
/// ```
/// use hinurapay::{heartbeat_due, Tick};
///
/// assert_eq!(heartbeat_due(Tick(1_000), Tick(0)), Ok(false));
/// assert_eq!(heartbeat_due(Tick(1_001), Tick(0)), Ok(true));
/// ```
pub fn heartbeat_due(now: Tick, sent: Tick) -> Result<bool, Refusal> {
    let due = hp_heartbeat_due(now.0, sent.0);
    taken(due.refusal, due.yes == 1)
}
