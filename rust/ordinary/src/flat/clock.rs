//! The flat face of patience and silence.

use super::{flag, number};
use crate::clock::{heartbeat_due, line_lost, Patience, Sheet};
use crate::kinds::Tick;
use crate::refusal::Refusal;

/// What was learnt from timed answers. Two sheets are equal if they are so bit for bit.
#[repr(C)]
#[derive(Clone, Copy, Debug, Default)]
pub struct hp_sheet {
    /// The smoothed mean.
    pub mean: f64,
    /// The smoothed distance from the mean.
    pub spread: f64,
    /// 0 or 1; another is 10.
    pub timed: u8,
}

impl hp_sheet {
    /// The sheet, if its flag is known; else 10.
    pub(super) fn sheet(&self) -> Result<Sheet, Refusal> {
        Ok(Sheet {
            mean: self.mean,
            spread: self.spread,
            timed: flag(self.timed)?,
        })
    }

    fn bits(&self) -> (u64, u64, u8) {
        (self.mean.to_bits(), self.spread.to_bits(), self.timed)
    }
}

impl PartialEq for hp_sheet {
    fn eq(&self, other: &Self) -> bool {
        self.bits() == other.bits()
    }
}

/// How patient the desk is. Two rules are equal if they are so bit for bit.
#[repr(C)]
#[derive(Clone, Copy, Debug, Default)]
pub struct hp_patience {
    /// 0 never; 1 fixed (`first`); 2 measured, floor `first`, ceiling `second`; another is 15.
    pub rule: u8,
    /// The wait, or the floor.
    pub first: f64,
    /// The ceiling.
    pub second: f64,
}

impl hp_patience {
    /// The rule as it is written; 15 if there is no such rule.
    pub(super) fn rule(&self) -> Result<Patience, Refusal> {
        match self.rule {
            0 => Ok(Patience::Never),
            1 => Ok(Patience::Fixed(self.first)),
            2 => Ok(Patience::Measured {
                floor: self.first,
                ceiling: self.second,
            }),
            _ => Err(Refusal::Range),
        }
    }

    fn bits(&self) -> (u8, u64, u64) {
        (self.rule, self.first.to_bits(), self.second.to_bits())
    }
}

impl PartialEq for hp_patience {
    fn eq(&self, other: &Self) -> bool {
        self.bits() == other.bits()
    }
}

/// A sheet after one more timed answer.
#[repr(C)]
#[derive(Clone, Copy, Debug, Default, PartialEq)]
pub struct hp_timed {
    /// 0 or why it was refused.
    pub refusal: u64,
    /// The sheet afterwards.
    pub sheet: hp_sheet,
}

/// How long to wait before asking again. Two waits are equal if they are so bit for bit.
#[repr(C)]
#[derive(Clone, Copy, Debug, Default)]
pub struct hp_wait {
    /// 0 or why it was refused.
    pub refusal: u64,
    /// 0: the rule never asks twice.
    pub waits: u8,
    /// How long.
    pub milliseconds: f64,
}

impl PartialEq for hp_wait {
    fn eq(&self, other: &Self) -> bool {
        let bits = |wait: &Self| (wait.refusal, wait.waits, wait.milliseconds.to_bits());
        bits(self) == bits(other)
    }
}

/// A yes or a no.
#[repr(C)]
#[derive(Clone, Copy, Debug, Default, PartialEq, Eq)]
pub struct hp_yes {
    /// 0 or why it was refused.
    pub refusal: u64,
    /// 1 for yes.
    pub yes: u8,
}

impl From<Result<bool, Refusal>> for hp_yes {
    fn from(answer: Result<bool, Refusal>) -> Self {
        match answer {
            Ok(yes) => hp_yes {
                refusal: 0,
                yes: u8::from(yes),
            },
            Err(refusal) => hp_yes {
                refusal: number(refusal),
                yes: 0,
            },
        }
    }
}

/// Times one more answer.
pub fn hp_time(sheet: hp_sheet, sample: f64) -> hp_timed {
    match sheet.sheet().and_then(|given| given.time(sample)) {
        Ok(after) => hp_timed {
            refusal: 0,
            sheet: hp_sheet {
                mean: after.mean,
                spread: after.spread,
                timed: u8::from(after.timed),
            },
        },
        Err(refusal) => hp_timed {
            refusal: number(refusal),
            sheet,
        },
    }
}

/// How long to wait before asking again.
pub fn hp_wait_of(sheet: hp_sheet, patience: hp_patience) -> hp_wait {
    let wait = || {
        let sheet = sheet.sheet()?;
        sheet.check()?;
        // every 10 comes before the 15 of a rule that there is not
        patience.rule()?.wait(&sheet)
    };
    match wait() {
        Ok(Some(milliseconds)) => hp_wait {
            refusal: 0,
            waits: 1,
            milliseconds,
        },
        Ok(None) => hp_wait::default(),
        Err(refusal) => hp_wait {
            refusal: number(refusal),
            ..hp_wait::default()
        },
    }
}

/// Whether the line is lost.
pub fn hp_line_lost(now: u64, heard: u64) -> hp_yes {
    line_lost(Tick(now), Tick(heard)).into()
}

/// Whether a Soup heartbeat is due.
pub fn hp_heartbeat_due(now: u64, sent: u64) -> hp_yes {
    heartbeat_due(Tick(now), Tick(sent)).into()
}
