//! Costs in eighths, and leans.

use std::fmt;
use std::ops::Add;

/// A whole number of eighths, or barred. Barred exceeds every number, and
/// barred plus anything is barred.
#[derive(Clone, Copy, Debug, PartialEq, Eq, PartialOrd, Ord)]
pub struct Cost(u32);

impl Cost {
    pub const ZERO: Cost = Cost(0);
    pub const BARRED: Cost = Cost(u32::MAX);

    pub fn eighths(number: u32) -> Cost {
        Cost(number)
    }

    /// The cost of a squared distance under a noise: capped at 65,535.
    pub fn of_distance(squared: u32, noise: u32) -> Cost {
        Cost((8 * squared / noise).min(65_535))
    }

    /// The number of eighths, unless barred.
    pub fn number(self) -> Option<u32> {
        (self != Cost::BARRED).then_some(self.0)
    }
}

impl Add for Cost {
    type Output = Cost;

    fn add(self, other: Cost) -> Cost {
        Cost(self.0.saturating_add(other.0))
    }
}

impl fmt::Display for Cost {
    fn fmt(&self, f: &mut fmt::Formatter<'_>) -> fmt::Result {
        match self.number() {
            Some(number) => write!(f, "{number}"),
            None => f.write_str("barred"),
        }
    }
}

/// How far a value is preferred to the value 0.
#[derive(Clone, Copy, Debug, PartialEq, Eq)]
pub enum Lean {
    Eighths(i32),
    /// Only the value 0 is barred.
    Sure,
    /// Only the value itself is barred.
    Never,
    /// Both are barred.
    Neither,
}

impl Lean {
    pub fn between(zero: Cost, value: Cost) -> Lean {
        match (zero.number(), value.number()) {
            (Some(zero), Some(value)) => Lean::Eighths(zero as i32 - value as i32),
            (None, Some(_)) => Lean::Sure,
            (Some(_), None) => Lean::Never,
            (None, None) => Lean::Neither,
        }
    }
}

impl fmt::Display for Lean {
    fn fmt(&self, f: &mut fmt::Formatter<'_>) -> fmt::Result {
        match *self {
            Lean::Eighths(eighths) => {
                let sign = if eighths < 0 { "-" } else { "" };
                let size = eighths.unsigned_abs();
                write!(f, "{sign}{}.{:03}", size / 8, size % 8 * 125)
            }
            Lean::Sure => f.write_str("sure"),
            Lean::Never => f.write_str("never"),
            Lean::Neither => f.write_str("neither"),
        }
    }
}
