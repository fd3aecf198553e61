//! Refusals and faults.

use std::fmt;

/// Why a call is refused. The discriminant is the refusal's number.
#[derive(Clone, Copy, Debug, PartialEq, Eq, PartialOrd, Ord)]
pub enum Refusal {
    /// The number of taps or entries, or the memory, is not allowed.
    Count = 1,
    /// A tap, an entry's number, the noise or a mask is out of its range.
    Range = 2,
    /// There are 128 places, or more are handed in.
    Full = 3,
    /// A sample is out of range or not taken.
    Sample = 4,
    /// Priors break their rule, or the pinned value is barred.
    Priors = 5,
    /// There is no such place, or more places are cut than there are.
    Place = 6,
    /// The depth is not allowed.
    Depth = 7,
    /// The value is M or above.
    Value = 8,
    /// Some column is stale.
    Stale = 9,
    /// The best is none.
    Dead = 10,
    /// A list is too short.
    Short = 11,
    /// A line is not a form.
    Form = 12,
    /// A head is missing, repeated or misplaced.
    Head = 13,
    /// The text is too long.
    Long = 14,
}

impl Refusal {
    pub fn number(self) -> u8 {
        self as u8
    }
}

/// The part of the product that finds a fault in a text.
#[derive(Clone, Copy, Debug, PartialEq, Eq)]
pub enum Layer {
    Text,
    Channel,
    Receiver,
}

impl fmt::Display for Layer {
    fn fmt(&self, f: &mut fmt::Formatter<'_>) -> fmt::Result {
        f.write_str(match self {
            Layer::Text => "text",
            Layer::Channel => "channel",
            Layer::Receiver => "receiver",
        })
    }
}

/// The first fault of a text. Lines count from 1.
#[derive(Clone, Copy, Debug, PartialEq, Eq)]
pub struct Fault {
    pub line: usize,
    pub layer: Layer,
    pub refusal: Refusal,
}

impl fmt::Display for Fault {
    fn fmt(&self, f: &mut fmt::Formatter<'_>) -> fmt::Result {
        let (line, layer, number) = (self.line, self.layer, self.refusal.number());
        write!(f, "(fault (line {line}) (from {layer}) (number {number}))")
    }
}
