//! Places of a burst.

use super::cost::Cost;

/// The most places of a burst.
pub const MOST_PLACES: usize = 128;

/// The prior that means barred.
pub const BARRED_PRIOR: u16 = 65_535;

/// The two numbers received at a place.
pub type Sample = [i32; 2];

/// The priors of the values 0 to 3.
pub type Priors = [u16; 4];

#[derive(Clone, Copy, Debug, PartialEq, Eq)]
pub struct Place {
    pub sample: Sample,
    pub priors: Priors,
}

/// Whether both numbers of a sample are in range.
pub fn in_range(sample: Sample) -> bool {
    sample.iter().all(|number| (-2048..=2047).contains(number))
}

/// The rule of priors, for `values` symbol values.
pub fn obeys_rule(priors: &Priors, values: usize) -> bool {
    let (used, unused) = priors.split_at(values);
    used.iter().any(|&prior| prior != BARRED_PRIOR) && unused.iter().all(|&prior| prior == 0)
}

/// A prior as a cost.
pub fn prior_cost(prior: u16) -> Cost {
    match prior {
        BARRED_PRIOR => Cost::BARRED,
        number => Cost::eighths(number.into()),
    }
}
