//! Joinings, and the sweep that serves them all at full memory.

use super::channel::Channel;
use super::cost::Cost;
use super::place::{obeys_rule, prior_cost, Place, BARRED_PRIOR, MOST_PLACES};
use super::refusal::Refusal;

/// A semiring, and the worth of a cost in it.
pub trait Joining {
    type Element: Copy;

    /// Neutral to join.
    const NONE: Self::Element;
    /// Neutral to follow.
    const UNIT: Self::Element;

    fn join(left: Self::Element, right: Self::Element) -> Self::Element;
    fn follow(left: Self::Element, right: Self::Element) -> Self::Element;

    /// The worth of a number.
    fn worth_of(number: u32) -> Self::Element;

    fn worth(cost: Cost) -> Self::Element {
        cost.number().map_or(Self::NONE, Self::worth_of)
    }
}

/// The least cost of all choices.
pub struct LeastCost;

impl Joining for LeastCost {
    type Element = u32;
    const NONE: u32 = u32::MAX;
    const UNIT: u32 = 0;

    fn join(left: u32, right: u32) -> u32 {
        left.min(right)
    }

    fn follow(left: u32, right: u32) -> u32 {
        left.saturating_add(right)
    }

    fn worth_of(number: u32) -> u32 {
        number
    }
}

/// Whether any choice is admitted.
pub struct Admitted;

impl Joining for Admitted {
    type Element = bool;
    const NONE: bool = false;
    const UNIT: bool = true;

    fn join(left: bool, right: bool) -> bool {
        left || right
    }

    fn follow(left: bool, right: bool) -> bool {
        left && right
    }

    fn worth_of(_number: u32) -> bool {
        true
    }
}

/// How many choices are admitted, up to 65,535.
pub struct Count;

impl Joining for Count {
    type Element = u16;
    const NONE: u16 = 0;
    const UNIT: u16 = 1;

    fn join(left: u16, right: u16) -> u16 {
        left.saturating_add(right)
    }

    fn follow(left: u16, right: u16) -> u16 {
        left.saturating_mul(right)
    }

    fn worth_of(_number: u32) -> u16 {
        1
    }
}

/// Fills the lists of forward elements, backward elements and answers.
pub fn sweep<J: Joining, C: Channel>(
    channel: &C,
    places: &[Place],
    forward: &mut [J::Element],
    backward: &mut [J::Element],
    answers: &mut [J::Element],
) -> Result<(), Refusal> {
    let (last, histories, values) = (places.len(), channel.histories(), C::VALUES);
    let columns = (last + 1) * histories;
    if last > MOST_PLACES {
        return Err(Refusal::Full);
    }
    if !places.iter().all(|place| channel.takes(place.sample)) {
        return Err(Refusal::Sample);
    }
    if !places.iter().all(|place| obeys_rule(&place.priors, values)) {
        return Err(Refusal::Priors);
    }
    if forward.len() < columns || backward.len() < columns || answers.len() < last * values {
        return Err(Refusal::Short);
    }

    let next = |s: usize, a: usize| (a + values * s) % histories;
    let worth = |place: &Place, s: usize, a: usize| {
        J::follow(
            J::worth(channel.cost(place.sample, a + values * s)),
            J::worth(prior_cost(place.priors[a])),
        )
    };

    forward[..columns].fill(J::NONE);
    forward[0] = J::UNIT;
    for (k, place) in places.iter().enumerate() {
        for s in 0..histories {
            for a in 0..values {
                let path = J::follow(forward[k * histories + s], worth(place, s, a));
                let to = &mut forward[(k + 1) * histories + next(s, a)];
                *to = J::join(*to, path);
            }
        }
    }

    backward[last * histories..columns].fill(J::UNIT);
    answers[..last * values].fill(J::NONE);
    for (k, place) in places.iter().enumerate().rev() {
        for s in 0..histories {
            let mut from = J::NONE;
            for a in 0..values {
                let onward = J::follow(
                    worth(place, s, a),
                    backward[(k + 1) * histories + next(s, a)],
                );
                from = J::join(from, onward);
                let answer = &mut answers[k * values + a];
                *answer = J::join(*answer, J::follow(forward[k * histories + s], onward));
            }
            backward[k * histories + s] = from;
        }
    }
    Ok(())
}

/// Bars all values but `a` at place `p`, for a kind of channel.
pub fn pin<C: Channel>(places: &mut [Place], p: usize, a: usize) -> Result<(), Refusal> {
    let place = places.get_mut(p).ok_or(Refusal::Place)?;
    let used = &place.priors[..C::VALUES];
    if !obeys_rule(&place.priors, C::VALUES) || used.get(a) == Some(&BARRED_PRIOR) {
        return Err(Refusal::Priors);
    }
    if a >= C::VALUES {
        return Err(Refusal::Value);
    }
    for (value, prior) in place.priors[..C::VALUES].iter_mut().enumerate() {
        if value != a {
            *prior = BARRED_PRIOR;
        }
    }
    Ok(())
}
