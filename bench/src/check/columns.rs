//! Columns at every depth, state by state as they are defined.

use super::agree;
use super::brute::{meaning, settled};
use crate::generate::{self, Burst};
use crate::reference::channel::Channel;
use crate::reference::place::BARRED_PRIOR;
use crate::reference::receiver::Receiver;

/// Costs of a definition: a number, or none if barred.
type Number = Option<u64>;

fn sum(left: Number, right: Number) -> Number {
    Some(left? + right?)
}

/// The least, none only if all are.
fn least(costs: impl Iterator<Item = Number>) -> Number {
    costs.flatten().min()
}

/// Compares the columns, costs and shown sequence at each allowed depth.
pub fn check<C: Channel>(burst: &Burst, channel: &C) -> Result<(), String> {
    for depth in (1..=8).filter(|&depth| generate::depth_allowed(&burst.load, depth)) {
        let (receiver, best) = settled(burst, channel, depth)?;
        check_depth(burst, &receiver, depth, best)
            .map_err(|what| format!("depth {depth}: {what}"))?;
    }
    Ok(())
}

fn check_depth<C: Channel>(
    burst: &Burst,
    receiver: &Receiver<C>,
    depth: usize,
    best: Number,
) -> Result<(), String> {
    let (values, last) = (C::VALUES, burst.places.len());
    let states = values.pow(depth as u32 - 1);
    let histories = values.pow(generate::memory(&burst.load) as u32 - 1);
    let next = |s: usize, a: usize| (a + values * s) % states;
    let weight = |k: usize, history: usize, a: usize| {
        let place = &burst.places[k];
        let prior = (place.priors[a] != BARRED_PRIOR).then_some(place.priors[a].into());
        sum(
            meaning(&burst.load, place.sample, a + values * history),
            prior,
        )
    };

    // Forward: cost, history and survivor of each state.
    let mut forward = vec![(0..states)
        .map(|s| ((s == 0).then_some(0), s, None))
        .collect::<Vec<_>>()];
    for k in 0..last {
        let from = &forward[k];
        let to = (0..states).map(|t| {
            let pairs = (0..states).flat_map(|s| (0..values).map(move |a| (s, a)));
            let survivor = pairs
                .filter(|&(s, a)| next(s, a) == t)
                .filter_map(|(s, a)| Some((sum(from[s].0, weight(k, from[s].1, a))?, s, a)))
                .min();
            match survivor {
                Some((cost, s, a)) => {
                    let history = (a + values * from[s].1) % histories;
                    (Some(cost), history, Some((s, a)))
                }
                None => (None, t, None),
            }
        });
        let to = to.collect();
        forward.push(to);
    }
    for (k, column) in forward.iter().enumerate() {
        let worked = receiver.forward(k).iter().map(|state| {
            let survivor = state.survivor.map(|pair| (pair.state, pair.symbol));
            (state.cost.number().map(u64::from), state.history, survivor)
        });
        agree!(worked.collect::<Vec<_>>(), *column, "forward column {k}");
    }

    let mut backward = vec![vec![Some(0); states]; last + 1];
    for k in (0..last).rev() {
        let onward = |s: usize, a| sum(weight(k, forward[k][s].1, a), backward[k + 1][next(s, a)]);
        let column = (0..states).map(|s| least((0..values).map(|a| onward(s, a))));
        let column: Vec<_> = column.collect();
        for a in 0..values {
            let answer = least((0..states).map(|s| sum(forward[k][s].0, onward(s, a))));
            let cost = receiver.cost(k, a).map(|cost| cost.number().map(u64::from));
            agree!(cost, Ok(answer), "cost {k} {a}");
        }
        let worked = receiver.backward(k).iter();
        let worked: Vec<_> = worked.map(|cost| cost.number().map(u64::from)).collect();
        agree!(worked, column, "backward column {k}");
        backward[k] = column;
    }

    agree!(
        best,
        least(forward[last].iter().map(|state| state.0)),
        "best"
    );
    let Some(mut state) = (0..states).find(|&s| best.is_some() && forward[last][s].0 == best)
    else {
        return Ok(());
    };
    for k in (0..last).rev() {
        let (from, symbol) = forward[k + 1][state].2.ok_or("no survivor")?;
        agree!(receiver.symbol(k), Ok(symbol as u8), "symbol {k}");
        state = from;
    }
    Ok(())
}
