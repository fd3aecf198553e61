//! Receivers worked by calls, against the rules of the calls and against new
//! receivers.

use super::agree;
use super::brute::settled;
use crate::generate::{self, Burst};
use crate::reference::channel::Channel;
use crate::reference::place::Place;
use crate::reference::receiver::Receiver;
use crate::reference::refusal::Refusal;
use crate::subject::{put, Answer, Call};

/// The depth, places and marks that stand after calls, from their rules.
struct Standing<'a, C> {
    channel: &'a C,
    depth: usize,
    places: Vec<Place>,
    marks: (usize, usize),
    /// Whether the last settling found no best, if there are places. Without
    /// any the best is 0, and all columns are fresh even before settling.
    dead: bool,
}

impl<C: Channel> Standing<'_, C> {
    /// The smallest number of all conditions of refusal that hold.
    fn refusal(&self, call: &Call) -> Option<Refusal> {
        let count = self.places.len();
        let values = C::VALUES;
        let taken = |sample| self.channel.takes(sample);
        let rule = |priors: &[u16; 4]| {
            (0..values).any(|a| priors[a] < 65_535) && (values..4).all(|a| priors[a] == 0)
        };
        let stale = self.marks.0 != count || self.marks.1 != 0;
        let dead = self.dead && count > 0;
        let mut holding = match *call {
            Call::Add(sample, priors) => vec![
                (count == 128, Refusal::Full),
                (!taken(sample), Refusal::Sample),
                (!rule(&priors), Refusal::Priors),
            ],
            Call::Retake(p, sample) => vec![
                (!taken(sample), Refusal::Sample),
                (p >= count, Refusal::Place),
            ],
            Call::Reweigh(p, priors) => vec![
                (!rule(&priors), Refusal::Priors),
                (p >= count, Refusal::Place),
            ],
            Call::Cut(n) => vec![(n > count, Refusal::Place)],
            Call::Depth(depth) => {
                let allowed = generate::depth_allowed(&self.channel.loaded(), depth);
                vec![(!allowed, Refusal::Depth)]
            }
            Call::Cost(k, a) | Call::Lean(k, a) => vec![
                (k >= count, Refusal::Place),
                (a >= values, Refusal::Value),
                (stale, Refusal::Stale),
            ],
            Call::Symbol(k) => vec![
                (k >= count, Refusal::Place),
                (stale, Refusal::Stale),
                (dead, Refusal::Dead),
            ],
            Call::Shown(length) => vec![
                (stale, Refusal::Stale),
                (dead, Refusal::Dead),
                (length < count, Refusal::Short),
            ],
            _ => vec![],
        };
        holding.retain(|(holds, _)| *holds);
        holding.into_iter().map(|(_, refusal)| refusal).min()
    }

    fn apply(&mut self, call: &Call) {
        let (f, r) = self.marks;
        let changed = |p: usize, standing: &Self| {
            let full = standing.depth == standing.channel.memory() as usize;
            let last = standing.places.len();
            (f.min(p), if full { r.max(p + 1) } else { last })
        };
        match *call {
            Call::Add(sample, priors) => {
                self.places.push(Place { sample, priors });
                self.marks.1 = self.places.len();
            }
            Call::Retake(p, sample) => {
                self.places[p].sample = sample;
                self.marks = changed(p, self);
            }
            Call::Reweigh(p, priors) => {
                self.places[p].priors = priors;
                self.marks = changed(p, self);
            }
            Call::Cut(n) => {
                let left = self.places.len() - n;
                self.places.truncate(left);
                self.marks = (f.min(left), left);
            }
            Call::Depth(depth) => {
                self.depth = depth;
                self.marks = (0, self.places.len());
            }
            Call::Settle => self.marks = (self.places.len(), 0),
            _ => {}
        }
    }
}

/// Puts calls to a new receiver; whenever it settles it is compared with one
/// that is given the same places at once.
pub fn check<C: Channel>(calls: &[Call], channel: &C) -> Result<(), String> {
    let mut receiver = Receiver::new(channel.clone());
    let load = channel.loaded();
    let mut standing = Standing {
        channel,
        depth: (1..)
            .take_while(|&depth| generate::depth_allowed(&load, depth))
            .count(),
        places: Vec::new(),
        marks: (0, 0),
        dead: false,
    };
    for call in calls.iter().chain([&Call::Settle]) {
        let before = receiver.clone();
        let answer = put(&mut receiver, call);
        let written_short =
            matches!(call, Call::Write(_)) && answer == Answer::Refused(Refusal::Short);
        match standing.refusal(call) {
            Some(refusal) => {
                agree!(answer, Answer::Refused(refusal), "{call:?}");
                agree!(receiver, before, "after refused {call:?}");
            }
            None => {
                let refused = matches!(answer, Answer::Refused(_)) && !written_short;
                agree!(refused, false, "{call:?} answered {answer:?}");
                let (f, r) = standing.marks;
                standing.apply(call);
                if let Answer::Settled(settled) = answer {
                    agree!(settled.columns, standing.places.len() - f + r, "columns");
                    standing.dead = settled.best.is_none();
                    compare_with_new(&receiver, settled.best, settled.columns)?;
                }
            }
        }
        agree!(receiver.marks(), standing.marks, "marks after {call:?}");
        agree!(receiver.depth(), standing.depth, "depth after {call:?}");
        agree!(receiver.places(), standing.places, "places after {call:?}");
    }
    Ok(())
}

fn compare_with_new<C: Channel>(
    worked: &Receiver<C>,
    best: Option<u32>,
    columns: usize,
) -> Result<(), String> {
    let burst = Burst {
        load: worked.channel().loaded(),
        depth: worked.depth(),
        places: worked.places().to_vec(),
    };
    let (new, new_best) = settled(&burst, worked.channel(), burst.depth)?;
    agree!(best.map(u64::from), new_best, "best of a worked receiver");
    agree!(columns <= 2 * burst.places.len(), true, "columns worked");
    // All columns, with their histories and survivors.
    if *worked != new {
        return Err(format!(
            "a worked receiver differs from a new one: {burst:?}"
        ));
    }
    Ok(())
}
