//! The receiver: reduced-state forward-backward recursions with per-survivor
//! histories, and marks that say which columns are fresh.

use super::channel::Channel;
use super::cost::{Cost, Lean};
use super::place::{obeys_rule, prior_cost, Place, Priors, Sample, MOST_PLACES};
use super::refusal::Refusal;

/// The most states of a trellis.
pub const MOST_STATES: usize = 16;

/// Where the least cost of a state comes from.
#[derive(Clone, Copy, Debug, PartialEq, Eq)]
pub struct Survivor {
    pub state: usize,
    pub symbol: usize,
}

/// What a forward column holds for one state.
#[derive(Clone, Copy, Debug, PartialEq, Eq)]
pub struct Forward {
    pub cost: Cost,
    pub history: usize,
    pub survivor: Option<Survivor>,
}

impl Forward {
    fn barred(state: usize) -> Forward {
        Forward {
            cost: Cost::BARRED,
            history: state,
            survivor: None,
        }
    }
}

/// What settling found.
#[derive(Clone, Copy, Debug, PartialEq, Eq)]
pub struct Settled {
    /// The number of columns worked.
    pub columns: usize,
    /// The least cost of all, or none if everything is barred.
    pub best: Option<u32>,
}

#[derive(Clone, Debug, PartialEq, Eq)]
pub struct Receiver<C> {
    channel: C,
    depth: u32,
    places: Vec<Place>,
    forward: Vec<Vec<Forward>>,
    backward: Vec<Vec<Cost>>,
    /// F: forward columns 0 to this are fresh.
    forward_mark: usize,
    /// R: backward columns from this on are fresh.
    backward_mark: usize,
}

fn depth_allowed<C: Channel>(channel: &C, depth: usize) -> bool {
    (1..=channel.memory() as usize).contains(&depth)
        && C::VALUES.pow(depth as u32 - 1) <= MOST_STATES
}

impl<C: Channel> Receiver<C> {
    pub fn new(channel: C) -> Receiver<C> {
        let depth = (1..=channel.memory())
            .rev()
            .find(|&depth| depth_allowed(&channel, depth as usize))
            .unwrap_or(1);
        let mut receiver = Receiver {
            channel,
            depth,
            places: Vec::new(),
            forward: vec![Vec::new()],
            backward: vec![Vec::new()],
            forward_mark: 0,
            backward_mark: 0,
        };
        receiver.write_first_forward();
        receiver.write_last_backward();
        receiver
    }

    pub fn add(&mut self, sample: Sample, priors: Priors) -> Result<(), Refusal> {
        if self.places.len() >= MOST_PLACES {
            return Err(Refusal::Full);
        }
        self.check_sample(sample)?;
        self.check_priors(&priors)?;
        self.places.push(Place { sample, priors });
        self.forward.push(Vec::new());
        self.backward.push(Vec::new());
        self.backward_mark = self.places.len();
        self.write_last_backward();
        Ok(())
    }

    pub fn retake(&mut self, p: usize, sample: Sample) -> Result<(), Refusal> {
        self.check_sample(sample)?;
        self.check_place(p)?;
        self.places[p].sample = sample;
        self.mark_changed(p);
        Ok(())
    }

    pub fn reweigh(&mut self, p: usize, priors: Priors) -> Result<(), Refusal> {
        self.check_priors(&priors)?;
        self.check_place(p)?;
        self.places[p].priors = priors;
        self.mark_changed(p);
        Ok(())
    }

    pub fn cut(&mut self, n: usize) -> Result<(), Refusal> {
        let left = self.places.len().checked_sub(n).ok_or(Refusal::Place)?;
        self.places.truncate(left);
        self.forward.truncate(left + 1);
        self.backward.truncate(left + 1);
        self.forward_mark = self.forward_mark.min(left);
        self.backward_mark = left;
        self.write_last_backward();
        Ok(())
    }

    pub fn set_depth(&mut self, depth: usize) -> Result<(), Refusal> {
        if !depth_allowed(&self.channel, depth) {
            return Err(Refusal::Depth);
        }
        self.depth = depth as u32;
        self.forward_mark = 0;
        self.backward_mark = self.places.len();
        self.write_first_forward();
        self.write_last_backward();
        Ok(())
    }

    pub fn settle(&mut self) -> Settled {
        let last = self.places.len();
        let columns = last - self.forward_mark + self.backward_mark;
        for k in self.forward_mark..last {
            self.forward[k + 1] = self.forward_after(k);
        }
        for k in (0..self.backward_mark).rev() {
            self.backward[k] = self.backward_before(k);
        }
        self.forward_mark = last;
        self.backward_mark = 0;
        Settled {
            columns,
            best: self.best().number(),
        }
    }

    pub fn cost(&self, k: usize, a: usize) -> Result<Cost, Refusal> {
        self.check_place(k)?;
        self.check_value(a)?;
        self.check_settled()?;
        Ok(self.answer(k, a))
    }

    pub fn lean(&self, k: usize, i: usize) -> Result<Lean, Refusal> {
        self.check_place(k)?;
        self.check_value(i)?;
        self.check_settled()?;
        Ok(Lean::between(self.answer(k, 0), self.answer(k, i)))
    }

    pub fn symbol(&self, k: usize) -> Result<u8, Refusal> {
        self.check_place(k)?;
        self.check_settled()?;
        Ok(self.shown_sequence().ok_or(Refusal::Dead)?[k])
    }

    /// Writes the shown symbols at the front of a list.
    pub fn shown(&self, list: &mut [u8]) -> Result<(), Refusal> {
        self.check_settled()?;
        let symbols = self.shown_sequence().ok_or(Refusal::Dead)?;
        list.get_mut(..symbols.len())
            .ok_or(Refusal::Short)?
            .copy_from_slice(&symbols);
        Ok(())
    }

    /// F and R.
    pub fn marks(&self) -> (usize, usize) {
        (self.forward_mark, self.backward_mark)
    }

    pub fn channel(&self) -> &C {
        &self.channel
    }

    pub fn depth(&self) -> usize {
        self.depth as usize
    }

    pub fn places(&self) -> &[Place] {
        &self.places
    }

    /// Forward column `k`, whether fresh or stale.
    pub fn forward(&self, k: usize) -> &[Forward] {
        &self.forward[k]
    }

    /// Backward column `k`, whether fresh or stale.
    pub fn backward(&self, k: usize) -> &[Cost] {
        &self.backward[k]
    }

    fn check_sample(&self, sample: Sample) -> Result<(), Refusal> {
        self.channel
            .takes(sample)
            .then_some(())
            .ok_or(Refusal::Sample)
    }

    fn check_priors(&self, priors: &Priors) -> Result<(), Refusal> {
        obeys_rule(priors, C::VALUES)
            .then_some(())
            .ok_or(Refusal::Priors)
    }

    fn check_place(&self, k: usize) -> Result<(), Refusal> {
        (k < self.places.len()).then_some(()).ok_or(Refusal::Place)
    }

    fn check_value(&self, a: usize) -> Result<(), Refusal> {
        (a < C::VALUES).then_some(()).ok_or(Refusal::Value)
    }

    fn check_settled(&self) -> Result<(), Refusal> {
        (self.marks() == (self.places.len(), 0))
            .then_some(())
            .ok_or(Refusal::Stale)
    }

    /// Moves the marks after a change at place `p`. Below full depth the
    /// weights of later places hang on it too, through the histories.
    fn mark_changed(&mut self, p: usize) {
        self.forward_mark = self.forward_mark.min(p);
        self.backward_mark = if self.depth == self.channel.memory() {
            self.backward_mark.max(p + 1)
        } else {
            self.places.len()
        };
    }

    fn states(&self) -> usize {
        C::VALUES.pow(self.depth - 1)
    }

    fn next_state(&self, s: usize, a: usize) -> usize {
        (a + C::VALUES * s) % self.states()
    }

    fn weight(&self, k: usize, s: usize, a: usize) -> Cost {
        let place = &self.places[k];
        let window = a + C::VALUES * self.forward[k][s].history;
        self.channel.cost(place.sample, window) + prior_cost(place.priors[a])
    }

    fn write_first_forward(&mut self) {
        self.forward[0] = (0..self.states()).map(Forward::barred).collect();
        self.forward[0][0].cost = Cost::ZERO;
    }

    fn write_last_backward(&mut self) {
        let column = vec![Cost::ZERO; self.states()];
        self.backward[self.places.len()] = column;
    }

    /// Forward column k + 1, from column k. Ties go to the lower state, then
    /// to the lower symbol, being met first.
    fn forward_after(&self, k: usize) -> Vec<Forward> {
        let histories = self.channel.histories();
        let mut column: Vec<_> = (0..self.states()).map(Forward::barred).collect();
        for (state, from) in self.forward[k].iter().enumerate() {
            for symbol in 0..C::VALUES {
                let cost = from.cost + self.weight(k, state, symbol);
                let to = &mut column[self.next_state(state, symbol)];
                if cost < to.cost {
                    *to = Forward {
                        cost,
                        history: (symbol + C::VALUES * from.history) % histories,
                        survivor: Some(Survivor { state, symbol }),
                    };
                }
            }
        }
        column
    }

    /// Backward column k, from column k + 1.
    fn backward_before(&self, k: usize) -> Vec<Cost> {
        (0..self.states())
            .map(|s| least((0..C::VALUES).map(|a| self.onward(k, s, a))))
            .collect()
    }

    /// The least cost from state `s` at place `k` to the end by symbol `a`.
    fn onward(&self, k: usize, s: usize, a: usize) -> Cost {
        self.weight(k, s, a) + self.backward[k + 1][self.next_state(s, a)]
    }

    fn answer(&self, k: usize, a: usize) -> Cost {
        least((0..self.states()).map(|s| self.forward[k][s].cost + self.onward(k, s, a)))
    }

    fn best(&self) -> Cost {
        least(self.forward[self.places.len()].iter().map(|to| to.cost))
    }

    fn shown_sequence(&self) -> Option<Vec<u8>> {
        let last = self.places.len();
        let best = Cost::eighths(self.best().number()?);
        let mut state = self.forward[last].iter().position(|to| to.cost == best)?;
        let mut symbols = vec![0; last];
        for k in (0..last).rev() {
            let survivor = self.forward[k + 1][state].survivor?;
            symbols[k] = survivor.symbol as u8;
            state = survivor.state;
        }
        Some(symbols)
    }
}

/// The least of some costs, barred if there are none.
fn least(costs: impl Iterator<Item = Cost>) -> Cost {
    costs.min().unwrap_or(Cost::BARRED)
}
