//! Laws of the receiver and the sweep, against all sequences of small bursts.

use super::agree;
use crate::generate::{self, Burst, Random};
use crate::reference::channel::{Channel, Kind, Load};
use crate::reference::cost::{Cost, Lean};
use crate::reference::place::{Place, BARRED_PRIOR};
use crate::reference::receiver::Receiver;
use crate::reference::refusal::Refusal;
use crate::reference::sweep::{pin, sweep, Admitted, Count, Joining, LeastCost};

/// A burst short enough to try all its sequences, and the same pinned.
pub fn check_small<C: Channel>(
    random: &mut Random,
    load: &Load,
    channel: &C,
) -> Result<(), String> {
    let most = (0..)
        .take_while(|&count| channel.histories() * C::VALUES.pow(count) <= 4096)
        .count()
        - 1;
    let count = random.below(most + 1);
    let mut burst = generate::burst_of(random, load.clone(), count);
    check_burst(&burst, channel)?;
    check_sweep(&burst, channel)?;
    if count == 0 {
        return Ok(());
    }
    let (p, a) = (random.below(count), random.below(C::VALUES));
    let before = burst.places.clone();
    let pinned = pin::<C>(&mut burst.places, p, a);
    if before[p].priors[a] == BARRED_PRIOR {
        agree!(pinned, Err(Refusal::Priors), "pin to a barred value");
        agree!(burst.places, before, "places after a refused pin");
        return Ok(());
    }
    agree!(pinned, Ok(()), "pin");
    check_burst(&burst, channel)?;
    check_sweep(&burst, channel)
}

/// The cost of a window straight from the load, none if barred.
pub fn meaning(load: &Load, sample: [i32; 2], window: usize) -> Option<u64> {
    let [x, y] = sample.map(i64::from);
    match load {
        Load::Taps { noise, taps } => {
            let back = |i: usize| 2 * ((window / 2_usize.pow(i as u32)) % 2) as i64 - 1;
            let expected: i64 = (0..taps.len()).map(|i| i64::from(taps[i]) * back(i)).sum();
            Some((8 * (x - expected).pow(2) / i64::from(*noise)).min(65_535) as u64)
        }
        Load::Table { noise, entries, .. } => entries[window].map(|[first, second]| {
            let squared = (x - i64::from(first)).pow(2) + (y - i64::from(second)).pow(2);
            (8 * squared / i64::from(*noise)).min(65_535) as u64
        }),
        Load::Code { masks, .. } => {
            let ones = |mask: i32| {
                (0..8)
                    .filter(|i| mask & window as i32 & (1 << i) != 0)
                    .count()
            };
            let bit = |number: i64, mask| match ones(mask) % 2 {
                0 => number.max(0),
                _ => (-number).max(0),
            };
            Some((bit(x, masks[0]) + bit(y, masks[1])) as u64)
        }
    }
}

/// Queries with any sample and window.
pub fn check_queries<C: Channel>(
    random: &mut Random,
    load: &Load,
    channel: &C,
) -> Result<(), String> {
    for _ in 0..8 {
        let wild = [-2049, -2048, -7, -1, 0, 0, 0, 1, 300, 2047, 2048];
        let sample = [random.pick(&wild), random.pick(&wild)];
        let window = random.below(channel.windows() + 2);
        let taken = sample.iter().all(|number| (-2048..2048).contains(number))
            && (C::KIND != Kind::Taps || sample[1] == 0);
        agree!(channel.takes(sample), taken, "takes {sample:?}");
        let wanted = match taken && window < channel.windows() {
            true => meaning(load, sample, window),
            false => None,
        };
        let number = channel.cost(sample, window).number().map(u64::from);
        agree!(number, wanted, "cost of {sample:?} under {window}");
    }
    Ok(())
}

/// All choices of `count` symbols.
fn choices(values: usize, count: usize) -> impl Iterator<Item = Vec<usize>> {
    (0..values.pow(count as u32)).map(move |number| {
        (0..count)
            .map(|i| number / values.pow(i as u32) % values)
            .collect()
    })
}

/// The total of symbols at places from `start` on, the symbols before it
/// being those of a history; none if barred.
fn total(burst: &Burst, start: usize, history: usize, symbols: &[usize]) -> Option<u64> {
    let values = burst.load.kind().values();
    let memory = generate::memory(&burst.load);
    let before = (0..memory).map(|i| history / values.pow(i as u32) % values);
    // Latest first: the symbols before the start reversed, then the rest.
    let mut line: Vec<usize> = before.collect();
    line.reverse();
    line.extend(symbols);
    let mut sum = 0;
    for (i, &symbol) in symbols.iter().enumerate() {
        let at = memory + i;
        let window = (0..memory)
            .map(|j| line[at - j] * values.pow(j as u32))
            .sum();
        let Place { sample, priors } = burst.places[start + i];
        if priors[symbol] == BARRED_PRIOR {
            return None;
        }
        sum += meaning(&burst.load, sample, window)? + u64::from(priors[symbol]);
    }
    Some(sum)
}

/// The history that symbols from place 0 on leave.
fn history_after(values: usize, memory: usize, symbols: &[usize]) -> usize {
    let back = symbols.iter().rev().take(memory - 1).enumerate();
    back.map(|(i, symbol)| symbol * values.pow(i as u32)).sum()
}

fn number(cost: Result<Cost, Refusal>) -> Option<u64> {
    cost.expect("a settled receiver answers")
        .number()
        .map(u64::from)
}

/// A new receiver of a burst at some depth, settled, and its best.
pub fn settled<C: Channel>(
    burst: &Burst,
    channel: &C,
    depth: usize,
) -> Result<(Receiver<C>, Option<u64>), String> {
    let mut receiver = Receiver::new(channel.clone());
    agree!(receiver.set_depth(depth), Ok(()), "depth {depth}");
    for place in &burst.places {
        agree!(receiver.add(place.sample, place.priors), Ok(()), "add");
    }
    let settled = receiver.settle();
    agree!(settled.columns, 2 * burst.places.len(), "columns");
    Ok((receiver, settled.best.map(u64::from)))
}

fn shown<C: Channel>(receiver: &Receiver<C>) -> Result<Vec<usize>, Refusal> {
    let mut list = vec![0; receiver.places().len()];
    receiver.shown(&mut list)?;
    Ok(list.into_iter().map(usize::from).collect())
}

/// The receiver at every depth.
fn check_burst<C: Channel>(burst: &Burst, channel: &C) -> Result<(), String> {
    let count = burst.places.len();
    let mut least = vec![vec![None; C::VALUES]; count];
    let mut least_of_all = None;
    for symbols in choices(C::VALUES, count) {
        let Some(total) = total(burst, 0, 0, &symbols) else {
            continue;
        };
        least_of_all = Some(least_of_all.map_or(total, |least: u64| least.min(total)));
        for (least, symbol) in least.iter_mut().zip(symbols) {
            least[symbol] = Some(least[symbol].map_or(total, |least: u64| least.min(total)));
        }
    }
    let memory = generate::memory(&burst.load);
    for depth in (1..=memory).filter(|&depth| generate::depth_allowed(&burst.load, depth)) {
        let (receiver, best) = settled(burst, channel, depth)?;
        if depth == memory {
            agree!(best, least_of_all, "best at full depth");
            for (k, least) in least.iter().enumerate() {
                for (a, least) in least.iter().enumerate() {
                    agree!(number(receiver.cost(k, a)), *least, "cost {k} {a}");
                }
            }
        }
        check_shown(burst, &receiver, best)?;
    }
    Ok(())
}

/// What the best, the costs, the leans and the shown sequence have in common.
fn check_shown<C: Channel>(
    burst: &Burst,
    receiver: &Receiver<C>,
    best: Option<u64>,
) -> Result<(), String> {
    let count = burst.places.len();
    let costs = |k| (0..C::VALUES).map(move |a| number(receiver.cost(k, a)));
    for k in 0..count {
        let zero = number(receiver.cost(k, 0));
        for (i, cost) in costs(k).enumerate() {
            let lean = match (zero, cost) {
                (Some(zero), Some(cost)) => Lean::Eighths((zero as i64 - cost as i64) as i32),
                (None, Some(_)) => Lean::Sure,
                (Some(_), None) => Lean::Never,
                (None, None) => Lean::Neither,
            };
            agree!(receiver.lean(k, i), Ok(lean), "lean {k} {i}");
        }
    }
    let Some(best) = best else {
        agree!(shown(receiver), Err(Refusal::Dead), "shown without a best");
        return Ok(());
    };
    let sequence = shown(receiver).map_err(|refusal| format!("shown: {refusal:?}"))?;
    agree!(total(burst, 0, 0, &sequence), Some(best), "total of shown");
    for (k, &symbol) in sequence.iter().enumerate() {
        agree!(receiver.symbol(k), Ok(symbol as u8), "symbol {k}");
        agree!(number(receiver.cost(k, symbol)), Some(best), "shown at {k}");
        agree!(costs(k).flatten().min(), Some(best), "least at {k}");
    }
    Ok(())
}

/// What a joining makes of the totals of some choices.
type Summary = fn(&[Option<u64>]) -> u64;

fn check_sweep<C: Channel>(burst: &Burst, channel: &C) -> Result<(), String> {
    check_joining::<LeastCost, C>(burst, channel, |totals| {
        totals
            .iter()
            .flatten()
            .min()
            .copied()
            .unwrap_or(u32::MAX.into())
    })?;
    check_joining::<Admitted, C>(burst, channel, |totals| {
        totals.iter().flatten().count().min(1) as u64
    })?;
    check_joining::<Count, C>(burst, channel, |totals| {
        totals.iter().flatten().count().min(65_535) as u64
    })
}

/// The lists of a sweep as numbers, with one element to spare.
fn swept<J, C>(channel: &C, places: &[Place]) -> Result<[Vec<u64>; 3], String>
where
    J: Joining<Element: Into<u64>>,
    C: Channel,
{
    let columns = (places.len() + 1) * channel.histories();
    let mut lists =
        [columns, columns, places.len() * C::VALUES].map(|length| vec![J::UNIT; length + 1]);
    let [forward, backward, answers] = &mut lists;
    let outcome = sweep::<J, C>(channel, places, forward, backward, answers);
    agree!(outcome, Ok(()), "sweep");
    let mut lists = lists.map(|list| list.into_iter().map(Into::into).collect::<Vec<u64>>());
    for list in &mut lists {
        agree!(list.pop(), Some(J::UNIT.into()), "past the end of a list");
    }
    Ok(lists)
}

fn check_joining<J, C>(burst: &Burst, channel: &C, summary: Summary) -> Result<(), String>
where
    J: Joining<Element: Into<u64>>,
    C: Channel,
{
    let (count, values, histories) = (burst.places.len(), C::VALUES, channel.histories());
    let memory = channel.memory() as usize;
    let [forward, backward, answers] = swept::<J, C>(channel, &burst.places)?;
    for k in 0..=count {
        let mut totals = vec![Vec::new(); histories];
        for symbols in choices(values, k) {
            totals[history_after(values, memory, &symbols)].push(total(burst, 0, 0, &symbols));
        }
        for (s, totals) in totals.iter().enumerate() {
            agree!(
                forward[k * histories + s],
                summary(totals),
                "forward {k} {s}"
            );
            let totals: Vec<_> = choices(values, count - k)
                .map(|symbols| total(burst, k, s, &symbols))
                .collect();
            agree!(
                backward[k * histories + s],
                summary(&totals),
                "backward {k} {s}"
            );
        }
    }
    let mut totals = vec![Vec::new(); count * values];
    for symbols in choices(values, count) {
        let total = total(burst, 0, 0, &symbols);
        for (k, a) in symbols.into_iter().enumerate() {
            totals[k * values + a].push(total);
        }
    }
    for (i, totals) in totals.iter().enumerate() {
        agree!(answers[i], summary(totals), "answer {i}");
    }
    Ok(())
}

/// Bursts of any length: the receiver against the sweep.
pub fn check_long<C: Channel>(burst: &Burst, channel: &C) -> Result<(), String> {
    let [_, _, least] = swept::<LeastCost, C>(channel, &burst.places)?;
    let [_, _, admitted] = swept::<Admitted, C>(channel, &burst.places)?;
    let [_, _, counted] = swept::<Count, C>(channel, &burst.places)?;
    for i in 0..burst.places.len() * C::VALUES {
        let is_admitted = least[i] != u64::from(u32::MAX);
        agree!(admitted[i] == 1, is_admitted, "admitted {i}");
        agree!(counted[i] > 0, is_admitted, "counted {i}");
    }
    let memory = generate::memory(&burst.load);
    for depth in [burst.depth, memory] {
        if !generate::depth_allowed(&burst.load, depth) {
            continue;
        }
        let (receiver, best) = settled(burst, channel, depth)?;
        check_shown(burst, &receiver, best)?;
        for (i, &least) in least.iter().enumerate().filter(|_| depth == memory) {
            let cost = number(receiver.cost(i / C::VALUES, i % C::VALUES));
            agree!(cost.unwrap_or(u32::MAX.into()), least, "least cost {i}");
        }
    }
    Ok(())
}
