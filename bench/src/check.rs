//! Checks of the reference itself.

pub mod brute;
pub mod columns;
pub mod refusals;
pub mod round;
pub mod vectors;
pub mod worked;

use crate::generate::{self, Random};
use crate::reference::channel::{Channel, Code, Kind, Table, Taps};

/// Fails with a message that names both sides.
macro_rules! agree {
    ($left:expr, $right:expr, $($what:tt)+) => {{
        let (left, right) = (&$left, &$right);
        if left != right {
            return Err(format!("{}: {left:?}, not {right:?}", format!($($what)+)));
        }
    }};
}
use agree;

/// Checks all laws of channel, receiver and sweep on the bursts of a seed.
pub fn laws(seed: u64) -> Result<(), String> {
    let mut random = Random::new(seed);
    match random.pick(&Kind::ALL) {
        Kind::Taps => laws_of::<Taps>(&mut random)?,
        Kind::Table => laws_of::<Table>(&mut random)?,
        Kind::Code => laws_of::<Code>(&mut random)?,
    }
    refusals::check(&mut random)
}

fn laws_of<C: Channel>(random: &mut Random) -> Result<(), String> {
    let load = generate::load(random, C::KIND);
    let mut channel = C::default();
    agree!(channel.load(&load), Ok(()), "a right load {load:?}");
    agree!(channel.loaded(), load, "what was loaded");
    brute::check_queries(random, &load, &channel)?;
    brute::check_small(random, &load, &channel)?;

    let count = random.below(129);
    let burst = generate::burst_of(random, load.clone(), count);
    brute::check_long(&burst, &channel)?;
    columns::check(&burst, &channel)?;
    let most = random.pick(&[4, 12, 128]);
    worked::check(&generate::calls(random, &load, most), &channel)
}
