//! The three kinds of channel.

use std::fmt::{self, Debug};

use super::cost::Cost;
use super::place::{in_range, Sample};
use super::refusal::Refusal;

#[derive(Clone, Copy, Debug, PartialEq, Eq)]
pub enum Kind {
    Taps,
    Table,
    Code,
}

impl Kind {
    pub const ALL: [Kind; 3] = [Kind::Taps, Kind::Table, Kind::Code];

    /// M, the number of symbol values.
    pub fn values(self) -> usize {
        match self {
            Kind::Taps => Taps::VALUES,
            Kind::Table => Table::VALUES,
            Kind::Code => Code::VALUES,
        }
    }
}

impl fmt::Display for Kind {
    fn fmt(&self, f: &mut fmt::Formatter<'_>) -> fmt::Result {
        f.write_str(match self {
            Kind::Taps => "taps",
            Kind::Table => "table",
            Kind::Code => "code",
        })
    }
}

/// An entry of a table: two expected numbers, or barred.
pub type Entry = Option<[i32; 2]>;

/// What a channel is loaded with, right or wrong.
#[derive(Clone, Debug, PartialEq, Eq)]
pub enum Load {
    Taps {
        noise: i32,
        taps: Vec<i32>,
    },
    Table {
        noise: i32,
        memory: i32,
        entries: Vec<Entry>,
    },
    Code {
        memory: i32,
        masks: [i32; 2],
    },
}

impl Load {
    pub fn kind(&self) -> Kind {
        match self {
            Load::Taps { .. } => Kind::Taps,
            Load::Table { .. } => Kind::Table,
            Load::Code { .. } => Kind::Code,
        }
    }
}

/// A channel of one kind. The default is the blank channel.
pub trait Channel: Clone + Debug + Default + Eq {
    const KIND: Kind;

    /// M, the number of symbol values.
    const VALUES: usize;

    /// Loads the channel, or leaves it as it was. A load is of this kind.
    fn load(&mut self, load: &Load) -> Result<(), Refusal>;

    /// What the channel was last loaded with.
    fn loaded(&self) -> Load;

    /// L, the number of symbols a sample depends on.
    fn memory(&self) -> u32;

    /// Whether a sample in range is taken.
    fn takes_in_range(&self, sample: Sample) -> bool;

    /// The cost of a taken sample under an existing window.
    fn window_cost(&self, sample: Sample, window: usize) -> Cost;

    /// M^L, the number of windows.
    fn windows(&self) -> usize {
        Self::VALUES.pow(self.memory())
    }

    /// M^(L-1), the number of histories.
    fn histories(&self) -> usize {
        Self::VALUES.pow(self.memory() - 1)
    }

    /// Whether a sample is taken.
    fn takes(&self, sample: Sample) -> bool {
        in_range(sample) && self.takes_in_range(sample)
    }

    /// The cost of any sample under any window.
    fn cost(&self, sample: Sample, window: usize) -> Cost {
        if self.takes(sample) && window < self.windows() {
            self.window_cost(sample, window)
        } else {
            Cost::BARRED
        }
    }
}

fn noise_in_range(noise: i32) -> bool {
    (1..=1_000_000).contains(&noise)
}

/// Whether a memory is 1 to `most`.
fn allowed_memory(memory: i32, most: u32) -> Option<u32> {
    u32::try_from(memory)
        .ok()
        .filter(|memory| (1..=most).contains(memory))
}

/// Intersymbol interference: the expected number is a sum of signed taps.
#[derive(Clone, Debug, PartialEq, Eq)]
pub struct Taps {
    taps: Vec<i32>,
    noise: u32,
}

impl Default for Taps {
    fn default() -> Taps {
        Taps {
            taps: vec![0],
            noise: 8,
        }
    }
}

impl Taps {
    fn expected(&self, window: usize) -> i32 {
        let signed = |(i, &tap): (usize, &i32)| if window >> i & 1 == 1 { tap } else { -tap };
        self.taps.iter().enumerate().map(signed).sum()
    }
}

impl Channel for Taps {
    const KIND: Kind = Kind::Taps;
    const VALUES: usize = 2;

    fn load(&mut self, load: &Load) -> Result<(), Refusal> {
        let Load::Taps { noise, taps } = load else {
            panic!("a load of another kind")
        };
        if !(1..=8).contains(&taps.len()) {
            return Err(Refusal::Count);
        }
        if !taps.iter().all(|tap| (-512..=511).contains(tap)) || !noise_in_range(*noise) {
            return Err(Refusal::Range);
        }
        *self = Taps {
            taps: taps.clone(),
            noise: *noise as u32,
        };
        Ok(())
    }

    fn loaded(&self) -> Load {
        Load::Taps {
            noise: self.noise as i32,
            taps: self.taps.clone(),
        }
    }

    fn memory(&self) -> u32 {
        self.taps.len() as u32
    }

    fn takes_in_range(&self, sample: Sample) -> bool {
        sample[1] == 0
    }

    fn window_cost(&self, sample: Sample, window: usize) -> Cost {
        let distance = sample[0].abs_diff(self.expected(window));
        Cost::of_distance(distance.pow(2), self.noise)
    }
}

/// Expected numbers listed for each window.
#[derive(Clone, Debug, PartialEq, Eq)]
pub struct Table {
    memory: u32,
    entries: Vec<Entry>,
    noise: u32,
}

impl Default for Table {
    fn default() -> Table {
        Table {
            memory: 1,
            entries: vec![Some([0, 0]); 4],
            noise: 8,
        }
    }
}

impl Channel for Table {
    const KIND: Kind = Kind::Table;
    const VALUES: usize = 4;

    fn load(&mut self, load: &Load) -> Result<(), Refusal> {
        let Load::Table {
            noise,
            memory,
            entries,
        } = load
        else {
            panic!("a load of another kind")
        };
        let memory = allowed_memory(*memory, 4)
            .filter(|&memory| entries.len() == 4_usize.pow(memory))
            .ok_or(Refusal::Count)?;
        let mut numbers = entries.iter().flatten().flatten();
        if !numbers.all(|number| (-8191..=8191).contains(number)) || !noise_in_range(*noise) {
            return Err(Refusal::Range);
        }
        *self = Table {
            memory,
            entries: entries.clone(),
            noise: *noise as u32,
        };
        Ok(())
    }

    fn loaded(&self) -> Load {
        Load::Table {
            noise: self.noise as i32,
            memory: self.memory as i32,
            entries: self.entries.clone(),
        }
    }

    fn memory(&self) -> u32 {
        self.memory
    }

    fn takes_in_range(&self, _sample: Sample) -> bool {
        true
    }

    fn window_cost(&self, sample: Sample, window: usize) -> Cost {
        match self.entries[window] {
            Some([first, second]) => {
                let squared = sample[0].abs_diff(first).pow(2) + sample[1].abs_diff(second).pow(2);
                Cost::of_distance(squared, self.noise)
            }
            None => Cost::BARRED,
        }
    }
}

/// A convolutional code of rate 1/2, received as soft bits.
#[derive(Clone, Debug, PartialEq, Eq)]
pub struct Code {
    memory: u32,
    masks: [usize; 2],
}

impl Default for Code {
    fn default() -> Code {
        Code {
            memory: 1,
            masks: [0, 0],
        }
    }
}

impl Channel for Code {
    const KIND: Kind = Kind::Code;
    const VALUES: usize = 2;

    fn load(&mut self, load: &Load) -> Result<(), Refusal> {
        let Load::Code { memory, masks } = load else {
            panic!("a load of another kind")
        };
        let memory = allowed_memory(*memory, 8).ok_or(Refusal::Count)?;
        if !masks.iter().all(|mask| (0..1 << memory).contains(mask)) {
            return Err(Refusal::Range);
        }
        *self = Code {
            memory,
            masks: masks.map(|mask| mask as usize),
        };
        Ok(())
    }

    fn loaded(&self) -> Load {
        Load::Code {
            memory: self.memory as i32,
            masks: self.masks.map(|mask| mask as i32),
        }
    }

    fn memory(&self) -> u32 {
        self.memory
    }

    fn takes_in_range(&self, _sample: Sample) -> bool {
        true
    }

    fn window_cost(&self, sample: Sample, window: usize) -> Cost {
        let bit_cost = |(number, mask): (i32, usize)| {
            let coded = (mask & window).count_ones() % 2 == 1;
            let cost = if coded { -number } else { number };
            cost.max(0) as u32
        };
        Cost::eighths(sample.into_iter().zip(self.masks).map(bit_cost).sum())
    }
}
