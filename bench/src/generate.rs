//! Random bursts, call lists and texts, right and wrong, from a seed.

use crate::reference::channel::{Kind, Load};
use crate::reference::place::{Place, Priors, Sample, BARRED_PRIOR};
use crate::reference::text::Line;
use crate::subject::{Call, JoiningKind, Session, SweepCase};

/// A xorshift generator: the same seed, the same numbers.
#[derive(Clone, Debug)]
pub struct Random(u64);

impl Random {
    pub fn new(seed: u64) -> Random {
        // Spreads neighbouring seeds, and avoids the one state that stays 0.
        Random((seed.wrapping_mul(0x9E37_79B9_7F4A_7C15) ^ 0xD1B5_4A32_D192_ED03) | 1)
    }

    fn draw(&mut self) -> u64 {
        self.0 ^= self.0 << 13;
        self.0 ^= self.0 >> 7;
        self.0 ^= self.0 << 17;
        self.0.wrapping_mul(0x2545_F491_4F6C_DD1D) >> 16
    }

    /// A number from 0 to `end` - 1.
    pub fn below(&mut self, end: usize) -> usize {
        (self.draw() % end as u64) as usize
    }

    /// A number from `low` to `high`.
    pub fn range(&mut self, low: i32, high: i32) -> i32 {
        low + self.below((high - low + 1) as usize) as i32
    }

    /// True once in `n` times.
    pub fn once_in(&mut self, n: usize) -> bool {
        self.below(n) == 0
    }

    pub fn pick<T: Copy>(&mut self, items: &[T]) -> T {
        items[self.below(items.len())]
    }

    fn pick_mut<'a, T>(&mut self, items: &'a mut [T]) -> &'a mut T {
        let i = self.below(items.len());
        &mut items[i]
    }
}

/// How the numbers of a burst lie.
#[derive(Clone, Copy, Debug)]
enum Style {
    /// Small ones, with many ties.
    Small,
    /// Any in range, often at an end of it.
    Wide,
    /// Samples near what is expected for some symbols.
    Near,
    /// Each number in one of these styles.
    Mixed,
}

fn style(random: &mut Random) -> Style {
    random.pick(&[Style::Small, Style::Wide, Style::Near, Style::Mixed])
}

/// A number of a range, in a style.
fn number(random: &mut Random, style: Style, low: i32, high: i32) -> i32 {
    let wide = match style {
        Style::Small => false,
        Style::Wide => true,
        Style::Near | Style::Mixed => random.once_in(2),
    };
    match (wide, random.below(8)) {
        (false, _) => random.range(low.max(-9), high.min(9)),
        (true, 0) => random.pick(&[low, high]),
        (true, _) => random.range(low, high),
    }
}

fn noise(random: &mut Random) -> i32 {
    match random.below(6) {
        0 => random.range(1, 1_000_000),
        1 => random.range(1, 1000),
        _ => random.pick(&[1, 2, 3, 8, 10, 100, 1000, 10_000, 1_000_000]),
    }
}

/// A right load of a kind.
pub fn load(random: &mut Random, kind: Kind) -> Load {
    let style = style(random);
    match kind {
        Kind::Taps => Load::Taps {
            noise: noise(random),
            taps: (0..random.range(1, 8))
                .map(|_| number(random, style, -512, 511))
                .collect(),
        },
        Kind::Table => {
            let memory = random.pick(&[1, 1, 1, 2, 2, 2, 3, 3, 4]);
            let barring = match random.once_in(50) {
                true => 1,
                false => random.pick(&[2, 4, 10, 1000, 1000, 1000]),
            };
            let mut entry = || match random.once_in(barring) {
                true => None,
                false => Some([(); 2].map(|()| number(random, style, -8191, 8191))),
            };
            let entries = (0..4_usize.pow(memory)).map(|_| entry()).collect();
            Load::Table {
                noise: noise(random),
                memory: memory as i32,
                entries,
            }
        }
        Kind::Code => {
            let memory = random.range(1, 8);
            Load::Code {
                memory,
                masks: [(); 2].map(|()| random.range(0, (1 << memory) - 1)),
            }
        }
    }
}

/// Damages one number or count of a load; most often it is then wrong. Taps
/// and expected numbers stay within 16 bits, other numbers are not below 0.
pub fn damage_load(random: &mut Random, load: &mut Load) {
    let wrong_noise = random.pick(&[0, 1_000_001, 2_000_000, i32::MAX]);
    match load {
        Load::Taps { noise, taps } => match random.below(4) {
            0 => *noise = wrong_noise,
            1 => taps.resize(random.pick(&[0, 0, 8, 9, 10, 100]), 1),
            _ => {
                *random.pick_mut(taps) = random.pick(&[-513, 512, -32_768, 32_767, -512, 511]);
            }
        },
        Load::Table {
            noise,
            memory,
            entries,
        } => match random.below(5) {
            0 => *noise = wrong_noise,
            1 => *memory = random.pick(&[0, 1, 2, 3, 4, 5, 6, 255, 1_000_000]),
            2 => {
                let length = random.pick(&[0, 1, 3, 5, 15, 17, 63, 64, 65, 255, 256, 257, 1024]);
                entries.resize(length, Some([1, 1]));
            }
            _ => {
                let wrong = random.pick(&[-8192, 8192, -32_768, 32_767, -8191, 8191]);
                *random.pick_mut(entries) =
                    Some(random.pick(&[[wrong, 0], [0, wrong], [wrong, wrong]]));
            }
        },
        Load::Code { memory, masks } => match random.below(2) {
            0 => *memory = random.pick(&[0, 1, 2, 7, 8, 9, 32, 64, 255, 1_000_000]),
            _ => {
                let wrong = random.pick(&[1 << *memory, 255, 256, 65_535, 65_536]);
                *random.pick_mut(masks) = wrong;
            }
        },
    }
}

/// What a sample would be for a random window, without noise.
fn expected(random: &mut Random, load: &Load) -> Sample {
    match load {
        Load::Taps { taps, .. } => {
            let signed = |&tap: &i32| if random.once_in(2) { tap } else { -tap };
            [taps.iter().map(signed).sum(), 0]
        }
        Load::Table { entries, .. } => random.pick(entries).unwrap_or([0, 0]),
        Load::Code { .. } => [(); 2].map(|()| random.pick(&[-40, 40])),
    }
}

/// A sample in range that is taken.
fn sample(random: &mut Random, load: &Load, style: Style) -> Sample {
    let mut sample = match style {
        Style::Near => {
            let around = |expected: i32, random: &mut Random| {
                (expected + random.range(-30, 30)).clamp(-2048, 2047)
            };
            let [first, second] = expected(random, load);
            [around(first, random), around(second, random)]
        }
        _ => [(); 2].map(|()| number(random, style, -2048, 2047)),
    };
    if load.kind() == Kind::Taps {
        sample[1] = 0;
    }
    sample
}

/// Priors that obey their rule.
fn priors(random: &mut Random, values: usize) -> Priors {
    let mut priors = [0; 4];
    for prior in &mut priors[..values] {
        *prior = match random.below(8) {
            0 | 1 => 0,
            2 | 3 => random.range(0, 9) as u16,
            4 => random.range(0, 300) as u16,
            5 => random.range(0, 65_534) as u16,
            6 => random.pick(&[0, 65_534]),
            _ => BARRED_PRIOR,
        };
    }
    if priors[..values].iter().all(|&prior| prior == BARRED_PRIOR) {
        priors[random.below(values)] = random.range(0, 100) as u16;
    }
    priors
}

/// A sample of 16-bit numbers that is mostly not taken.
fn wrong_sample(random: &mut Random) -> Sample {
    let wild = [-32_768, -2049, -2048, -1, 0, 1, 2047, 2048, 32_767];
    [random.pick(&wild), random.pick(&wild)]
}

/// Priors that mostly break their rule.
fn wrong_priors(random: &mut Random, values: usize) -> Priors {
    match random.below(3) {
        0 => [BARRED_PRIOR; 4],
        1 => {
            let mut priors = priors(random, values);
            priors[..values].fill(BARRED_PRIOR);
            priors
        }
        _ => {
            let mut priors = priors(random, values);
            *random.pick_mut(&mut priors) = random.pick(&[1, BARRED_PRIOR]);
            priors
        }
    }
}

/// A number of places from 0 to `most`: short, long, or as many as go.
fn length(random: &mut Random, most: usize) -> usize {
    match random.below(8) {
        0 => 0,
        1..=4 => random.below(most.min(8) + 1),
        5 | 6 => random.below(most + 1),
        _ => most,
    }
}

/// A channel and places for it.
#[derive(Clone, Debug)]
pub struct Burst {
    pub load: Load,
    /// Allowed or not.
    pub depth: usize,
    pub places: Vec<Place>,
}

/// The memory of a right load.
pub fn memory(load: &Load) -> usize {
    match load {
        Load::Taps { taps, .. } => taps.len(),
        Load::Table { memory, .. } | Load::Code { memory, .. } => *memory as usize,
    }
}

/// Whether a depth is allowed for a right load.
pub fn depth_allowed(load: &Load, depth: usize) -> bool {
    let most = if load.kind().values() == 2 { 5 } else { 3 };
    (1..=memory(load).min(most)).contains(&depth)
}

fn allowed_depth(random: &mut Random, load: &Load) -> usize {
    let most = (1..)
        .take_while(|&depth| depth_allowed(load, depth))
        .count();
    1 + random.below(most)
}

/// A right burst of a kind, of up to `most` places, at an allowed depth.
pub fn burst(random: &mut Random, kind: Kind, most: usize) -> Burst {
    let load = load(random, kind);
    let count = length(random, most);
    burst_of(random, load, count)
}

/// A right burst for a right load, with `count` places.
pub fn burst_of(random: &mut Random, load: Load, count: usize) -> Burst {
    let style = style(random);
    let values = load.kind().values();
    let places = (0..count)
        .map(|_| Place {
            sample: sample(random, &load, style),
            priors: priors(random, values),
        })
        .collect();
    Burst {
        depth: allowed_depth(random, &load),
        load,
        places,
    }
}

/// A number that names a place or is near one, of `count` places.
fn index(random: &mut Random, count: usize) -> usize {
    match random.below(12) {
        0 => count,
        1 => random.pick(&[count + 1, 127, 128, 129, 65_535, u32::MAX as usize]),
        2 => count.saturating_sub(1),
        _ => random.below(count.max(1)),
    }
}

fn value(random: &mut Random, values: usize) -> usize {
    match random.below(10) {
        0 => values,
        1 => random.pick(&[3, 4, 255, 256, 65_535, u32::MAX as usize]),
        _ => random.below(values),
    }
}

/// A receiver under work, as far as good calls have to know it.
struct Worked<'a> {
    random: &'a mut Random,
    load: Load,
    style: Style,
    /// The most places that are added.
    most: usize,
    /// How many places there are.
    count: usize,
}

impl Worked<'_> {
    fn sample(&mut self) -> Sample {
        if self.random.once_in(12) {
            wrong_sample(self.random)
        } else {
            sample(self.random, &self.load, self.style)
        }
    }

    fn priors(&mut self) -> Priors {
        let values = self.load.kind().values();
        if self.random.once_in(12) {
            wrong_priors(self.random, values)
        } else {
            priors(self.random, values)
        }
    }

    fn index(&mut self) -> usize {
        index(self.random, self.count)
    }

    fn value(&mut self) -> usize {
        value(self.random, self.load.kind().values())
    }

    /// A place that is accepted, unless there are too many.
    fn good_add(&mut self) -> Call {
        self.count = (self.count + 1).min(128);
        let sample = sample(self.random, &self.load, self.style);
        Call::Add(sample, priors(self.random, self.load.kind().values()))
    }

    fn reading(&mut self) -> Call {
        match self.random.below(8) {
            0..=2 => Call::Cost(self.index(), self.value()),
            3 | 4 => Call::Lean(self.index(), self.value()),
            5 | 6 => Call::Symbol(self.index()),
            _ => Call::Shown(match self.random.below(3) {
                0 => self.random.below(self.count + 1),
                1 => self.count,
                _ => self.count + self.random.below(9),
            }),
        }
    }

    fn call(&mut self) -> Call {
        match self.random.below(32) {
            0..=3 if self.count < self.most => self.good_add(),
            4 => Call::Add(wrong_sample(self.random), self.priors()),
            5 => {
                let values = self.load.kind().values();
                let sample = sample(self.random, &self.load, self.style);
                Call::Add(sample, wrong_priors(self.random, values))
            }
            6..=9 => Call::Retake(self.index(), self.sample()),
            10..=12 => Call::Reweigh(self.index(), self.priors()),
            13 | 14 => {
                let n = match self.random.below(4) {
                    0 => 0,
                    1 => index(self.random, self.count + 1),
                    _ => self.random.below(self.count.min(4) + 1),
                };
                self.count -= if n <= self.count { n } else { 0 };
                Call::Cut(n)
            }
            15 => match self.random.below(3) {
                0 => Call::Depth(
                    self.random
                        .pick(&[0, 1, 2, 3, 4, 5, 6, 8, 9, u32::MAX as usize]),
                ),
                _ => Call::Depth(allowed_depth(self.random, &self.load)),
            },
            16..=20 => Call::Settle,
            21..=28 => self.reading(),
            29 => Call::Write(self.random.pick(&[0, 40, 1000, 16_384])),
            _ => Call::Marks,
        }
    }
}

/// A list of calls on a receiver of a channel with this load, of up to
/// `most` places, among them calls that are to be refused.
pub fn calls(random: &mut Random, load: &Load, most: usize) -> Vec<Call> {
    let style = style(random);
    let (first, more) = (length(random, most), random.below(60));
    let mut worked = Worked {
        random,
        load: load.clone(),
        style,
        most,
        count: 0,
    };
    let mut calls: Vec<_> = (0..first).map(|_| worked.good_add()).collect();
    // One more than fits.
    if first == 128 {
        calls.push(worked.good_add());
    }
    for _ in 0..more {
        let call = worked.call();
        // What was settled is mostly read.
        let readings = match call {
            Call::Settle => worked.random.pick(&[0, 1, 4, 8]),
            _ => 0,
        };
        calls.push(call);
        calls.extend((0..readings).map(|_| worked.reading()));
    }
    calls.extend([Call::Marks, Call::Settle]);
    calls.extend((0..12).map(|_| worked.reading()));
    calls.extend([Call::Shown(130), Call::Write(16_384)]);
    calls
}

/// A session: loads right and wrong, queries, calls and a few texts.
pub fn session(random: &mut Random, most: usize) -> Session {
    let kind = random.pick(&Kind::ALL);
    let mut loads = Vec::new();
    let last = load(random, kind);
    while random.once_in(3) {
        loads.push(load(random, kind));
    }
    loads.push(last.clone());
    while random.once_in(3) {
        // What stands afterwards is the last right one, if not always `last`.
        let mut damaged = load(random, kind);
        damage_load(random, &mut damaged);
        loads.push(damaged);
    }
    let windows = kind.values().pow(memory(&last) as u32);
    let queries = (0..random.below(6))
        .map(|_| {
            let sample = match random.below(3) {
                0 => wrong_sample(random),
                _ => sample(random, &last, Style::Mixed),
            };
            let window = match random.below(6) {
                0 => random.pick(&[windows, 255, 256, 65_536, u32::MAX as usize]),
                _ => random.below(windows),
            };
            (sample, window)
        })
        .collect();
    let mut calls = calls(random, &last, most);
    if random.once_in(4) {
        let at = random.below(calls.len() + 1);
        // Now and then of another kind.
        let kind = match random.once_in(10) {
            true => random.pick(&Kind::ALL),
            false => kind,
        };
        calls.insert(at, Call::Read(text(random, kind, most)));
    }
    Session {
        kind,
        loads,
        queries,
        calls,
    }
}

/// A sweep, with pins and lists right and wrong.
pub fn sweep_case(random: &mut Random, most: usize) -> SweepCase {
    let kind = random.pick(&Kind::ALL);
    let Burst {
        load, mut places, ..
    } = burst(random, kind, most);
    let values = load.kind().values();
    if random.once_in(8) && !places.is_empty() {
        let i = random.below(places.len());
        match random.below(2) {
            0 => places[i].sample = wrong_sample(random),
            _ => places[i].priors = wrong_priors(random, values),
        }
    }
    if random.once_in(40) {
        let place = Place {
            sample: [0, 0],
            priors: [0; 4],
        };
        places.resize(129, place);
    }
    let pins = (0..random.below(4))
        .map(|_| (index(random, places.len()), value(random, values)))
        .collect();
    let columns = (places.len() + 1) * values.pow(memory(&load) as u32 - 1);
    let mut lengths = [columns, columns, places.len() * values];
    for length in &mut lengths {
        match random.below(16) {
            0 => *length = length.saturating_sub(1),
            1 => *length += 1 + random.below(9),
            _ => {}
        }
    }
    SweepCase {
        load,
        joining: random.pick(&[
            JoiningKind::LeastCost,
            JoiningKind::Admitted,
            JoiningKind::Count,
        ]),
        places,
        pins,
        lengths,
    }
}

/// The lines of a right text of a kind, the heads in either order.
pub fn right_lines(random: &mut Random, kind: Kind, most: usize) -> Vec<Line> {
    let burst = burst(random, kind, most);
    let values = burst.load.kind().values();
    let mut lines = vec![Line::Channel(burst.load), Line::Depth(burst.depth as i32)];
    if random.once_in(2) {
        lines.swap(0, 1);
    }
    let places = burst.places.iter();
    lines.extend(places.map(|place| Line::of_place(place, values)));
    lines
}

/// Numbers of up to seven digits that lie at an end of some range.
const ENDS: [i32; 32] = [
    -9_999_999, -65_535, -32_769, -8192, -8191, -2049, -2048, -513, -512, -8, -1, 0, 1, 2, 3, 4, 5,
    6, 8, 9, 256, 511, 512, 2047, 2048, 8191, 8192, 65_534, 65_535, 65_536, 1_000_001, 9_999_999,
];

/// Puts some other number in a line, or changes how many there are.
fn damage_line(random: &mut Random, line: &mut Line) {
    let end = random.pick(&ENDS);
    match line {
        Line::Channel(load) if random.once_in(2) => damage_load(random, load),
        Line::Channel(Load::Taps { noise, taps }) => match random.below(3) {
            0 => *noise = end,
            1 => taps.push(end),
            _ => *random.pick_mut(taps) = end,
        },
        Line::Channel(Load::Table {
            noise,
            memory,
            entries,
        }) => match random.below(4) {
            0 => *noise = end,
            1 => *memory = end,
            2 => entries.push(None),
            _ => *random.pick_mut(entries) = Some([0, end]),
        },
        Line::Channel(Load::Code { memory, masks }) => match random.below(2) {
            0 => *memory = end,
            _ => *random.pick_mut(masks) = end,
        },
        Line::Depth(depth) => *depth = end,
        Line::Place { sample, priors } => match random.below(4) {
            0 => *random.pick_mut(sample) = end,
            1 => *random.pick_mut(priors) = Some(end),
            2 => priors.fill(None),
            _ => priors.resize(random.pick(&[0, 1, 2, 3, 4, 4, 5]), Some(0)),
        },
    }
}

/// A text of a kind, in about half of all cases damaged.
pub fn text(random: &mut Random, kind: Kind, most: usize) -> Vec<u8> {
    let mut lines = right_lines(random, kind, most);
    if random.once_in(40) {
        // More places than fit.
        if let Some(place @ Line::Place { .. }) = lines.last().cloned() {
            lines.resize(2 + random.pick(&[128, 129, 130, 140]), place);
        }
    }
    if random.once_in(3) {
        // The heads are a small part of a long text, and damaged more often.
        let i = match random.once_in(2) {
            true => random.below(2),
            false => random.below(lines.len()),
        };
        damage_line(random, &mut lines[i]);
    }
    if random.once_in(12) {
        damage_order(random, &mut lines);
    }
    let mut text: Vec<u8> = lines
        .iter()
        .flat_map(|line| line.to_string().into_bytes())
        .collect();
    if random.once_in(6) {
        damage_bytes(random, &mut text);
        while random.once_in(4) {
            damage_bytes(random, &mut text);
        }
    }
    text
}

/// Drops, doubles, swaps, moves or adds lines.
fn damage_order(random: &mut Random, lines: &mut Vec<Line>) {
    let near = |random: &mut Random, lines: &[Line]| match random.once_in(2) {
        true => random.below(lines.len().min(3)),
        false => random.below(lines.len()),
    };
    let (i, j) = (near(random, lines), near(random, lines));
    match random.below(6) {
        0 => {
            lines.remove(i);
        }
        1 => lines.insert(j, lines[i].clone()),
        2 => lines.swap(i, j),
        3 => lines.truncate(i),
        4 => lines.extend(lines.clone()),
        _ => {
            let kind = random.pick(&Kind::ALL);
            lines.insert(i, Line::Channel(load(random, kind)));
        }
    }
}

/// Flips, drops or inserts bytes, or changes the length.
fn damage_bytes(random: &mut Random, text: &mut Vec<u8>) {
    if text.is_empty() {
        return;
    }
    let feeds: Vec<_> = (0..text.len()).filter(|&i| text[i] == b'\n').collect();
    let i = match random.below(3) {
        0 => random.below(text.len().min(60)),
        _ => random.below(text.len()),
    };
    match random.below(12) {
        0 => text[i] ^= 1 << random.below(8),
        1 => text[i] = random.below(256) as u8,
        2 => {
            text.remove(i);
        }
        3 => text.insert(i, random.pick(b"\0\r\n\t ()-+0123456789bd\x80\xff")),
        4 if !feeds.is_empty() => text.insert(random.pick(&feeds), random.pick(b"\r\0 )")),
        5 => text.truncate(i),
        6 => {
            text.pop();
        }
        7 if !feeds.is_empty() => text.insert(random.pick(&feeds), b'\n'),
        8 => {
            // Around the most bytes there may be.
            let length = random.pick(&[16_383, 16_384, 16_385, 17_000, 40_000]);
            let line = b"(place (sample 0 0) (prior 0 0))\n";
            text.extend(line.iter().cycle().take(length));
            text.truncate(length);
        }
        9 | 10 => {
            // Another spelling in the place of some number.
            let start = (0..=i)
                .rev()
                .find(|&i| text[i] == b' ')
                .map_or(0, |i| i + 1);
            let length = text[start..]
                .iter()
                .take_while(|byte| byte.is_ascii_digit() || **byte == b'-')
                .count();
            let spelling = random.pick(&[
                "-0",
                "00",
                "01",
                "+1",
                "",
                "-",
                "--1",
                "10000000",
                "9999999",
                "-9999999",
                "-10000000",
                "00000001",
                "1e3",
                "1.0",
                "barred",
                "Barred",
                "65535",
                "4294967296",
                "18446744073709551616",
                "-08",
            ]);
            text.splice(start..start + length, spelling.bytes());
        }
        _ => {
            let j = random.below(text.len());
            text.swap(i, j);
        }
    }
}
