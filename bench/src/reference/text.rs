//! Burst text: its forms, finding its kind, reading and writing.

use std::fmt;

use super::channel::{Channel, Entry, Kind, Load};
use super::place::{Place, BARRED_PRIOR};
use super::receiver::Receiver;
use super::refusal::{Fault, Layer, Refusal};

/// The most bytes of a text.
pub const MOST_BYTES: usize = 16_384;

/// A line that is a form.
#[derive(Clone, Debug, PartialEq, Eq)]
pub enum Line {
    Channel(Load),
    Depth(i32),
    /// Two or four priors, none for a barred one.
    Place {
        sample: [i32; 2],
        priors: Vec<Option<i32>>,
    },
}

impl Line {
    /// Parses a line with its line feed.
    pub fn parse(bytes: &[u8]) -> Option<Line> {
        let mut cursor = Cursor(bytes);
        let line = if cursor.skip("(channel (kind taps) (noise ") {
            let noise = cursor.number()?;
            cursor.expect(") (taps ")?;
            let taps = cursor.list(Cursor::number)?;
            cursor.expect("))\n")?;
            Line::Channel(Load::Taps { noise, taps })
        } else if cursor.skip("(channel (kind table) (noise ") {
            let noise = cursor.number()?;
            cursor.expect(") (memory ")?;
            let memory = cursor.number()?;
            cursor.expect(") (entries ")?;
            let entries = cursor.list(Cursor::entry)?;
            cursor.expect("))\n")?;
            Line::Channel(Load::Table {
                noise,
                memory,
                entries,
            })
        } else if cursor.skip("(channel (kind code) (memory ") {
            let memory = cursor.number()?;
            cursor.expect(") (masks ")?;
            let masks = cursor.pair()?;
            cursor.expect("))\n")?;
            Line::Channel(Load::Code { memory, masks })
        } else if cursor.skip("(depth ") {
            let depth = cursor.number()?;
            cursor.expect(")\n")?;
            Line::Depth(depth)
        } else {
            cursor.expect("(place (sample ")?;
            let sample = cursor.pair()?;
            cursor.expect(") (prior ")?;
            let priors = cursor.list(Cursor::prior)?;
            cursor.expect("))\n")?;
            if priors.len() != 2 && priors.len() != 4 {
                return None;
            }
            Line::Place { sample, priors }
        };
        cursor.0.is_empty().then_some(line)
    }

    /// The line of a place, with `values` priors.
    pub fn of_place(place: &Place, values: usize) -> Line {
        let written = |&prior: &u16| (prior != BARRED_PRIOR).then_some(prior.into());
        Line::Place {
            sample: place.sample,
            priors: place.priors[..values].iter().map(written).collect(),
        }
    }
}

/// Writes the line with its line feed.
impl fmt::Display for Line {
    fn fmt(&self, f: &mut fmt::Formatter<'_>) -> fmt::Result {
        match self {
            Line::Channel(Load::Taps { noise, taps }) => {
                let taps = spaced(taps, |tap| tap.to_string());
                writeln!(f, "(channel (kind taps) (noise {noise}) (taps {taps}))")
            }
            Line::Channel(Load::Table {
                noise,
                memory,
                entries,
            }) => {
                let entries = spaced(entries, |entry| match entry {
                    Some([first, second]) => format!("({first} {second})"),
                    None => "barred".to_string(),
                });
                writeln!(
                    f,
                    "(channel (kind table) (noise {noise}) (memory {memory}) (entries {entries}))"
                )
            }
            Line::Channel(Load::Code {
                memory,
                masks: [first, second],
            }) => writeln!(
                f,
                "(channel (kind code) (memory {memory}) (masks {first} {second}))"
            ),
            Line::Depth(depth) => writeln!(f, "(depth {depth})"),
            Line::Place {
                sample: [first, second],
                priors,
            } => {
                let priors = spaced(priors, |prior| match prior {
                    Some(number) => number.to_string(),
                    None => "barred".to_string(),
                });
                writeln!(f, "(place (sample {first} {second}) (prior {priors}))")
            }
        }
    }
}

fn spaced<T>(items: &[T], word: impl Fn(&T) -> String) -> String {
    items.iter().map(word).collect::<Vec<_>>().join(" ")
}

/// What is left of a line.
struct Cursor<'a>(&'a [u8]);

impl Cursor<'_> {
    /// Goes past `word` if it comes next, and says whether it did.
    fn skip(&mut self, word: &str) -> bool {
        match self.0.strip_prefix(word.as_bytes()) {
            Some(rest) => {
                self.0 = rest;
                true
            }
            None => false,
        }
    }

    fn expect(&mut self, word: &str) -> Option<()> {
        self.skip(word).then_some(())
    }

    fn number(&mut self) -> Option<i32> {
        let negative = self.skip("-");
        let count = self
            .0
            .iter()
            .take_while(|byte| byte.is_ascii_digit())
            .count();
        let (digits, rest) = self.0.split_at(count);
        let leading_zero = digits.first() == Some(&b'0') && (count > 1 || negative);
        if !(1..=7).contains(&count) || leading_zero {
            return None;
        }
        self.0 = rest;
        let size = digits
            .iter()
            .fold(0, |size, digit| 10 * size + i32::from(digit - b'0'));
        Some(if negative { -size } else { size })
    }

    fn pair(&mut self) -> Option<[i32; 2]> {
        let first = self.number()?;
        self.expect(" ")?;
        Some([first, self.number()?])
    }

    fn entry(&mut self) -> Option<Entry> {
        if self.skip("barred") {
            return Some(None);
        }
        self.expect("(")?;
        let pair = self.pair()?;
        self.expect(")")?;
        Some(Some(pair))
    }

    fn prior(&mut self) -> Option<Option<i32>> {
        if self.skip("barred") {
            return Some(None);
        }
        self.number().map(Some)
    }

    /// One item or more, with single spaces between.
    fn list<T>(&mut self, item: impl Fn(&mut Self) -> Option<T>) -> Option<Vec<T>> {
        let mut items = vec![item(self)?];
        while self.skip(" ") {
            items.push(item(self)?);
        }
        Some(items)
    }
}

fn fault(line: usize, layer: Layer, refusal: Refusal) -> Fault {
    Fault {
        line,
        layer,
        refusal,
    }
}

fn check_length(text: &[u8]) -> Result<(), Fault> {
    if text.len() > MOST_BYTES {
        return Err(fault(1, Layer::Text, Refusal::Long));
    }
    Ok(())
}

/// The lines of a text with their line feeds, numbered from 1.
fn numbered_lines(text: &[u8]) -> impl Iterator<Item = (usize, &[u8])> {
    (1..).zip(text.split_inclusive(|&byte| byte == b'\n'))
}

/// The kind of the first channel line.
pub fn find_kind(text: &[u8]) -> Result<Kind, Fault> {
    check_length(text)?;
    let mut depth_stands = false;
    let mut end = 1;
    for (line, bytes) in numbered_lines(text) {
        match Line::parse(bytes) {
            Some(Line::Channel(load)) => return Ok(load.kind()),
            Some(Line::Depth(_)) if !depth_stands => depth_stands = true,
            Some(_) => return Err(fault(line, Layer::Text, Refusal::Head)),
            None => return Err(fault(line, Layer::Text, Refusal::Form)),
        }
        end = line + 1;
    }
    Err(fault(end, Layer::Text, Refusal::Head))
}

/// Reads a text into a receiver, which a refused text leaves as it was.
pub fn read<C: Channel>(receiver: &mut Receiver<C>, text: &[u8]) -> Result<(), Fault> {
    check_length(text)?;
    let mut channel: Option<C> = None;
    let mut depth: Option<(usize, i32)> = None;
    let mut reading: Option<Receiver<C>> = None;
    let mut end = 1;
    for (line, bytes) in numbered_lines(text) {
        let in_text = |refusal| fault(line, Layer::Text, refusal);
        match Line::parse(bytes).ok_or(in_text(Refusal::Form))? {
            Line::Channel(load) => {
                if load.kind() != C::KIND {
                    return Err(in_text(Refusal::Form));
                }
                if channel.is_some() {
                    return Err(in_text(Refusal::Head));
                }
                let mut blank = C::default();
                blank
                    .load(&load)
                    .map_err(|refusal| fault(line, Layer::Channel, refusal))?;
                channel = Some(blank);
            }
            Line::Depth(number) => {
                if depth.is_some() {
                    return Err(in_text(Refusal::Head));
                }
                depth = Some((line, number));
            }
            Line::Place { sample, priors } => {
                let reading = reading.as_mut().ok_or(in_text(Refusal::Head))?;
                if priors.len() != C::VALUES {
                    return Err(in_text(Refusal::Form));
                }
                reading
                    .add(sample, read_priors(&priors))
                    .map_err(|refusal| fault(line, Layer::Receiver, refusal))?;
            }
        }
        if let (None, Some(channel), Some((line, number))) = (&reading, &channel, depth) {
            let mut started = Receiver::new(channel.clone());
            usize::try_from(number)
                .map_err(|_| Refusal::Depth)
                .and_then(|depth| started.set_depth(depth))
                .map_err(|refusal| fault(line, Layer::Receiver, refusal))?;
            reading = Some(started);
        }
        end = line + 1;
    }
    *receiver = reading.ok_or(fault(end, Layer::Text, Refusal::Head))?;
    Ok(())
}

/// Priors as written. A number out of range breaks the rule of priors, as
/// do priors that are all barred.
fn read_priors(written: &[Option<i32>]) -> [u16; 4] {
    let mut priors = [0; 4];
    for (prior, written) in priors.iter_mut().zip(written) {
        *prior = match *written {
            Some(number @ 0..=65_534) => number as u16,
            Some(_) => return [BARRED_PRIOR; 4],
            None => BARRED_PRIOR,
        };
    }
    priors
}

/// The text of a receiver.
pub fn text<C: Channel>(receiver: &Receiver<C>) -> String {
    let heads = [
        Line::Channel(receiver.channel().loaded()),
        Line::Depth(receiver.depth() as i32),
    ];
    let places = receiver.places().iter();
    let lines = places.map(|place| Line::of_place(place, C::VALUES));
    heads
        .into_iter()
        .chain(lines)
        .map(|line| line.to_string())
        .collect()
}

/// Writes the text of a receiver at the front of a list and says its length.
pub fn write<C: Channel>(receiver: &Receiver<C>, list: &mut [u8]) -> Result<usize, Refusal> {
    let text = text(receiver);
    list.get_mut(..text.len())
        .ok_or(Refusal::Short)?
        .copy_from_slice(text.as_bytes());
    Ok(text.len())
}
