//! What can be put to an implementation, and what it answers: the seam at
//! which another implementation is compared with the reference.

use crate::reference::channel::{Channel, Code, Kind, Load, Table, Taps};
use crate::reference::cost::{Cost, Lean};
use crate::reference::listen::listen;
use crate::reference::place::{Place, Priors, Sample};
use crate::reference::receiver::{Receiver, Settled};
use crate::reference::refusal::{Fault, Refusal};
use crate::reference::sweep::{pin, sweep, Admitted, Count, Joining, LeastCost};
use crate::reference::text::{read, write};

/// A call on a receiver, with whatever numbers.
#[derive(Clone, Debug, PartialEq, Eq)]
pub enum Call {
    Add(Sample, Priors),
    Retake(usize, Sample),
    Reweigh(usize, Priors),
    Cut(usize),
    Depth(usize),
    Settle,
    Cost(usize, usize),
    Lean(usize, usize),
    Symbol(usize),
    /// With a list of this length.
    Shown(usize),
    Marks,
    Read(Vec<u8>),
    /// With a list of this length.
    Write(usize),
}

/// The answer to a call.
#[derive(Clone, Debug, PartialEq, Eq)]
pub enum Answer {
    Done,
    Refused(Refusal),
    Fault(Fault),
    Settled(Settled),
    Cost(Cost),
    Lean(Lean),
    Symbol(u8),
    /// The whole list afterwards.
    Shown(Vec<u8>),
    Marks(usize, usize),
    /// The length answered, and the whole list afterwards.
    Written(usize, Vec<u8>),
}

impl From<Result<Answer, Refusal>> for Answer {
    fn from(result: Result<Answer, Refusal>) -> Answer {
        result.unwrap_or_else(Answer::Refused)
    }
}

impl From<Result<(), Refusal>> for Answer {
    fn from(result: Result<(), Refusal>) -> Answer {
        result.map(|()| Answer::Done).into()
    }
}

/// What lists handed to calls hold before.
pub const FILL: u8 = 0xA5;

/// A blank channel, the loads tried on it in turn, queries of it, and the
/// calls on a new receiver of it.
#[derive(Clone, Debug)]
pub struct Session {
    pub kind: Kind,
    pub loads: Vec<Load>,
    pub queries: Vec<(Sample, usize)>,
    pub calls: Vec<Call>,
}

#[derive(Clone, Debug, PartialEq, Eq)]
pub struct SessionAnswers {
    pub loads: Vec<Result<(), Refusal>>,
    /// Whether the sample is taken, and its cost under the window.
    pub queries: Vec<(bool, Cost)>,
    pub calls: Vec<Answer>,
}

#[derive(Clone, Copy, Debug, PartialEq, Eq)]
pub enum JoiningKind {
    LeastCost,
    Admitted,
    Count,
}

/// A sweep over places after some pins, with lists of the given lengths.
#[derive(Clone, Debug)]
pub struct SweepCase {
    pub load: Load,
    pub joining: JoiningKind,
    pub places: Vec<Place>,
    /// Places and values.
    pub pins: Vec<(usize, usize)>,
    /// Lengths of the forward, backward and answer lists.
    pub lengths: [usize; 3],
}

/// Elements as numbers (no is 0, yes is 1); each list in its whole length,
/// none in every element before.
#[derive(Clone, Debug, PartialEq, Eq)]
pub struct SweepAnswers {
    pub pins: Vec<Result<(), Refusal>>,
    pub places: Vec<Place>,
    pub outcome: Result<(), Refusal>,
    pub lists: [Vec<u32>; 3],
}

/// An implementation of the rule book.
pub trait Subject {
    /// What `listen` prints for a text.
    fn listen(&mut self, text: &[u8]) -> Vec<u8>;

    /// Works a session call by call.
    fn work(&mut self, session: &Session) -> SessionAnswers;

    /// Pins and sweeps. The load is a right one.
    fn sweep(&mut self, case: &SweepCase) -> SweepAnswers;
}

/// The implementation of this package.
pub struct Reference;

impl Subject for Reference {
    fn listen(&mut self, text: &[u8]) -> Vec<u8> {
        listen(text).into_bytes()
    }

    fn work(&mut self, session: &Session) -> SessionAnswers {
        match session.kind {
            Kind::Taps => work::<Taps>(session),
            Kind::Table => work::<Table>(session),
            Kind::Code => work::<Code>(session),
        }
    }

    fn sweep(&mut self, case: &SweepCase) -> SweepAnswers {
        match case.load.kind() {
            Kind::Taps => sweep_joining::<Taps>(case),
            Kind::Table => sweep_joining::<Table>(case),
            Kind::Code => sweep_joining::<Code>(case),
        }
    }
}

fn work<C: Channel>(session: &Session) -> SessionAnswers {
    let mut channel = C::default();
    let loads = session
        .loads
        .iter()
        .map(|load| channel.load(load))
        .collect();
    let queries = session
        .queries
        .iter()
        .map(|&(sample, window)| (channel.takes(sample), channel.cost(sample, window)))
        .collect();
    let mut receiver = Receiver::new(channel);
    let calls = session
        .calls
        .iter()
        .map(|call| put(&mut receiver, call))
        .collect();
    SessionAnswers {
        loads,
        queries,
        calls,
    }
}

/// Puts a call to a receiver.
pub fn put<C: Channel>(receiver: &mut Receiver<C>, call: &Call) -> Answer {
    match *call {
        Call::Add(sample, priors) => receiver.add(sample, priors).into(),
        Call::Retake(p, sample) => receiver.retake(p, sample).into(),
        Call::Reweigh(p, priors) => receiver.reweigh(p, priors).into(),
        Call::Cut(n) => receiver.cut(n).into(),
        Call::Depth(depth) => receiver.set_depth(depth).into(),
        Call::Settle => Answer::Settled(receiver.settle()),
        Call::Cost(k, a) => receiver.cost(k, a).map(Answer::Cost).into(),
        Call::Lean(k, i) => receiver.lean(k, i).map(Answer::Lean).into(),
        Call::Symbol(k) => receiver.symbol(k).map(Answer::Symbol).into(),
        Call::Shown(length) => {
            let mut list = vec![FILL; length];
            let result = receiver.shown(&mut list);
            result.map(|()| Answer::Shown(list)).into()
        }
        Call::Marks => {
            let (forward, backward) = receiver.marks();
            Answer::Marks(forward, backward)
        }
        Call::Read(ref text) => match read(receiver, text) {
            Ok(()) => Answer::Done,
            Err(fault) => Answer::Fault(fault),
        },
        Call::Write(length) => {
            let mut list = vec![FILL; length];
            let result = write(receiver, &mut list);
            result.map(|written| Answer::Written(written, list)).into()
        }
    }
}

fn sweep_joining<C: Channel>(case: &SweepCase) -> SweepAnswers {
    match case.joining {
        JoiningKind::LeastCost => pin_and_sweep::<LeastCost, C>(case),
        JoiningKind::Admitted => pin_and_sweep::<Admitted, C>(case),
        JoiningKind::Count => pin_and_sweep::<Count, C>(case),
    }
}

fn pin_and_sweep<J, C>(case: &SweepCase) -> SweepAnswers
where
    J: Joining<Element: Into<u32>>,
    C: Channel,
{
    let mut channel = C::default();
    channel.load(&case.load).expect("a right load");
    let mut places = case.places.clone();
    let pins = case
        .pins
        .iter()
        .map(|&(p, a)| pin::<C>(&mut places, p, a))
        .collect();
    let mut lists = case.lengths.map(|length| vec![J::NONE; length]);
    let [forward, backward, answers] = &mut lists;
    let outcome = sweep::<J, C>(&channel, &places, forward, backward, answers);
    SweepAnswers {
        pins,
        places,
        outcome,
        lists: lists.map(|list| list.into_iter().map(Into::into).collect()),
    }
}
