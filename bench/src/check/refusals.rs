//! Which refusal is named: the smallest number of all conditions that hold.

use super::agree;
use crate::generate::{self, Random};
use crate::reference::channel::{Kind, Load};
use crate::reference::place::Place;
use crate::reference::refusal::Refusal;
use crate::subject::{JoiningKind, Reference, Session, Subject, SweepCase};

/// Checks the loads of a session and the refusals of a sweep.
pub fn check(random: &mut Random) -> Result<(), String> {
    let session = generate::session(random, 128);
    let answers = Reference.work(&session);
    agree!(answers.queries.len(), session.queries.len(), "queries");
    agree!(answers.calls.len(), session.calls.len(), "calls");
    for (load, answer) in session.loads.iter().zip(&answers.loads) {
        agree!(answer.err(), smallest(&load_conditions(load)), "{load:?}");
    }
    // Refused loads might as well not have been tried.
    let accepted = |load: &Load| smallest(&load_conditions(load)).is_none();
    let loads = session.loads.iter().filter(|load| accepted(load)).cloned();
    let again = Reference.work(&Session {
        loads: loads.collect(),
        ..session.clone()
    });
    agree!(
        again.queries,
        answers.queries,
        "queries after refused loads"
    );
    agree!(again.calls, answers.calls, "calls after refused loads");
    check_sweep(&generate::sweep_case(random, 128))
}

fn smallest(conditions: &[(bool, Refusal)]) -> Option<Refusal> {
    let holding = conditions.iter().filter(|(holds, _)| *holds);
    holding.map(|&(_, refusal)| refusal).min()
}

fn load_conditions(load: &Load) -> Vec<(bool, Refusal)> {
    let wrong_noise = |noise: i32| !(1..=1_000_000).contains(&noise);
    match load {
        Load::Taps { noise, taps } => vec![
            (taps.is_empty() || taps.len() > 8, Refusal::Count),
            (
                taps.iter().any(|&tap| !(-512..512).contains(&tap)),
                Refusal::Range,
            ),
            (wrong_noise(*noise), Refusal::Range),
        ],
        Load::Table {
            noise,
            memory,
            entries,
        } => {
            let wanted = [(1, 4), (2, 16), (3, 64), (4, 256)];
            let wide = |entry: &[i32; 2]| entry.iter().any(|number| number.abs() > 8191);
            vec![
                (!wanted.contains(&(*memory, entries.len())), Refusal::Count),
                (entries.iter().flatten().any(wide), Refusal::Range),
                (wrong_noise(*noise), Refusal::Range),
            ]
        }
        Load::Code { memory, masks } => {
            let wide = |&mask: &i32| mask < 0 || i64::from(mask) >= 1_i64 << (*memory).clamp(0, 32);
            vec![
                (*memory < 1 || *memory > 8, Refusal::Count),
                (masks.iter().any(wide), Refusal::Range),
            ]
        }
    }
}

fn check_sweep(case: &SweepCase) -> Result<(), String> {
    let kind = case.load.kind();
    let values = kind.values();
    let obeys = |place: &Place| {
        (0..values).any(|a| place.priors[a] < 65_535) && (values..4).all(|a| place.priors[a] == 0)
    };
    let answers = Reference.sweep(case);

    let mut places = case.places.clone();
    for (&(p, a), answer) in case.pins.iter().zip(&answers.pins) {
        let there = p < places.len();
        let conditions = [
            (there && !obeys(&places[p]), Refusal::Priors),
            (
                there && a < values && places[p].priors[a] == 65_535,
                Refusal::Priors,
            ),
            (!there, Refusal::Place),
            (a >= values, Refusal::Value),
        ];
        agree!(answer.err(), smallest(&conditions), "pin {p} {a}");
        if answer.is_ok() {
            let kept = places[p].priors[a];
            places[p].priors[..values].fill(65_535);
            places[p].priors[a] = kept;
        }
    }
    agree!(answers.places, places, "pinned places");

    let taken = |place: &Place| {
        let [first, second] = place.sample;
        (-2048..2048).contains(&first)
            && (-2048..2048).contains(&second)
            && (kind != Kind::Taps || second == 0)
    };
    let columns = (places.len() + 1) * values.pow(generate::memory(&case.load) as u32 - 1);
    let [forward, backward, answered] = case.lengths;
    let conditions = [
        (places.len() > 128, Refusal::Full),
        (!places.iter().all(taken), Refusal::Sample),
        (!places.iter().all(obeys), Refusal::Priors),
        (forward < columns || backward < columns, Refusal::Short),
        (answered < places.len() * values, Refusal::Short),
    ];
    let refusal = smallest(&conditions);
    agree!(answers.outcome.err(), refusal, "sweep");
    let none = match case.joining {
        JoiningKind::LeastCost => u32::MAX,
        JoiningKind::Admitted | JoiningKind::Count => 0,
    };
    for (list, length) in answers.lists.iter().zip(case.lengths) {
        agree!(list.len(), length, "length of a list");
        let untouched = refusal.is_none() || list.iter().all(|&element| element == none);
        agree!(untouched, true, "lists after a refused sweep");
    }
    Ok(())
}
