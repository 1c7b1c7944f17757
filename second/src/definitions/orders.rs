//! The tests of an event in another order: of two that apply at once the later one answers.

use super::events::steps_by;
use super::Definition;
use crate::model::answer::{Accident, Answer, Refusal};
use crate::model::plan::{Plan, Route};
use crate::model::state::State;
use crate::model::step::{lowest_derailed, lowest_held_otherwise, open_leg, step, way_out};

/// What a test would answer, if it applies, also where the event is none for an unused byte, a train
/// of number 0 or an entry that there is not.
type Test = fn(&Plan, &State, &[u8]) -> Option<Answer>;

type Tests = &'static [(u8, Test)];

/// The document's order, after 11.
const ORDERS: [(&str, Tests); 4] = [
    (
        "request",
        &[(12, not_red), (13, train), (14, held), (42, derailed)],
    ),
    ("cancel", &[(15, not_green), (16, at_home)]),
    ("entry", &[(17, known), (13, not_clear), (40, occupied)]),
    (
        "move",
        &[(18, unknown), (19, red), (40, collision), (41, run_through)],
    ),
];

/// Two tests that never apply at once: a train that is not in the plan has no track.
const NEVER_BOTH: [(u8, u8); 3] = [(18, 19), (18, 40), (18, 41)];

pub fn all() -> Vec<Definition> {
    let mut all = Vec::new();
    for (event, tests) in ORDERS {
        for (place, &(later, test)) in tests.iter().enumerate() {
            let earlier = tests[..place].iter().map(|(number, _)| *number);
            let pairs = std::iter::once(11).chain(earlier);
            for first in pairs.filter(|&first| !NEVER_BOTH.contains(&(first, later))) {
                let name = format!("{event}: where {first} and {later} apply, {later} is said");
                all.push(steps_by(name, move |plan, state, event| {
                    let answer = step(plan, &mut state.clone(), event);
                    match test(plan, state, event) {
                        Some(other) if number(&answer) == Some(first) => other,
                        _ => step(plan, state, event),
                    }
                }));
            }
        }
    }
    all
}

fn number(answer: &Answer) -> Option<u8> {
    match answer {
        Answer::Refused(refusal) => Some(refusal.number()),
        Answer::Accident(accident) => Some(accident.number()),
        _ => None,
    }
}

fn route<'a>(plan: &'a Plan, event: &[u8], kind: u8) -> Option<(usize, &'a Route)> {
    match *event {
        [of, route, _] if of == kind => {
            let route = usize::from(route);
            Some((route, plan.routes.get(route)?))
        }
        _ => None,
    }
}

fn not_red(plan: &Plan, state: &State, event: &[u8]) -> Option<Answer> {
    let (_, route) = route(plan, event, 1)?;
    state.signals[route.start]?;
    Some(Answer::Refused(Refusal::SignalNotRed))
}

fn train(plan: &Plan, state: &State, event: &[u8]) -> Option<Answer> {
    let (_, route) = route(plan, event, 1)?;
    state.first_train_on(&route.clear).map(Answer::in_the_way)
}

fn held(plan: &Plan, state: &State, event: &[u8]) -> Option<Answer> {
    let (_, route) = route(plan, event, 1)?;
    let point = lowest_held_otherwise(state, route)?;
    Some(Answer::Refused(Refusal::PointHeld { point }))
}

fn derailed(plan: &Plan, state: &State, event: &[u8]) -> Option<Answer> {
    let (_, route) = route(plan, event, 1)?;
    let point = lowest_derailed(state, route)?;
    Some(Answer::Accident(Accident::Derailment { point }))
}

fn not_green(plan: &Plan, state: &State, event: &[u8]) -> Option<Answer> {
    let (number, route) = route(plan, event, 2)?;
    let is_green = state.signals[route.start] == Some(number);
    (!is_green).then_some(Answer::Refused(Refusal::SignalNotGreen))
}

fn at_home(plan: &Plan, state: &State, event: &[u8]) -> Option<Answer> {
    let (_, route) = route(plan, event, 2)?;
    let track = plan.home_of(route);
    state.trains[track]?;
    Some(Answer::Refused(Refusal::TrainAtHome { track }))
}

fn known(_: &Plan, state: &State, event: &[u8]) -> Option<Answer> {
    match *event {
        [3, _, train] => {
            state.track_of(train)?;
            Some(Answer::Refused(Refusal::AlreadyInPlan))
        }
        _ => None,
    }
}

fn not_clear(plan: &Plan, state: &State, event: &[u8]) -> Option<Answer> {
    match *event {
        [3, entry, _] => {
            let entry = plan.entries.get(usize::from(entry))?;
            state.first_train_on(&entry.clear).map(Answer::in_the_way)
        }
        _ => None,
    }
}

fn occupied(plan: &Plan, state: &State, event: &[u8]) -> Option<Answer> {
    match *event {
        [3, entry, _] => {
            let track = plan.entries.get(usize::from(entry))?.track;
            state.trains[track]?;
            Some(Answer::Accident(Accident::Collision { track }))
        }
        _ => None,
    }
}

fn unknown(_: &Plan, state: &State, event: &[u8]) -> Option<Answer> {
    match *event {
        [4, train, _] if state.track_of(train).is_none() => {
            Some(Answer::Refused(Refusal::NotInPlan))
        }
        _ => None,
    }
}

/// The track of a move's train.
fn left(state: &State, event: &[u8]) -> Option<usize> {
    match *event {
        [4, train, _] => state.track_of(train),
        _ => None,
    }
}

fn red(plan: &Plan, state: &State, event: &[u8]) -> Option<Answer> {
    let signal = plan.signal_at(left(state, event)?)?;
    let is_red = state.signals[signal].is_none();
    is_red.then_some(Answer::Refused(Refusal::SignalRed { signal }))
}

fn collision(plan: &Plan, state: &State, event: &[u8]) -> Option<Answer> {
    let track = way_out(plan, state, left(state, event)?)?;
    state.trains[track]?;
    Some(Answer::Accident(Accident::Collision { track }))
}

fn run_through(plan: &Plan, state: &State, event: &[u8]) -> Option<Answer> {
    let from = left(state, event)?;
    let track = way_out(plan, state, from)?;
    let leg = open_leg(plan, state, track)?;
    (leg != from).then_some(Answer::Accident(Accident::RunThrough { track }))
}
