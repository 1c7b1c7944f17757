//! States taken for well formed that are not, and 10 in the wrong order.

use super::{Slip, Wrong};
use crate::book::Book;
use crate::model::answer::{Answer, Refusal};
use crate::model::plan::{Plan, MOST_TRACKS};
use crate::model::state::{first_routes, Arrays, State};
use crate::model::step::step;
use crate::subject::EVENT;

pub const ALL: &[Slip] = &[
    ("a train may appear twice", Wrong::Load(train_twice)),
    (
        "trains beyond the tracks pass",
        Wrong::Load(|state, plan, arrays| {
            patched(state, plan, arrays, |plan, mended| {
                mended.trains[plan.tracks.len()..].fill(0)
            })
        }),
    ),
    (
        "reverse beyond the tracks passes",
        Wrong::Load(|state, plan, arrays| {
            patched(state, plan, arrays, |plan, mended| {
                mended.lies[plan.tracks.len()..].fill(0)
            })
        }),
    ),
    (
        "a lie above 1 is reverse",
        Wrong::Load(|state, plan, arrays| {
            patched(state, plan, arrays, |_, mended| {
                mended.lies.iter_mut().for_each(|lie| *lie = (*lie).min(1));
            })
        }),
    ),
    (
        "plain tracks may be reverse",
        Wrong::Load(|state, plan, arrays| patched(state, plan, arrays, straighten)),
    ),
    (
        "plain tracks may be held",
        Wrong::Load(|state, plan, arrays| patched(state, plan, arrays, let_go)),
    ),
    (
        "holds by unknown routes pass",
        Wrong::Load(|state, plan, arrays| {
            patched(state, plan, arrays, |plan, mended| {
                let known = first_routes(plan.routes.len());
                mended.holds.iter_mut().for_each(|routes| *routes &= known);
            })
        }),
    ),
    (
        "a green may name a route that starts elsewhere",
        Wrong::Load(|state, plan, arrays| patched(state, plan, arrays, redden)),
    ),
    (
        "greens beyond the signals pass",
        Wrong::Load(|state, plan, arrays| {
            patched(state, plan, arrays, |plan, mended| {
                mended.signals[plan.homes.len()..].fill(0)
            })
        }),
    ),
    ("11 before 10", Wrong::StepArrays(eleven_first)),
    ("10 empties the state", Wrong::StepArrays(ten_empties)),
    (
        "a state that is not well formed is 11",
        Wrong::StepArrays(|book, plan, arrays, event, spare| {
            match book.any_step(plan, arrays, event, spare) {
                Answer::Refused(Refusal::NotWellFormed) => Answer::Refused(Refusal::BadEvent),
                answer => answer,
            }
        }),
    ),
    (
        "a state that is not well formed is played",
        Wrong::StepArrays(|book, plan, arrays, event, spare| {
            let answer = book.any_step(plan, arrays, event, spare);
            match answer {
                Answer::Refused(Refusal::NotWellFormed) => {
                    step(plan, &mut State::fresh(plan), event)
                }
                _ => answer,
            }
        }),
    ),
    (
        "an incomplete single event is filled up",
        Wrong::StepArrays(filled_up),
    ),
    (
        "a single event of more than three bytes is 11",
        Wrong::StepArrays(|book, plan, arrays, event, spare| {
            let played = if event.len() > EVENT { &[] } else { event };
            book.any_step(plan, arrays, played, spare)
        }),
    ),
    (
        "of more than three bytes the last are played",
        Wrong::StepArrays(|book, plan, arrays, event, spare| {
            let played = &event[event.len().saturating_sub(EVENT)..];
            book.any_step(plan, arrays, played, spare)
        }),
    ),
];

/// Loads the arrays with what is wrong in them put right.
fn patched(state: &mut State, plan: &Plan, arrays: &Arrays, mend: fn(&Plan, &mut Arrays)) -> bool {
    let mut mended = arrays.clone();
    mend(plan, &mut mended);
    state.load(plan, &mended)
}

fn straighten(plan: &Plan, mended: &mut Arrays) {
    for (lie, track) in mended.lies.iter_mut().zip(&plan.tracks) {
        if !track.is_point() {
            *lie = 0;
        }
    }
}

fn let_go(plan: &Plan, mended: &mut Arrays) {
    for (routes, track) in mended.holds.iter_mut().zip(&plan.tracks) {
        if !track.is_point() {
            *routes = 0;
        }
    }
}

fn redden(plan: &Plan, mended: &mut Arrays) {
    for (signal, green) in mended.signals.iter_mut().enumerate() {
        let route = usize::from(*green)
            .checked_sub(1)
            .and_then(|route| plan.routes.get(route));
        if route.is_some_and(|route| route.start != signal) {
            *green = 0;
        }
    }
}

/// Only the first of each train is looked at; the others stay where they are.
fn train_twice(state: &mut State, plan: &Plan, arrays: &Arrays) -> bool {
    let mut mended = arrays.clone();
    for track in 1..MOST_TRACKS {
        if arrays.trains[..track].contains(&arrays.trains[track]) {
            mended.trains[track] = 0;
        }
    }
    let well_formed = state.load(plan, &mended);
    for (train, &cell) in state.trains.iter_mut().zip(&arrays.trains) {
        *train = (cell != 0).then_some(cell);
    }
    well_formed
}

fn eleven_first(
    book: &Book,
    plan: &Plan,
    arrays: &mut Arrays,
    event: &[u8],
    spare: &mut State,
) -> Answer {
    let bad_event = Answer::Refused(Refusal::BadEvent);
    let played = &event[..event.len().min(EVENT)];
    if step(plan, &mut State::fresh(plan), played) == bad_event {
        return bad_event;
    }
    book.any_step(plan, arrays, event, spare)
}

fn ten_empties(
    book: &Book,
    plan: &Plan,
    arrays: &mut Arrays,
    event: &[u8],
    spare: &mut State,
) -> Answer {
    let answer = book.any_step(plan, arrays, event, spare);
    if answer == Answer::Refused(Refusal::NotWellFormed) {
        *arrays = Arrays::fresh();
    }
    answer
}

fn filled_up(
    book: &Book,
    plan: &Plan,
    arrays: &mut Arrays,
    event: &[u8],
    spare: &mut State,
) -> Answer {
    let mut whole = event.to_vec();
    whole.resize(event.len().max(EVENT), 0);
    book.any_step(plan, arrays, &whole, spare)
}
