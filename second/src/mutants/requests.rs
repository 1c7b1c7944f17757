//! Requests with a test missing, weakened or out of order, and grants that do too little.

use super::{Slip, Wrong};
use crate::model::answer::{Accident, Answer, Refusal};
use crate::model::plan::{Lie, Plan, Route};
use crate::model::state::State;
use crate::model::step::{
    grant, is_held, lowest_derailed, lowest_held_otherwise, step, turn_points, would_turn,
};

/// One test of a request: what it answers, if it applies.
type Test = fn(&State, &Route, usize) -> Option<Answer>;

/// A request that asks these tests in this order; its grant is right.
macro_rules! asks {
    ($($test:expr),*) => {
        Wrong::Step(|plan, state, event| tested(plan, state, event, &[$($test),*]))
    };
}

pub const TESTS: &[Slip] = &[
    (
        "12 for this route's green alone",
        asks!(green_for_itself, train, held, derailed),
    ),
    ("12 is missing", asks!(train, held, derailed)),
    (
        "13 names the highest track",
        asks!(not_red, highest_train, held, derailed),
    ),
    (
        "13 looks at the first clear track alone",
        asks!(not_red, first_train, held, derailed),
    ),
    (
        "13 if no clear track is free (any for all)",
        asks!(not_red, all_trains, held, derailed),
    ),
    (
        "an empty clear list passes all tests",
        asks!(not_red, nothing_to_clear, held, derailed),
    ),
    ("14 before 13", asks!(not_red, held, train, derailed)),
    ("14 before 12", asks!(held, not_red, train, derailed)),
    (
        "14 passes the route's own holds",
        asks!(not_red, train, held_by_others, derailed),
    ),
    (
        "14 names a normal point first",
        asks!(not_red, train, first_held, derailed),
    ),
    (
        "14 for normal points alone",
        asks!(not_red, train, normal_held, derailed),
    ),
    ("42 is missing", asks!(not_red, train, held)),
    ("42 before 14", asks!(not_red, train, derailed, held)),
    (
        "42 looks at each turn, not at the end",
        asks!(not_red, train, held, turned_at_all),
    ),
    (
        "42 for any listed point with a train",
        asks!(not_red, train, held, any_on_point),
    ),
];

pub const GRANTS: &[Slip] = &[
    (
        "points are turned before all tests are passed",
        Wrong::Step(turned_early),
    ),
    ("normal wins over reverse", Wrong::Step(normal_wins)),
    (
        "a grant holds normal points alone",
        Wrong::Step(holds_normal_alone),
    ),
    ("a grant leaves the signal red", Wrong::Step(stays_red)),
];

/// The step with other tests for a request. A test that grants ends them all.
fn tested(plan: &Plan, state: &mut State, event: &[u8], tests: &[Test]) -> Answer {
    let Some((number, route)) = requested(plan, event) else {
        return step(plan, state, event);
    };
    let found = tests.iter().find_map(|test| test(state, route, number));
    let granted = Answer::Granted { route: number };
    let answer = found.unwrap_or(granted);
    if answer == granted {
        grant(state, route, number);
    }
    answer
}

fn requested<'a>(plan: &'a Plan, event: &[u8]) -> Option<(usize, &'a Route)> {
    match *event {
        [1, number, 0] => {
            let number = usize::from(number);
            Some((number, plan.routes.get(number)?))
        }
        _ => None,
    }
}

fn not_red(state: &State, route: &Route, _: usize) -> Option<Answer> {
    let green = state.signals[route.start];
    green.map(|_| Answer::Refused(Refusal::SignalNotRed))
}

fn green_for_itself(state: &State, route: &Route, number: usize) -> Option<Answer> {
    let green = state.signals[route.start].filter(|&green| green == number);
    green.map(|_| Answer::Refused(Refusal::SignalNotRed))
}

fn train(state: &State, route: &Route, _: usize) -> Option<Answer> {
    state.first_train_on(&route.clear).map(Answer::in_the_way)
}

fn highest_train(state: &State, route: &Route, _: usize) -> Option<Answer> {
    let from_last = route.clear.iter().rev();
    let mut occupied = from_last.filter_map(|&track| Some((track, state.trains[track]?)));
    occupied.next().map(Answer::in_the_way)
}

fn first_train(state: &State, route: &Route, _: usize) -> Option<Answer> {
    let first = route.clear.get(..1)?;
    state.first_train_on(first).map(Answer::in_the_way)
}

fn all_trains(state: &State, route: &Route, number: usize) -> Option<Answer> {
    let all = route
        .clear
        .iter()
        .all(|&track| state.trains[track].is_some());
    if all {
        train(state, route, number)
    } else {
        None
    }
}

fn nothing_to_clear(state: &State, route: &Route, number: usize) -> Option<Answer> {
    if route.clear.is_empty() {
        Some(Answer::Granted { route: number })
    } else {
        train(state, route, number)
    }
}

fn point_held(point: usize) -> Answer {
    Answer::Refused(Refusal::PointHeld { point })
}

fn held(state: &State, route: &Route, _: usize) -> Option<Answer> {
    lowest_held_otherwise(state, route).map(point_held)
}

fn held_by_others(state: &State, route: &Route, number: usize) -> Option<Answer> {
    let mut others = state.clone();
    others
        .holds
        .iter_mut()
        .for_each(|routes| routes.remove(number));
    lowest_held_otherwise(&others, route).map(point_held)
}

fn first_held(state: &State, route: &Route, _: usize) -> Option<Answer> {
    let mut listed = route.listed();
    listed
        .find(|&point| is_held(state, point) && would_turn(state, route, point))
        .map(point_held)
}

fn normal_held(state: &State, route: &Route, _: usize) -> Option<Answer> {
    let mut points = route.normal.iter().copied();
    points
        .find(|&point| is_held(state, point) && would_turn(state, route, point))
        .map(point_held)
}

fn derailment(point: usize) -> Answer {
    Answer::Accident(Accident::Derailment { point })
}

fn derailed(state: &State, route: &Route, _: usize) -> Option<Answer> {
    lowest_derailed(state, route).map(derailment)
}

fn turned_at_all(state: &State, route: &Route, _: usize) -> Option<Answer> {
    let turned = |point: &usize| {
        let wrong = match state.lies[*point] {
            Lie::Normal => &route.reverse,
            Lie::Reverse => &route.normal,
        };
        state.trains[*point].is_some() && wrong.contains(point)
    };
    route.listed().filter(turned).min().map(derailment)
}

fn any_on_point(state: &State, route: &Route, _: usize) -> Option<Answer> {
    let occupied = |point: &usize| state.trains[*point].is_some();
    route.listed().filter(occupied).min().map(derailment)
}

/// A slip of the works: the refusals that come after leave the points turned.
fn turned_early(plan: &Plan, state: &mut State, event: &[u8]) -> Answer {
    if let Some((_, route)) = requested(plan, event) {
        if state.signals[route.start].is_none() {
            turn_points(state, route);
        }
    }
    step(plan, state, event)
}

fn normal_wins(plan: &Plan, state: &mut State, event: &[u8]) -> Answer {
    let answer = step(plan, state, event);
    if let Answer::Granted { route } = answer {
        for &point in &plan.routes[route].normal {
            state.lies[point] = Lie::Normal;
        }
    }
    answer
}

fn holds_normal_alone(plan: &Plan, state: &mut State, event: &[u8]) -> Answer {
    let answer = step(plan, state, event);
    if let Answer::Granted { route } = answer {
        for &point in &plan.routes[route].reverse {
            state.holds[point].remove(route);
        }
    }
    answer
}

fn stays_red(plan: &Plan, state: &mut State, event: &[u8]) -> Answer {
    let answer = step(plan, state, event);
    if let Answer::Granted { route } = answer {
        state.signals[plan.routes[route].start] = None;
    }
    answer
}
