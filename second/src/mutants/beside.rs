//! Other things that could hang on holds and must not: what else a grant over a held point does, 12, 15
//! and 42, which way a point leads, and which states are well formed.

use super::{Slip, Wrong};
use crate::model::answer::{Accident, Answer, Refusal};
use crate::model::plan::{Lie, Plan, Route};
use crate::model::state::{Arrays, RouteSet, State};
use crate::model::step::{is_held, lie_in_the_end, step};

pub const GRANTS: &[Slip] = &[
    (
        "a grant over a held point turns no other point",
        Wrong::Step(|plan, state, event| {
            over_held(plan, state, event, |before, after, _| {
                after.lies.clone_from(&before.lies);
            })
        }),
    ),
    (
        "a grant over a held point takes no hold of any other",
        Wrong::Step(|plan, state, event| {
            over_held(plan, state, event, |before, after, route| {
                for point in route.listed().filter(|&point| !is_held(before, point)) {
                    after.holds[point] = RouteSet::default();
                }
            })
        }),
    ),
    (
        "a grant over a held point leaves the signal red",
        Wrong::Step(|plan, state, event| {
            over_held(plan, state, event, |before, after, _| {
                after.signals.clone_from(&before.signals);
            })
        }),
    ),
    (
        "a request for a route that holds a point is 12",
        Wrong::Step(|plan, state, event| {
            let answer = step(plan, &mut state.clone(), event);
            match answer {
                Answer::Granted { route } if holds_any(state, route) => {
                    Answer::Refused(Refusal::SignalNotRed)
                }
                _ => step(plan, state, event),
            }
        }),
    ),
    (
        "42 for a held point with a train that lies right",
        Wrong::Step(|plan, state, event| {
            let answer = step(plan, &mut state.clone(), event);
            let Answer::Granted { route } = answer else {
                return step(plan, state, event);
            };
            let listed = plan.routes[route].listed();
            let on_it =
                listed.filter(|&point| is_held(state, point) && state.trains[point].is_some());
            match on_it.min() {
                Some(point) => Answer::Accident(Accident::Derailment { point }),
                None => step(plan, state, event),
            }
        }),
    ),
    (
        "a cancel of a route that shares a point is 15",
        Wrong::Step(|plan, state, event| {
            let answer = step(plan, &mut state.clone(), event);
            let shares = |route: usize| {
                let mut all = state.holds.iter();
                all.any(|holders| holders.contains(route) && holders.len() > 1)
            };
            match answer {
                Answer::Cancelled { route } if shares(route) => {
                    Answer::Refused(Refusal::SignalNotGreen)
                }
                _ => step(plan, state, event),
            }
        }),
    ),
];

/// Those that no run from the fresh state shows: there a held point lies as its holders list it.
pub const MOVES: &[Slip] = &[
    (
        "a held point leads as its lowest holder lists it",
        Wrong::Step(|plan, state, event| {
            by_holders(plan, state, event, |holders| holders.routes().next())
        }),
    ),
    (
        "a held point leads as its highest holder lists it",
        Wrong::Step(|plan, state, event| {
            by_holders(plan, state, event, |holders| holders.routes().next_back())
        }),
    ),
];

pub const STATES: &[Slip] = &[
    (
        "10 where two routes hold one point",
        Wrong::Load(|state, plan, arrays| {
            arrays.holds.iter().all(|holders| holders.count_ones() < 2) && state.load(plan, arrays)
        }),
    ),
    (
        "10 where a route holds a point that it does not list",
        Wrong::Load(|state, plan, arrays| {
            state.load(plan, arrays)
                && all_holders(plan, arrays, |route, point, _| route.lists(point))
        }),
    ),
    (
        "10 where a route that lists a point otherwise holds it",
        Wrong::Load(|state, plan, arrays| {
            state.load(plan, arrays)
                && all_holders(plan, arrays, |route, point, is_reverse| {
                    let is_wanted = lie_in_the_end(route, point) == Lie::Reverse;
                    !route.lists(point) || is_wanted == is_reverse
                })
        }),
    ),
];

/// The step, with something else done after a grant over a held point.
fn over_held(
    plan: &Plan,
    state: &mut State,
    event: &[u8],
    change: fn(&State, &mut State, &Route),
) -> Answer {
    let before = state.clone();
    let answer = step(plan, state, event);
    if let Answer::Granted { route } = answer {
        let route = &plan.routes[route];
        if route.listed().any(|point| is_held(&before, point)) {
            change(&before, state, route);
        }
    }
    answer
}

fn holds_any(state: &State, route: usize) -> bool {
    state.holds.iter().any(|holders| holders.contains(route))
}

/// A move in which held points lie as this holder lists them. The lies stay as they are.
fn by_holders(
    plan: &Plan,
    state: &mut State,
    event: &[u8],
    holder: fn(RouteSet) -> Option<usize>,
) -> Answer {
    if event.first() != Some(&4) {
        return step(plan, state, event);
    }
    let lies = state.lies.clone();
    for point in 0..lies.len() {
        let route = holder(state.holds[point]).map(|route| &plan.routes[route]);
        if let Some(route) = route.filter(|route| route.lists(point)) {
            state.lies[point] = lie_in_the_end(route, point);
        }
    }
    let answer = step(plan, state, event);
    state.lies = lies;
    answer
}

/// Whether this is so of every hold, with whether the point lies reverse.
fn all_holders(plan: &Plan, arrays: &Arrays, is_so: fn(&Route, usize, bool) -> bool) -> bool {
    let of_point = |(point, &holders): (usize, &u64)| {
        let mut routes = RouteSet::of_bits(holders).routes();
        routes.all(|route| is_so(&plan.routes[route], point, arrays.lies[point] == 1))
    };
    arrays.holds.iter().enumerate().all(of_point)
}
