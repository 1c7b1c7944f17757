//! Boxes that go wrong where very many routes hold a point, or where very many points are held, listed or
//! given back.

use super::{Slip, Wrong};
use crate::model::answer::{Accident, Answer, Refusal};
use crate::model::plan::Plan;
use crate::model::state::{RouteSet, State};
use crate::model::step::{grant, is_held, lowest_derailed, step, would_turn};
use std::collections::BTreeSet;
use std::ops::RangeInclusive;

/// 14 passes where this is so of the plan, the state, the route and the point that is named.
macro_rules! passes {
    ($is_so:expr) => {
        Wrong::Step(|plan, state, event| {
            let is_so: fn(&Plan, &State, usize, usize) -> bool = $is_so;
            passed(plan, state, event, is_so)
        })
    };
}

/// A hold that an arrival gives back stays where this is so of it.
macro_rules! stays {
    ($is_so:expr) => {
        Wrong::Step(|plan, state, event| {
            let is_so: fn(&Plan, &Gone) -> bool = $is_so;
            let after = |answer: &Answer| matches!(answer, Answer::Moved { .. });
            left_there(plan, state, event, after, is_so)
        })
    };
}

/// The same of a cancel.
macro_rules! stays_after_cancel {
    ($is_so:expr) => {
        Wrong::Step(|plan, state, event| {
            let is_so: fn(&Plan, &Gone) -> bool = $is_so;
            let after = |answer: &Answer| matches!(answer, Answer::Cancelled { .. });
            left_there(plan, state, event, after, is_so)
        })
    };
}

pub const REQUESTS: &[Slip] = &[
    (
        "14 passes where more than 32 routes hold the point",
        passes!(|_, state, _, point| state.holds[point].len() > 32),
    ),
    (
        "14 passes where 48 routes hold the point",
        passes!(|_, state, _, point| state.holds[point].len() == 48),
    ),
    (
        "14 passes where 25 routes hold the point",
        passes!(|_, state, _, point| state.holds[point].len() == 25),
    ),
    (
        "14 passes where 30 or 31 routes hold the point",
        passes!(|_, state, _, point| [30, 31].contains(&state.holds[point].len())),
    ),
    (
        "14 passes where 20 listed points or more are in the way",
        passes!(|plan, state, route, _| in_the_way(plan, state, route).1 >= 20),
    ),
    (
        "14 passes where all of 17 listed points or more are in the way",
        passes!(|plan, state, route, _| {
            let (listed, hits) = in_the_way(plan, state, route);
            listed > 16 && hits == listed
        }),
    ),
    (
        "a grant takes no hold where 32 routes or more have one",
        Wrong::Step(|plan, state, event| {
            let before = state.clone();
            let answer = step(plan, state, event);
            if let Answer::Granted { route } = answer {
                for point in plan.routes[route].listed() {
                    if before.holds[point].len() >= 32 {
                        state.holds[point] = before.holds[point];
                    }
                }
            }
            answer
        }),
    ),
    (
        "42 passes where 18 listed points or more are held",
        Wrong::Step(|plan, state, event| {
            let answer = step(plan, state, event);
            if let Answer::Accident(Accident::Derailment { .. }) = answer {
                let number = usize::from(event[1]);
                let route = &plan.routes[number];
                let listed: BTreeSet<usize> = route.listed().collect();
                if listed
                    .iter()
                    .filter(|&&point| is_held(state, point))
                    .count()
                    >= 18
                {
                    grant(state, route, number);
                    return Answer::Granted { route: number };
                }
            }
            answer
        }),
    ),
];

/// These show in a session, in which an arrival gives back as many points as a route can list.
pub const POINTS_GIVEN_BACK: &[Slip] = &[
    (
        "an arrival gives back 12 points at most",
        stays!(|_, gone| gone.points_before() >= 12),
    ),
    (
        "an arrival gives back 16 points at most",
        stays!(|_, gone| gone.points_before() >= 16),
    ),
    (
        "an arrival gives back 31 points at most",
        stays!(|_, gone| gone.points_before() >= 31),
    ),
];

pub const GIVEN_BACK: &[Slip] = &[
    (
        "an arrival does not look at the last of 17 to 31 releases",
        stays!(|plan, gone| gone.is_last_of(plan, 17..=31)),
    ),
    (
        "an arrival does not look at the last of 20 to 30 releases",
        stays!(|plan, gone| gone.is_last_of(plan, 20..=30)),
    ),
    (
        "an arrival does not look at the last of 15 releases where others hold the point",
        stays!(|plan, gone| gone.is_last_of(plan, 15..=15) && !gone.left().is_empty()),
    ),
    (
        "an arrival gives back nothing of 20 to 30 releases",
        stays!(|plan, gone| (20..=30).contains(&plan.routes[gone.route].releases.len())),
    ),
    (
        "an arrival: the 25th route that gives a point back does not, nor any later one",
        stays!(|_, gone| gone.routes_before() >= 24),
    ),
    (
        "an arrival gives back nothing where more than 33 other routes hold the point",
        stays!(|_, gone| gone.left().len() > 33),
    ),
    (
        "a cancel drops 32 holds at most",
        stays_after_cancel!(|_, gone| gone.points_before() >= 32),
    ),
    (
        "a cancel drops 39 holds at most",
        stays_after_cancel!(|_, gone| gone.points_before() >= 39),
    ),
    (
        "a cancel leaves a hold where more than 37 other routes have one",
        stays_after_cancel!(|_, gone| gone.left().len() > 37),
    ),
];

/// How many points a route lists, and how many of them are held and would turn.
fn in_the_way(plan: &Plan, state: &State, route: usize) -> (usize, usize) {
    let route = &plan.routes[route];
    let listed: BTreeSet<usize> = route.listed().collect();
    let is_hit = |&&point: &&usize| is_held(state, point) && would_turn(state, route, point);
    (listed.len(), listed.iter().filter(is_hit).count())
}

fn passed(
    plan: &Plan,
    state: &mut State,
    event: &[u8],
    is_so: fn(&Plan, &State, usize, usize) -> bool,
) -> Answer {
    let answer = step(plan, state, event);
    let Answer::Refused(Refusal::PointHeld { point }) = answer else {
        return answer;
    };
    let number = usize::from(event[1]);
    if !is_so(plan, state, number, point) {
        return answer;
    }
    let route = &plan.routes[number];
    if let Some(point) = lowest_derailed(state, route) {
        return Answer::Accident(Accident::Derailment { point });
    }
    grant(state, route, number);
    Answer::Granted { route: number }
}

/// A hold that has gone, with the holds before and after.
struct Gone<'a> {
    before: &'a [RouteSet],
    after: &'a [RouteSet],
    route: usize,
    point: usize,
}

impl Gone<'_> {
    fn left(&self) -> RouteSet {
        self.after[self.point]
    }

    /// How many lower points were given back.
    fn points_before(&self) -> usize {
        let lower = 0..self.point;
        let is_other = |&point: &usize| self.before[point] != self.after[point];
        lower.filter(is_other).count()
    }

    /// How many lower routes gave this point back.
    fn routes_before(&self) -> usize {
        let lower = self.before[self.point].routes();
        let lower = lower.take_while(|&route| route < self.route);
        lower.filter(|&route| !self.left().contains(route)).count()
    }

    /// Whether it stands at the last of so many releases.
    fn is_last_of(&self, plan: &Plan, lengths: RangeInclusive<usize>) -> bool {
        let releases = &plan.routes[self.route].releases;
        let is_last = releases.last().is_some_and(|last| last.point == self.point);
        is_last && lengths.contains(&releases.len())
    }
}

fn left_there(
    plan: &Plan,
    state: &mut State,
    event: &[u8],
    after: fn(&Answer) -> bool,
    is_so: fn(&Plan, &Gone) -> bool,
) -> Answer {
    let before = state.holds.clone();
    let answer = step(plan, state, event);
    if after(&answer) {
        let given_back = state.holds.clone();
        for point in 0..before.len() {
            for route in before[point].routes() {
                let gone = Gone {
                    before: &before,
                    after: &given_back,
                    route,
                    point,
                };
                if !given_back[point].contains(route) && is_so(plan, &gone) {
                    state.holds[point].insert(route);
                }
            }
        }
    }
    answer
}
