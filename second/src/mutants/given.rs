//! Holds that are taken or given back wrongly where several routes hold a point.

use super::{Slip, Wrong};
use crate::model::answer::Answer;
use crate::model::plan::{Lie, Plan, Route, Track};
use crate::model::state::{RouteSet, State};
use crate::model::step::step;

/// What a route's hold of a point is to be after it is taken, or given back, from what it was: the holders
/// before and the number of the route.
type Change = fn(RouteSet, usize) -> RouteSet;

/// A grant that changes the holders of each listed point so.
macro_rules! takes {
    ($change:expr) => {
        Wrong::Step(|plan, state, event| {
            let change: Change = $change;
            taken(plan, state, event, change)
        })
    };
}

/// An arrival that changes the holders so for each route that has a release there.
macro_rules! gives_back {
    ($change:expr) => {
        Wrong::Step(|plan, state, event| {
            let change: Change = $change;
            given_back(plan, state, event, change)
        })
    };
}

/// A cancel that changes the holders of each point that the route holds or lists so.
macro_rules! cancels {
    ($change:expr) => {
        Wrong::Step(|plan, state, event| {
            let change: Change = $change;
            cancelled(plan, state, event, change)
        })
    };
}

pub const TAKEN: &[Slip] = &[
    (
        "a grant leaves its own hold alone",
        takes!(|_, route| set(&[route])),
    ),
    (
        "a grant takes no hold of a point that is held",
        takes!(|holders, route| if holders.is_empty() {
            set(&[route])
        } else {
            holders
        }),
    ),
    (
        "a grant takes no hold where two routes have one",
        takes!(|holders, route| if holders.len() < 2 {
            with(holders, route)
        } else {
            holders
        }),
    ),
    (
        "a grant takes no hold where three routes have one",
        takes!(|holders, route| if holders.len() < 3 {
            with(holders, route)
        } else {
            holders
        }),
    ),
    (
        "a grant drops the lowest holder where two have one",
        takes!(|holders, route| {
            let kept = if holders.len() < 2 {
                holders
            } else {
                without_lowest(holders)
            };
            with(kept, route)
        }),
    ),
    (
        "a grant drops holders of lower numbers",
        takes!(|holders, route| with(only(holders, |other| other >= route), route)),
    ),
    (
        "a grant drops holders of higher numbers",
        takes!(|holders, route| with(only(holders, |other| other <= route), route)),
    ),
    (
        "a grant turns its hold about",
        takes!(|holders, route| RouteSet::of_bits(holders.bits() ^ 1 << route)),
    ),
    (
        "a grant adds its hold as a number",
        takes!(|holders, route| RouteSet::of_bits(holders.bits().wrapping_add(1 << route))),
    ),
    (
        "a grant takes a hold of points that it turns alone",
        Wrong::Step(|plan, state, event| {
            only_where(plan, state, event, |before, after, point| {
                before.lies[point] != after.lies[point]
            })
        }),
    ),
    (
        "a grant takes a hold of points that lie right alone",
        Wrong::Step(|plan, state, event| {
            only_where(plan, state, event, |before, after, point| {
                before.lies[point] == after.lies[point]
            })
        }),
    ),
    (
        "a grant drops the holds of routes from the same signal",
        Wrong::Step(|plan, state, event| {
            after_grant(plan, state, event, |_, after, route, number| {
                for point in route.listed() {
                    let stays =
                        |other: usize| other == number || plan.routes[other].start != route.start;
                    after.holds[point] = only(after.holds[point], stays);
                }
            })
        }),
    ),
    (
        "a grant drops all holds of routes that share a point with it",
        Wrong::Step(|plan, state, event| {
            after_grant(plan, state, event, |before, after, route, number| {
                let shares = |other: usize| {
                    route
                        .listed()
                        .any(|point| before.holds[point].contains(other))
                };
                for holders in &mut after.holds {
                    *holders = only(*holders, |other| other == number || !shares(other));
                }
            })
        }),
    ),
];

pub const GIVEN_BACK: &[Slip] = &[
    (
        "an arrival drops the lowest holder",
        gives_back!(|holders, _| without_lowest(holders)),
    ),
    (
        "an arrival drops the highest holder",
        gives_back!(|holders, _| without_highest(holders)),
    ),
    (
        "an arrival drops a hold where it is the only one",
        gives_back!(|holders, route| if holders.len() == 1 {
            without(holders, route)
        } else {
            holders
        }),
    ),
    (
        "an arrival drops a hold where there are others",
        gives_back!(|holders, route| if holders.len() > 1 {
            without(holders, route)
        } else {
            holders
        }),
    ),
    (
        "an arrival drops a hold where there is one other at most",
        gives_back!(|holders, route| if holders.len() < 3 {
            without(holders, route)
        } else {
            holders
        }),
    ),
    (
        "an arrival drops all holds where the route has one",
        gives_back!(|holders, route| if holders.contains(route) {
            RouteSet::default()
        } else {
            holders
        }),
    ),
    (
        "an arrival drops all holds where three have one",
        gives_back!(|holders, route| match holders.len() {
            0..=2 => without(holders, route),
            _ => RouteSet::default(),
        }),
    ),
    (
        "an arrival drops the holds of lower routes too",
        gives_back!(|holders, route| only(holders, |other| other > route)),
    ),
    (
        "an arrival drops the holds of higher routes too",
        gives_back!(|holders, route| only(holders, |other| other < route)),
    ),
    (
        "an arrival drops a hold if it is the lowest",
        gives_back!(|holders, route| match holders.routes().next() {
            Some(lowest) if lowest == route => without(holders, route),
            _ => holders,
        }),
    ),
    (
        "an arrival drops a hold if it is the highest",
        gives_back!(|holders, route| match holders.routes().next_back() {
            Some(highest) if highest == route => without(holders, route),
            _ => holders,
        }),
    ),
    (
        "an arrival turns a hold about",
        gives_back!(|holders, route| RouteSet::of_bits(holders.bits() ^ 1 << route)),
    ),
    (
        "an arrival takes a hold off as a number",
        gives_back!(|holders, route| RouteSet::of_bits(holders.bits().wrapping_sub(1 << route))),
    ),
    (
        "an arrival leaves one hold of several routes that give back at once",
        Wrong::Step(|plan, state, event| {
            after_arrival(plan, state, event, |before, after, _| {
                for point in 0..after.holds.len() {
                    let gone = before.holds[point].bits() & !after.holds[point].bits();
                    let gone = RouteSet::of_bits(gone);
                    if gone.len() > 1 {
                        let last = gone.routes().next_back().expect("there are several");
                        after.holds[point].insert(last);
                    }
                }
            })
        }),
    ),
    (
        "an arrival drops all holds of a route that gives one back",
        Wrong::Step(|plan, state, event| {
            after_arrival(plan, state, event, |before, after, _| {
                let lost = |route: &usize| {
                    let lost = |point: usize| {
                        before.holds[point].contains(*route) && !after.holds[point].contains(*route)
                    };
                    (0..before.holds.len()).any(lost)
                };
                let routes: Vec<usize> = (0..plan.routes.len()).filter(lost).collect();
                for holders in &mut after.holds {
                    *holders = only(*holders, |other| !routes.contains(&other));
                }
            })
        }),
    ),
    (
        "an arrival drops the holds of a point for all routes from the same signal",
        Wrong::Step(|plan, state, event| {
            after_arrival(plan, state, event, |before, after, _| {
                for point in 0..after.holds.len() {
                    let gone = before.holds[point].bits() & !after.holds[point].bits();
                    let starts: Vec<usize> = RouteSet::of_bits(gone)
                        .routes()
                        .map(|route| plan.routes[route].start)
                        .collect();
                    after.holds[point] = only(after.holds[point], |other| {
                        !starts.contains(&plan.routes[other].start)
                    });
                }
            })
        }),
    ),
    (
        "a point goes normal when its last hold is dropped",
        Wrong::Step(|plan, state, event| {
            let before = state.clone();
            let answer = step(plan, state, event);
            for point in 0..state.holds.len() {
                if !before.holds[point].is_empty() && state.holds[point].is_empty() {
                    state.lies[point] = Lie::Normal;
                }
            }
            answer
        }),
    ),
];

pub const CANCELLED: &[Slip] = &[
    (
        "a cancel drops no hold that is shared",
        cancels!(|holders, route| if holders.len() == 1 {
            without(holders, route)
        } else {
            holders
        }),
    ),
    (
        "a cancel drops holds that are shared alone",
        cancels!(|holders, route| if holders.len() > 1 {
            without(holders, route)
        } else {
            holders
        }),
    ),
    (
        "a cancel drops the lowest holder",
        cancels!(|holders, _| without_lowest(holders)),
    ),
    (
        "a cancel drops the highest holder",
        cancels!(|holders, _| without_highest(holders)),
    ),
    (
        "a cancel drops the holds of lower routes too",
        cancels!(|holders, route| only(holders, |other| other > route)),
    ),
    (
        "a cancel drops the holds of higher routes too",
        cancels!(|holders, route| only(holders, |other| other < route)),
    ),
    (
        "a cancel drops all holds where three have one",
        cancels!(|holders, route| match holders.len() {
            0..=2 => without(holders, route),
            _ => RouteSet::default(),
        }),
    ),
    (
        "a cancel drops every hold of a trailing point that lies reverse",
        Wrong::Step(|plan, state, event| {
            let before = state.clone();
            let answer = step(plan, state, event);
            if let Answer::Cancelled { route } = answer {
                for (point, holders) in state.holds.iter_mut().enumerate() {
                    let is_trailing = matches!(plan.tracks[point], Track::Trailing { .. });
                    let is_reverse = before.lies[point] == Lie::Reverse;
                    if is_trailing && is_reverse && before.holds[point].contains(route) {
                        *holders = RouteSet::default();
                    }
                }
            }
            answer
        }),
    ),
    (
        "a cancel turns its holds about",
        cancels!(|holders, route| RouteSet::of_bits(holders.bits() ^ 1 << route)),
    ),
];

fn set(routes: &[usize]) -> RouteSet {
    let mut set = RouteSet::default();
    routes.iter().for_each(|&route| set.insert(route));
    set
}

fn with(mut holders: RouteSet, route: usize) -> RouteSet {
    holders.insert(route);
    holders
}

fn without(mut holders: RouteSet, route: usize) -> RouteSet {
    holders.remove(route);
    holders
}

fn only(holders: RouteSet, stays: impl Fn(usize) -> bool) -> RouteSet {
    let routes: Vec<usize> = holders.routes().filter(|&route| stays(route)).collect();
    set(&routes)
}

fn without_lowest(holders: RouteSet) -> RouteSet {
    match holders.routes().next() {
        Some(lowest) => without(holders, lowest),
        None => holders,
    }
}

fn without_highest(holders: RouteSet) -> RouteSet {
    match holders.routes().next_back() {
        Some(highest) => without(holders, highest),
        None => holders,
    }
}

/// The step, with something else done after a grant.
fn after_grant(
    plan: &Plan,
    state: &mut State,
    event: &[u8],
    change: impl Fn(&State, &mut State, &Route, usize),
) -> Answer {
    let before = state.clone();
    let answer = step(plan, state, event);
    if let Answer::Granted { route } = answer {
        change(&before, state, &plan.routes[route], route);
    }
    answer
}

fn after_arrival(
    plan: &Plan,
    state: &mut State,
    event: &[u8],
    change: impl Fn(&State, &mut State, usize),
) -> Answer {
    let before = state.clone();
    let answer = step(plan, state, event);
    if let Answer::Moved { to, .. } = answer {
        change(&before, state, to);
    }
    answer
}

fn taken(plan: &Plan, state: &mut State, event: &[u8], change: Change) -> Answer {
    after_grant(plan, state, event, |before, after, route, number| {
        for point in route.listed() {
            after.holds[point] = change(before.holds[point], number);
        }
    })
}

/// A hold is taken where this is so.
fn only_where(
    plan: &Plan,
    state: &mut State,
    event: &[u8],
    is_taken: fn(&State, &State, usize) -> bool,
) -> Answer {
    after_grant(plan, state, event, |before, after, route, _| {
        for point in route.listed() {
            if !is_taken(before, after, point) {
                after.holds[point] = before.holds[point];
            }
        }
    })
}

fn given_back(plan: &Plan, state: &mut State, event: &[u8], change: Change) -> Answer {
    after_arrival(plan, state, event, |before, after, to| {
        after.holds.clone_from(&before.holds);
        for (number, route) in plan.routes.iter().enumerate() {
            let here = route.releases.iter().filter(|release| release.track == to);
            for release in here {
                let holders = &mut after.holds[release.point];
                *holders = change(*holders, number);
            }
        }
    })
}

fn cancelled(plan: &Plan, state: &mut State, event: &[u8], change: Change) -> Answer {
    let before = state.clone();
    let answer = step(plan, state, event);
    if let Answer::Cancelled { route } = answer {
        for (point, holders) in state.holds.iter_mut().enumerate() {
            let was = before.holds[point];
            if was.contains(route) || plan.routes[route].lists(point) {
                *holders = change(was, route);
            }
        }
    }
    answer
}
