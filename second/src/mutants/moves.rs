//! Wrong moves: signals, accidents and releases.

use super::{Slip, Wrong};
use crate::model::answer::{Accident, Answer, Refusal};
use crate::model::plan::{Lie, Plan, Release, Track};
use crate::model::state::{RouteSet, State};
use crate::model::step::{open_leg, release, step, way_out};

pub const ALL: &[Slip] = &[
    (
        "a point is released when the train arrives on it",
        Wrong::Step(released_under),
    ),
    (
        "a signal stays green behind a train",
        Wrong::Step(green_behind),
    ),
    (
        "a train that leaves keeps the signal green",
        Wrong::Step(green_at_exit),
    ),
    (
        "the signal on the track entered goes red",
        Wrong::Step(red_ahead),
    ),
    ("19 is missing", Wrong::Step(passes_red)),
    ("19 names the track", Wrong::Step(red_by_track)),
    ("18 is 11", Wrong::Step(unknown_is_bad)),
    (
        "40 does not count the moving train",
        Wrong::Step(self_passes),
    ),
    ("40 by a move is missing", Wrong::Step(drives_on)),
    ("41 before 40", Wrong::Step(run_through_first)),
    ("41 is missing", Wrong::Step(runs_through)),
    ("41 from a leg alone", Wrong::Step(no_leg_passes)),
    ("41 for normal points alone", Wrong::Step(reverse_passes)),
    ("41 names the track left", Wrong::Step(names_track_left)),
    (
        "a facing point always leads its normal way",
        Wrong::Step(always_normal),
    ),
    (
        "holds are given back on leaving",
        Wrong::Step(released_behind),
    ),
    (
        "a release drops every route's hold",
        Wrong::Step(released_for_all),
    ),
    (
        "a release drops the lowest route's hold alone",
        Wrong::Step(released_for_one),
    ),
    (
        "an accident puts the signal to red",
        Wrong::Step(red_by_accident),
    ),
];

/// The train of a move and its track.
fn moving(state: &State, event: &[u8]) -> Option<(u8, usize)> {
    match *event {
        [4, train, 0] if train != 0 => Some((train, state.track_of(train)?)),
        _ => None,
    }
}

/// The step, with something else done after a train has moved.
fn after_move(
    plan: &Plan,
    state: &mut State,
    event: &[u8],
    change: impl Fn(&State, &mut State, usize, usize),
) -> Answer {
    let before = state.clone();
    let answer = step(plan, state, event);
    if let Answer::Moved { from, to, .. } = answer {
        change(&before, state, from, to);
    }
    answer
}

/// A slip of the works.
fn released_under(plan: &Plan, state: &mut State, event: &[u8]) -> Answer {
    after_move(plan, state, event, |_, after, _, to| {
        after.holds[to] = RouteSet::default()
    })
}

/// A slip of the works.
fn green_behind(plan: &Plan, state: &mut State, event: &[u8]) -> Answer {
    after_move(plan, state, event, |before, after, _, _| {
        after.signals.clone_from(&before.signals)
    })
}

fn green_at_exit(plan: &Plan, state: &mut State, event: &[u8]) -> Answer {
    let signals = state.signals.clone();
    let answer = step(plan, state, event);
    if let Answer::Left { .. } = answer {
        state.signals = signals;
    }
    answer
}

fn red_ahead(plan: &Plan, state: &mut State, event: &[u8]) -> Answer {
    after_move(plan, state, event, |_, after, _, to| {
        if let Some(signal) = plan.signal_at(to) {
            after.signals[signal] = None;
        }
    })
}

/// The step on a plan that is another one for this event.
fn on_other_plan(
    plan: &Plan,
    state: &mut State,
    event: &[u8],
    change: impl Fn(&mut Plan, &State, usize),
) -> Answer {
    let mut other = plan.clone();
    if let Some((_, from)) = moving(state, event) {
        change(&mut other, state, from);
    }
    step(&other, state, event)
}

fn passes_red(plan: &Plan, state: &mut State, event: &[u8]) -> Answer {
    on_other_plan(plan, state, event, |other, state, from| {
        let red = other
            .signal_at(from)
            .filter(|&signal| state.signals[signal].is_none());
        if let Some(signal) = red {
            other.homes.remove(signal);
        }
    })
}

fn red_by_track(plan: &Plan, state: &mut State, event: &[u8]) -> Answer {
    match step(plan, state, event) {
        Answer::Refused(Refusal::SignalRed { signal }) => {
            let track = plan.homes[signal];
            Answer::Refused(Refusal::SignalRed { signal: track })
        }
        answer => answer,
    }
}

fn unknown_is_bad(plan: &Plan, state: &mut State, event: &[u8]) -> Answer {
    match step(plan, state, event) {
        Answer::Refused(Refusal::NotInPlan) => Answer::Refused(Refusal::BadEvent),
        answer => answer,
    }
}

fn self_passes(plan: &Plan, state: &mut State, event: &[u8]) -> Answer {
    let answer = step(plan, state, event);
    match (answer, moving(state, event)) {
        (Answer::Accident(Accident::Collision { track }), Some((train, from))) if track == from => {
            Answer::Moved {
                train,
                from,
                to: track,
            }
        }
        _ => answer,
    }
}

fn drives_on(plan: &Plan, state: &mut State, event: &[u8]) -> Answer {
    let to = moving(state, event).and_then(|(_, from)| way_out(plan, state, from));
    if let Some(to) = to.filter(|_| is_collision(plan, state, event)) {
        state.trains[to] = None;
    }
    step(plan, state, event)
}

fn is_collision(plan: &Plan, state: &State, event: &[u8]) -> bool {
    let answer = step(plan, &mut state.clone(), event);
    matches!(answer, Answer::Accident(Accident::Collision { .. }))
}

fn run_through_first(plan: &Plan, state: &mut State, event: &[u8]) -> Answer {
    let answer = step(plan, state, event);
    match (answer, moving(state, event)) {
        (Answer::Accident(Accident::Collision { track }), Some((_, from)))
            if open_leg(plan, state, track).is_some_and(|leg| leg != from) =>
        {
            Answer::Accident(Accident::RunThrough { track })
        }
        _ => answer,
    }
}

/// Makes the track that the train comes from a leg of the point it goes to, where this is wanted.
fn with_leg(
    plan: &Plan,
    state: &mut State,
    event: &[u8],
    wanted: impl Fn(&Plan, &State, usize, usize) -> bool,
) -> Answer {
    on_other_plan(plan, state, event, |other, state, from| {
        let Some(to) = way_out(other, state, from) else {
            return;
        };
        if !wanted(other, state, from, to) {
            return;
        }
        if let Track::Trailing {
            normal_leg,
            reverse_leg,
            ..
        } = &mut other.tracks[to]
        {
            *normal_leg = from;
            *reverse_leg = from;
        }
    })
}

fn runs_through(plan: &Plan, state: &mut State, event: &[u8]) -> Answer {
    with_leg(plan, state, event, |_, _, _, _| true)
}

fn no_leg_passes(plan: &Plan, state: &mut State, event: &[u8]) -> Answer {
    with_leg(plan, state, event, |plan, _, from, to| {
        match plan.tracks[to] {
            Track::Trailing {
                normal_leg,
                reverse_leg,
                ..
            } => from != normal_leg && from != reverse_leg,
            _ => false,
        }
    })
}

fn reverse_passes(plan: &Plan, state: &mut State, event: &[u8]) -> Answer {
    with_leg(plan, state, event, |_, state, _, to| {
        state.lies[to] == Lie::Reverse
    })
}

fn names_track_left(plan: &Plan, state: &mut State, event: &[u8]) -> Answer {
    let answer = step(plan, state, event);
    match (answer, moving(state, event)) {
        (Answer::Accident(Accident::RunThrough { .. }), Some((_, from))) => {
            Answer::Accident(Accident::RunThrough { track: from })
        }
        _ => answer,
    }
}

fn always_normal(plan: &Plan, state: &mut State, event: &[u8]) -> Answer {
    on_other_plan(plan, state, event, |other, _, from| {
        if let Track::Facing { normal, reverse } = &mut other.tracks[from] {
            *reverse = *normal;
        }
    })
}

fn released_behind(plan: &Plan, state: &mut State, event: &[u8]) -> Answer {
    after_move(plan, state, event, |before, after, from, _| {
        after.holds.clone_from(&before.holds);
        release(plan, after, from);
    })
}

/// All releases at a track, with the routes they belong to.
fn releases_at(plan: &Plan, track: usize) -> impl Iterator<Item = (usize, Release)> + '_ {
    let routes = plan.routes.iter().enumerate();
    let releases = routes.flat_map(|(number, route)| {
        let own = route.releases.iter();
        own.map(move |&release| (number, release))
    });
    releases.filter(move |(_, release)| release.track == track)
}

fn released_for_all(plan: &Plan, state: &mut State, event: &[u8]) -> Answer {
    after_move(plan, state, event, |_, after, _, to| {
        for (_, release) in releases_at(plan, to) {
            after.holds[release.point] = RouteSet::default();
        }
    })
}

fn released_for_one(plan: &Plan, state: &mut State, event: &[u8]) -> Answer {
    after_move(plan, state, event, |before, after, _, to| {
        after.holds.clone_from(&before.holds);
        let lowest = releases_at(plan, to).map(|(route, _)| route).min();
        for (route, release) in releases_at(plan, to).filter(|(route, _)| Some(*route) == lowest) {
            after.holds[release.point].remove(route);
        }
    })
}

fn red_by_accident(plan: &Plan, state: &mut State, event: &[u8]) -> Answer {
    let answer = step(plan, state, event);
    if let (Answer::Accident(_), Some((_, from))) = (answer, moving(state, event)) {
        if let Some(signal) = plan.signal_at(from) {
            state.signals[signal] = None;
        }
    }
    answer
}
