//! The four events. The tests stand in the document's order; the first that applies answers.

use super::answer::{Accident, Answer, Refusal};
use super::plan::{Entry, Lie, Plan, Route, Track};
use super::state::State;

/// Runs one event of up to three bytes on a well-formed state (any other is 10 before this).
pub fn step(plan: &Plan, state: &mut State, event: &[u8]) -> Answer {
    match *event {
        [1, route, 0] if usize::from(route) < plan.routes.len() => {
            request(plan, state, usize::from(route))
        }
        [2, route, 0] if usize::from(route) < plan.routes.len() => {
            cancel(plan, state, usize::from(route))
        }
        [3, entry, train] if usize::from(entry) < plan.entries.len() && train != 0 => {
            enter(&plan.entries[usize::from(entry)], state, train)
        }
        [4, train, 0] if train != 0 => move_train(plan, state, train),
        // An incomplete event is no event at all, so it ends here too.
        _ => Answer::Refused(Refusal::BadEvent),
    }
}

pub fn request(plan: &Plan, state: &mut State, number: usize) -> Answer {
    let route = &plan.routes[number];
    if state.signals[route.start].is_some() {
        return Answer::Refused(Refusal::SignalNotRed);
    }
    if let Some(found) = state.first_train_on(&route.clear) {
        return Answer::in_the_way(found);
    }
    if let Some(point) = lowest_held_otherwise(state, route) {
        return Answer::Refused(Refusal::PointHeld { point });
    }
    if let Some(point) = lowest_derailed(state, route) {
        return Answer::Accident(Accident::Derailment { point });
    }
    grant(state, route, number);
    Answer::Granted { route: number }
}

/// The lowest listed point that is held by any route, the asking one included, and that the grant
/// would leave lying another way. One that lies right is not in the way, whoever holds it.
pub fn lowest_held_otherwise(state: &State, route: &Route) -> Option<usize> {
    let held = |point: &usize| is_held(state, *point) && would_turn(state, route, *point);
    route.listed().filter(held).min()
}

/// The lowest listed point with a train on it that the grant would leave lying another way.
pub fn lowest_derailed(state: &State, route: &Route) -> Option<usize> {
    let derailed =
        |point: &usize| state.trains[*point].is_some() && would_turn(state, route, *point);
    route.listed().filter(derailed).min()
}

/// Whether any route holds the point, or several.
pub fn is_held(state: &State, point: usize) -> bool {
    !state.holds[point].is_empty()
}

/// Whether a grant would leave a listed point lying another way than it lies.
pub fn would_turn(state: &State, route: &Route, point: usize) -> bool {
    lie_in_the_end(route, point) != state.lies[point]
}

/// Reverse points are turned last, so reverse wins where a bad plan lists a point twice.
pub fn lie_in_the_end(route: &Route, point: usize) -> Lie {
    if route.reverse.contains(&point) {
        Lie::Reverse
    } else {
        Lie::Normal
    }
}

/// The route's holds are added to those that other routes have of the same points.
pub fn grant(state: &mut State, route: &Route, number: usize) {
    turn_points(state, route);
    for point in route.listed() {
        state.holds[point].insert(number);
    }
    state.signals[route.start] = Some(number);
}

pub fn turn_points(state: &mut State, route: &Route) {
    for &point in &route.normal {
        state.lies[point] = Lie::Normal;
    }
    for &point in &route.reverse {
        state.lies[point] = Lie::Reverse;
    }
}

pub fn cancel(plan: &Plan, state: &mut State, number: usize) -> Answer {
    let route = &plan.routes[number];
    if state.signals[route.start] != Some(number) {
        return Answer::Refused(Refusal::SignalNotGreen);
    }
    let track = plan.home_of(route);
    if state.trains[track].is_some() {
        return Answer::Refused(Refusal::TrainAtHome { track });
    }
    state.signals[route.start] = None;
    // All holds of the route, listed or not: an arbitrary state may have more than a grant takes.
    for routes in &mut state.holds {
        routes.remove(number);
    }
    Answer::Cancelled { route: number }
}

pub fn enter(entry: &Entry, state: &mut State, train: u8) -> Answer {
    if state.track_of(train).is_some() {
        return Answer::Refused(Refusal::AlreadyInPlan);
    }
    if let Some(found) = state.first_train_on(&entry.clear) {
        return Answer::in_the_way(found);
    }
    let track = entry.track;
    if state.trains[track].is_some() {
        return Answer::Accident(Accident::Collision { track });
    }
    state.trains[track] = Some(train);
    Answer::Entered { train, track }
}

pub fn move_train(plan: &Plan, state: &mut State, train: u8) -> Answer {
    let Some(from) = state.track_of(train) else {
        return Answer::Refused(Refusal::NotInPlan);
    };
    let signal = plan.signal_at(from);
    if let Some(signal) = signal.filter(|&signal| state.signals[signal].is_none()) {
        return Answer::Refused(Refusal::SignalRed { signal });
    }
    let to = way_out(plan, state, from);
    if let Some(accident) = to.and_then(|to| accident_on_the_way(plan, state, from, to)) {
        return Answer::Accident(accident);
    }
    state.trains[from] = None;
    if let Some(signal) = signal {
        state.signals[signal] = None;
    }
    match to {
        None => Answer::Left { train, from },
        Some(to) => {
            state.trains[to] = Some(train);
            release(plan, state, to);
            Answer::Moved { train, from, to }
        }
    }
}

/// Where a train on this track goes next; nowhere from an exit.
pub fn way_out(plan: &Plan, state: &State, from: usize) -> Option<usize> {
    match plan.tracks[from] {
        Track::Plain { next } | Track::Trailing { next, .. } => Some(next),
        Track::Facing { normal, reverse } => Some(match state.lies[from] {
            Lie::Normal => normal,
            Lie::Reverse => reverse,
        }),
        Track::Exit => None,
    }
}

/// The moving train has not yet left its track, so a track that leads to itself collides.
pub fn accident_on_the_way(plan: &Plan, state: &State, from: usize, to: usize) -> Option<Accident> {
    if state.trains[to].is_some() {
        return Some(Accident::Collision { track: to });
    }
    match open_leg(plan, state, to) {
        Some(leg) if leg != from => Some(Accident::RunThrough { track: to }),
        _ => None,
    }
}

/// The leg a trailing point can be entered from as it lies.
pub fn open_leg(plan: &Plan, state: &State, track: usize) -> Option<usize> {
    match plan.tracks[track] {
        Track::Trailing {
            normal_leg,
            reverse_leg,
            ..
        } => Some(match state.lies[track] {
            Lie::Normal => normal_leg,
            Lie::Reverse => reverse_leg,
        }),
        _ => None,
    }
}

/// A train has arrived at `track`: every route that releases points there gives back its own holds of
/// them, and no other route's.
pub fn release(plan: &Plan, state: &mut State, track: usize) {
    for (number, route) in plan.routes.iter().enumerate() {
        for release in route
            .releases
            .iter()
            .filter(|release| release.track == track)
        {
            state.holds[release.point].remove(number);
        }
    }
}
