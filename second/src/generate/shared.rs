//! Single steps in which a hold is given back that others have too: by an arrival at a release track, of
//! one route or of several at once, of one point or of many, or by a cancel. And the holders of a point:
//! mostly one, now and then several, and any number of them.

use super::events::Event;
use crate::model::plan::{Lie, Plan, Release, Track};
use crate::model::state::{RouteSet, State};
use crate::random::Random;
use std::collections::BTreeSet;

/// Has some routes hold a point.
pub fn hold(random: &mut Random, plan: &Plan, state: &mut State, point: usize) {
    match [1, 1, 1, 1, 2, 3, 0, 0, 0][random.below(9)] {
        0 => {
            let others = any_number(random, plan.routes.len()).bits();
            let holders = &mut state.holds[point];
            *holders = RouteSet::of_bits(holders.bits() | others);
        }
        few => {
            for _ in 0..few {
                state.holds[point].insert(random.below(plan.routes.len()));
            }
        }
    }
}

/// One route or more: each number of them is as likely as any other.
fn any_number(random: &mut Random, routes: usize) -> RouteSet {
    let mut numbers: Vec<usize> = (0..routes).collect();
    let mut chosen = RouteSet::default();
    for place in 0..random.between(1, routes) {
        numbers.swap(place, random.between(place, routes - 1));
        chosen.insert(numbers[place]);
    }
    chosen
}

/// A state of holds that are shared with an event that gives one of them back, if the plan has one.
pub fn giving_back(random: &mut Random, plan: &Plan) -> Option<(State, Event)> {
    if plan.routes.is_empty() {
        return None;
    }
    let mut state = State::fresh(plan);
    let points = (0..plan.tracks.len()).filter(|&track| plan.is_point(track));
    for point in points.collect::<Vec<_>>() {
        if random.chance(50) {
            state.lies[point] = Lie::Reverse;
        }
        if random.chance(30) {
            hold(random, plan, &mut state, point);
        }
    }
    let number = random.below(plan.routes.len());
    let event = match random.chance(50) {
        true => arriving(random, plan, &mut state, number),
        false => None,
    };
    let event = event.unwrap_or_else(|| cancelling(random, plan, &mut state, number));
    Some((state, event))
}

/// Some train is about to arrive at a release track of the route, if one can.
fn arriving(random: &mut Random, plan: &Plan, state: &mut State, number: usize) -> Option<Event> {
    let releases = &plan.routes[number].releases;
    // At the last one a walk that ends too early shows.
    let release = match random.chance(40) {
        true => *releases.last()?,
        false => random.pick(releases)?,
    };
    let starts = |signal: usize| plan.routes.iter().any(|route| route.start == signal);
    let can_go = |from: usize| plan.signal_at(from).is_none_or(starts);
    let leads = |from: &usize| plan.tracks[*from].leads_to(release.track);
    let from = (0..plan.tracks.len()).filter(|&from| from != release.track);
    let from: Vec<usize> = from.filter(leads).filter(|&from| can_go(from)).collect();
    let from = random.pick(&from)?;
    if let Some(signal) = plan.signal_at(from) {
        let starts = |route: &usize| plan.routes[*route].start == signal;
        let green: Vec<usize> = (0..plan.routes.len()).filter(starts).collect();
        state.signals[signal] = Some(random.pick(&green)?);
    }
    if let Track::Facing { normal, .. } = plan.tracks[from] {
        state.lies[from] = lie(normal == release.track);
    }
    if let Track::Trailing { normal_leg, .. } = plan.tracks[release.track] {
        state.lies[release.track] = lie(normal_leg == from);
    }
    match random.below(6) {
        0..=2 => hold_all_of_route(random, state, number, releases, release.track),
        3 => hold_all_of_track(random, plan, state, release.track),
        _ => hold(random, plan, state, release.point),
    }
    state.holds[release.point].insert(number);
    // Others that give it back there too, if there are.
    let share = [50, 50, 100][random.below(3)];
    for (other, route) in plan.routes.iter().enumerate() {
        if route.releases.contains(&release) && random.chance(share) {
            state.holds[release.point].insert(other);
        }
    }
    let train = random.train();
    state.trains[from] = Some(train);
    Some([4, train, 0])
}

/// The route holds all that it gives back at the track, or some of it.
fn hold_all_of_route(
    random: &mut Random,
    state: &mut State,
    number: usize,
    releases: &[Release],
    track: usize,
) {
    let share = [50, 100, 100][random.below(3)];
    for release in releases.iter().filter(|release| release.track == track) {
        if random.chance(share) {
            state.holds[release.point].insert(number);
        }
    }
}

/// Any number of routes hold each point that some route gives back at the track.
fn hold_all_of_track(random: &mut Random, plan: &Plan, state: &mut State, track: usize) {
    let releases = plan.routes.iter().flat_map(|route| &route.releases);
    let here = releases.filter(|release| release.track == track);
    let points: BTreeSet<usize> = here.map(|release| release.point).collect();
    for point in points {
        state.holds[point] = any_number(random, plan.routes.len());
    }
}

fn lie(is_normal: bool) -> Lie {
    match is_normal {
        true => Lie::Normal,
        false => Lie::Reverse,
    }
}

fn cancelling(random: &mut Random, plan: &Plan, state: &mut State, number: usize) -> Event {
    let route = &plan.routes[number];
    state.signals[route.start] = Some(number);
    if random.chance(60) {
        hold_anything(random, plan, state, number);
    }
    for point in route.listed() {
        if random.chance(80) {
            state.holds[point].insert(number);
        }
        if random.chance(50) {
            hold(random, plan, state, point);
        }
    }
    [2, number as u8, 0]
}

/// The route holds any number of points, listed or not; now and then all.
fn hold_anything(random: &mut Random, plan: &Plan, state: &mut State, number: usize) {
    let points = (0..plan.tracks.len()).filter(|&track| plan.is_point(track));
    let mut points: Vec<usize> = points.collect();
    if random.chance(80) {
        random.shuffle(&mut points);
        points.truncate(random.between(0, points.len()));
    }
    for point in points {
        state.holds[point].insert(number);
    }
}
