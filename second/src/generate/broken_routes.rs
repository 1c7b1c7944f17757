//! Breaking rules 6 to 11: routes.

use super::broken::Culprit;
use super::broken_tracks::add_signal;
use crate::model::plan::{self, Plan, Release, Route};
use crate::random::Random;

fn any_route(random: &mut Random, plan: &Plan, wanted: impl Fn(&Route) -> bool) -> Option<usize> {
    let numbers = 0..plan.routes.len();
    let wanted: Vec<usize> = numbers
        .filter(|&number| wanted(&plan.routes[number]))
        .collect();
    random.pick(&wanted)
}

/// Puts an item into a rising list, or takes it out.
fn put(list: &mut Vec<usize>, item: usize) {
    if let Err(place) = list.binary_search(&item) {
        list.insert(place, item);
    }
}

/// True if the route lists or releases the point; a broken route may do the one without the other.
fn knows(route: &Route, point: usize) -> bool {
    let released = |release: &Release| release.point == point;
    route.lists(point) || route.releases.iter().any(released)
}

fn take(list: &mut Vec<usize>, item: usize) {
    list.retain(|&other| other != item);
}

/// A path that jumps, starts wrong or comes back to itself.
pub fn break_6(random: &mut Random, plan: &mut Plan) -> Option<Culprit> {
    let number = any_route(random, plan, |_| true)?;
    let (tracks, signals) = (plan.tracks.len(), plan.homes.len());
    let round = round_trip(random, plan, &plan.routes[number]);
    let route = &mut plan.routes[number];
    let place = random.below(route.path.len());
    match random.below(6) {
        0 if route.path.len() > 1 => {
            route.path.remove(place);
        }
        1 => route.path[place] = random.below(tracks),
        2 => route.start = random.below(signals),
        3 => random.shuffle(&mut route.path),
        _ => route.path = round?,
    }
    Some(Culprit::Route(number))
}

/// A connected way from the route's home until it meets itself.
fn round_trip(random: &mut Random, plan: &Plan, route: &Route) -> Option<Vec<usize>> {
    let mut way = vec![plan.home_of(route)];
    while way.len() <= *plan::PATH.end() {
        let ways: Vec<usize> = plan.tracks[way[way.len() - 1]].leads().collect();
        let track = random.pick(&ways)?;
        let met = way.contains(&track);
        way.push(track);
        if met {
            return Some(way.split_off(1));
        }
    }
    None
}

/// A path that stops too early, or that passes a home.
pub fn break_7(random: &mut Random, plan: &mut Plan) -> Option<Culprit> {
    let number = any_route(random, plan, |route| route.path.len() > 1)?;
    let path = plan.routes[number].path.clone();
    match random.below(3) {
        0 => plan.routes[number]
            .path
            .truncate(random.between(1, path.len() - 1)),
        1 => {
            let inner = path[random.below(path.len() - 1)];
            plan.tracks[inner].is_plain().then_some(())?;
            add_signal(plan, inner)?;
        }
        _ => {
            let last = path[path.len() - 1];
            let goes_on = |other: &Route| {
                plan.home_of(other) == last
                    && path.len() + other.path.len() <= *plan::PATH.end()
                    && !other.path.iter().any(|track| path.contains(track))
                    && !other.path.contains(&plan.home_of(&plan.routes[number]))
            };
            let second = any_route(random, plan, goes_on)?;
            join(plan, number, second);
        }
    }
    Some(Culprit::Route(number))
}

/// Makes the second route's way a part of the first one, lists and all, so that only the home
/// between them is wrong.
fn join(plan: &mut Plan, first: usize, second: usize) {
    let tail = plan.routes[second].clone();
    let route = &mut plan.routes[first];
    route.path.extend(&tail.path);
    for &track in &tail.clear {
        put(&mut route.clear, track);
    }
    // A point that the first route has listed already keeps its lie.
    for release in &tail.releases {
        if knows(route, release.point) {
            continue;
        }
        let is_normal = tail.normal.contains(&release.point);
        let list = if is_normal {
            &mut route.normal
        } else {
            &mut route.reverse
        };
        if list.len() < *plan::POINTS.end() {
            put(list, release.point);
            route.releases.push(*release);
        }
    }
    route.releases.sort_by_key(|release| release.point);
}

/// A clear list without some path track, or without anything.
pub fn break_8(random: &mut Random, plan: &mut Plan) -> Option<Culprit> {
    let number = any_route(random, plan, |_| true)?;
    let route = &mut plan.routes[number];
    let missing = route.path[random.below(route.path.len())];
    match random.below(4) {
        0 => route.clear.clear(),
        1 => take(&mut route.clear, route.path[route.path.len() - 1]),
        _ => take(&mut route.clear, missing),
    }
    Some(Culprit::Route(number))
}

/// A path point that is not listed, listed the wrong way, or any point listed both ways.
pub fn break_9(random: &mut Random, plan: &mut Plan) -> Option<Culprit> {
    let number = any_route(random, plan, |route| !route.releases.is_empty())?;
    let route = &mut plan.routes[number];
    let point = route.releases[random.below(route.releases.len())].point;
    let in_normal = route.normal.contains(&point);
    match random.below(4) {
        0 => {
            take(&mut route.normal, point);
            take(&mut route.reverse, point);
            route.releases.retain(|release| release.point != point);
        }
        1 if in_normal => {
            take(&mut route.normal, point);
            put(&mut route.reverse, point);
        }
        1 => {
            take(&mut route.reverse, point);
            put(&mut route.normal, point);
        }
        _ => {
            put(&mut route.normal, point);
            put(&mut route.reverse, point);
        }
    }
    let limit = *plan::POINTS.end();
    let fits = route.normal.len() <= limit && route.reverse.len() <= limit;
    fits.then_some(Culprit::Route(number))
}

/// A flank point that is not in the clear list.
pub fn break_10(random: &mut Random, plan: &mut Plan) -> Option<Culprit> {
    let flank = |route: &Route| -> Vec<usize> {
        let off_path = |point: &usize| !route.path.contains(point);
        route.listed().filter(off_path).collect()
    };
    let number = any_route(random, plan, |route| !flank(route).is_empty())?;
    let point = random.pick(&flank(&plan.routes[number]))?;
    take(&mut plan.routes[number].clear, point);
    Some(Culprit::Route(number))
}

/// A release too many, too few, off the path or too early.
pub fn break_11(random: &mut Random, plan: &mut Plan) -> Option<Culprit> {
    let number = any_route(random, plan, |_| true)?;
    let unknown = |track: &usize| plan.is_point(*track) && !knows(&plan.routes[number], *track);
    let unknown: Vec<usize> = (0..plan.tracks.len()).filter(unknown).collect();
    let track = random.below(plan.tracks.len());
    let route = &mut plan.routes[number];
    let place = random.below(route.releases.len());
    match random.below(4) {
        0 => {
            route.releases.get(place)?;
            route.releases.remove(place);
        }
        1 => {
            let point = random.pick(&unknown)?;
            let track = route.path[route.path.len() - 1];
            if route.releases.len() == *plan::RELEASES.end() {
                return None;
            }
            route.releases.push(Release { track, point });
            route.releases.sort_by_key(|release| release.point);
        }
        2 => route.releases.get_mut(place)?.track = track,
        _ => {
            let release = route.releases.get_mut(place)?;
            release.track = release.point;
        }
    }
    Some(Culprit::Route(number))
}
