//! A plan under other track numbers: the same junction, but other rows, offsets and list orders.

use crate::model::plan::{Entry, Plan, Release, Route, Track};
use crate::random::Random;

/// The plan with its tracks in random order.
pub fn shuffled(random: &mut Random, plan: &Plan) -> Plan {
    let mut new_numbers: Vec<usize> = (0..plan.tracks.len()).collect();
    random.shuffle(&mut new_numbers);
    renumbered(plan, &new_numbers)
}

/// The plan with this track and track 0 exchanged.
pub fn with_first(plan: &Plan, track: usize) -> Plan {
    let mut new_numbers: Vec<usize> = (0..plan.tracks.len()).collect();
    new_numbers.swap(0, track);
    renumbered(plan, &new_numbers)
}

/// The plan in which track t is called `new_numbers[t]`.
pub fn renumbered(plan: &Plan, new_numbers: &[usize]) -> Plan {
    let new = |track: usize| new_numbers[track];
    let mut tracks = plan.tracks.clone();
    for (old, track) in plan.tracks.iter().enumerate() {
        tracks[new(old)] = renumbered_track(track, new);
    }
    let homes = rising(&plan.homes, new);
    let route = |route: &Route| {
        let home = new(plan.homes[route.start]);
        let start = homes.binary_search(&home).expect("every home is kept");
        renumbered_route(route, start, new)
    };
    let routes = plan.routes.iter().map(route).collect();
    let entry = |entry: &Entry| Entry {
        track: new(entry.track),
        clear: rising(&entry.clear, new),
    };
    let mut entries: Vec<Entry> = plan.entries.iter().map(entry).collect();
    entries.sort_by_key(|entry| entry.track);
    Plan {
        tracks,
        homes,
        routes,
        entries,
    }
}

fn rising(list: &[usize], new: impl Fn(usize) -> usize) -> Vec<usize> {
    let mut list: Vec<usize> = list.iter().map(|&track| new(track)).collect();
    list.sort_unstable();
    list
}

fn renumbered_track(track: &Track, new: impl Fn(usize) -> usize) -> Track {
    match *track {
        Track::Plain { next } => Track::Plain { next: new(next) },
        Track::Facing { normal, reverse } => Track::Facing {
            normal: new(normal),
            reverse: new(reverse),
        },
        Track::Trailing {
            next,
            normal_leg,
            reverse_leg,
        } => Track::Trailing {
            next: new(next),
            normal_leg: new(normal_leg),
            reverse_leg: new(reverse_leg),
        },
        Track::Exit => Track::Exit,
    }
}

fn renumbered_route(route: &Route, start: usize, new: impl Fn(usize) -> usize) -> Route {
    let release = |release: &Release| Release {
        track: new(release.track),
        point: new(release.point),
    };
    let mut releases: Vec<Release> = route.releases.iter().map(release).collect();
    releases.sort_by_key(|release| release.point);
    Route {
        start,
        path: route.path.iter().map(|&track| new(track)).collect(),
        clear: rising(&route.clear, &new),
        normal: rising(&route.normal, &new),
        reverse: rising(&route.reverse, &new),
        releases,
    }
}
