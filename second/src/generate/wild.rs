//! Readable plans without rhyme or reason: they break most rules and reach every accident.

use crate::model::plan::{self, Entry, Plan, Release, Route, Track};
use crate::random::Random;

pub fn wild(random: &mut Random) -> Plan {
    // Mostly few tracks, so that the same ones are met again and again.
    let count = if random.chance(90) {
        random.between(1, 7)
    } else {
        random.between(8, *plan::TRACKS.end())
    };
    let tracks: Vec<Track> = (0..count).map(|_| track(random, count)).collect();
    let homes = some_of(random, count, 40, *plan::SIGNALS.end());
    let route_count = match homes.len() {
        0 => 0,
        _ => random.between(0, 5),
    };
    let routes = (0..route_count)
        .map(|_| route(random, &tracks, homes.len()))
        .collect();
    let entry_tracks = some_of(random, count, 50, *plan::ENTRIES.end());
    let entry = |track| Entry {
        track,
        clear: clear(random, count),
    };
    let entries = entry_tracks.into_iter().map(entry).collect();
    Plan {
        tracks,
        homes,
        routes,
        entries,
    }
}

/// As many tracks, signals, routes and entries as there can be, with more points than lists have room
/// for, often nothing else. The routes and entries have hardly any lists.
pub fn full_of_points(random: &mut Random) -> Plan {
    let count = *plan::TRACKS.end();
    let rest = random.pick(&[0, 0, 8, 16]).unwrap_or(0);
    let tracks = (0..count).map(|number| loop {
        let track = track(random, count);
        if number < rest || track.is_point() {
            break track;
        }
    });
    let tracks: Vec<Track> = tracks.collect();
    let signals = *plan::SIGNALS.end();
    let routes = (0..*plan::ROUTES.end()).map(|_| Route {
        start: random.below(signals),
        path: vec![random.below(count)],
        clear: vec![],
        normal: vec![],
        reverse: vec![],
        releases: vec![],
    });
    let routes = routes.collect();
    let entry = |track| Entry {
        track,
        clear: vec![],
    };
    let mut homes: Vec<usize> = (0..count).collect();
    random.shuffle(&mut homes);
    homes.truncate(signals);
    homes.sort_unstable();
    Plan {
        tracks,
        homes,
        routes,
        entries: (0..*plan::ENTRIES.end()).map(entry).collect(),
    }
}

fn track(random: &mut Random, count: usize) -> Track {
    let mut any = || random.below(count);
    let (first, second, third) = (any(), any(), any());
    match random.below(9) {
        0..=2 => Track::Plain { next: first },
        3..=4 => Track::Facing {
            normal: first,
            reverse: second,
        },
        5..=7 => Track::Trailing {
            next: first,
            normal_leg: second,
            reverse_leg: third,
        },
        _ => Track::Exit,
    }
}

/// A rising list of the numbers below `count`, each taken that many times in a hundred.
fn some_of(random: &mut Random, count: usize, in_a_hundred: usize, limit: usize) -> Vec<usize> {
    let taken = |_: &usize| random.chance(in_a_hundred);
    (0..count).filter(taken).take(limit).collect()
}

/// Clear lists are short: an accident needs a train that the list leaves out.
fn clear(random: &mut Random, count: usize) -> Vec<usize> {
    let density = [0, 10, 30, 90][random.below(4)];
    some_of(random, count, density, *plan::CLEAR.end())
}

fn route(random: &mut Random, tracks: &[Track], signals: usize) -> Route {
    let count = tracks.len();
    let points = |random: &mut Random, density: usize| {
        let mut points = some_of(random, count, density, count);
        points.retain(|&point| tracks[point].is_point());
        points.truncate(*plan::POINTS.end());
        points
    };
    let length = random.between(1, 4);
    let released = points(random, 40);
    Route {
        start: random.below(signals),
        path: (0..length).map(|_| random.below(count)).collect(),
        clear: clear(random, count),
        normal: points(random, 50),
        reverse: points(random, 50),
        releases: released
            .into_iter()
            .map(|point| Release {
                track: random.below(count),
                point,
            })
            .collect(),
    }
}
