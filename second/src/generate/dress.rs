//! Signals, routes and entries for a layout, so that the plan is accepted.

use super::sketch::Layout;
use crate::model::plan::{self, Entry, Plan, Release, Route, Track};
use crate::random::Random;

/// An accepted plan over this layout.
pub fn dress(random: &mut Random, layout: &Layout) -> Plan {
    let manner = Manner::any(random);
    let mut routes = Vec::new();
    for (start, &home) in layout.homes.iter().enumerate() {
        for path in paths(random, layout, home) {
            routes.extend(route(random, layout, start, path, manner));
        }
    }
    if random.chance(20) {
        double_some(random, layout, &mut routes, manner);
    }
    random.shuffle(&mut routes);
    routes.truncate(*plan::ROUTES.end());
    Plan {
        tracks: layout.tracks.clone(),
        homes: layout.homes.clone(),
        routes,
        entries: entries(random, layout),
    }
}

/// How the routes of a plan go about points off their paths.
#[derive(Clone, Copy)]
enum Manner {
    /// Each by itself.
    Apart,
    /// Mostly the same points in the same lies, and given back late, so that many routes hold one point
    /// at once. The number decides which points and lies.
    Together(usize),
}

impl Manner {
    fn any(random: &mut Random) -> Self {
        match random.chance(30) {
            true => Manner::Together(random.below(64)),
            false => Manner::Apart,
        }
    }
}

/// The same way once more, with other flank points, clear tracks and releases.
fn double_some(random: &mut Random, layout: &Layout, routes: &mut Vec<Route>, manner: Manner) {
    for place in 0..routes.len() {
        let (start, path) = (routes[place].start, routes[place].path.clone());
        routes.extend(route(random, layout, start, path, manner));
    }
}

/// Ways from a home to the next home or exit; not all of them where there are very many.
fn paths(random: &mut Random, layout: &Layout, home: usize) -> Vec<Vec<usize>> {
    let mut found = Vec::new();
    let mut open = vec![vec![home]];
    for _ in 0..150 {
        let Some(mut way) = open.pop() else { break };
        let mut leads: Vec<usize> = layout.tracks[way[way.len() - 1]].leads().collect();
        random.shuffle(&mut leads);
        leads.retain(|track| !way.contains(track));
        for track in leads {
            way.push(track);
            if layout.homes.contains(&track) || layout.tracks[track] == Track::Exit {
                found.push(way[1..].to_vec());
            } else if way.len() <= *plan::PATH.end() {
                open.push(way.clone());
            }
            way.pop();
        }
    }
    found
}

/// A route along a path, or nothing if it would list more points than a plan can hold.
fn route(
    random: &mut Random,
    layout: &Layout,
    start: usize,
    path: Vec<usize>,
    manner: Manner,
) -> Option<Route> {
    let (mut normal, mut reverse) = lies_on_the_way(layout, layout.homes[start], &path);
    add_flank_points(random, layout, &path, manner, [&mut normal, &mut reverse]);
    if normal.len() > *plan::POINTS.end() || reverse.len() > *plan::POINTS.end() {
        return None;
    }
    normal.sort_unstable();
    reverse.sort_unstable();
    let releases = releases(random, &path, &normal, &reverse, manner);
    let needed = path.iter().chain(&normal).chain(&reverse).copied();
    let clear = with_extras(random, layout, needed.collect());
    Some(Route {
        start,
        path,
        clear,
        normal,
        reverse,
        releases,
    })
}

/// The points on the path by the lie they need.
fn lies_on_the_way(layout: &Layout, home: usize, path: &[usize]) -> (Vec<usize>, Vec<usize>) {
    let (mut normal, mut reverse) = (Vec::new(), Vec::new());
    for (place, &point) in path.iter().enumerate() {
        let is_normal = match layout.tracks[point] {
            Track::Facing { normal, .. } => path.get(place + 1) == Some(&normal),
            Track::Trailing { normal_leg, .. } => {
                let from = if place == 0 { home } else { path[place - 1] };
                from == normal_leg
            }
            Track::Plain { .. } | Track::Exit => continue,
        };
        if is_normal {
            normal.push(point);
        } else {
            reverse.push(point);
        }
    }
    (normal, reverse)
}

fn add_flank_points(
    random: &mut Random,
    layout: &Layout,
    path: &[usize],
    manner: Manner,
    [normal, reverse]: [&mut Vec<usize>; 2],
) {
    let off_path = |track: &usize| layout.tracks[*track].is_point() && !path.contains(track);
    let mut flank: Vec<usize> = (0..layout.tracks.len()).filter(off_path).collect();
    let wanted = match manner {
        Manner::Apart => {
            random.shuffle(&mut flank);
            [0, 0, 1, 2, 4][random.below(5)]
        }
        Manner::Together(number) => {
            // The same ones first.
            flank.sort_by_key(|point| (point * 29 + number) % 64);
            [1, 1, 2, 3][random.below(4)]
        }
    };
    for &point in flank.iter().take(wanted) {
        let is_normal = match manner {
            Manner::Together(number) if random.chance(90) => (point + number) % 2 == 0,
            _ => random.chance(50),
        };
        match is_normal {
            true => normal.push(point),
            false => reverse.push(point),
        }
    }
}

/// Every listed point is given back somewhere later on the path: at once or at the very end.
fn releases(
    random: &mut Random,
    path: &[usize],
    normal: &[usize],
    reverse: &[usize],
    manner: Manner,
) -> Vec<Release> {
    let mut points: Vec<usize> = normal.iter().chain(reverse).copied().collect();
    points.sort_unstable();
    let release = |point: usize| {
        let place = path.iter().position(|&track| track == point);
        let earliest = place.map_or(0, |place| place + 1);
        let is_late = matches!(manner, Manner::Together(_)) && random.chance(50);
        let chosen = match random.below(3) {
            _ if is_late => path.len() - 1,
            0 => earliest,
            1 => path.len() - 1,
            _ => random.between(earliest, path.len() - 1),
        };
        Release {
            track: path[chosen],
            point,
        }
    };
    points.into_iter().map(release).collect()
}

/// A rising clear list with these tracks and sometimes a few more.
fn with_extras(random: &mut Random, layout: &Layout, mut tracks: Vec<usize>) -> Vec<usize> {
    let extras = [0, 0, 0, 0, 0, 1, 2, 5][random.below(8)];
    for _ in 0..extras {
        tracks.push(random.below(layout.tracks.len()));
    }
    tracks.sort_unstable();
    tracks.dedup();
    tracks
}

fn entries(random: &mut Random, layout: &Layout) -> Vec<Entry> {
    let led_to = |home: usize| layout.tracks.iter().any(|track| track.leads_to(home));
    let mut tracks = layout.homes.clone();
    tracks.retain(|&home| !led_to(home));
    while tracks.len() > *plan::ENTRIES.end() {
        tracks.swap_remove(random.below(tracks.len()));
    }
    if tracks.len() > 1 && random.chance(20) {
        tracks.swap_remove(random.below(tracks.len()));
    }
    tracks.sort_unstable();
    let entry = |track| Entry {
        track,
        clear: with_extras(random, layout, vec![track]),
    };
    tracks.into_iter().map(entry).collect()
}
