//! Accepted plans at every limit at once, and so the largest files.
//!
//! With 32 homes and 32 points no track is left for anything else, and a path of 32 tracks must
//! pass 31 of the 32 points. So there is one chain of 29 points behind a merge: `entry_merge` (from
//! two entries) and `ring_merge` (from two homes) lead to `merge`, that to the chain, and the last
//! point of the chain to the two ring homes. Every route passes `merge`, the chain and one of the
//! two points before it. Counting the ways out gives 24 trailing points, 8 facing points and 16
//! homes that nothing leads to.
//!
//! A clear list of 64 tracks holds the route's own home, so no train that waits there gets its
//! route: a largest plan sees many grants and cancels but few moves. A busy one is the same junction
//! with clear lists as short as the rules allow, and its trains go round without end.

use super::renumber::shuffled;
use crate::model::plan::{self, Entry, Plan, Release, Route, Track};
use crate::random::Random;

const ENTRY_HOMES: [usize; 2] = [0, 1];
const RING_HOMES: [usize; 2] = [2, 3];
/// 21 homes that lead to the other legs of the chain's trailing points.
const FEEDERS: usize = 4;
/// 7 homes that the chain's facing points lead to; each leads to a feeder.
const SIDINGS: usize = 25;
/// The first track that is no home.
const ENTRY_MERGE: usize = 32;
const RING_MERGE: usize = 33;
const MERGE: usize = 34;
const CHAIN: usize = 35;
const CHAIN_LENGTH: usize = 29;
const LAST: usize = CHAIN + CHAIN_LENGTH - 1;

/// A largest plan; the seed decides its releases and the numbers of its tracks.
pub fn largest(random: &mut Random) -> Plan {
    let mut plan = drawn(random);
    let lists = plan.routes.iter_mut().map(|route| &mut route.clear);
    for clear in lists.chain(plan.entries.iter_mut().map(|entry| &mut entry.clear)) {
        *clear = (0..*plan::CLEAR.end()).collect();
    }
    shuffled(random, &plan)
}

/// The same junction with short clear lists.
pub fn busy(random: &mut Random) -> Plan {
    let plan = drawn(random);
    shuffled(random, &plan)
}

fn drawn(random: &mut Random) -> Plan {
    Plan {
        tracks: tracks(),
        homes: (0..ENTRY_MERGE).collect(),
        routes: (0..*plan::ROUTES.end())
            .map(|number| route(random, number))
            .collect(),
        entries: entries(),
    }
}

fn tracks() -> Vec<Track> {
    let plain = |next| Track::Plain { next };
    let mut tracks = vec![plain(ENTRY_MERGE), plain(ENTRY_MERGE)];
    tracks.extend([plain(RING_MERGE), plain(RING_MERGE)]);
    let (trailing, facing) = chain_points();
    tracks.extend(trailing.iter().map(|&point| plain(point)));
    tracks.extend((0..facing.len()).map(|siding| plain(FEEDERS + siding)));
    tracks.extend([
        merge_of(MERGE, ENTRY_HOMES),
        merge_of(MERGE, RING_HOMES),
        merge_of(CHAIN, [RING_MERGE, ENTRY_MERGE]),
    ]);
    tracks.extend((CHAIN..LAST).map(|point| chain_point(point, &trailing, &facing)));
    tracks.push(Track::Facing {
        normal: RING_HOMES[0],
        reverse: RING_HOMES[1],
    });
    // Any room that is left goes to exits that nothing leads to.
    tracks.resize(*plan::TRACKS.end(), Track::Exit);
    tracks
}

fn merge_of(next: usize, legs: [usize; 2]) -> Track {
    Track::Trailing {
        next,
        normal_leg: legs[0],
        reverse_leg: legs[1],
    }
}

/// The chain without its last point: every fourth point is facing, 21 trailing and 7 facing.
fn chain_points() -> (Vec<usize>, Vec<usize>) {
    (CHAIN..LAST).partition(|point| (point - CHAIN) % 4 != 3)
}

/// The first half of the chain is passed in normal, the second in reverse.
fn passed_normal(point: usize) -> bool {
    point < CHAIN + 14
}

fn chain_point(point: usize, trailing: &[usize], facing: &[usize]) -> Track {
    let (on, back) = (point + 1, point - 1);
    let side = match trailing.binary_search(&point) {
        Ok(feeder) => FEEDERS + feeder,
        Err(_) => SIDINGS + facing.iter().take_while(|&&other| other < point).count(),
    };
    let is_trailing = trailing.contains(&point);
    match (is_trailing, passed_normal(point)) {
        (true, true) => merge_of(on, [back, side]),
        (true, false) => merge_of(on, [side, back]),
        (false, true) => Track::Facing {
            normal: on,
            reverse: side,
        },
        (false, false) => Track::Facing {
            normal: side,
            reverse: on,
        },
    }
}

/// The five kinds of route with 16 points in each list: start, first point, end, and the points
/// among the four movable ones that lie normal (the other two lie reverse).
const KINDS: [(usize, usize, usize, [usize; 2]); 5] = [
    (
        RING_HOMES[0],
        RING_MERGE,
        RING_HOMES[1],
        [RING_MERGE, MERGE],
    ),
    (RING_HOMES[1], RING_MERGE, RING_HOMES[0], [MERGE, LAST]),
    (
        ENTRY_HOMES[0],
        ENTRY_MERGE,
        RING_HOMES[0],
        [ENTRY_MERGE, LAST],
    ),
    (
        ENTRY_HOMES[0],
        ENTRY_MERGE,
        RING_HOMES[1],
        [ENTRY_MERGE, RING_MERGE],
    ),
    (
        ENTRY_HOMES[1],
        ENTRY_MERGE,
        RING_HOMES[0],
        [RING_MERGE, LAST],
    ),
];

fn route(random: &mut Random, number: usize) -> Route {
    let (start, first, end, movable_normal) = KINDS[number % KINDS.len()];
    let mut path = vec![first];
    path.extend(MERGE..=LAST);
    path.push(end);
    let is_normal = |point: &usize| {
        movable_normal.contains(point) || ((CHAIN..LAST).contains(point) && passed_normal(*point))
    };
    let (normal, reverse) = (ENTRY_MERGE..=LAST).partition(is_normal);
    let release = |point: usize| {
        let place = path.iter().position(|&track| track == point);
        let earliest = place.map_or(0, |place| place + 1);
        let track = path[random.between(earliest, path.len() - 1)];
        Release { track, point }
    };
    let releases = (ENTRY_MERGE..=LAST).map(release).collect();
    // Every point is listed, so the path adds its end alone, which is a home before them.
    let clear = std::iter::once(end).chain(ENTRY_MERGE..=LAST).collect();
    Route {
        start,
        path,
        clear,
        normal,
        reverse,
        releases,
    }
}

/// The homes that nothing leads to: the entry homes and the feeders without a siding.
fn entries() -> Vec<Entry> {
    let entry = |track| Entry {
        track,
        clear: vec![track],
    };
    let fed = SIDINGS..ENTRY_MERGE;
    let unfed = FEEDERS + fed.len()..SIDINGS;
    ENTRY_HOMES.into_iter().chain(unfed).map(entry).collect()
}
