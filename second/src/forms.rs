//! Files with a count beyond its limits or an unused byte that is not 0, and the least and the most
//! that can be read.
//!
//! Where a count is one too high, the rest of the file is what such a count would ask for, as far
//! as there can be such a thing. The offsets are written out by hand.

use crate::document::{Session, BENCH_PLAN};
use crate::junctions::PARTING_PLAN;
use crate::rows::session;

pub fn sessions() -> Vec<Session> {
    let mut sessions = counts();
    sessions.extend(lists_of_a_route());
    sessions.extend(least_and_most());
    sessions.extend(unused_bytes());
    sessions
}

/// An unreadable plan. It gets an event that no plan knows, which may not be answered.
pub fn form(name: &'static str, about: &'static str, plan: Vec<u8>, line: &str) -> Session {
    Session {
        name,
        about,
        plan: Some(plan),
        events: vec![0, 0, 0],
        expected: format!("{line}\n"),
    }
}

/// So many facing points, with their count: every track is one, so that any may be in any list.
pub fn points(count: u8) -> Vec<u8> {
    let rows = [1, 0, 1, 0].repeat(usize::from(count));
    [vec![count], rows].concat()
}

/// The numbers from 0 on, with their count.
pub fn first(count: u8) -> Vec<u8> {
    std::iter::once(count).chain(0..count).collect()
}

/// So many releases with their count: of each point from 0 on, when a train arrives on track 0.
fn releases(count: u8) -> Vec<u8> {
    let pairs = (0..count).flat_map(|point| [0, point]);
    std::iter::once(count).chain(pairs).collect()
}

/// A route from signal 0 with the shortest lists: a path of track 0 alone.
const SHORTEST: [u8; 7] = [0, 1, 0, 0, 0, 0, 0];

/// Such routes, with their count.
fn shortest_routes(count: u8) -> Vec<u8> {
    let routes = SHORTEST.repeat(usize::from(count));
    [vec![count], routes].concat()
}

/// Entries from track 0 on with their count, each with an empty clear list.
fn entries(count: u8) -> Vec<u8> {
    let entries = (0..count).flat_map(|track| [track, 0]);
    std::iter::once(count).chain(entries).collect()
}

fn counts() -> Vec<Session> {
    vec![
        form(
            "limit-65-tracks",
            "A plan of 65 tracks, one more than there may be; all of them are there.",
            [&[65][..], &[3, 0, 0, 0].repeat(65), &[0, 0, 0]].concat(),
            "form 2 at 0",
        ),
        form(
            "limit-33-signals",
            "A plan of 33 signals, one more than there may be; all of them are there, and as many \
             tracks.",
            [points(33), first(33), vec![0, 0]].concat(),
            "form 2 at 133",
        ),
        form(
            "limit-49-routes",
            "A plan of 49 routes, one more than there may be; all of them are there.",
            [points(2), first(1), shortest_routes(49), vec![0]].concat(),
            "form 2 at 11",
        ),
        form(
            "limit-17-entries",
            "A plan of 17 entries, one more than there may be; all of them are there.",
            [points(17), vec![0, 0], entries(17)].concat(),
            "form 2 at 71",
        ),
        form(
            "limit-entry-clear-of-65",
            "An entry whose clear list has 65 tracks, one more than there may be. There are only \
             64 tracks to name, so the list would have to end with one that doesn't exist.",
            [points(64), vec![0, 0], vec![1, 0], first(65)].concat(),
            "form 2 at 261",
        ),
    ]
}

/// A plan of 64 points with one route from signal 0, made of these parts: its five lists.
fn route_of(lists: [Vec<u8>; 5]) -> Vec<u8> {
    [points(64), first(1), vec![1, 0], lists.concat(), vec![0]].concat()
}

fn lists_of_a_route() -> Vec<Session> {
    let path = || vec![1, 0];
    let none = || vec![0];
    vec![
        form(
            "limit-path-of-none",
            "A route whose path has no tracks, and it must have one at least.",
            route_of([none(), none(), none(), none(), none()]),
            "form 2 at 261",
        ),
        form(
            "limit-path-of-33",
            "A route whose path has 33 tracks, one more than it may; all of them are there.",
            route_of([first(33), none(), none(), none(), none()]),
            "form 2 at 261",
        ),
        form(
            "limit-clear-of-65",
            "A route whose clear list has 65 tracks, one more than it may. There are only 64 \
             tracks to name, so the list would have to end with one that doesn't exist.",
            route_of([path(), first(65), none(), none(), none()]),
            "form 2 at 263",
        ),
        form(
            "limit-17-normal-points",
            "A route with 17 normal points, one more than it may have; all of them are there.",
            route_of([path(), none(), first(17), none(), none()]),
            "form 2 at 264",
        ),
        form(
            "limit-17-reverse-points",
            "A route with 17 reverse points, one more than it may have; all of them are there.",
            route_of([path(), none(), none(), first(17), none()]),
            "form 2 at 265",
        ),
        form(
            "limit-33-releases",
            "A route with 33 releases, one more than it may have; all of them are there.",
            route_of([path(), none(), none(), none(), releases(33)]),
            "form 2 at 266",
        ),
    ]
}

fn least_and_most() -> Vec<Session> {
    let mut all_lists = vec![0];
    all_lists.extend(first(32));
    all_lists.extend(first(64));
    all_lists.extend(first(16));
    all_lists.extend([16].into_iter().chain(16..32));
    all_lists.extend(releases(32));
    let mut all_entries = vec![16, 0];
    all_entries.extend(first(64));
    all_entries.extend((1..16).flat_map(|track| [track, 0]));
    vec![
        session(
            "limit-least-plan",
            "The least plan there is: one track, an exit, and no signals, routes or entries. \
             Every event is refused, and nothing can ever happen.",
            &[&[1, 3, 0, 0, 0], &[0], &[0], &[0]],
            "accepted",
            &[
                ([1, 0, 0], "refused 11"),
                ([2, 0, 0], "refused 11"),
                ([3, 0, 1], "refused 11"),
                ([4, 1, 0], "refused 18"),
            ],
        ),
        session(
            "limit-most-of-everything",
            "Every count at its highest: 64 tracks, 32 signals, 48 routes and 16 entries; route 0 \
             has a path of 32 tracks, a clear list of 64, 16 normal points, 16 reverse points and \
             32 releases, and entry 0 a clear list of 64. It can be read; that all tracks lead to \
             the same two is against rule 3. The last route, entry and signal are there, and no \
             more.",
            &[
                &points(64),
                &first(32),
                &[48],
                &all_lists,
                &SHORTEST.repeat(47),
                &all_entries,
            ],
            "rule 3 row 0",
            &[
                ([1, 48, 0], "refused 11"),
                ([1, 47, 0], "granted 47"),
                ([1, 0, 0], "refused 12"),
                ([3, 16, 1], "refused 11"),
                ([3, 15, 1], "entered 1 track 15"),
                ([4, 1, 0], "refused 19 signal 15"),
                ([2, 47, 0], "cancelled 47"),
            ],
        ),
    ]
}

/// A plan with an unused byte at an offset made this one.
type Unused = (&'static str, &'static str, usize, u8, &'static str);

/// In the bench plan.
const UNUSED: [Unused; 15] = [
    (
        "unused-plain-second-made-1",
        "Of a plain track the second number is unused. Here it is 1.",
        3,
        1,
        "form 3 at 3",
    ),
    (
        "unused-plain-second-made-2",
        "Of a plain track the second number is unused. Here it is 2.",
        3,
        2,
        "form 3 at 3",
    ),
    (
        "unused-plain-second-made-255",
        "Of a plain track the second number is unused. Here it is 255.",
        3,
        255,
        "form 3 at 3",
    ),
    (
        "unused-plain-third-made-1",
        "Of a plain track the third number is unused. Here it is 1.",
        4,
        1,
        "form 3 at 4",
    ),
    (
        "unused-plain-third-made-2",
        "Of a plain track the third number is unused. Here it is 2.",
        4,
        2,
        "form 3 at 4",
    ),
    (
        "unused-plain-third-made-255",
        "Of a plain track the third number is unused. Here it is 255.",
        4,
        255,
        "form 3 at 4",
    ),
    (
        "unused-exit-first-made-1",
        "Of an exit no number is used. Here the first is 1.",
        14,
        1,
        "form 3 at 14",
    ),
    (
        "unused-exit-first-made-2",
        "Of an exit no number is used. Here the first is 2.",
        14,
        2,
        "form 3 at 14",
    ),
    (
        "unused-exit-first-made-255",
        "Of an exit no number is used. Here the first is 255.",
        14,
        255,
        "form 3 at 14",
    ),
    (
        "unused-exit-second-made-1",
        "Of an exit no number is used. Here the second is 1.",
        15,
        1,
        "form 3 at 15",
    ),
    (
        "unused-exit-second-made-2",
        "Of an exit no number is used. Here the second is 2.",
        15,
        2,
        "form 3 at 15",
    ),
    (
        "unused-exit-second-made-255",
        "Of an exit no number is used. Here the second is 255.",
        15,
        255,
        "form 3 at 15",
    ),
    (
        "unused-exit-third-made-1",
        "Of an exit no number is used. Here the third is 1.",
        16,
        1,
        "form 3 at 16",
    ),
    (
        "unused-exit-third-made-2",
        "Of an exit no number is used. Here the third is 2.",
        16,
        2,
        "form 3 at 16",
    ),
    (
        "unused-exit-third-made-255",
        "Of an exit no number is used. Here the third is 255.",
        16,
        255,
        "form 3 at 16",
    ),
];

/// In the plan of a line that parts.
const UNUSED_OF_A_POINT: [Unused; 3] = [
    (
        "unused-facing-third-made-1",
        "Of a facing point the third number is unused. Here it is 1.",
        12,
        1,
        "form 3 at 12",
    ),
    (
        "unused-facing-third-made-2",
        "Of a facing point the third number is unused. Here it is 2.",
        12,
        2,
        "form 3 at 12",
    ),
    (
        "unused-facing-third-made-255",
        "Of a facing point the third number is unused. Here it is 255.",
        12,
        255,
        "form 3 at 12",
    ),
];

fn unused_bytes() -> Vec<Session> {
    let made = |plan: Vec<u8>, (name, about, offset, byte, line): Unused| {
        let mut plan = plan;
        plan[offset] = byte;
        form(name, about, plan, line)
    };
    let bench = UNUSED.map(|unused| made(BENCH_PLAN.to_vec(), unused));
    let parting = UNUSED_OF_A_POINT.map(|unused| made(PARTING_PLAN.concat(), unused));
    bench.into_iter().chain(parting).collect()
}
