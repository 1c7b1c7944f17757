//! Sessions for points that several routes hold at once: each takes its own hold and gives back its own
//! alone, and 14 is for a point that is held and lies otherwise than it is wanted.
//!
//! Like those of the document, the expected lines are written out by hand.

use crate::document::Session;
use crate::rows::session;
use std::ops::RangeInclusive;

pub fn sessions() -> Vec<Session> {
    vec![
        following_trains(),
        outlasting_hold(),
        one_of_two_cancelled(),
        three_holders(),
        several_at_one_arrival(),
        right_below_wrong(),
        held_in_both_lists(),
        late_holders(),
        thirty_two_points(),
    ]
}

fn following_trains() -> Session {
    session(
        "following-trains-share-a-point",
        "A line from track 0 parts at point 1, normal to point 2 and reverse to the exit 3; at \
         point 2 it parts again, to tracks 4 and 5 and their exits 6 and 7. Routes 0 and 1 both \
         go over point 1 the normal way and part at point 2; each gives point 1 back at its exit \
         and point 2 on the track after it. Train 2 follows train 1 over point 1 while route 0 \
         still holds it (granted in event 10), and train 3 follows train 2 (granted in 19) and \
         overtakes it: the point lies as the next train wants it. Route 2, which wants it \
         reverse, is refused as long as any route holds it.",
        &[
            &[8, 0, 1, 0, 0, 1, 2, 3, 0, 1, 4, 5, 0, 3, 0, 0, 0],
            &[0, 6, 0, 0, 0, 7, 0, 0, 3, 0, 0, 0, 3, 0, 0, 0],
            &[1, 0],
            &[
                3, 0, 4, 1, 2, 4, 6, 4, 1, 2, 4, 6, 2, 1, 2, 0, 2, 6, 1, 4, 2,
            ],
            &[0, 4, 1, 2, 5, 7, 4, 1, 2, 5, 7, 1, 1, 1, 2, 2, 7, 1, 5, 2],
            &[0, 2, 1, 3, 2, 1, 3, 0, 1, 1, 1, 3, 1],
            &[1, 0, 1, 0],
        ],
        "accepted",
        &[
            ([3, 0, 1], "entered 1 track 0"),
            ([1, 0, 0], "granted 0"),
            ([4, 1, 0], "moved 1 from 0 to 1"),
            ([3, 0, 2], "entered 2 track 0"),
            ([1, 1, 0], "refused 13 track 1 train 1"),
            ([4, 1, 0], "moved 1 from 1 to 2"),
            ([1, 2, 0], "refused 14 point 1"),
            ([1, 1, 0], "refused 13 track 2 train 1"),
            ([4, 1, 0], "moved 1 from 2 to 4"),
            // Point 1 is held by route 0 and lies right; point 2 has been given back.
            ([1, 1, 0], "granted 1"),
            ([4, 2, 0], "moved 2 from 0 to 1"),
            ([4, 1, 0], "moved 1 from 4 to 6"),
            ([3, 0, 3], "entered 3 track 0"),
            ([1, 2, 0], "refused 13 track 1 train 2"),
            ([4, 2, 0], "moved 2 from 1 to 2"),
            // Route 0 has given point 1 back, route 1 has not.
            ([1, 2, 0], "refused 14 point 1"),
            ([4, 1, 0], "left 1 from 6"),
            ([4, 2, 0], "moved 2 from 2 to 5"),
            ([1, 0, 0], "granted 0"),
            ([4, 3, 0], "moved 3 from 0 to 1"),
            ([4, 3, 0], "moved 3 from 1 to 2"),
            ([1, 2, 0], "refused 14 point 1"),
            ([4, 3, 0], "moved 3 from 2 to 4"),
            ([4, 3, 0], "moved 3 from 4 to 6"),
            // Route 0 has given it back again, route 1, the earlier one, not yet.
            ([1, 2, 0], "refused 14 point 1"),
            ([4, 2, 0], "moved 2 from 5 to 7"),
            ([1, 2, 0], "granted 2"),
            ([4, 3, 0], "left 3 from 6"),
            ([4, 2, 0], "left 2 from 7"),
        ],
    )
}

/// The bench plan and two lines beside it, 4 to 5 and 6 to 7, whose routes, 2 and 3, list point 2 off
/// their paths: route 2 normal, as route 0 does, and route 3 one way or the other.
const BENCH_TRACKS: &[u8] = &[
    8, 0, 2, 0, 0, 0, 2, 0, 0, 2, 3, 0, 1, 3, 0, 0, 0, 0, 5, 0, 0, 3, 0, 0, 0, 0, 7, 0, 0, 3, 0, 0,
    0,
];
const BENCH_SIGNALS: &[u8] = &[4, 0, 1, 4, 6];
const BENCH_ROUTES: &[u8] = &[
    4, 0, 2, 2, 3, 2, 2, 3, 1, 2, 0, 1, 3, 2, 1, 2, 2, 3, 2, 2, 3, 0, 1, 2, 1, 3, 2,
];
/// Of the line from track 4, point 2 normal.
const FLANK_NORMAL: &[u8] = &[2, 1, 5, 2, 2, 5, 1, 2, 0, 1, 5, 2];
/// Of the line from track 6, point 2 reverse, or normal.
const OTHER_REVERSE: &[u8] = &[3, 1, 7, 2, 2, 7, 0, 1, 2, 1, 7, 2];
const OTHER_NORMAL: &[u8] = &[3, 1, 7, 2, 2, 7, 1, 2, 0, 1, 7, 2];
const BENCH_ENTRIES: &[u8] = &[4, 0, 1, 0, 1, 1, 1, 4, 1, 4, 6, 1, 6];

const TWO_AND_TWO: [&[u8]; 6] = [
    BENCH_TRACKS,
    BENCH_SIGNALS,
    BENCH_ROUTES,
    FLANK_NORMAL,
    OTHER_REVERSE,
    BENCH_ENTRIES,
];

fn outlasting_hold() -> Session {
    session(
        "hold-that-outlasts-another",
        "The bench plan and two lines of their own beside it, whose routes 2 and 3 list point 2 \
         off their paths. Routes 0 and 2 want it normal, routes 1 and 3 reverse. Routes 0 and 2 \
         hold it together, then route 2 alone, when route 0's train has given its hold back \
         (event 7): routes 1 and 3 are refused until route 2's train has come to track 5 (12). \
         Then routes 1 and 3 hold it together, reverse, and here the one that was granted first \
         holds it longer. Routes that hold it together release it at different tracks here, so \
         that each arrival gives back one hold.",
        &TWO_AND_TWO,
        "accepted",
        &[
            ([3, 0, 1], "entered 1 track 0"),
            ([3, 2, 2], "entered 2 track 4"),
            ([1, 0, 0], "granted 0"),
            ([1, 2, 0], "granted 2"),
            ([1, 1, 0], "refused 14 point 2"),
            ([4, 1, 0], "moved 1 from 0 to 2"),
            ([4, 1, 0], "moved 1 from 2 to 3"),
            ([1, 1, 0], "refused 13 track 3 train 1"),
            // Held by route 2 alone.
            ([1, 3, 0], "refused 14 point 2"),
            ([4, 1, 0], "left 1 from 3"),
            ([1, 1, 0], "refused 14 point 2"),
            ([4, 2, 0], "moved 2 from 4 to 5"),
            ([1, 1, 0], "granted 1"),
            ([1, 3, 0], "granted 3"),
            ([1, 0, 0], "refused 14 point 2"),
            ([4, 2, 0], "left 2 from 5"),
            ([3, 3, 3], "entered 3 track 6"),
            ([4, 3, 0], "moved 3 from 6 to 7"),
            // Held by route 1 alone.
            ([1, 0, 0], "refused 14 point 2"),
            ([1, 2, 0], "refused 14 point 2"),
            ([3, 1, 4], "entered 4 track 1"),
            ([4, 4, 0], "moved 4 from 1 to 2"),
            ([4, 4, 0], "moved 4 from 2 to 3"),
            ([4, 4, 0], "left 4 from 3"),
            ([1, 0, 0], "granted 0"),
        ],
    )
}

fn one_of_two_cancelled() -> Session {
    session(
        "cancel-of-one-of-two",
        "The plan of hold-that-outlasts-another: routes 0 and 2 want point 2 normal, routes 1 and \
         3 want it reverse. Two routes hold it and one of them is cancelled, the one that was \
         granted first (events 3, 16 and 23) or the other (8 and 13): the other one goes on holding \
         it, and the routes that want it the other way are refused with 14.",
        &TWO_AND_TWO,
        "accepted",
        &[
            ([1, 0, 0], "granted 0"),
            ([1, 2, 0], "granted 2"),
            ([2, 0, 0], "cancelled 0"),
            ([1, 1, 0], "refused 14 point 2"),
            ([1, 3, 0], "refused 14 point 2"),
            ([1, 0, 0], "granted 0"),
            ([1, 1, 0], "refused 14 point 2"),
            ([2, 0, 0], "cancelled 0"),
            ([1, 1, 0], "refused 14 point 2"),
            ([2, 2, 0], "cancelled 2"),
            ([1, 1, 0], "granted 1"),
            ([1, 3, 0], "granted 3"),
            ([2, 3, 0], "cancelled 3"),
            ([1, 0, 0], "refused 14 point 2"),
            ([1, 3, 0], "granted 3"),
            ([2, 1, 0], "cancelled 1"),
            ([1, 2, 0], "refused 14 point 2"),
            ([1, 0, 0], "refused 14 point 2"),
            ([2, 1, 0], "refused 15"),
            ([2, 3, 0], "cancelled 3"),
            ([1, 2, 0], "granted 2"),
            ([1, 0, 0], "granted 0"),
            ([2, 2, 0], "cancelled 2"),
            ([1, 3, 0], "refused 14 point 2"),
        ],
    )
}

fn three_holders() -> Session {
    session(
        "three-routes-hold-one-point",
        "The plan of hold-that-outlasts-another, but route 3 lists point 2 normal, like routes 0 \
         and 2, and not reverse. Routes 0, 2 and 3 hold it at once; route 2 gives its hold back, then route 0, by their trains, and \
         route 3 by a cancel. Route 1, which wants the point reverse, is granted when the last \
         hold has gone, and not before. From event 20 on they hold it once more, and are \
         cancelled, route 0 as the last.",
        &[
            BENCH_TRACKS,
            BENCH_SIGNALS,
            BENCH_ROUTES,
            FLANK_NORMAL,
            OTHER_NORMAL,
            BENCH_ENTRIES,
        ],
        "accepted",
        &[
            ([3, 0, 1], "entered 1 track 0"),
            ([3, 2, 2], "entered 2 track 4"),
            ([1, 2, 0], "granted 2"),
            ([1, 0, 0], "granted 0"),
            ([1, 3, 0], "granted 3"),
            ([1, 1, 0], "refused 14 point 2"),
            ([4, 2, 0], "moved 2 from 4 to 5"),
            ([1, 1, 0], "refused 14 point 2"),
            ([4, 1, 0], "moved 1 from 0 to 2"),
            ([4, 1, 0], "moved 1 from 2 to 3"),
            ([4, 1, 0], "left 1 from 3"),
            ([1, 1, 0], "refused 14 point 2"),
            ([2, 3, 0], "cancelled 3"),
            ([1, 1, 0], "granted 1"),
            ([4, 2, 0], "left 2 from 5"),
            ([1, 0, 0], "refused 14 point 2"),
            ([1, 2, 0], "refused 14 point 2"),
            ([1, 3, 0], "refused 14 point 2"),
            ([2, 1, 0], "cancelled 1"),
            // Three again; now the first is the last.
            ([1, 0, 0], "granted 0"),
            ([1, 2, 0], "granted 2"),
            ([1, 3, 0], "granted 3"),
            ([2, 2, 0], "cancelled 2"),
            ([1, 1, 0], "refused 14 point 2"),
            ([2, 3, 0], "cancelled 3"),
            ([1, 1, 0], "refused 14 point 2"),
            ([2, 0, 0], "cancelled 0"),
            ([1, 1, 0], "granted 1"),
        ],
    )
}

fn several_at_one_arrival() -> Session {
    session(
        "one-arrival-gives-back-several-holds",
        "A line parts at point 1, and three lines of their own go beside it, whose routes 1, 2 \
         and 3 list the point normal, as route 0 does. Routes 0, 1 and 2 give it back when a \
         train arrives on track 2, which is not on the paths of routes 1 and 2; route 0 does not look \
         whether that track is clear. Route 3 gives the point back at its own exit, and does not \
         have the point in its clear list: it is granted while train 1 stands on the point (event \
         6), which lies right. The plan breaks rules 8, 10 and 11, and the lowest is printed. All four \
         routes hold the point, and when train 1 arrives on track 2 (event 7) three give it back \
         at once, and route 3 does not. Route 4 wants it reverse.",
        &[
            &[10, 0, 1, 0, 0, 1, 2, 3, 0, 3, 0, 0, 0, 3, 0, 0, 0],
            &[0, 5, 0, 0, 3, 0, 0, 0, 0, 7, 0, 0, 3, 0, 0, 0],
            &[0, 9, 0, 0, 3, 0, 0, 0],
            &[4, 0, 4, 6, 8],
            &[5, 0, 2, 1, 2, 1, 1, 1, 1, 0, 1, 2, 1],
            &[1, 1, 5, 2, 1, 5, 1, 1, 0, 1, 2, 1],
            &[2, 1, 7, 2, 1, 7, 1, 1, 0, 1, 2, 1],
            &[3, 1, 9, 1, 9, 1, 1, 0, 1, 9, 1],
            &[0, 2, 1, 3, 2, 1, 3, 0, 1, 1, 1, 3, 1],
            &[1, 0, 1, 0],
        ],
        "rule 8 row 0",
        &[
            ([3, 0, 1], "entered 1 track 0"),
            ([1, 1, 0], "granted 1"),
            ([1, 0, 0], "granted 0"),
            ([1, 2, 0], "granted 2"),
            ([4, 1, 0], "moved 1 from 0 to 1"),
            // There is a train on the point, which lies right.
            ([1, 3, 0], "granted 3"),
            ([4, 1, 0], "moved 1 from 1 to 2"),
            ([4, 1, 0], "left 1 from 2"),
            // Route 3 alone holds it.
            ([1, 4, 0], "refused 14 point 1"),
            ([2, 3, 0], "cancelled 3"),
            ([1, 4, 0], "granted 4"),
            // Signals 1 and 2 are still green, but nothing is left to be dropped.
            ([2, 1, 0], "cancelled 1"),
            ([1, 1, 0], "refused 14 point 1"),
            ([2, 4, 0], "cancelled 4"),
            ([1, 1, 0], "granted 1"),
            // Route 2 holds it no more, so route 1's cancel leaves it free.
            ([2, 1, 0], "cancelled 1"),
            ([1, 4, 0], "granted 4"),
        ],
    )
}

fn right_below_wrong() -> Session {
    session(
        "right-below-and-wrong-above",
        "Four points, 2 to 5, in a row, and two lines beside them, from track 0 to the exit 1 and \
         from track 7 to the exit 8; the routes of both list these points off their paths. Routes \
         0 and 1 start at track 7, the others at track 0. A point is in the way if \
         it is held and would turn, and the lowest such one is named: a lower one that is held \
         and lies right is passed over (events 2 to 5 and 17), and so is one that is not held, \
         whether it lies right (10) or would turn (11 and 18). Route 6 wants all four as they \
         lie, and holds them beside route 0; route 8 turns and holds two that are not held, and \
         shares point 3, which lies right.",
        &[
            &[13, 0, 1, 0, 0, 3, 0, 0, 0],
            &[1, 3, 9, 0, 1, 4, 10, 0, 1, 5, 11, 0, 1, 6, 12, 0],
            &[3, 0, 0, 0, 0, 8, 0, 0, 3, 0, 0, 0],
            &[3, 0, 0, 0, 3, 0, 0, 0, 3, 0, 0, 0, 3, 0, 0, 0],
            &[2, 0, 7],
            &[
                9, 1, 1, 8, 5, 2, 3, 4, 5, 8, 2, 2, 4, 2, 3, 5, 4, 8, 2, 8, 3, 8, 4, 8, 5,
            ],
            &[1, 1, 8, 3, 3, 5, 8, 0, 2, 3, 5, 2, 8, 3, 8, 5],
            &[0, 1, 1, 3, 1, 2, 4, 1, 2, 1, 4, 2, 1, 2, 1, 4],
            &[0, 1, 1, 3, 1, 3, 5, 1, 5, 1, 3, 2, 1, 3, 1, 5],
            &[0, 1, 1, 3, 1, 2, 3, 2, 2, 3, 0, 2, 1, 2, 1, 3],
            &[0, 1, 1, 3, 1, 3, 4, 0, 2, 3, 4, 2, 1, 3, 1, 4],
            &[
                0, 1, 1, 5, 1, 2, 3, 4, 5, 2, 2, 4, 2, 3, 5, 4, 1, 2, 1, 3, 1, 4, 1, 5,
            ],
            &[0, 1, 1, 3, 1, 2, 3, 1, 3, 1, 2, 2, 1, 2, 1, 3],
            &[0, 1, 1, 4, 1, 2, 3, 4, 0, 3, 2, 3, 4, 3, 1, 2, 1, 3, 1, 4],
            &[0],
        ],
        "accepted",
        &[
            // Points 2 and 4 normal, 3 and 5 reverse, all held by route 0.
            ([1, 0, 0], "granted 0"),
            // Right in normal and wrong in reverse; right in reverse and wrong in normal.
            ([1, 2, 0], "refused 14 point 4"),
            ([1, 3, 0], "refused 14 point 5"),
            // Both in normal, both in reverse.
            ([1, 4, 0], "refused 14 point 3"),
            ([1, 5, 0], "refused 14 point 4"),
            ([1, 6, 0], "granted 6"),
            ([2, 0, 0], "cancelled 0"),
            ([1, 1, 0], "granted 1"),
            ([2, 6, 0], "cancelled 6"),
            // Points 3 and 5 are held, reverse. Point 2 lies right; would turn:
            ([1, 4, 0], "refused 14 point 3"),
            ([1, 7, 0], "refused 14 point 3"),
            ([1, 8, 0], "granted 8"),
            ([2, 1, 0], "cancelled 1"),
            ([1, 0, 0], "refused 14 point 2"),
            ([1, 1, 0], "granted 1"),
            ([2, 8, 0], "cancelled 8"),
            // Now points 2 and 4 lie reverse too.
            ([1, 3, 0], "refused 14 point 5"),
            ([1, 4, 0], "refused 14 point 3"),
            ([1, 2, 0], "granted 2"),
            ([2, 2, 0], "cancelled 2"),
        ],
    )
}

fn held_in_both_lists() -> Session {
    session(
        "both-lists-and-held",
        "A line parts at point 1, and a line of its own goes beside it. Routes 0 and 3 list point \
         1 normal and reverse, and reverse wins: where the point is held and lies normal, they \
         would leave it otherwise, and are refused with 14 (events 2 and 13); where it is held \
         and lies reverse, it is not in their way (5 and 8). Routes 2 and 4 want it normal, route \
         1 reverse. None gives it back but by a cancel.",
        &[
            &[6, 0, 1, 0, 0, 1, 2, 3, 0, 3, 0, 0, 0, 3, 0, 0, 0],
            &[0, 5, 0, 0, 3, 0, 0, 0],
            &[2, 0, 4],
            &[5, 0, 2, 1, 3, 0, 1, 1, 1, 1, 0],
            &[1, 1, 5, 0, 0, 1, 1, 0],
            &[1, 1, 5, 0, 1, 1, 0, 0],
            &[1, 1, 5, 0, 1, 1, 1, 1, 0],
            &[0, 2, 1, 2, 0, 1, 1, 0, 0],
            &[0],
        ],
        "rule 8 row 0",
        &[
            ([1, 2, 0], "granted 2"),
            ([1, 0, 0], "refused 14 point 1"),
            ([2, 2, 0], "cancelled 2"),
            ([1, 1, 0], "granted 1"),
            ([1, 0, 0], "granted 0"),
            ([2, 1, 0], "cancelled 1"),
            ([1, 2, 0], "refused 14 point 1"),
            // Routes 0 and 3 both list it both ways.
            ([1, 3, 0], "granted 3"),
            ([2, 0, 0], "cancelled 0"),
            ([1, 4, 0], "refused 14 point 1"),
            ([2, 3, 0], "cancelled 3"),
            ([1, 4, 0], "granted 4"),
            ([1, 3, 0], "refused 14 point 1"),
        ],
    )
}

/// A route of 48: its start, its path of one track, and the points 6 and 7, or one of them, in one list.
fn listing(start: u8, points: &[u8], is_normal: bool) -> Vec<u8> {
    let exit = 2 * start + 1;
    let counted = |list: &[u8]| [&[list.len() as u8], list].concat();
    let releases: Vec<u8> = points.iter().flat_map(|&point| [exit, point]).collect();
    let lists = match is_normal {
        true => [counted(points), vec![0]],
        false => [vec![0], counted(points)],
    };
    [
        vec![start, 1, exit],
        counted(&[&[exit], points].concat()),
        lists.concat(),
        vec![points.len() as u8],
        releases,
    ]
    .concat()
}

fn late_holders() -> Session {
    let mut routes = vec![48];
    for number in 0..48 {
        routes.extend(match number {
            1 => listing(0, &[6], false),
            2 => listing(0, &[6, 7], false),
            44 => listing(1, &[6, 7], true),
            45 => listing(2, &[7], true),
            _ => listing(1, &[6], true),
        });
    }
    let mut events = vec![];
    // Each of these holds the point alone.
    for (route, granted, cancelled) in [
        (0, "granted 0", "cancelled 0"),
        (14, "granted 14", "cancelled 14"),
        (15, "granted 15", "cancelled 15"),
        (16, "granted 16", "cancelled 16"),
        (30, "granted 30", "cancelled 30"),
        (31, "granted 31", "cancelled 31"),
        (32, "granted 32", "cancelled 32"),
        (46, "granted 46", "cancelled 46"),
        (47, "granted 47", "cancelled 47"),
    ] {
        events.extend([
            ([1, route, 0], granted),
            ([1, 1, 0], "refused 14 point 6"),
            ([2, route, 0], cancelled),
        ]);
    }
    events.extend([
        // Point 6 by route 44, point 7 by routes 44 and 45.
        ([1, 44, 0], "granted 44"),
        ([1, 45, 0], "granted 45"),
        ([1, 2, 0], "refused 14 point 6"),
        ([2, 44, 0], "cancelled 44"),
        // Point 6 by route 47, point 7 by route 45.
        ([1, 47, 0], "granted 47"),
        ([1, 2, 0], "refused 14 point 6"),
        ([2, 47, 0], "cancelled 47"),
        ([1, 2, 0], "refused 14 point 7"),
        ([2, 45, 0], "cancelled 45"),
        ([1, 2, 0], "granted 2"),
    ]);
    session(
        "holds-of-late-routes",
        "As many routes as there can be, so that holds of high numbers show. All list points off their paths, from three lines beside \
         the points 6 and 7. Routes 0, 14 to 16, 30 to 32, 46 and 47 hold point 6, one after the \
         other, and each is in the way of route 1, which wants it reverse. Then points 6 and 7 are \
         both in the way of route 2: the lower one is named, though the other has more holders \
         (event 30), or a holder with a lower number (33).",
        &[
            &[
                12, 0, 1, 0, 0, 3, 0, 0, 0, 0, 3, 0, 0, 3, 0, 0, 0, 0, 5, 0, 0, 3, 0, 0, 0,
            ],
            &[1, 8, 9, 0, 1, 10, 11, 0],
            &[3, 0, 0, 0, 3, 0, 0, 0, 3, 0, 0, 0, 3, 0, 0, 0],
            &[3, 0, 2, 4],
            &routes,
            &[0],
        ],
        "accepted",
        &events,
    )
}

/// A route to this exit: all 32 points off its path, one half normal and the other reverse.
fn listing_all(
    signal: u8,
    exit: u8,
    normal: RangeInclusive<u8>,
    reverse: RangeInclusive<u8>,
) -> Vec<u8> {
    let counted = |list: Vec<u8>| [vec![list.len() as u8], list].concat();
    let clear = std::iter::once(exit).chain(4..=35).collect();
    let releases: Vec<u8> = (4..=35).flat_map(|point| [exit, point]).collect();
    [
        vec![signal, 1, exit],
        counted(clear),
        counted(normal.collect()),
        counted(reverse.collect()),
        vec![32],
        releases,
    ]
    .concat()
}

fn thirty_two_points() -> Session {
    // Eight times two facing points that lead to two trailing ones, which lead on; at last to two exits.
    let four = |first: u8| {
        let [one, other, normal, reverse] = [first, first + 1, first + 2, first + 3];
        [
            [1, normal, reverse, 0],
            [1, reverse, normal, 0],
            [2, first + 4, one, other],
            [2, first + 5, other, one],
        ]
        .concat()
    };
    let points: Vec<u8> = (4..36).step_by(4).flat_map(four).collect();
    session(
        "one-arrival-gives-back-32-points",
        "Two lines, from track 0 to the exit 1 and from track 2 to the exit 3, and beside them 32 \
         points, 4 to 35, which their routes list off their paths. Route 0, of the first line, wants \
         points 4 to 19 normal and 20 to 35 reverse, and gives all of them back at track 1. Of the \
         second line, route 1 wants point 4 reverse, route 2 point 35 normal, and route 3 all 32 \
         otherwise than route 0. While route 0 holds them 14 names the lowest that is asked for \
         (events 2 to 4); when train 1 has come to track 1 the highest is free (7) and so is the \
         lowest (9), and when train 2 has, all 32 are (19). Route 3 gives them back at once too.",
        &[
            &[38, 0, 1, 0, 0, 3, 0, 0, 0, 0, 3, 0, 0, 3, 0, 0, 0],
            &points,
            &[3, 0, 0, 0, 3, 0, 0, 0],
            &[2, 0, 2],
            &[4],
            &listing_all(0, 1, 4..=19, 20..=35),
            &[1, 1, 3, 2, 3, 4, 0, 1, 4, 1, 3, 4],
            &[1, 1, 3, 2, 3, 35, 1, 35, 0, 1, 3, 35],
            &listing_all(1, 3, 20..=35, 4..=19),
            &[2, 0, 1, 0, 2, 1, 2],
        ],
        "accepted",
        &[
            ([1, 0, 0], "granted 0"),
            ([1, 1, 0], "refused 14 point 4"),
            ([1, 2, 0], "refused 14 point 35"),
            ([1, 3, 0], "refused 14 point 4"),
            ([3, 0, 1], "entered 1 track 0"),
            ([4, 1, 0], "moved 1 from 0 to 1"),
            ([1, 2, 0], "granted 2"),
            ([2, 2, 0], "cancelled 2"),
            ([1, 1, 0], "granted 1"),
            ([1, 0, 0], "refused 13 track 1 train 1"),
            ([4, 1, 0], "left 1 from 1"),
            // Route 1 holds the lowest, and has turned it.
            ([1, 0, 0], "refused 14 point 4"),
            ([2, 1, 0], "cancelled 1"),
            ([1, 0, 0], "granted 0"),
            ([1, 2, 0], "refused 14 point 35"),
            ([3, 0, 2], "entered 2 track 0"),
            ([1, 3, 0], "refused 14 point 4"),
            ([4, 2, 0], "moved 2 from 0 to 1"),
            ([1, 3, 0], "granted 3"),
            ([4, 2, 0], "left 2 from 1"),
            ([1, 0, 0], "refused 14 point 4"),
            ([3, 1, 3], "entered 3 track 2"),
            ([4, 3, 0], "moved 3 from 2 to 3"),
            ([1, 0, 0], "granted 0"),
            ([2, 0, 0], "cancelled 0"),
            ([4, 3, 0], "left 3 from 3"),
        ],
    )
}
