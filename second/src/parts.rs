//! Plans that break one part of a rule alone: each is accepted by a box that leaves this part out,
//! or reported with a later rule. For each rule but 3 and 8 one of them breaks it at two rows and
//! all later rules as well: the lowest rule is reported with its lowest row.
//!
//! Like those of the document, the expected lines are written out by hand.

use crate::document::{bench_with, Session, BENCH_PLAN};
use crate::rows::session;

pub fn sessions() -> Vec<Session> {
    let mut sessions = tracks();
    sessions.extend(signals_and_entries());
    sessions.extend(paths());
    sessions.extend(points());
    sessions.extend(releases());
    sessions
}

/// Two signals at tracks 0 and 1, two routes alike and two entries. Where tracks 0 and 1 are points
/// and neither leads to the other, rules 4 to 12 are broken: the homes and the entries are not plain;
/// the path starts where its home does not lead to, passes a home and is not in the clear list; its
/// point 1 is not listed, and the listed point 0 is neither clear nor given back; and the entries do
/// not look at their tracks.
const ALL_WRONG: &[u8] = &[
    2, 0, 1, // signals
    2, 0, 2, 1, 2, 0, 1, 0, 0, 0, // route 0
    0, 2, 1, 2, 0, 1, 0, 0, 0, // route 1
    2, 0, 0, 1, 0, // entries
];

fn tracks() -> Vec<Session> {
    vec![
        session(
            "rule-1-ways-out",
            "Both ways out of the facing point 0 lead to track 2, and both legs of the trailing \
             point 1 are track 2. All other rules are broken too; the lowest is reported with its \
             lowest row.",
            &[&[3, 1, 2, 2, 0, 2, 2, 2, 2, 3, 0, 0, 0], ALL_WRONG],
            "rule 1 row 0",
            &[],
        ),
        session(
            "rule-2-normal-leg",
            "The normal leg of the trailing points 0 and 1 is track 2, an exit, which leads \
             nowhere. Their reverse legs, tracks 3 and 4, lead to them. Rules 3 to 12 are broken \
             too.",
            &[
                &[
                    5, 2, 2, 2, 3, 2, 2, 2, 4, 3, 0, 0, 0, 0, 0, 0, 0, 0, 1, 0, 0,
                ],
                ALL_WRONG,
            ],
            "rule 2 row 0",
            &[],
        ),
        session(
            "rule-3-track-that-leads-to-itself",
            "Tracks 0 and 1 both lead to track 1: a track that leads to itself counts too. Rules 7, \
             10 and 11 are broken too.",
            &[
                &[
                    5, 0, 1, 0, 0, 0, 1, 0, 0, 1, 3, 4, 0, 3, 0, 0, 0, 3, 0, 0, 0,
                ],
                &[1, 0],
                &[1, 0, 1, 1, 1, 1, 1, 2, 0, 0],
                &[0],
            ],
            "rule 3 row 1",
            &[],
        ),
        session(
            "rule-4-point",
            "Both signals stand at the end of a facing point. Rules 5 to 12 are broken too.",
            &[
                &[
                    6, 1, 2, 3, 0, 1, 4, 5, 0, 3, 0, 0, 0, 3, 0, 0, 0, 3, 0, 0, 0, 3, 0, 0, 0,
                ],
                ALL_WRONG,
            ],
            "rule 4 row 0",
            &[],
        ),
    ]
}

/// From the home, track 0, to the point 1 and the exits 2 and 3, and two lines beside it, from track
/// 4 to the exit 5 and from track 6 to the exit 7.
const THREE_LINES: &[u8] = &[
    8, 0, 1, 0, 0, 1, 2, 3, 0, 3, 0, 0, 0, 3, 0, 0, 0, 0, 5, 0, 0, 3, 0, 0, 0, 0, 7, 0, 0, 3, 0, 0,
    0,
];

fn signals_and_entries() -> Vec<Session> {
    vec![
        session(
            "rule-5-no-home",
            "Both entries are at plain tracks that nothing leads to, but no signal stands there: \
             nothing keeps their trains from going on into one another. Rules 6 to 12 are broken \
             too.",
            &[
                THREE_LINES,
                &[1, 0],
                &[2, 0, 2, 1, 4, 0, 1, 1, 1, 1, 0],
                &[0, 2, 1, 4, 0, 1, 1, 1, 1, 0],
                &[2, 4, 0, 6, 0],
            ],
            "rule 5 row 0",
            &[
                ([3, 0, 1], "entered 1 track 4"),
                ([4, 1, 0], "moved 1 from 4 to 5"),
                ([3, 0, 2], "entered 2 track 4"),
                ([4, 2, 0], "accident 40 track 5"),
            ],
        ),
        session(
            "rule-12-both-entries",
            "The bench plan, but entry 0's clear list holds track 1 and entry 1's track 0.",
            &[&BENCH_PLAN[..50], &[1, 1, 1, 0]],
            "rule 12 row 0",
            &[],
        ),
        session(
            "rule-12-another-track",
            "The bench plan, but entry 1's clear list holds track 0 in place of its own, track 1: \
             a train is let in onto another.",
            &[&bench_with(53..54, &[0])],
            "rule 12 row 1",
            &[
                ([3, 1, 1], "entered 1 track 1"),
                ([3, 1, 2], "accident 40 track 1"),
            ],
        ),
    ]
}

/// Plain tracks from 0 on, each leading to the one after it, and an exit.
const LINE_OF_4: &[u8] = &[4, 0, 1, 0, 0, 0, 2, 0, 0, 0, 3, 0, 0, 3, 0, 0, 0];

fn paths() -> Vec<Session> {
    vec![
        session(
            "rule-6-later-link",
            "The home, track 0, leads to point 1, but point 1 does not lead to track 4, the next of \
             the path. Rules 7 to 12 are broken too.",
            &[
                THREE_LINES,
                &[3, 0, 4, 6],
                &[2, 0, 3, 1, 4, 2, 0, 1, 1, 1, 1, 0],
                &[0, 3, 1, 4, 2, 0, 1, 1, 1, 1, 0],
                &[2, 4, 0, 6, 0],
            ],
            "rule 6 row 0",
            &[],
        ),
        session(
            "rule-6-back-to-its-home",
            "Tracks 0 and 1 lead to one another, and the path comes back to its own home.",
            &[
                &[2, 0, 1, 0, 0, 0, 0, 0, 0],
                &[1, 0],
                &[1, 0, 2, 1, 0, 2, 0, 1, 0, 0, 0],
                &[0],
            ],
            "rule 6 row 0",
            &[],
        ),
        session(
            "rule-6-back-to-its-path",
            "From its home the path goes to the trailing point 1 and to track 2, and back to point 1.",
            &[
                &[3, 0, 1, 0, 0, 2, 2, 0, 2, 0, 1, 0, 0],
                &[1, 0],
                &[1, 0, 3, 1, 2, 1, 2, 1, 2, 0, 0, 0],
                &[0],
            ],
            "rule 6 row 0",
            &[],
        ),
        session(
            "rule-7-home-on-the-way",
            "The path goes over track 1, the home of signal 1, to the exit: its train is held \
             there at red. Rules 8 to 12 are broken too.",
            &[
                &[
                    6, 0, 1, 0, 0, 0, 2, 0, 0, 3, 0, 0, 0, 1, 4, 5, 0, 3, 0, 0, 0, 3, 0, 0, 0,
                ],
                &[2, 0, 1],
                &[2, 0, 2, 1, 2, 0, 1, 3, 1, 3, 0],
                &[0, 2, 1, 2, 0, 1, 3, 1, 3, 0],
                &[1, 0, 0],
            ],
            "rule 7 row 0",
            &[
                ([3, 0, 1], "entered 1 track 0"),
                ([1, 0, 0], "granted 0"),
                ([4, 1, 0], "moved 1 from 0 to 1"),
                ([4, 1, 0], "refused 19 signal 1"),
            ],
        ),
        session(
            "rule-8-middle-of-the-path",
            "The clear list holds the first and the last track of the path, 1 and 3, and leaves \
             out track 2: a train is sent into another.",
            &[
                LINE_OF_4,
                &[1, 0],
                &[1, 0, 3, 1, 2, 3, 2, 1, 3, 0, 0, 0],
                &[1, 0, 1, 0],
            ],
            "rule 8 row 0",
            &[
                ([3, 0, 1], "entered 1 track 0"),
                ([1, 0, 0], "granted 0"),
                ([4, 1, 0], "moved 1 from 0 to 1"),
                ([1, 0, 0], "refused 13 track 1 train 1"),
                ([4, 1, 0], "moved 1 from 1 to 2"),
                ([3, 0, 2], "entered 2 track 0"),
                ([1, 0, 0], "granted 0"),
                ([4, 2, 0], "moved 2 from 0 to 1"),
                ([4, 2, 0], "accident 40 track 2"),
            ],
        ),
    ]
}

/// A line that parts at point 1, normal to the exit 2 and reverse to the exit 3.
const PARTING: &[u8] = &[4, 0, 1, 0, 0, 1, 2, 3, 0, 3, 0, 0, 0, 3, 0, 0, 0];

/// The bench plan's tracks and signals and a line of its own beside them, from track 4 to the exit
/// 5, with a signal.
const BESIDE: &[u8] = &[
    6, 0, 2, 0, 0, 0, 2, 0, 0, 2, 3, 0, 1, 3, 0, 0, 0, 0, 5, 0, 0, 3, 0, 0, 0, 3, 0, 1, 4,
];

fn points() -> Vec<Session> {
    vec![
        session(
            "rule-9-facing-point-in-the-other-list",
            "The path goes from the facing point 1 to track 2, its normal way out, and the route \
             lists the point reverse: its train goes the other way.",
            &[
                PARTING,
                &[1, 0],
                &[1, 0, 2, 1, 2, 2, 1, 2, 0, 1, 1, 1, 2, 1],
                &[1, 0, 1, 0],
            ],
            "rule 9 row 0",
            &[
                ([3, 0, 1], "entered 1 track 0"),
                ([1, 0, 0], "granted 0"),
                ([4, 1, 0], "moved 1 from 0 to 1"),
                ([4, 1, 0], "moved 1 from 1 to 3"),
            ],
        ),
        session(
            "rule-9-facing-point-in-no-list",
            "The path goes from the facing point 1 to track 3, its reverse way out, and the route \
             does not list the point: its train goes the other way.",
            &[
                PARTING,
                &[1, 0],
                &[1, 0, 2, 1, 3, 2, 1, 3, 0, 0, 0],
                &[1, 0, 1, 0],
            ],
            "rule 9 row 0",
            &[
                ([3, 0, 1], "entered 1 track 0"),
                ([1, 0, 0], "granted 0"),
                ([4, 1, 0], "moved 1 from 0 to 1"),
                ([4, 1, 0], "moved 1 from 1 to 2"),
            ],
        ),
        session(
            "rule-9-trailing-point-in-the-other-list",
            "The bench plan, but the last route, 1, lists point 2 normal and comes to it from its \
             reverse leg: its train runs through it.",
            &[&bench_with(41..44, &[1, 2, 0])],
            "rule 9 row 1",
            &[
                ([3, 1, 1], "entered 1 track 1"),
                ([1, 1, 0], "granted 1"),
                ([4, 1, 0], "accident 41 track 2"),
            ],
        ),
        session(
            "rule-9-both-lists",
            "The bench plan, but route 0 has point 2 in both lists. Reverse wins: its train, which \
             comes from the normal leg, runs through it.",
            &[&bench_with(30..31, &[1, 2])],
            "rule 9 row 0",
            &[
                ([3, 0, 1], "entered 1 track 0"),
                ([1, 0, 0], "granted 0"),
                ([4, 1, 0], "accident 41 track 2"),
            ],
        ),
        session(
            "rule-9-both-lists-off-the-path",
            "A line of its own beside the tracks of the bench plan. Its route has point 2, which \
             is not on its path, in both lists; a second route is the same. Rules 10 to 12 are \
             broken too.",
            &[
                BESIDE,
                &[2, 2, 1, 5, 1, 5, 1, 2, 1, 2, 0],
                &[2, 1, 5, 1, 5, 1, 2, 1, 2, 0],
                &[1, 0, 0],
            ],
            "rule 9 row 0",
            &[],
        ),
        session(
            "rule-10-reverse-point",
            "A line of its own beside the tracks of the bench plan. Its route lists point 2, which \
             is not on its path, reverse and does not look whether it is clear; a second route is \
             the same. Rules 11 and 12 are broken too.",
            &[
                BESIDE,
                &[2, 2, 1, 5, 1, 5, 0, 1, 2, 0],
                &[2, 1, 5, 1, 5, 0, 1, 2, 0],
                &[1, 0, 0],
            ],
            "rule 10 row 0",
            &[],
        ),
    ]
}

fn releases() -> Vec<Session> {
    vec![
        session(
            "rule-11-point-not-given-back",
            "The bench plan, but the last route, 1, has no releases: point 2 stays held when its \
             train has gone.",
            &[&bench_with(44..47, &[0])],
            "rule 11 row 1",
            &[
                ([3, 1, 1], "entered 1 track 1"),
                ([1, 1, 0], "granted 1"),
                ([4, 1, 0], "moved 1 from 1 to 2"),
                ([4, 1, 0], "moved 1 from 2 to 3"),
                ([4, 1, 0], "left 1 from 3"),
                ([1, 0, 0], "refused 14 point 2"),
            ],
        ),
        session(
            "rule-11-point-not-listed",
            "A line of its own beside the tracks of the bench plan. Its route lists no point, \
             looks whether point 2 is clear, as it may, and gives it back when a train arrives on \
             track 5; a second route is the same. Rule 12 is broken too.",
            &[
                BESIDE,
                &[2, 2, 1, 5, 2, 2, 5, 0, 0, 1, 5, 2],
                &[2, 1, 5, 2, 2, 5, 0, 0, 1, 5, 2],
                &[1, 0, 0],
            ],
            "rule 11 row 0",
            &[],
        ),
        session(
            "rule-11-track-off-the-path",
            "The bench plan, but the last route, 1, gives point 2 back when a train arrives on \
             track 0, which is not on its path and which nothing leads to.",
            &[&bench_with(45..46, &[0])],
            "rule 11 row 1",
            &[
                ([3, 0, 2], "entered 2 track 0"),
                ([3, 1, 1], "entered 1 track 1"),
                ([1, 1, 0], "granted 1"),
                ([4, 1, 0], "moved 1 from 1 to 2"),
                ([4, 1, 0], "moved 1 from 2 to 3"),
                ([4, 1, 0], "left 1 from 3"),
                ([1, 0, 0], "refused 14 point 2"),
            ],
        ),
        session(
            "rule-11-track-before-the-point",
            "The path goes over track 1 to the facing point 2, and the route gives the point back \
             when a train arrives on track 1, before it has come to the point.",
            &[
                &[
                    5, 0, 1, 0, 0, 0, 2, 0, 0, 1, 3, 4, 0, 3, 0, 0, 0, 3, 0, 0, 0,
                ],
                &[1, 0],
                &[1, 0, 3, 1, 2, 3, 3, 1, 2, 3, 1, 2, 0, 1, 1, 2],
                &[0],
            ],
            "rule 11 row 0",
            &[],
        ),
    ]
}
