//! Plans that break one rule alone, at the last row that the rule counts, and others that a check
//! of too few rows or too many would take for something else.
//!
//! Like those of the document, the expected lines are written out by hand.

use crate::document::{Session, BENCH_PLAN};

pub fn sessions() -> Vec<Session> {
    let mut sessions = track_rules();
    sessions.extend(signal_and_entry_rules());
    sessions.extend(route_rules());
    sessions.push(exit_first());
    sessions.push(every_refusal());
    sessions
}

/// A session of a plan by its sections, and of events with the line of each.
pub fn session(
    name: &'static str,
    about: &'static str,
    plan: &[&[u8]],
    verdict: &str,
    events: &[([u8; 3], &str)],
) -> Session {
    let mut expected = format!("{verdict}\n");
    for (_, line) in events {
        expected.push_str(line);
        expected.push('\n');
    }
    Session {
        name,
        about,
        plan: Some(plan.concat()),
        events: events.iter().flat_map(|(event, _)| *event).collect(),
        expected,
    }
}

/// A facing point to an exit and to a line with a trailing point, the last track, whose legs are
/// these.
fn siding(name: &'static str, about: &'static str, legs: [u8; 2], verdict: &str) -> Session {
    session(
        name,
        about,
        &[
            &[
                6, 0, 1, 0, 0, 1, 2, 3, 0, 3, 0, 0, 0, 0, 5, 0, 0, 3, 0, 0, 0,
            ],
            &[2, 4, legs[0], legs[1]],
            &[1, 0],
            &[2, 0, 2, 1, 2, 2, 1, 2, 1, 1, 0, 1, 2, 1],
            &[0, 4, 1, 3, 5, 4, 4, 1, 3, 4, 5, 1, 5, 1, 1, 2, 3, 1, 4, 5],
            &[1, 0, 1, 0],
        ],
        verdict,
        &[
            ([3, 0, 1], "entered 1 track 0"),
            ([1, 1, 0], "granted 1"),
            ([4, 1, 0], "moved 1 from 0 to 1"),
            ([4, 1, 0], "moved 1 from 1 to 3"),
            ([4, 1, 0], "moved 1 from 3 to 5"),
            ([4, 1, 0], "moved 1 from 5 to 4"),
            ([4, 1, 0], "left 1 from 4"),
        ],
    )
}

fn track_rules() -> Vec<Session> {
    vec![
        siding(
            "rule-1-last-row",
            "The last track, 5, is a trailing point whose legs are both track 3.",
            [3, 3],
            "rule 1 row 5",
        ),
        siding(
            "rule-2-last-row",
            "The last track, 5, is a trailing point whose reverse leg is track 2, an exit.",
            [3, 2],
            "rule 2 row 5",
        ),
        session(
            "rule-3-last-row",
            "Tracks 2 and 3 both lead to the last track, 4, an exit. Each of two trains has a \
             route of its own, and they collide there.",
            &[
                &[
                    5, 0, 1, 0, 0, 1, 2, 3, 0, 0, 4, 0, 0, 0, 4, 0, 0, 3, 0, 0, 0,
                ],
                &[1, 0],
                &[2, 0, 3, 1, 2, 4, 3, 1, 2, 4, 1, 1, 0, 1, 2, 1],
                &[0, 3, 1, 3, 4, 3, 1, 3, 4, 0, 1, 1, 1, 3, 1],
                &[1, 0, 1, 0],
            ],
            "rule 3 row 4",
            &[
                ([3, 0, 1], "entered 1 track 0"),
                ([1, 0, 0], "granted 0"),
                ([4, 1, 0], "moved 1 from 0 to 1"),
                ([4, 1, 0], "moved 1 from 1 to 2"),
                ([3, 0, 2], "entered 2 track 0"),
                ([1, 1, 0], "granted 1"),
                ([4, 2, 0], "moved 2 from 0 to 1"),
                ([4, 2, 0], "moved 2 from 1 to 3"),
                ([4, 1, 0], "moved 1 from 2 to 4"),
                ([4, 2, 0], "accident 40 track 4"),
            ],
        ),
    ]
}

fn signal_and_entry_rules() -> Vec<Session> {
    vec![
        session(
            "rule-4-last-row",
            "The bench plan with a third signal, at the exit. A train waits there for good.",
            &[&BENCH_PLAN[..17], &[3, 0, 1, 3], &BENCH_PLAN[20..]],
            "rule 4 row 2",
            &[
                ([3, 0, 1], "entered 1 track 0"),
                ([1, 0, 0], "granted 0"),
                ([4, 1, 0], "moved 1 from 0 to 2"),
                ([4, 1, 0], "moved 1 from 2 to 3"),
                ([4, 1, 0], "refused 19 signal 2"),
            ],
        ),
        session(
            "rule-5-last-row",
            "Two lines merge before a third signal, and the last entry, 2, is at its home, which \
             the point leads to: a train is let in ahead of another that has its route.",
            &[
                &[
                    5, 0, 2, 0, 0, 0, 2, 0, 0, 2, 3, 0, 1, 0, 4, 0, 0, 3, 0, 0, 0,
                ],
                &[3, 0, 1, 3],
                &[3, 0, 2, 2, 3, 2, 2, 3, 1, 2, 0, 1, 3, 2],
                &[1, 2, 2, 3, 2, 2, 3, 0, 1, 2, 1, 3, 2],
                &[2, 1, 4, 1, 4, 0, 0, 0],
                &[3, 0, 1, 0, 1, 1, 1, 3, 1, 3],
            ],
            "rule 5 row 2",
            &[
                ([3, 0, 1], "entered 1 track 0"),
                ([1, 0, 0], "granted 0"),
                ([4, 1, 0], "moved 1 from 0 to 2"),
                ([3, 2, 2], "entered 2 track 3"),
                ([4, 1, 0], "accident 40 track 3"),
            ],
        ),
    ]
}

fn route_rules() -> Vec<Session> {
    vec![
        session(
            "rule-6-last-row",
            "The bench plan, but the last route, 1, leaves point 2 out of its path: its home does \
             not lead to track 3.",
            &[&BENCH_PLAN[..35], &[1, 3], &BENCH_PLAN[38..]],
            "rule 6 row 1",
            &[
                ([1, 1, 0], "granted 1"),
                ([3, 1, 1], "entered 1 track 1"),
                ([4, 1, 0], "moved 1 from 1 to 2"),
                ([4, 1, 0], "moved 1 from 2 to 3"),
                ([4, 1, 0], "left 1 from 3"),
            ],
        ),
        session(
            "rule-7-last-row",
            "Two lines merge, and the last route, 1, ends at track 3, which is neither a home nor \
             an exit: its train goes on into the one that stands at the exit.",
            &[
                &[
                    5, 0, 2, 0, 0, 0, 2, 0, 0, 2, 3, 0, 1, 0, 4, 0, 0, 3, 0, 0, 0,
                ],
                &[2, 0, 1],
                &[2, 0, 3, 2, 3, 4, 3, 2, 3, 4, 1, 2, 0, 1, 3, 2],
                &[1, 2, 2, 3, 2, 2, 3, 0, 1, 2, 1, 3, 2],
                &[2, 0, 1, 0, 1, 1, 1],
            ],
            "rule 7 row 1",
            &[
                ([3, 0, 1], "entered 1 track 0"),
                ([1, 0, 0], "granted 0"),
                ([4, 1, 0], "moved 1 from 0 to 2"),
                ([4, 1, 0], "moved 1 from 2 to 3"),
                ([4, 1, 0], "moved 1 from 3 to 4"),
                ([3, 1, 2], "entered 2 track 1"),
                ([1, 1, 0], "granted 1"),
                ([4, 2, 0], "moved 2 from 1 to 2"),
                ([4, 2, 0], "moved 2 from 2 to 3"),
                ([4, 2, 0], "accident 40 track 4"),
            ],
        ),
        session(
            "rule-10-last-row",
            "The bench plan and a line of its own beside it. The last route, 2, lists point 2 off \
             its path and does not look whether the point is clear. While route 1's train is on it \
             nothing but route 1's hold keeps it from being turned for route 2.",
            &[
                &[
                    6, 0, 2, 0, 0, 0, 2, 0, 0, 2, 3, 0, 1, 3, 0, 0, 0, 0, 5, 0, 0, 3, 0, 0, 0,
                ],
                &[3, 0, 1, 4],
                &[3, 0, 2, 2, 3, 2, 2, 3, 1, 2, 0, 1, 3, 2],
                &[1, 2, 2, 3, 2, 2, 3, 0, 1, 2, 1, 3, 2],
                &[2, 1, 5, 1, 5, 1, 2, 0, 1, 5, 2],
                &[3, 0, 1, 0, 1, 1, 1, 4, 1, 4],
            ],
            "rule 10 row 2",
            &[
                ([3, 1, 1], "entered 1 track 1"),
                ([1, 1, 0], "granted 1"),
                ([4, 1, 0], "moved 1 from 1 to 2"),
                ([1, 2, 0], "refused 14 point 2"),
                ([4, 1, 0], "moved 1 from 2 to 3"),
                ([1, 2, 0], "granted 2"),
            ],
        ),
    ]
}

fn exit_first() -> Session {
    session(
        "accepted-exit-first",
        "Two lines merge before track 0, an exit. A signal, entry, route or track past the last \
         would name track 0 and break a rule: it is not plain, has its one forerunner, and is not \
         led to by the home of signal 0.",
        &[
            &[4, 3, 0, 0, 0, 0, 3, 0, 0, 0, 3, 0, 0, 2, 0, 1, 2],
            &[2, 1, 2],
            &[2, 0, 2, 3, 0, 2, 0, 3, 1, 3, 0, 1, 0, 3],
            &[1, 2, 3, 0, 2, 0, 3, 0, 1, 3, 1, 0, 3],
            &[2, 1, 1, 1, 2, 1, 2],
        ],
        "accepted",
        &[
            ([1, 2, 0], "refused 11"),
            ([2, 2, 0], "refused 11"),
            ([3, 2, 1], "refused 11"),
            ([3, 1, 1], "entered 1 track 2"),
            ([1, 1, 0], "granted 1"),
            ([4, 1, 0], "moved 1 from 2 to 3"),
            ([4, 1, 0], "moved 1 from 3 to 0"),
            ([4, 1, 0], "left 1 from 0"),
        ],
    )
}

fn every_refusal() -> Session {
    session(
        "every-refusal",
        "The bench plan with every refusal but 10, which events alone can't bring about. What \
         comes after each shows that it changed nothing.",
        &[&BENCH_PLAN],
        "accepted",
        &[
            // Six events that are none. Track 0 is empty after them, and train 1 outside.
            ([5, 0, 0], "refused 11"),
            ([1, 2, 0], "refused 11"),
            ([1, 0, 1], "refused 11"),
            ([3, 2, 1], "refused 11"),
            ([3, 0, 0], "refused 11"),
            ([4, 0, 0], "refused 11"),
            ([3, 0, 1], "entered 1 track 0"),
            // Track 1 is still empty.
            ([3, 1, 1], "refused 17"),
            ([3, 1, 2], "entered 2 track 1"),
            // Train 3 is still outside; then train 1 still at red, and signal 0 not green.
            ([3, 1, 3], "refused 13 track 1 train 2"),
            ([4, 3, 0], "refused 18"),
            ([4, 1, 0], "refused 19 signal 0"),
            ([2, 0, 0], "refused 15"),
            ([1, 0, 0], "granted 0"),
            // Signal 0 is still green for route 0, and point 2 still held and normal.
            ([1, 0, 0], "refused 12"),
            ([2, 0, 0], "refused 16 track 0"),
            ([1, 1, 0], "refused 14 point 2"),
            ([4, 1, 0], "moved 1 from 0 to 2"),
            // Signal 1 is still red, and train 1 goes on from where it was.
            ([1, 1, 0], "refused 13 track 2 train 1"),
            ([4, 2, 0], "refused 19 signal 1"),
            ([4, 1, 0], "moved 1 from 2 to 3"),
            ([4, 1, 0], "left 1 from 3"),
            // Neither route is held up by the other's refused cancel.
            ([1, 1, 0], "granted 1"),
            ([2, 0, 0], "refused 15"),
            ([1, 0, 0], "refused 14 point 2"),
            ([4, 2, 0], "moved 2 from 1 to 2"),
            ([4, 2, 0], "moved 2 from 2 to 3"),
            ([4, 2, 0], "left 2 from 3"),
            ([4, 2, 0], "refused 18"),
            ([1, 0, 0], "granted 0"),
            ([2, 0, 0], "cancelled 0"),
            ([2, 0, 0], "refused 15"),
            ([1, 1, 0], "granted 1"),
        ],
    )
}
