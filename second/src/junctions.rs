//! Small junctions in which each number, each event byte and each side of a point shows.
//!
//! Like those of the document, the expected lines are written out by hand.

use crate::document::{Session, BENCH_PLAN};
use crate::rows::session;

/// A line parts at point 2 and comes together at point 5 before the exit, track 0.
pub const PARTING_PLAN: [&[u8]; 7] = [
    &[
        6, 3, 0, 0, 0, 0, 2, 0, 0, 1, 3, 4, 0, 0, 5, 0, 0, 0, 5, 0, 0, 2, 0, 3, 4,
    ],
    &[3, 1, 3, 4],
    &[4, 0, 2, 2, 3, 2, 2, 3, 1, 2, 0, 1, 3, 2],
    &[0, 2, 2, 4, 2, 2, 4, 0, 1, 2, 1, 4, 2],
    &[1, 2, 5, 0, 2, 0, 5, 1, 5, 0, 1, 0, 5],
    &[2, 2, 5, 0, 2, 0, 5, 0, 1, 5, 1, 0, 5],
    &[1, 1, 1, 1],
];

pub fn sessions() -> Vec<Session> {
    vec![
        both_ways_and_both_legs(),
        lowest_is_named(),
        point_in_both_lists(),
        track_that_leads_to_itself(),
        exit_that_is_a_home(),
        collision_before_run_through(),
        every_event_byte(),
    ]
}

fn both_ways_and_both_legs() -> Session {
    session(
        "both-ways-and-both-legs",
        "A line parts at the facing point 2, normal to track 3 and reverse to track 4, and comes \
         together at the trailing point 5, whose normal leg is track 3 and whose reverse leg is \
         track 4. Train 1 goes the reverse way and train 2 the normal one; train 3 follows it \
         and finds both signals green.",
        &PARTING_PLAN,
        "accepted",
        &[
            ([3, 0, 1], "entered 1 track 1"),
            ([3, 0, 1], "refused 17"),
            ([3, 0, 2], "refused 13 track 1 train 1"),
            ([4, 1, 0], "refused 19 signal 0"),
            ([1, 1, 0], "granted 1"),
            ([2, 1, 0], "refused 16 track 1"),
            ([4, 1, 0], "moved 1 from 1 to 2"),
            ([4, 1, 0], "moved 1 from 2 to 4"),
            ([3, 0, 2], "entered 2 track 1"),
            ([1, 0, 0], "granted 0"),
            ([4, 2, 0], "moved 2 from 1 to 2"),
            ([4, 2, 0], "moved 2 from 2 to 3"),
            ([4, 1, 0], "refused 19 signal 2"),
            ([1, 3, 0], "granted 3"),
            ([4, 2, 0], "refused 19 signal 1"),
            ([1, 2, 0], "refused 14 point 5"),
            ([4, 1, 0], "moved 1 from 4 to 5"),
            ([1, 2, 0], "refused 13 track 5 train 1"),
            ([4, 1, 0], "moved 1 from 5 to 0"),
            ([1, 2, 0], "refused 13 track 0 train 1"),
            ([4, 1, 0], "left 1 from 0"),
            ([1, 2, 0], "granted 2"),
            ([4, 2, 0], "moved 2 from 3 to 5"),
            ([4, 2, 0], "moved 2 from 5 to 0"),
            ([4, 2, 0], "left 2 from 0"),
            ([1, 0, 0], "granted 0"),
            ([1, 2, 0], "granted 2"),
            ([3, 0, 3], "entered 3 track 1"),
            ([4, 3, 0], "moved 3 from 1 to 2"),
            ([4, 3, 0], "moved 3 from 2 to 3"),
            ([4, 3, 0], "moved 3 from 3 to 5"),
            ([4, 3, 0], "moved 3 from 5 to 0"),
            ([4, 3, 0], "left 3 from 0"),
        ],
    )
}

fn lowest_is_named() -> Session {
    session(
        "lowest-is-named",
        "Two lines, each with a facing point, 1 and 5, and a plan that is bad so that 42 can come. \
         Wherever both tracks or points are in the way, the lower one is named: of two tracks \
         with a train the lower track, with the train on it (13, for a \
         request and for an entry); of two points that would turn under a train (42), or that are \
         held and would turn (14), the lower point. 14 comes before 42. A point that is held and \
         lies as it is wanted is not in the way: near the end route 3 is granted again, though its \
         own holds are still there; they fall with its cancel all the same.",
        &[
            &[8, 0, 1, 0, 0, 1, 2, 3, 0, 3, 0, 0, 0, 3, 0, 0, 0],
            &[0, 5, 0, 0, 1, 6, 7, 0, 3, 0, 0, 0, 3, 0, 0, 0],
            &[2, 0, 4],
            &[5, 0, 2, 1, 2, 2, 1, 2, 0, 0, 0],
            &[1, 2, 5, 6, 2, 5, 6, 0, 0, 0],
            &[0, 2, 1, 3, 2, 1, 5, 1, 5, 1, 1, 0],
            &[0, 2, 1, 3, 0, 0, 2, 1, 5, 0],
            &[1, 2, 5, 7, 0, 2, 1, 5, 0, 0],
            &[2, 0, 2, 1, 5, 4, 1, 4],
        ],
        "rule 8 row 2",
        &[
            ([3, 0, 1], "entered 1 track 0"),
            ([3, 1, 2], "entered 2 track 4"),
            ([1, 0, 0], "granted 0"),
            ([1, 1, 0], "granted 1"),
            ([4, 1, 0], "moved 1 from 0 to 1"),
            ([4, 2, 0], "moved 2 from 4 to 5"),
            ([1, 2, 0], "refused 13 track 1 train 1"),
            ([3, 0, 3], "refused 13 track 1 train 1"),
            ([1, 3, 0], "accident 42 point 1"),
            ([4, 1, 0], "moved 1 from 1 to 2"),
            ([4, 2, 0], "moved 2 from 5 to 6"),
            ([1, 3, 0], "granted 3"),
            ([1, 4, 0], "refused 14 point 1"),
            ([4, 1, 0], "left 1 from 2"),
            ([4, 2, 0], "left 2 from 6"),
            ([3, 1, 4], "entered 4 track 4"),
            ([1, 1, 0], "granted 1"),
            ([4, 4, 0], "moved 4 from 4 to 5"),
            // Point 5 would turn under train 4, but 14 comes first.
            ([1, 4, 0], "refused 14 point 1"),
            ([4, 4, 0], "moved 4 from 5 to 7"),
            ([3, 0, 3], "entered 3 track 0"),
            ([4, 3, 0], "moved 3 from 0 to 1"),
            ([4, 3, 0], "moved 3 from 1 to 3"),
            // Nothing but its own holds is there, of points that lie as it wants them.
            ([1, 3, 0], "granted 3"),
            // They are there once more, and a cancel drops them.
            ([1, 4, 0], "refused 14 point 1"),
            ([2, 3, 0], "cancelled 3"),
            ([1, 4, 0], "granted 4"),
        ],
    )
}

fn point_in_both_lists() -> Session {
    session(
        "point-in-both-lists",
        "A line parts at point 1. Route 1 lists no point, and its train goes the normal way, as \
         the point lies from the start. Route 0 lists point 1 normal and reverse, and reverse \
         wins: its train goes the reverse way. With that train on the point route 0 can be \
         granted again, since the point would lie reverse in the end, as it does; route 2, which \
         lists it normal, would turn it under the train. At the end route 2's hold stays, though \
         a train enters at its release track and then arrives at route 0's.",
        &[
            &[4, 0, 1, 0, 0, 1, 2, 3, 0, 3, 0, 0, 0, 3, 0, 0, 0],
            &[1, 0],
            &[3, 0, 2, 1, 3, 0, 1, 1, 1, 1, 1, 1, 1],
            &[0, 2, 1, 2, 0, 0, 0, 0],
            &[0, 2, 1, 2, 0, 1, 1, 0, 1, 0, 1],
            &[1, 0, 1, 0],
        ],
        "rule 8 row 0",
        &[
            ([3, 0, 1], "entered 1 track 0"),
            ([1, 1, 0], "granted 1"),
            ([4, 1, 0], "moved 1 from 0 to 1"),
            ([4, 1, 0], "moved 1 from 1 to 2"),
            ([4, 1, 0], "left 1 from 2"),
            ([3, 0, 2], "entered 2 track 0"),
            ([1, 0, 0], "granted 0"),
            ([4, 2, 0], "moved 2 from 0 to 1"),
            ([1, 2, 0], "accident 42 point 1"),
            ([1, 0, 0], "granted 0"),
            ([4, 2, 0], "moved 2 from 1 to 3"),
            ([1, 2, 0], "refused 12"),
            ([2, 2, 0], "refused 15"),
            ([2, 0, 0], "cancelled 0"),
            ([1, 2, 0], "granted 2"),
            ([3, 0, 3], "entered 3 track 0"),
            ([4, 3, 0], "moved 3 from 0 to 1"),
            // Neither the entry nor route 0's release has dropped route 2's hold.
            ([1, 0, 0], "refused 14 point 1"),
            ([4, 3, 0], "moved 3 from 1 to 2"),
        ],
    )
}

fn track_that_leads_to_itself() -> Session {
    session(
        "track-that-leads-to-itself",
        "One track that leads to itself, with a signal, an entry and a route whose path is that \
         track alone and whose other lists are empty. A train that moves there collides with \
         itself, since the moving one counts too; one that is let in where a train is collides with that one. \
         Train 255 is the last number there is.",
        &[
            &[1, 0, 0, 0, 0],
            &[1, 0],
            &[1, 0, 1, 0, 0, 0, 0, 0],
            &[1, 0, 0],
        ],
        "rule 5 row 0",
        &[
            ([3, 0, 255], "entered 255 track 0"),
            ([3, 0, 255], "refused 17"),
            ([3, 0, 1], "accident 40 track 0"),
            ([4, 1, 0], "refused 18"),
            ([4, 255, 0], "refused 19 signal 0"),
            ([1, 0, 0], "granted 0"),
            ([4, 255, 0], "accident 40 track 0"),
            ([2, 0, 0], "refused 16 track 0"),
            ([4, 255, 0], "accident 40 track 0"),
        ],
    )
}

fn exit_that_is_a_home() -> Session {
    session(
        "exit-that-is-a-home",
        "One track, an exit, with a signal, an entry and a route. A train leaves when the signal \
         is green, and it goes red behind the train: the next one is held at red.",
        &[
            &[1, 3, 0, 0, 0],
            &[1, 0],
            &[1, 0, 1, 0, 0, 0, 0, 0],
            &[1, 0, 0],
        ],
        "rule 4 row 0",
        &[
            ([3, 0, 1], "entered 1 track 0"),
            ([4, 1, 0], "refused 19 signal 0"),
            ([1, 0, 0], "granted 0"),
            ([4, 1, 0], "left 1 from 0"),
            ([4, 1, 0], "refused 18"),
            ([3, 0, 2], "entered 2 track 0"),
            ([4, 2, 0], "refused 19 signal 0"),
        ],
    )
}

fn collision_before_run_through() -> Session {
    session(
        "collision-before-run-through",
        "Three lines lead to the trailing point 3, whose legs are tracks 0 and 1; no route lists \
         the point. While train 1 stands on it the others collide there (40); when it has gone \
         on they run through, train 2 from the reverse leg of a point that lies normal and train \
         3 from a track that is no leg (41).",
        &[
            &[
                5, 0, 3, 0, 0, 0, 3, 0, 0, 0, 3, 0, 0, 2, 4, 0, 1, 3, 0, 0, 0,
            ],
            &[3, 0, 1, 2],
            &[3, 0, 2, 3, 4, 0, 0, 0, 0],
            &[1, 2, 3, 4, 0, 0, 0, 0],
            &[2, 2, 3, 4, 0, 0, 0, 0],
            &[3, 0, 1, 0, 1, 1, 1, 2, 1, 2],
        ],
        "rule 3 row 3",
        &[
            ([3, 0, 1], "entered 1 track 0"),
            ([3, 1, 2], "entered 2 track 1"),
            ([3, 2, 3], "entered 3 track 2"),
            ([1, 0, 0], "granted 0"),
            ([1, 1, 0], "granted 1"),
            ([1, 2, 0], "granted 2"),
            ([4, 1, 0], "moved 1 from 0 to 3"),
            ([4, 2, 0], "accident 40 track 3"),
            ([4, 3, 0], "accident 40 track 3"),
            ([4, 1, 0], "moved 1 from 3 to 4"),
            ([4, 2, 0], "accident 41 track 3"),
            ([4, 3, 0], "accident 41 track 3"),
            ([4, 1, 0], "left 1 from 4"),
        ],
    )
}

fn every_event_byte() -> Session {
    // Each unknown kind as a request, a cancel or a move would be, and then as an entry.
    let unknown = || std::iter::once(0).chain(5..=255);
    let mut events: Vec<([u8; 3], &str)> = Vec::new();
    events.extend(unknown().map(|kind| ([kind, 1, 0], "refused 11")));
    events.extend(unknown().map(|kind| ([kind, 0, 1], "refused 11")));
    events.extend([
        ([1, 0, 1], "refused 11"),
        ([1, 0, 2], "refused 11"),
        ([1, 0, 255], "refused 11"),
        ([1, 2, 0], "refused 11"),
        ([1, 255, 0], "refused 11"),
        ([1, 1, 0], "granted 1"),
        ([2, 1, 1], "refused 11"),
        ([2, 1, 2], "refused 11"),
        ([2, 1, 255], "refused 11"),
        ([2, 2, 0], "refused 11"),
        ([2, 1, 0], "cancelled 1"),
        ([3, 2, 1], "refused 11"),
        ([3, 1, 0], "refused 11"),
        ([3, 1, 3], "entered 3 track 1"),
        ([1, 1, 0], "granted 1"),
        ([4, 3, 1], "refused 11"),
        ([4, 3, 2], "refused 11"),
        ([4, 3, 255], "refused 11"),
        ([4, 0, 0], "refused 11"),
        ([4, 3, 0], "moved 3 from 1 to 2"),
        ([4, 3, 0], "moved 3 from 2 to 3"),
        ([3, 1, 255], "entered 255 track 1"),
        ([4, 3, 0], "left 3 from 3"),
    ]);
    session(
        "every-event-byte",
        "The bench plan and every kind of event: 1 request, 2 cancel, 3 enter, 4 move. There is \
         no other kind: each of the 252 others is tried as a request, a cancel or a move would \
         be, and as an entry. The unused third byte must be 0, the route or entry must exist, \
         and a train's number is 1 to 255.",
        &[&BENCH_PLAN],
        "accepted",
        &events,
    )
}
