//! Sessions in which two tests or more apply at once: the first in the document's order answers.
//!
//! Like those of the document, the expected lines are written out by hand.

use crate::document::Session;
use crate::rows::session;

pub fn sessions() -> Vec<Session> {
    vec![requests_and_cancels(), entries_and_moves()]
}

fn requests_and_cancels() -> Session {
    session(
        "first-test-of-requests-and-cancels",
        "A line parts at point 1, normal to track 2 and reverse to track 3. Route 0 lists the \
         point normal, routes 1 and 2 list it reverse, and route 3 does not list it; route 2 \
         alone looks whether the point is clear, and none gives it back, so that route 0 holds it \
         from event 24 on, lying normal. Wherever several tests apply at once, the first of 11, 12, 13, 14, 42 answers a request, and the first of 11, \
         15, 16 a cancel.",
        &[
            &[4, 0, 1, 0, 0, 1, 2, 3, 0, 3, 0, 0, 0, 3, 0, 0, 0],
            &[1, 0],
            &[4, 0, 2, 1, 2, 0, 1, 1, 0, 0],
            &[0, 2, 1, 3, 0, 0, 1, 1, 0],
            &[0, 2, 1, 3, 1, 1, 0, 1, 1, 0],
            &[0, 2, 1, 2, 0, 0, 0, 0],
            &[1, 0, 1, 0],
        ],
        "rule 8 row 0",
        &[
            ([3, 0, 1], "entered 1 track 0"),
            ([1, 3, 0], "granted 3"),
            ([4, 1, 0], "moved 1 from 0 to 1"),
            // The point lies normal under train 1, and nothing is held. 11 and 42:
            ([1, 1, 7], "refused 11"),
            ([1, 1, 0], "accident 42 point 1"),
            // 11, 13 and 42, then 13 and 42:
            ([1, 2, 7], "refused 11"),
            ([1, 2, 0], "refused 13 track 1 train 1"),
            ([1, 3, 0], "granted 3"),
            // Now the signal is green for route 3. 11 and 12; 12 and 42; 12, 13 and 42:
            ([1, 3, 7], "refused 11"),
            ([1, 1, 0], "refused 12"),
            ([1, 2, 0], "refused 12"),
            // 11 and 15:
            ([2, 1, 7], "refused 11"),
            ([2, 1, 0], "refused 15"),
            ([3, 0, 2], "entered 2 track 0"),
            // With train 2 at home. 11 and 16; 15 and 16:
            ([2, 3, 7], "refused 11"),
            ([2, 3, 0], "refused 16 track 0"),
            ([2, 1, 0], "refused 15"),
            ([4, 1, 0], "moved 1 from 1 to 2"),
            ([4, 2, 0], "moved 2 from 0 to 1"),
            ([4, 2, 0], "accident 40 track 2"),
            ([4, 1, 0], "left 1 from 2"),
            ([4, 2, 0], "moved 2 from 1 to 2"),
            ([3, 0, 3], "entered 3 track 0"),
            ([1, 0, 0], "granted 0"),
            ([4, 3, 0], "moved 3 from 0 to 1"),
            // The point lies normal under train 3 and is held by route 0. 11, 14 and 42; 14 and 42:
            ([1, 1, 7], "refused 11"),
            ([1, 1, 0], "refused 14 point 1"),
            // 13, 14 and 42:
            ([1, 2, 0], "refused 13 track 1 train 3"),
            ([1, 3, 0], "granted 3"),
            // Green for route 3. 12, 14 and 42; 12, 13, 14 and 42:
            ([1, 1, 0], "refused 12"),
            ([1, 2, 0], "refused 12"),
            ([4, 2, 0], "left 2 from 2"),
            ([4, 3, 0], "moved 3 from 1 to 2"),
            // No train is on the point any more. 11, 12 and 14; 12 and 14:
            ([1, 1, 7], "refused 11"),
            ([1, 1, 0], "refused 12"),
            ([2, 3, 0], "cancelled 3"),
            // 11 and 14; 14 alone:
            ([1, 1, 7], "refused 11"),
            ([1, 1, 0], "refused 14 point 1"),
        ],
    )
}

fn entries_and_moves() -> Session {
    session(
        "first-test-of-entries-and-moves",
        "The tracks of the bench plan, with routes that list nothing. Entry 0 looks at its track \
         and at point 2, entry 1 at no track. Wherever several tests apply at once, the first of \
         11, 17, 13, 40 answers an entry, and the first of 11, 18, 19, 40, 41 a move.",
        &[
            &[4, 0, 2, 0, 0, 0, 2, 0, 0, 2, 3, 0, 1, 3, 0, 0, 0],
            &[2, 0, 1],
            &[2, 0, 2, 2, 3, 0, 0, 0, 0],
            &[1, 2, 2, 3, 0, 0, 0, 0],
            &[2, 0, 2, 0, 2, 1, 0],
        ],
        "rule 8 row 0",
        &[
            ([3, 0, 1], "entered 1 track 0"),
            ([3, 1, 2], "entered 2 track 1"),
            // 11 and 17; 17, 13 and 40; 17 and 40:
            ([3, 2, 1], "refused 11"),
            ([3, 0, 1], "refused 17"),
            ([3, 1, 1], "refused 17"),
            // 11, 13 and 40; 11 and 40:
            ([3, 0, 0], "refused 11"),
            ([3, 1, 0], "refused 11"),
            // 13 and 40:
            ([3, 0, 3], "refused 13 track 0 train 1"),
            ([3, 1, 3], "accident 40 track 1"),
            // 11 and 18:
            ([4, 3, 7], "refused 11"),
            ([4, 3, 0], "refused 18"),
            // Point 2 lies normal, and track 1 is its reverse leg. 11, 19 and 41; 19 and 41:
            ([4, 2, 7], "refused 11"),
            ([4, 2, 0], "refused 19 signal 1"),
            ([1, 0, 0], "granted 0"),
            ([4, 1, 0], "moved 1 from 0 to 2"),
            // 19, 40 and 41:
            ([4, 2, 0], "refused 19 signal 1"),
            ([1, 1, 0], "granted 1"),
            // 11, 40 and 41; 40 and 41:
            ([4, 2, 7], "refused 11"),
            ([4, 2, 0], "accident 40 track 2"),
            ([4, 1, 0], "moved 1 from 2 to 3"),
            // 11 and 41:
            ([4, 2, 7], "refused 11"),
            ([4, 2, 0], "accident 41 track 2"),
        ],
    )
}
