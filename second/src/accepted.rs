//! Plans with what the document allows and a stricter box would not: they are accepted.
//!
//! Like those of the document, the expected lines are written out by hand.

use crate::document::Session;
use crate::rows::session;

pub fn sessions() -> Vec<Session> {
    vec![flank_protection(), nothing_else_is_asked()]
}

/// Two lines, from track 0 over the point 7 and from track 6 over the point 1; a way from each meets
/// at point 3, and goes on to point 4 and the exit 5.
const TWO_LINES: [&[u8]; 7] = [
    &[
        9, 0, 7, 0, 0, 1, 8, 3, 0, 0, 4, 0, 0, 2, 4, 7, 1, 2, 5, 2, 3, 3, 0, 0, 0, 0, 1, 0, 0, 1,
        2, 3, 0, 3, 0, 0, 0,
    ],
    &[2, 0, 6],
    &[
        4, 0, 4, 7, 2, 4, 5, 6, 1, 2, 3, 4, 5, 7, 3, 1, 4, 7, 1, 3, 4, 5, 1, 4, 3, 5, 4, 2, 7,
    ],
    &[
        0, 4, 7, 3, 4, 5, 5, 1, 3, 4, 5, 7, 2, 1, 3, 2, 4, 7, 4, 7, 1, 4, 3, 5, 4, 3, 7,
    ],
    &[1, 2, 1, 8, 3, 1, 3, 8, 1, 1, 0, 1, 8, 1],
    &[
        1, 4, 1, 3, 4, 5, 5, 1, 2, 3, 4, 5, 0, 3, 1, 3, 4, 3, 3, 1, 5, 3, 5, 4,
    ],
    &[2, 0, 2, 0, 7, 6, 3, 1, 3, 6],
];

fn flank_protection() -> Session {
    session(
        "flank-protection",
        "Two lines, from track 0 over point 7 and from track 6 over point 1; a way from each meets \
         at point 3 and goes on to point 4 and the exit 5. Routes 0 and 1 list point 1 normal, \
         and route 0 lists point 3 reverse, though they don't pass there (flank protection); \
         route 1 gives point 1 back at the first track of its path. While one of them holds point \
         1 it can't be turned for route 3 (14 in events 4 and 22), but at the end route 0 gets it \
         beside route 2, which holds it already, since it lies as both want it (46); it goes on \
         holding it when route 2 is cancelled (47, 48). Clear lists hold tracks off the path: route \
         2's point 3, route 3's track 2, and those of the entries. All of it is allowed, and the \
         plan is accepted.",
        &TWO_LINES,
        "accepted",
        &[
            ([3, 0, 1], "entered 1 track 0"),
            ([1, 0, 0], "granted 0"),
            ([3, 1, 2], "entered 2 track 6"),
            // Route 0 holds point 1, off its path; point 3 lies as route 3 wants it.
            ([1, 3, 0], "refused 14 point 1"),
            ([4, 1, 0], "moved 1 from 0 to 7"),
            ([3, 0, 3], "refused 13 track 7 train 1"),
            ([4, 1, 0], "moved 1 from 7 to 2"),
            ([3, 0, 3], "entered 3 track 0"),
            // Track 2 is off route 3's path.
            ([1, 3, 0], "refused 13 track 2 train 1"),
            // Point 7 has been given back, point 3 not yet; point 1 is held and lies right.
            ([1, 1, 0], "refused 14 point 3"),
            ([4, 1, 0], "moved 1 from 2 to 4"),
            ([1, 3, 0], "refused 13 track 4 train 1"),
            ([4, 1, 0], "moved 1 from 4 to 5"),
            ([1, 2, 0], "granted 2"),
            ([4, 2, 0], "moved 2 from 6 to 1"),
            ([4, 1, 0], "left 1 from 5"),
            // Track 1 is off route 1's path.
            ([1, 1, 0], "refused 13 track 1 train 2"),
            ([4, 2, 0], "moved 2 from 1 to 8"),
            ([1, 1, 0], "granted 1"),
            ([4, 2, 0], "left 2 from 8"),
            ([3, 1, 4], "entered 4 track 6"),
            ([1, 3, 0], "refused 14 point 1"),
            ([4, 3, 0], "moved 3 from 0 to 7"),
            // Point 1 has been given back, point 3 not yet.
            ([1, 3, 0], "refused 14 point 3"),
            ([1, 2, 0], "granted 2"),
            ([4, 3, 0], "moved 3 from 7 to 3"),
            ([4, 4, 0], "moved 4 from 6 to 1"),
            ([4, 4, 0], "moved 4 from 1 to 8"),
            ([3, 1, 5], "refused 13 track 3 train 3"),
            ([4, 3, 0], "moved 3 from 3 to 4"),
            ([3, 1, 5], "entered 5 track 6"),
            ([4, 4, 0], "left 4 from 8"),
            ([4, 3, 0], "moved 3 from 4 to 5"),
            ([1, 3, 0], "refused 13 track 5 train 3"),
            ([4, 3, 0], "left 3 from 5"),
            ([1, 3, 0], "granted 3"),
            ([4, 5, 0], "moved 5 from 6 to 1"),
            ([4, 5, 0], "moved 5 from 1 to 3"),
            // Point 3 is off route 2's path, and not listed.
            ([1, 2, 0], "refused 13 track 3 train 5"),
            ([4, 5, 0], "moved 5 from 3 to 4"),
            // Route 3 gave point 1 back at track 3; it holds points 3 and 4 until track 5.
            ([1, 2, 0], "granted 2"),
            ([3, 0, 6], "entered 6 track 0"),
            ([1, 0, 0], "refused 13 track 4 train 5"),
            ([4, 5, 0], "moved 5 from 4 to 5"),
            ([4, 5, 0], "left 5 from 5"),
            // Route 2 holds point 1, and it lies as route 0 wants it.
            ([1, 0, 0], "granted 0"),
            ([2, 2, 0], "cancelled 2"),
            ([1, 3, 0], "refused 14 point 1"),
        ],
    )
}

fn nothing_else_is_asked() -> Session {
    session(
        "nothing-else-is-asked",
        "What looks wrong and is allowed. Nothing leads to track 0, a home, and it is no entry; no \
         route starts at signals 1 and 2, not even at the entry, track 7. Track 3 leads to \
         itself, the facing point 4 to itself by its reverse way, and the trailing point 6 to \
         itself as its own reverse leg; nothing leads to the exit 8. Two routes are alike: their \
         path is one track, and their clear list holds their own home and the far track 3. The \
         entry's clear list holds all tracks.",
        &[
            &[
                9, 0, 1, 0, 0, 0, 2, 0, 0, 3, 0, 0, 0, 0, 3, 0, 0, 1, 5, 4, 0, 3, 0, 0, 0, 2, 6, 7,
                6, 0, 6, 0, 0, 3, 0, 0, 0,
            ],
            &[3, 0, 1, 7],
            &[2, 0, 1, 1, 3, 0, 1, 3, 0, 0, 0],
            &[0, 1, 1, 3, 0, 1, 3, 0, 0, 0],
            &[1, 7, 9, 0, 1, 2, 3, 4, 5, 6, 7, 8],
        ],
        "accepted",
        &[
            ([3, 0, 1], "entered 1 track 7"),
            ([3, 0, 2], "refused 13 track 7 train 1"),
            ([4, 1, 0], "refused 19 signal 2"),
            ([1, 0, 0], "granted 0"),
            ([1, 1, 0], "refused 12"),
            ([2, 1, 0], "refused 15"),
            ([2, 0, 0], "cancelled 0"),
            ([1, 1, 0], "granted 1"),
        ],
    )
}
