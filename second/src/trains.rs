//! Sessions for the train that 13 names: the one on the very track that is named, whatever its number
//! is, whatever stands elsewhere, and whoever asks.
//!
//! Like those of the document, the expected lines are written out by hand.

use crate::document::Session;
use crate::rows::session;

pub fn sessions() -> Vec<Session> {
    vec![in_the_way(), of_the_last()]
}

fn in_the_way() -> Session {
    session(
        "train-in-the-way",
        "Five lines side by side: home 0 leads to the exit 5, home 1 to 6, and so on. Route 3 and \
         entry 3 ask for tracks 1 and 2, route 4 and entry 4 for track 2 and not for track 1, \
         route 2 for track 0; each route asks for its exit too, and each entry for its own track. \
         13 names the lowest track of the list that has a train, and the train on that very \
         track, whatever its number: 13 doesn't look for the lowest or the highest number, nor \
         for a number that is the track's. The train that wants to enter (9 in most of these) is \
         never named. A train on track 0, on the home or on any other track is named only where \
         that track is listed and no lower listed track has one. Events 1 to 3 have one train in \
         the way. In 5 and 6 the lower of two tracks has the higher number; in 7 and 8 that \
         track, 1, is not listed. In 14 and 15 it has the lower number, 2, and in 16 and 17 track \
         2 is named, but train 2 is not on it. From 18 to 25 train 255 is on track 0 and is named \
         only in 23 and 24, where track 0 is listed; from 26 to 28 it is on track 5, which route \
         0 lists and route 3 does not. 11, 27 and 39 name a train on an exit, 24 and 41 one on \
         the entry's own track. In 44 and 45 three trains are in the way, and that of the lowest \
         track, 20, has neither the lowest number nor the highest; in 46 and 47 only train 10 is \
         in the way.",
        &[
            &[
                10, 0, 5, 0, 0, 0, 6, 0, 0, 0, 7, 0, 0, 0, 8, 0, 0, 0, 9, 0, 0,
            ],
            &[3, 0, 0, 0, 3, 0, 0, 0, 3, 0, 0, 0, 3, 0, 0, 0, 3, 0, 0, 0],
            &[5, 0, 1, 2, 3, 4],
            &[5, 0, 1, 5, 1, 5, 0, 0, 0],
            &[1, 1, 6, 1, 6, 0, 0, 0],
            &[2, 1, 7, 2, 0, 7, 0, 0, 0],
            &[3, 1, 8, 3, 1, 2, 8, 0, 0, 0],
            &[4, 1, 9, 2, 2, 9, 0, 0, 0],
            &[5, 0, 1, 0, 1, 1, 1, 2, 1, 2, 3, 3, 1, 2, 3, 4, 2, 2, 4],
        ],
        "accepted",
        &[
            // One train in the way.
            ([3, 1, 7], "entered 7 track 1"),
            ([1, 3, 0], "refused 13 track 1 train 7"),
            ([3, 3, 9], "refused 13 track 1 train 7"),
            // Two: that of the lower track is named, though its number is the higher one.
            ([3, 2, 5], "entered 5 track 2"),
            ([1, 3, 0], "refused 13 track 1 train 7"),
            ([3, 3, 9], "refused 13 track 1 train 7"),
            // Track 1 has train 7, but is not listed.
            ([1, 4, 0], "refused 13 track 2 train 5"),
            ([3, 4, 9], "refused 13 track 2 train 5"),
            // Two, the other way round; train 2 does not stand on track 2.
            ([1, 1, 0], "granted 1"),
            ([4, 7, 0], "moved 7 from 1 to 6"),
            ([1, 1, 0], "refused 13 track 6 train 7"),
            ([4, 7, 0], "left 7 from 6"),
            ([3, 1, 2], "entered 2 track 1"),
            ([1, 3, 0], "refused 13 track 1 train 2"),
            ([3, 3, 9], "refused 13 track 1 train 2"),
            ([1, 4, 0], "refused 13 track 2 train 5"),
            ([3, 4, 1], "refused 13 track 2 train 5"),
            // Train 255, on track 0, is in the way of route 2 and entry 0 alone.
            ([3, 0, 255], "entered 255 track 0"),
            ([1, 3, 0], "refused 13 track 1 train 2"),
            ([3, 3, 9], "refused 13 track 1 train 2"),
            ([1, 4, 0], "refused 13 track 2 train 5"),
            ([3, 4, 9], "refused 13 track 2 train 5"),
            ([1, 2, 0], "refused 13 track 0 train 255"),
            ([3, 0, 9], "refused 13 track 0 train 255"),
            ([1, 0, 0], "granted 0"),
            ([4, 255, 0], "moved 255 from 0 to 5"),
            ([1, 0, 0], "refused 13 track 5 train 255"),
            ([1, 3, 0], "refused 13 track 1 train 2"),
            ([4, 255, 0], "left 255 from 5"),
            // Three: train 40 on track 3, the home of route 3 and the track of entry 3, and then on
            // track 8. Train 20 is neither the lowest nor the highest of them.
            ([1, 1, 0], "granted 1"),
            ([4, 2, 0], "moved 2 from 1 to 6"),
            ([4, 2, 0], "left 2 from 6"),
            ([1, 2, 0], "granted 2"),
            ([4, 5, 0], "moved 5 from 2 to 7"),
            ([4, 5, 0], "left 5 from 7"),
            ([3, 3, 40], "entered 40 track 3"),
            ([1, 3, 0], "granted 3"),
            ([4, 40, 0], "moved 40 from 3 to 8"),
            ([1, 3, 0], "refused 13 track 8 train 40"),
            ([3, 3, 30], "entered 30 track 3"),
            ([3, 3, 9], "refused 13 track 3 train 30"),
            ([3, 1, 20], "entered 20 track 1"),
            ([3, 2, 10], "entered 10 track 2"),
            ([1, 3, 0], "refused 13 track 1 train 20"),
            ([3, 3, 9], "refused 13 track 1 train 20"),
            ([1, 4, 0], "refused 13 track 2 train 10"),
            ([3, 4, 100], "refused 13 track 2 train 10"),
        ],
    )
}

/// As many tracks, routes and entries as there can be. Home 0 leads to track 63; all others but point
/// 62 are exits. The last 16 tracks have an entry each. All clear lists but three are empty, and so are
/// all lists of points and of releases.
fn of_the_last() -> Session {
    let exits = [[3, 0, 0, 0]; 61].concat();
    let routes = [[0, 1, 63, 0, 0, 0, 0]; 47].concat();
    let entries: Vec<u8> = (48..62).flat_map(|track| [track, 0]).collect();
    session(
        "train-in-the-way-of-the-last",
        "The last of 48 routes and the last of 16 entries ask for point 62 and for track 63, the \
         last of 64; entry 14, at point 62, asks for that alone. All other clear lists are empty, \
         and so are all lists of normal points, of reverse points and of releases. There are \
         entries at exits, which breaks rule 5. The train is named there as anywhere.",
        &[
            &[64, 0, 63, 0, 0],
            &exits,
            &[1, 1, 2, 0, 3, 0, 0, 0],
            &[1, 0],
            &[48],
            &routes,
            &[0, 1, 63, 2, 62, 63, 0, 0, 0],
            &[16],
            &entries,
            &[62, 1, 62, 63, 2, 62, 63],
        ],
        "rule 5 row 0",
        &[
            ([3, 15, 128], "entered 128 track 63"),
            ([1, 47, 0], "refused 13 track 63 train 128"),
            ([3, 15, 5], "refused 13 track 63 train 128"),
            ([3, 14, 99], "entered 99 track 62"),
            ([1, 47, 0], "refused 13 track 62 train 99"),
            ([3, 15, 5], "refused 13 track 62 train 99"),
            ([3, 14, 5], "refused 13 track 62 train 99"),
            ([4, 99, 0], "moved 99 from 62 to 1"),
            ([1, 47, 0], "refused 13 track 63 train 128"),
            ([3, 15, 5], "refused 13 track 63 train 128"),
        ],
    )
}
