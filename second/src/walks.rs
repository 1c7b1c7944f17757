//! Sessions for the tests that walk a list: 13 walks the clear list, 14 and 42 walk the normal and the
//! reverse points, and each names the lowest that it finds, wherever in its list that stands.
//!
//! Like those of the document, the expected lines are written out by hand.

use crate::document::Session;
use crate::rows::session;

pub fn sessions() -> Vec<Session> {
    vec![walked_list(), long_list()]
}

/// Five facing points, 2 to 6, with the ways out 7 and 8, both exits; two homes, 0 and 1. There is an
/// entry at every track, the points included, so that a train can be put anywhere.
const FIVE_POINTS: [&[u8]; 17] = [
    &[9, 0, 2, 0, 0, 0, 3, 0, 0],
    &[1, 7, 8, 0, 1, 7, 8, 0, 1, 7, 8, 0, 1, 7, 8, 0, 1, 7, 8, 0],
    &[3, 0, 0, 0, 3, 0, 0, 0],
    &[2, 0, 1],
    // Routes 0 to 3 ask from home 0, for nothing, all tracks, three tracks and all points.
    &[14, 0, 2, 2, 7, 0, 0, 0, 0],
    &[0, 2, 2, 7, 9, 0, 1, 2, 3, 4, 5, 6, 7, 8, 0, 0, 0],
    &[0, 2, 2, 7, 3, 2, 5, 8, 0, 0, 0],
    &[0, 2, 2, 7, 0, 3, 2, 3, 6, 2, 4, 5, 0],
    // Routes 4 to 11, from home 1, are there to hold points, and to turn them.
    &[1, 2, 3, 7, 0, 0, 1, 2, 0, 1, 2, 3, 7, 0, 0, 1, 6, 0],
    &[1, 2, 3, 7, 0, 0, 2, 2, 6, 0],
    &[1, 2, 3, 7, 0, 1, 4, 0, 0, 1, 2, 3, 7, 0, 1, 5, 0, 0],
    &[1, 2, 3, 7, 0, 2, 4, 5, 0, 0],
    &[1, 2, 3, 7, 0, 1, 4, 1, 3, 0, 1, 2, 3, 7, 0, 1, 4, 1, 6, 0],
    // Route 12 lists point 2 normal and reverse, route 13 point 6 alone.
    &[0, 2, 2, 7, 0, 1, 2, 1, 2, 0],
    &[0, 2, 2, 7, 0, 1, 6, 0, 0],
    &[9, 0, 9, 0, 1, 2, 3, 4, 5, 6, 7, 8, 1, 3, 2, 5, 8],
    &[2, 0, 3, 0, 4, 0, 5, 0, 6, 0, 7, 0, 8, 0],
];

fn walked_list() -> Session {
    session(
        "walks-the-list",
        "Five points, 2 to 6, with the exits 7 and 8 as their ways out, which breaks rule 3, and \
         an entry at every track, the points too, so that a train can be put anywhere, which \
         breaks rule 5. Events 1 to 4 try empty clear lists, 5 to 39 show 13, 40 to 66 show 14 \
         and 67 to 101 show 42. All routes but 1 and 2, and the entries 2 to 8, have empty clear \
         lists: 13 never refuses them, and an entry onto a train is then an accident (event 3). \
         Route 1 and entry 0 ask for all nine tracks, route 2 and entry 1 for tracks 2, 5 and 8, \
         of which none has the number of its place. 13 names the lowest of the list that has a \
         train, and that train, at the first place, the last or between them; a lower track that \
         has a train and is not listed does not matter. Route 3 lists the points 2, 3 and 6 \
         normal and 4 and 5 reverse; routes 4 to 11, from the other home, hold one of them or \
         two, and list them the other way, so that from event 67 to 97 points 2, 3 and 6 lie \
         reverse and 4 and 5 normal. 14, and then 42, name the lowest point of those that \
         would turn and are held, or have a train, of both lists together: the first of a list, \
         the last or one between them, the lower one in normal or in reverse. Route 0 lists no point, so that \
         none is in its way, and route 13 lists point 6 alone. Route 12 lists point 2 both ways, \
         and reverse wins: with a train on point 2 it is granted while the point lies reverse \
         (event 70) and is accident 42 while it lies normal (event 101).",
        &FIVE_POINTS,
        "rule 3 row 7",
        &[
            // Empty lists: there is a train in the plan, and even where one wants to go.
            ([3, 5, 1], "entered 1 track 5"),
            ([1, 0, 0], "granted 0"),
            ([3, 5, 2], "accident 40 track 5"),
            ([2, 0, 0], "cancelled 0"),
            // Only a point has a train, at the second place of three.
            ([1, 1, 0], "refused 13 track 5 train 1"),
            ([1, 2, 0], "refused 13 track 5 train 1"),
            ([3, 0, 2], "refused 13 track 5 train 1"),
            ([3, 1, 2], "refused 13 track 5 train 1"),
            // Track 3 is lower and has one too, but not every list has track 3.
            ([3, 3, 2], "entered 2 track 3"),
            ([1, 1, 0], "refused 13 track 3 train 2"),
            ([1, 2, 0], "refused 13 track 5 train 1"),
            ([3, 0, 3], "refused 13 track 3 train 2"),
            ([3, 1, 3], "refused 13 track 5 train 1"),
            // Two tracks of the list have a train.
            ([3, 8, 3], "entered 3 track 8"),
            ([1, 2, 0], "refused 13 track 5 train 1"),
            ([3, 1, 4], "refused 13 track 5 train 1"),
            ([4, 1, 0], "moved 1 from 5 to 7"),
            ([4, 1, 0], "left 1 from 7"),
            // The last place alone, with the train on track 3 before it and without.
            ([1, 2, 0], "refused 13 track 8 train 3"),
            ([3, 1, 4], "refused 13 track 8 train 3"),
            ([4, 2, 0], "moved 2 from 3 to 7"),
            ([4, 2, 0], "left 2 from 7"),
            ([1, 1, 0], "refused 13 track 8 train 3"),
            ([3, 0, 4], "refused 13 track 8 train 3"),
            ([4, 3, 0], "left 3 from 8"),
            // The first place of three.
            ([3, 2, 1], "entered 1 track 2"),
            ([1, 2, 0], "refused 13 track 2 train 1"),
            ([3, 1, 2], "refused 13 track 2 train 1"),
            ([4, 1, 0], "moved 1 from 2 to 7"),
            ([4, 1, 0], "left 1 from 7"),
            // No train at all, and then one on the first of all tracks.
            ([3, 0, 1], "entered 1 track 0"),
            ([1, 1, 0], "refused 13 track 0 train 1"),
            ([3, 0, 2], "refused 13 track 0 train 1"),
            ([1, 2, 0], "granted 2"),
            ([4, 1, 0], "moved 1 from 0 to 2"),
            ([4, 1, 0], "moved 1 from 2 to 7"),
            ([4, 1, 0], "left 1 from 7"),
            ([1, 1, 0], "granted 1"),
            ([2, 1, 0], "cancelled 1"),
            // 14, the first of normal; nothing is in the way of lists that are empty.
            ([1, 4, 0], "granted 4"),
            ([1, 0, 0], "granted 0"),
            ([2, 0, 0], "cancelled 0"),
            ([1, 3, 0], "refused 14 point 2"),
            ([2, 4, 0], "cancelled 4"),
            // The last of normal, and both.
            ([1, 5, 0], "granted 5"),
            ([1, 3, 0], "refused 14 point 6"),
            ([2, 5, 0], "cancelled 5"),
            ([1, 6, 0], "granted 6"),
            ([1, 3, 0], "refused 14 point 2"),
            // Point 2 is lower and held, but route 13 does not list it.
            ([1, 13, 0], "refused 14 point 6"),
            ([2, 6, 0], "cancelled 6"),
            // The first of reverse, the last, and both.
            ([1, 7, 0], "granted 7"),
            ([1, 3, 0], "refused 14 point 4"),
            ([2, 7, 0], "cancelled 7"),
            ([1, 8, 0], "granted 8"),
            ([1, 3, 0], "refused 14 point 5"),
            ([2, 8, 0], "cancelled 8"),
            ([1, 9, 0], "granted 9"),
            ([1, 3, 0], "refused 14 point 4"),
            ([2, 9, 0], "cancelled 9"),
            // One of each: 3 and 4, the lower one at the later place, then 4 and 6.
            ([1, 10, 0], "granted 10"),
            ([1, 3, 0], "refused 14 point 3"),
            ([2, 10, 0], "cancelled 10"),
            ([1, 11, 0], "granted 11"),
            ([1, 3, 0], "refused 14 point 4"),
            ([2, 11, 0], "cancelled 11"),
            // Now 2, 3 and 6 lie reverse, and 4 and 5 normal. 42, the first of normal:
            ([3, 2, 1], "entered 1 track 2"),
            ([1, 0, 0], "granted 0"),
            ([2, 0, 0], "cancelled 0"),
            ([1, 12, 0], "granted 12"),
            ([2, 12, 0], "cancelled 12"),
            ([1, 3, 0], "accident 42 point 2"),
            // Both, and the last of normal.
            ([3, 6, 2], "entered 2 track 6"),
            ([1, 3, 0], "accident 42 point 2"),
            ([1, 13, 0], "accident 42 point 6"),
            ([4, 1, 0], "moved 1 from 2 to 8"),
            ([4, 1, 0], "left 1 from 8"),
            ([1, 3, 0], "accident 42 point 6"),
            // 4 and 6, of which the lower one is in reverse.
            ([3, 4, 1], "entered 1 track 4"),
            ([1, 3, 0], "accident 42 point 4"),
            ([4, 2, 0], "moved 2 from 6 to 8"),
            ([4, 2, 0], "left 2 from 8"),
            // The first of reverse, both, and the last.
            ([1, 3, 0], "accident 42 point 4"),
            ([3, 5, 2], "entered 2 track 5"),
            ([1, 3, 0], "accident 42 point 4"),
            ([4, 1, 0], "moved 1 from 4 to 7"),
            ([4, 1, 0], "left 1 from 7"),
            ([1, 3, 0], "accident 42 point 5"),
            ([4, 2, 0], "moved 2 from 5 to 7"),
            ([4, 2, 0], "left 2 from 7"),
            // 3 and 4, of which the lower one is in normal, at the later place.
            ([3, 3, 1], "entered 1 track 3"),
            ([3, 4, 2], "entered 2 track 4"),
            ([1, 3, 0], "accident 42 point 3"),
            ([4, 1, 0], "moved 1 from 3 to 8"),
            ([4, 1, 0], "left 1 from 8"),
            ([4, 2, 0], "moved 2 from 4 to 7"),
            ([4, 2, 0], "left 2 from 7"),
            ([1, 3, 0], "granted 3"),
            ([2, 3, 0], "cancelled 3"),
            // Point 2 lies normal again.
            ([3, 2, 1], "entered 1 track 2"),
            ([1, 12, 0], "accident 42 point 2"),
        ],
    )
}

/// All tracks of a plan that has as many as there can be.
fn all_tracks() -> Vec<u8> {
    let mut list = vec![64];
    list.extend(0..64);
    list
}

fn long_list() -> Session {
    // Track 0 leads to the exit 1; up to 31 there are exits, and then points, all alike.
    let mut plan = vec![64, 0, 1, 0, 0];
    plan.extend([3, 0, 0, 0].repeat(31));
    plan.extend([1, 1, 2, 0].repeat(32));
    plan.extend([2, 0, 3]);
    let points = |from: u8| [vec![16], (from..from + 16).collect()].concat();
    // Routes 0 to 2 ask for all tracks, 16 points normal, 16 reverse.
    plan.extend([6, 0, 1, 1]);
    plan.extend(all_tracks());
    plan.extend([0, 0, 0, 0, 1, 1, 0]);
    plan.extend(points(32));
    plan.extend([0, 0, 0, 1, 1, 0, 0]);
    plan.extend(points(48));
    plan.extend([0]);
    // Routes 3 to 5 list the last of these points alone.
    plan.extend([1, 1, 4, 0, 1, 47, 0, 0]);
    plan.extend([1, 1, 4, 0, 0, 1, 47, 0]);
    plan.extend([1, 1, 4, 0, 1, 63, 0, 0]);
    plan.extend([3, 0]);
    plan.extend(all_tracks());
    plan.extend([47, 0, 63, 0]);
    session(
        "walks-a-long-list",
        "Lists that are as long as they can be: route 0 and entry 0 ask for 64 clear tracks, which are \
         all, route 1 lists 16 points normal and route 2 lists 16 reverse. Whatever is in the way is at \
         the very last place: for 13, and for 42 and 14 of the reverse points (events 1 to 9), then for \
         14 and 42 of the normal ones (10 to 20; event 14 turns point 47 reverse, so that route 1 would \
         turn it back). In event 11 point 47 is held, but lies as route 1 wants it, and is not in the way. \
         Then, for the clear lists (21 to 23), what is in the way is at the first place. In the end route 1 is granted: none of its \
         16 points is in the way, and its clear list is empty.",
        &[&plan],
        "rule 3 row 1",
        &[
            ([3, 2, 1], "entered 1 track 63"),
            ([1, 0, 0], "refused 13 track 63 train 1"),
            ([3, 0, 2], "refused 13 track 63 train 1"),
            ([1, 2, 0], "accident 42 point 63"),
            ([4, 1, 0], "moved 1 from 63 to 1"),
            ([4, 1, 0], "left 1 from 1"),
            ([1, 5, 0], "granted 5"),
            ([1, 2, 0], "refused 14 point 63"),
            ([2, 5, 0], "cancelled 5"),
            // Point 47 is held and lies right.
            ([1, 3, 0], "granted 3"),
            ([1, 1, 0], "granted 1"),
            ([2, 1, 0], "cancelled 1"),
            ([2, 3, 0], "cancelled 3"),
            // Turned reverse, so that route 1 would turn it: held, and then given back.
            ([1, 4, 0], "granted 4"),
            ([1, 1, 0], "refused 14 point 47"),
            ([2, 4, 0], "cancelled 4"),
            ([3, 1, 1], "entered 1 track 47"),
            ([1, 1, 0], "accident 42 point 47"),
            ([4, 1, 0], "moved 1 from 47 to 2"),
            ([4, 1, 0], "left 1 from 2"),
            ([3, 0, 2], "entered 2 track 0"),
            ([3, 0, 1], "refused 13 track 0 train 2"),
            ([1, 0, 0], "refused 13 track 0 train 2"),
            ([1, 1, 0], "granted 1"),
        ],
    )
}
