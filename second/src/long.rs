//! Sessions of some thousand events whose last answers depend on the first events, while all that
//! goes on in between is the same without them.
//!
//! Like those of the document, the lines are written by hand: those of a round once, with the
//! number of its train left open.

use crate::document::{Session, BENCH_PLAN};
use crate::rows::session;

pub fn sessions() -> Vec<Session> {
    vec![
        train_waits(),
        route_granted(),
        point_turned(),
        train_in_the_loop(),
    ]
}

/// An event and its line.
type Said = ([u8; 3], String);

fn said(event: [u8; 3], line: &str) -> Said {
    (event, line.to_string())
}

/// So many rounds, each by a train of its own: all numbers but 1 take turns.
fn rounds(count: usize, round: impl Fn(u8) -> Vec<Said>) -> Vec<Said> {
    let trains = (2..=u8::MAX).cycle();
    trains.take(count).flat_map(round).collect()
}

/// The session of a plan by its sections.
fn long(
    name: &'static str,
    about: &'static str,
    plan: &[&[u8]],
    verdict: &str,
    parts: &[Vec<Said>],
) -> Session {
    let parts = parts.concat();
    let events: Vec<([u8; 3], &str)> = parts
        .iter()
        .map(|(event, line)| (*event, line.as_str()))
        .collect();
    session(name, about, plan, verdict, &events)
}

fn train_waits() -> Session {
    let round = |train: u8| {
        vec![
            ([3, 1, train], format!("entered {train} track 1")),
            said([1, 1, 0], "granted 1"),
            ([4, train, 0], format!("moved {train} from 1 to 2")),
            ([4, train, 0], format!("moved {train} from 2 to 3")),
            ([4, train, 0], format!("left {train} from 3")),
        ]
    };
    long(
        "long-train-waits",
        "The bench plan. Event 1 lets train 1 in on track 0, where it waits at red while 800 \
         trains come and go on the other line. The last seven events, 4002 to 4008 (lines 4003 to \
         4009), ask for train 1: it is in the plan (17), at red (19), has its route granted, goes \
         on from track 0 and leaves. Without event 1 it would be let in on track 1 by event 4002, \
         and line 4003 would be `entered 1 track 1`.",
        &[&BENCH_PLAN],
        "accepted",
        &[
            vec![said([3, 0, 1], "entered 1 track 0")],
            rounds(800, round),
            vec![
                said([3, 1, 1], "refused 17"),
                said([4, 1, 0], "refused 19 signal 0"),
                said([1, 0, 0], "granted 0"),
                said([4, 1, 0], "moved 1 from 0 to 2"),
                said([4, 1, 0], "moved 1 from 2 to 3"),
                said([4, 1, 0], "left 1 from 3"),
                said([4, 1, 0], "refused 18"),
            ],
        ],
    )
}

/// Trains on a line of its own from track 4, by this entry and this route.
fn own_line(entry: u8, route: u8) -> impl Fn(u8) -> Vec<Said> {
    move |train| {
        vec![
            ([3, entry, train], format!("entered {train} track 4")),
            ([1, route, 0], format!("granted {route}")),
            ([4, train, 0], format!("moved {train} from 4 to 5")),
            ([4, train, 0], format!("left {train} from 5")),
        ]
    }
}

fn route_granted() -> Session {
    long(
        "long-route-granted",
        "The bench plan and a line of its own beside it, from track 4 to the exit 5. Event 1 has \
         route 0 granted, and then 1,000 trains come and go on the line beside. The last four \
         events, 4002 to 4005 (lines 4003 to 4006), are about what event 1 did: point 2 is held \
         and would turn (14), signal 0 is green (12), route 0 can be cancelled, and then route 1 is granted. \
         Without event 1, line 4003 would be `granted 1`.",
        &[
            &[
                6, 0, 2, 0, 0, 0, 2, 0, 0, 2, 3, 0, 1, 3, 0, 0, 0, 0, 5, 0, 0, 3, 0, 0, 0,
            ],
            &[3, 0, 1, 4],
            &[3, 0, 2, 2, 3, 2, 2, 3, 1, 2, 0, 1, 3, 2],
            &[1, 2, 2, 3, 2, 2, 3, 0, 1, 2, 1, 3, 2],
            &[2, 1, 5, 1, 5, 0, 0, 0],
            &[3, 0, 1, 0, 1, 1, 1, 4, 1, 4],
        ],
        "accepted",
        &[
            vec![said([1, 0, 0], "granted 0")],
            rounds(1000, own_line(2, 2)),
            vec![
                said([1, 1, 0], "refused 14 point 2"),
                said([1, 0, 0], "refused 12"),
                said([2, 0, 0], "cancelled 0"),
                said([1, 1, 0], "granted 1"),
            ],
        ],
    )
}

fn point_turned() -> Session {
    long(
        "long-point-turned",
        "A line parts at point 1, normal to track 2 and reverse to track 3, and a line of its own \
         goes from track 4 to the exit 5. Route 2 lists no points, which breaks rule 9, so its \
         train goes as the point happens to lie. Events 1 and 2 have route 1 granted and \
         cancelled, which leaves point 1 reverse; then 1,200 trains come and go on the line \
         beside. At the end train 1 goes by route 2. Event 4806 (line 4807) moves it from 1 to 3; \
         without event 1 it would go to track 2.",
        &[
            &[
                6, 0, 1, 0, 0, 1, 2, 3, 0, 3, 0, 0, 0, 3, 0, 0, 0, 0, 5, 0, 0, 3, 0, 0, 0,
            ],
            &[2, 0, 4],
            &[4, 0, 2, 1, 2, 2, 1, 2, 1, 1, 0, 1, 2, 1],
            &[0, 2, 1, 3, 2, 1, 3, 0, 1, 1, 1, 3, 1],
            &[0, 2, 1, 2, 2, 1, 2, 0, 0, 0],
            &[1, 1, 5, 1, 5, 0, 0, 0],
            &[2, 0, 1, 0, 4, 1, 4],
        ],
        "rule 9 row 2",
        &[
            vec![said([1, 1, 0], "granted 1"), said([2, 1, 0], "cancelled 1")],
            rounds(1200, own_line(1, 3)),
            vec![
                said([1, 2, 0], "granted 2"),
                said([3, 0, 1], "entered 1 track 0"),
                said([4, 1, 0], "moved 1 from 0 to 1"),
                said([4, 1, 0], "moved 1 from 1 to 3"),
                said([4, 1, 0], "left 1 from 3"),
            ],
        ],
    )
}

fn train_in_the_loop() -> Session {
    let round = |train: u8| {
        vec![
            ([3, 0, train], format!("entered {train} track 0")),
            said([1, 0, 0], "granted 0"),
            ([4, train, 0], format!("moved {train} from 0 to 1")),
            ([4, train, 0], format!("moved {train} from 1 to 2")),
            said([1, 2, 0], "granted 2"),
            ([4, train, 0], format!("moved {train} from 2 to 4")),
            ([4, train, 0], format!("moved {train} from 4 to 5")),
            ([4, train, 0], format!("left {train} from 5")),
        ]
    };
    let mut session = long(
        "long-train-in-the-loop",
        "A line parts at point 1 into track 2 and the loop, track 3, which come together at point \
         4 before the exit 5. Events 1 to 4 bring train 1 into the loop, where it waits while 700 \
         trains overtake it on track 2. The last events, 5605 to 5608 (lines 5606 to 5609), find \
         it there: route 1 is refused for track 3 and train 1, which is at red, gets its route \
         and moves from 3 to 4. The input ends with two bytes of one more event, 4 1, which are \
         incomplete: the last line is `refused 11`, and with a third byte, 0, train 1 would have \
         moved on. Without events 1 to 4, line 5606 would be `granted 1`.",
        &[
            &[
                6, 0, 1, 0, 0, 1, 2, 3, 0, 0, 4, 0, 0, 0, 4, 0, 0, 2, 5, 2, 3, 3, 0, 0, 0,
            ],
            &[3, 0, 2, 3],
            &[4, 0, 2, 1, 2, 2, 1, 2, 1, 1, 0, 1, 2, 1],
            &[0, 2, 1, 3, 2, 1, 3, 0, 1, 1, 1, 3, 1],
            &[1, 2, 4, 5, 2, 4, 5, 1, 4, 0, 1, 5, 4],
            &[2, 2, 4, 5, 2, 4, 5, 0, 1, 4, 1, 5, 4],
            &[1, 0, 1, 0],
        ],
        "accepted",
        &[
            vec![
                said([3, 0, 1], "entered 1 track 0"),
                said([1, 1, 0], "granted 1"),
                said([4, 1, 0], "moved 1 from 0 to 1"),
                said([4, 1, 0], "moved 1 from 1 to 3"),
            ],
            rounds(700, round),
            vec![
                said([1, 1, 0], "refused 13 track 3 train 1"),
                said([4, 1, 0], "refused 19 signal 2"),
                said([1, 3, 0], "granted 3"),
                said([4, 1, 0], "moved 1 from 3 to 4"),
            ],
        ],
    );
    session.events.extend([4, 1]);
    session.expected.push_str("refused 11\n");
    session
}
