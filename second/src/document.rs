//! The bench plan, the bench session and every bench slip, as the document gives them.
//!
//! The expected lines are written out by hand from the document, never made by the model.

/// The bench plan: two lines merge.
pub const BENCH_PLAN: [u8; 54] = [
    4, 0, 2, 0, 0, 0, 2, 0, 0, 2, 3, 0, 1, 3, 0, 0, 0, // tracks
    2, 0, 1, // signals
    2, 0, 2, 2, 3, 2, 2, 3, 1, 2, 0, 1, 3, 2, // route 0
    1, 2, 2, 3, 2, 2, 3, 0, 1, 2, 1, 3, 2, // route 1
    2, 0, 1, 0, 1, 1, 1, // entries
];

const BENCH_EVENTS: [[u8; 3]; 8] = [
    [3, 0, 1],
    [4, 1, 0],
    [1, 0, 0],
    [1, 1, 0],
    [4, 1, 0],
    [4, 1, 0],
    [4, 1, 0],
    [1, 1, 0],
];

const BENCH_LINES: &str = "accepted
entered 1 track 0
refused 19 signal 0
granted 0
refused 14 point 2
moved 1 from 0 to 2
moved 1 from 2 to 3
left 1 from 3
granted 1
";

/// One run of the program and exactly what it must print.
#[derive(Clone, Debug)]
pub struct Session {
    pub name: &'static str,
    pub about: &'static str,
    /// The bytes of `plan.bin`, if there is such a file.
    pub plan: Option<Vec<u8>>,
    pub events: Vec<u8>,
    pub expected: String,
}

/// The bench session and all the bench slips.
pub fn sessions() -> Vec<Session> {
    let mut sessions = vec![session(
        "bench",
        "The bench session: a train comes in on one line and leaves, then the other has its route.",
        BENCH_PLAN.to_vec(),
        &BENCH_EVENTS,
        BENCH_LINES,
    )];
    sessions.extend(length_slips());
    sessions.extend(byte_slips());
    sessions.extend(rule_slips());
    sessions.extend(accident_slips());
    sessions.extend(running_slips());
    sessions
}

fn session(
    name: &'static str,
    about: &'static str,
    plan: Vec<u8>,
    events: &[[u8; 3]],
    expected: &str,
) -> Session {
    Session {
        name,
        about,
        plan: Some(plan),
        events: events.concat(),
        expected: expected.to_string(),
    }
}

/// The bench plan with a stretch of it exchanged for other bytes.
pub fn bench_with(stretch: std::ops::Range<usize>, bytes: &[u8]) -> Vec<u8> {
    let mut plan = BENCH_PLAN.to_vec();
    plan.splice(stretch, bytes.iter().copied());
    plan
}

/// An unreadable plan. It gets the bench events too, none of which may be answered.
fn form_slip(
    name: &'static str,
    about: &'static str,
    plan: Vec<u8>,
    form: (usize, usize),
) -> Session {
    let line = format!("form {} at {}\n", form.0, form.1);
    session(name, about, plan, &BENCH_EVENTS, &line)
}

fn length_slips() -> Vec<Session> {
    vec![
        form_slip(
            "slip-empty-file",
            "An empty file ends early at once.",
            vec![],
            (1, 0),
        ),
        form_slip(
            "slip-byte-0-alone",
            "A file of one byte, 0: no tracks at all.",
            vec![0],
            (2, 0),
        ),
        form_slip(
            "slip-first-53-bytes",
            "The bench plan without its last byte.",
            BENCH_PLAN[..53].to_vec(),
            (1, 53),
        ),
        form_slip(
            "slip-one-byte-more",
            "The bench plan with one byte after its end.",
            bench_with(54..54, &[0]),
            (5, 54),
        ),
    ]
}

fn byte_slips() -> Vec<Session> {
    vec![
        form_slip(
            "slip-byte-1-made-4",
            "Track 0 has kind 4, and there are only 0 to 3.",
            bench_with(1..2, &[4]),
            (3, 1),
        ),
        form_slip(
            "slip-byte-29-made-0",
            "Route 0's normal list names track 0, which is no point.",
            bench_with(29..30, &[0]),
            (3, 29),
        ),
        form_slip(
            "slip-bytes-26-27-made-3-2",
            "Route 0's clear list falls.",
            bench_with(26..28, &[3, 2]),
            (4, 27),
        ),
    ]
}

fn rule_slips() -> Vec<Session> {
    vec![
        session(
            "slip-route-0-clear-empty",
            "Route 0's clear list is empty, so it does not hold the path.",
            bench_with(25..28, &[0]),
            &[],
            "rule 8 row 0\n",
        ),
        session(
            "slip-route-0-clear-only-2",
            "Route 0's clear list holds track 2 alone and leaves out track 3.",
            bench_with(25..28, &[1, 2]),
            &[],
            "rule 8 row 0\n",
        ),
        session(
            "slip-route-0-release-2-2",
            "Route 0 gives point 2 back when a train arrives on it.",
            bench_with(32..34, &[2, 2]),
            &[],
            "rule 11 row 0\n",
        ),
    ]
}

fn accident_slips() -> Vec<Session> {
    // Route 1's clear list stands at 38 to 40, behind route 0's release at 32 and 33.
    let mut early_release = bench_with(38..41, &[0]);
    early_release[32] = 2;
    vec![
        session(
            "slip-entry-0-list-empty",
            "Entry 0's clear list is empty: two trains are let in onto track 0 and collide.",
            bench_with(49..51, &[0]),
            &[[3, 0, 1], [3, 0, 2]],
            "rule 12 row 0\nentered 1 track 0\naccident 40 track 0\n",
        ),
        session(
            "slip-route-0-no-points-no-releases",
            "Route 0 lists no points. Route 1, granted and cancelled, leaves point 2 reverse, and \
             the train of route 0 runs through it.",
            bench_with(28..34, &[0, 0, 0]),
            &[[1, 1, 0], [2, 1, 0], [1, 0, 0], [3, 0, 1], [4, 1, 0]],
            "rule 9 row 0\ngranted 1\ncancelled 1\ngranted 0\nentered 1 track 0\n\
             accident 41 track 2\n",
        ),
        session(
            "slip-release-2-2-and-route-1-clear-empty",
            "Route 0 gives point 2 back under the train and route 1 looks at no track: its request \
             would turn the point under the train. Rule 8 is broken at row 1, before rule 11.",
            early_release,
            &[[3, 0, 1], [1, 0, 0], [4, 1, 0], [1, 1, 0]],
            "rule 8 row 1\nentered 1 track 0\ngranted 0\nmoved 1 from 0 to 2\n\
             accident 42 point 2\n",
        ),
    ]
}

fn running_slips() -> Vec<Session> {
    vec![
        session(
            "slip-train-at-home",
            "With route 0 granted and train 1 on track 0 the route can be neither asked for again \
             nor cancelled; with the train on point 2, route 1 is refused for track 2 and train 1.",
            BENCH_PLAN.to_vec(),
            &[
                [3, 0, 1],
                [1, 0, 0],
                [1, 0, 0],
                [2, 0, 0],
                [4, 1, 0],
                [1, 1, 0],
            ],
            "accepted\nentered 1 track 0\ngranted 0\nrefused 12\nrefused 16 track 0\n\
             moved 1 from 0 to 2\nrefused 13 track 2 train 1\n",
        ),
        session(
            "slip-cancel-route-1",
            "Route 1 is granted and cancelled with track 1 empty. Point 2 is unheld, so both \
             routes can be had one after the other; that it stays reverse shows in the accident \
             41 of slip-route-0-no-points-no-releases.",
            BENCH_PLAN.to_vec(),
            &[
                [1, 1, 0],
                [2, 1, 0],
                [1, 0, 0],
                [2, 0, 0],
                [1, 1, 0],
                [2, 1, 0],
                [2, 1, 0],
            ],
            "accepted\ngranted 1\ncancelled 1\ngranted 0\ncancelled 0\ngranted 1\ncancelled 1\n\
             refused 15\n",
        ),
    ]
}
