//! Small junctions that are left alone for thousands of events: what the first events did there
//! shows in the last answers, and nowhere in between.

use crate::document::BENCH_PLAN;
use crate::generate::events::Event;
use crate::model::plan::Plan;
use crate::model::reading::read;

/// The train of a quiet junction. No other has its number.
pub const TRAIN: u8 = 251;

pub struct Quiet {
    /// What must be remembered.
    pub what: &'static str,
    pub plan: Plan,
    pub first: Vec<Event>,
    pub last: Vec<Event>,
}

const ENTER: Event = [3, 0, TRAIN];
const MOVE: Event = [4, TRAIN, 0];

const fn request(route: u8) -> Event {
    [1, route, 0]
}

const fn cancel(route: u8) -> Event {
    [2, route, 0]
}

fn quiet(what: &'static str, plan: &[&[u8]], first: &[Event], last: &[Event]) -> Quiet {
    Quiet {
        what,
        plan: read(&plan.concat()).expect("a quiet junction can be read"),
        first: first.to_vec(),
        last: last.to_vec(),
    }
}

/// Every quiet junction.
pub fn all() -> Vec<Quiet> {
    let mut all = on_the_bench_plan();
    all.push(trailing_lie());
    all.push(facing_lie());
    all.push(hold_alone());
    all
}

fn on_the_bench_plan() -> Vec<Quiet> {
    let bench: &[&[u8]] = &[&BENCH_PLAN];
    vec![
        quiet(
            "a train that waits",
            bench,
            &[ENTER],
            &[MOVE, [3, 1, TRAIN], request(0), MOVE, MOVE, MOVE, MOVE],
        ),
        quiet(
            "a route granted",
            bench,
            &[request(1)],
            &[request(0), request(1), cancel(1), request(0)],
        ),
        quiet(
            "a train on a point",
            bench,
            &[ENTER, request(0), MOVE],
            &[request(1), MOVE, request(1), MOVE, request(1)],
        ),
        quiet(
            "a green for a train that waits",
            bench,
            &[request(0), ENTER],
            &[request(0), cancel(0), MOVE, MOVE, MOVE],
        ),
    ]
}

/// Route 0 lists no points, so that its train meets point 2 as route 1 has left it.
fn trailing_lie() -> Quiet {
    quiet(
        "the lie of a trailing point",
        &[&BENCH_PLAN[..28], &[0, 0, 0], &BENCH_PLAN[34..]],
        &[request(1), cancel(1)],
        &[request(0), ENTER, MOVE],
    )
}

/// A line parts at point 1. Route 2 lists no points, so that its train goes where route 1 would
/// have gone.
fn facing_lie() -> Quiet {
    quiet(
        "the lie of a facing point",
        &[
            &[4, 0, 1, 0, 0, 1, 2, 3, 0, 3, 0, 0, 0, 3, 0, 0, 0],
            &[1, 0],
            &[3, 0, 2, 1, 2, 2, 1, 2, 1, 1, 0, 1, 2, 1],
            &[0, 2, 1, 3, 2, 1, 3, 0, 1, 1, 1, 3, 1],
            &[0, 2, 1, 2, 2, 1, 2, 0, 0, 0],
            &[1, 0, 1, 0],
        ],
        &[request(1), cancel(1)],
        &[request(2), ENTER, MOVE, MOVE, MOVE],
    )
}

/// The bench plan with one more track before the exit. The train has left point 2 behind, but its
/// route holds the point until the exit; route 1 looks at point 2 alone, where no train is.
fn hold_alone() -> Quiet {
    quiet(
        "a hold behind a train",
        &[
            &[
                5, 0, 2, 0, 0, 0, 2, 0, 0, 2, 3, 0, 1, 0, 4, 0, 0, 3, 0, 0, 0,
            ],
            &[2, 0, 1],
            &[2, 0, 3, 2, 3, 4, 3, 2, 3, 4, 1, 2, 0, 1, 4, 2],
            &[1, 3, 2, 3, 4, 1, 2, 0, 1, 2, 1, 4, 2],
            &[2, 0, 1, 0, 1, 1, 1],
        ],
        &[ENTER, request(0), MOVE, MOVE],
        &[request(1), MOVE, request(1)],
    )
}
