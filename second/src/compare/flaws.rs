//! What can keep a state from being well formed, told apart for counting.

use super::special::kinds_in_words;
use crate::model::plan::Plan;
use crate::model::state::{first_routes, Arrays};

kinds_in_words! { Flaw, FLAWS:
    TrainTwice "10: a train twice",
    TrainBeyond "10: a train beyond the tracks",
    LieAboveOne "10: a lie above 1",
    LieOffPoint "10: reverse where there is no point",
    LieBeyond "10: reverse beyond the tracks",
    HoldOffPoint "10: a hold where there is no point",
    HoldByNoRoute "10: a hold by a route beyond the plan's",
    HoldBeyond "10: a hold beyond the tracks",
    GreenForNoRoute "10: green for no route",
    GreenElsewhere "10: green for a route that starts elsewhere",
    GreenBeyond "10: green beyond the signals",
}

/// Every kind of flaw that these arrays have.
fn all(plan: &Plan, arrays: &Arrays) -> Vec<Flaw> {
    let found = [
        (train_twice(arrays), Flaw::TrainTwice),
        (is_set(&arrays.trains, plan.tracks.len()), Flaw::TrainBeyond),
        (
            any_track(plan, |track| arrays.lies[track] > 1),
            Flaw::LieAboveOne,
        ),
        (
            off_points(plan, |track| arrays.lies[track] == 1),
            Flaw::LieOffPoint,
        ),
        (is_set(&arrays.lies, plan.tracks.len()), Flaw::LieBeyond),
        (
            off_points(plan, |track| arrays.holds[track] != 0),
            Flaw::HoldOffPoint,
        ),
        (held_by_no_route(plan, arrays), Flaw::HoldByNoRoute),
        (is_set(&arrays.holds, plan.tracks.len()), Flaw::HoldBeyond),
        (green_for_no_route(plan, arrays), Flaw::GreenForNoRoute),
        (green_elsewhere(plan, arrays), Flaw::GreenElsewhere),
        (is_set(&arrays.signals, plan.homes.len()), Flaw::GreenBeyond),
    ];
    let flaws = found.into_iter().filter(|(is_found, _)| *is_found);
    flaws.map(|(_, flaw)| flaw).collect()
}

/// The one thing that keeps these arrays from being well formed, if it is only one.
pub fn only(plan: &Plan, arrays: &Arrays) -> Option<Flaw> {
    match all(plan, arrays).as_slice() {
        [flaw] => Some(*flaw),
        _ => None,
    }
}

/// True if a cell at or beyond the count is not empty.
fn is_set<T: Copy + Into<u64>>(cells: &[T], count: usize) -> bool {
    cells[count..].iter().any(|&cell| cell.into() != 0)
}

fn any_track(plan: &Plan, has: impl Fn(usize) -> bool) -> bool {
    (0..plan.tracks.len()).any(has)
}

fn off_points(plan: &Plan, has: impl Fn(usize) -> bool) -> bool {
    any_track(plan, |track| !plan.is_point(track) && has(track))
}

fn held_by_no_route(plan: &Plan, arrays: &Arrays) -> bool {
    any_track(plan, |track| {
        arrays.holds[track] & !first_routes(plan.routes.len()) != 0
    })
}

/// The route that each signal of the plan is green for, if it is.
fn greens<'a>(plan: &Plan, arrays: &'a Arrays) -> impl Iterator<Item = (usize, usize)> + 'a {
    let cells = arrays.signals[..plan.homes.len()].iter().enumerate();
    cells.filter_map(|(signal, &cell)| Some((signal, usize::from(cell).checked_sub(1)?)))
}

fn green_for_no_route(plan: &Plan, arrays: &Arrays) -> bool {
    greens(plan, arrays).any(|(_, route)| route >= plan.routes.len())
}

fn green_elsewhere(plan: &Plan, arrays: &Arrays) -> bool {
    let starts_elsewhere = |(signal, route): (usize, usize)| {
        let route = plan.routes.get(route);
        route.is_some_and(|route| route.start != signal)
    };
    greens(plan, arrays).any(starts_elsewhere)
}

fn train_twice(arrays: &Arrays) -> bool {
    let mut trains: Vec<u8> = arrays
        .trains
        .iter()
        .copied()
        .filter(|&train| train != 0)
        .collect();
    trains.sort_unstable();
    trains.windows(2).any(|pair| pair[0] == pair[1])
}
