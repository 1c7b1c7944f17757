//! What stands before the point that 14 names, in its own list and in the other: points that are not in
//! the way, of which there are three kinds. A walk that ends at one of them, or takes it for a hit, must
//! show.

use crate::model::plan::Route;
use crate::model::state::State;
use crate::model::step::{is_held, would_turn};

/// The kinds, by whether a point is held and whether it would turn.
const KINDS_OF_POINTS: [(&str, bool, bool); 3] = [
    ("not held, lying right", false, false),
    ("held, lying right", true, false),
    ("not held, lying otherwise", false, true),
];

const LISTS: [&str; 2] = ["normal", "reverse"];

const PLACES: [&str; 4] = [
    "the first of the list is",
    "the one just before it is",
    "all before it, two or more, are",
    "a lower one of the other list is",
];

pub const KINDS: usize = LISTS.len() * KINDS_OF_POINTS.len() * PLACES.len();

/// The name of each count.
pub fn names() -> Vec<String> {
    let mut names = Vec::with_capacity(KINDS);
    for list in LISTS {
        for (kind, ..) in KINDS_OF_POINTS {
            names.extend(PLACES.map(|place| format!("14, the point in {list}: {place} {kind}")));
        }
    }
    names
}

/// Counts what stands before the point that 14 names. One of both lists says little of a walk over one.
pub fn of_named(before: &State, route: &Route, named: usize, counts: &mut [u64]) {
    let places = [&route.normal, &route.reverse].map(|list| list.binary_search(&named).ok());
    let (number, lists, place) = match places {
        [Some(place), None] => (0, [&route.normal, &route.reverse], place),
        [None, Some(place)] => (1, [&route.reverse, &route.normal], place),
        _ => return,
    };
    let [own, other] = lists;
    for (kind, (_, held, turns)) in KINDS_OF_POINTS.into_iter().enumerate() {
        let is_kind = |point: &usize| {
            is_held(before, *point) == held && would_turn(before, route, *point) == turns
        };
        let earlier = &own[..place];
        let is = [
            earlier.first().is_some_and(is_kind),
            earlier.last().is_some_and(is_kind),
            earlier.len() > 1 && earlier.iter().all(is_kind),
            other.iter().any(|point| *point < named && is_kind(point)),
        ];
        let from = (number * KINDS_OF_POINTS.len() + kind) * PLACES.len();
        for (count, _) in counts[from..].iter_mut().zip(is).filter(|(_, is)| *is) {
            *count += 1;
        }
    }
}
