//! Boxes that walk lists rightly but for those of one length, or for routes with high numbers: the
//! cases of the comparison have lists of every length, and such routes.

use second::book::{Book, MODEL};
use second::compare::counts::Counts;
use second::compare::driver::hunt;
use second::generate::case::{case, Case};
use second::model::answer::{Accident, Answer, Refusal};
use second::model::plan::{Plan, CLEAR, POINTS};
use second::model::reading::read;
use second::model::state::State;
use second::model::step::{enter, grant, lowest_derailed, lowest_held_otherwise, step};
use second::random::Random;
use std::collections::BTreeSet;

type Step = fn(&Plan, &mut State, &[u8]) -> Answer;

/// More than each of them takes.
const CASES: usize = 2_000;

/// More than all lengths of all lists take.
const CASES_FOR_ALL: usize = 8_000;

fn is_caught(step: Step) -> bool {
    let book = Book { step, ..MODEL };
    hunt(&book, 1, CASES).is_some()
}

/// The six walks, in the order of their counts: 13 for a request and for an entry, 14 and 42.
#[derive(Clone, Copy, Debug, PartialEq, Eq, PartialOrd, Ord)]
enum Walk {
    Request,
    Entry,
    HeldNormal,
    HeldReverse,
    DerailedNormal,
    DerailedReverse,
}

/// Each with the length of the longest list.
const WALKS: [(Walk, usize); 6] = [
    (Walk::Request, *CLEAR.end()),
    (Walk::Entry, *CLEAR.end()),
    (Walk::HeldNormal, *POINTS.end()),
    (Walk::HeldReverse, *POINTS.end()),
    (Walk::DerailedNormal, *POINTS.end()),
    (Walk::DerailedReverse, *POINTS.end()),
];

/// A box that leaves out the last of a list of this length, in this walk alone.
fn ends_early(walk: Walk, length: usize, plan: &Plan, state: &mut State, event: &[u8]) -> Answer {
    match *event {
        [3, number, train @ 1..=u8::MAX] if usize::from(number) < plan.entries.len() => {
            let mut entry = plan.entries[usize::from(number)].clone();
            if walk == Walk::Entry {
                shorten(&mut entry.clear, length);
            }
            enter(&entry, state, train)
        }
        [1, number, 0] if usize::from(number) < plan.routes.len() => {
            request(walk, length, plan, state, usize::from(number))
        }
        _ => step(plan, state, event),
    }
}

fn request(walk: Walk, length: usize, plan: &Plan, state: &mut State, number: usize) -> Answer {
    let route = &plan.routes[number];
    // The route as each test has it.
    let (mut clear, mut held, mut derailed) = (route.clone(), route.clone(), route.clone());
    match walk {
        Walk::Entry => {}
        Walk::Request => shorten(&mut clear.clear, length),
        Walk::HeldNormal => shorten(&mut held.normal, length),
        Walk::HeldReverse => shorten(&mut held.reverse, length),
        Walk::DerailedNormal => shorten(&mut derailed.normal, length),
        Walk::DerailedReverse => shorten(&mut derailed.reverse, length),
    }
    if state.signals[route.start].is_some() {
        Answer::Refused(Refusal::SignalNotRed)
    } else if let Some(found) = state.first_train_on(&clear.clear) {
        Answer::in_the_way(found)
    } else if let Some(point) = lowest_held_otherwise(state, &held) {
        Answer::Refused(Refusal::PointHeld { point })
    } else if let Some(point) = lowest_derailed(state, &derailed) {
        Answer::Accident(Accident::Derailment { point })
    } else {
        grant(state, route, number);
        Answer::Granted { route: number }
    }
}

fn shorten(list: &mut Vec<usize>, length: usize) {
    if list.len() == length {
        list.pop();
    }
}

/// Whether the box that ends this walk early, for this length, is caught.
macro_rules! is_caught_early {
    ($walk:ident, $length:literal) => {
        is_caught(|plan, state, event| ends_early(Walk::$walk, $length, plan, state, event))
    };
}

/// No list has so many tracks.
#[test]
fn a_box_that_ends_no_walk_early_is_not_caught() {
    assert!(!is_caught_early!(Request, 65));
}

#[test]
fn a_request_that_leaves_out_the_last_of_57_or_63_tracks_is_caught() {
    assert!(is_caught_early!(Request, 57));
    assert!(is_caught_early!(Request, 63));
}

#[test]
fn an_entry_that_leaves_out_the_last_of_46_or_57_tracks_is_caught() {
    assert!(is_caught_early!(Entry, 46));
    assert!(is_caught_early!(Entry, 57));
}

#[test]
fn a_request_that_leaves_out_the_last_of_some_points_is_caught() {
    assert!(is_caught_early!(HeldNormal, 11));
    assert!(is_caught_early!(HeldReverse, 8));
    assert!(is_caught_early!(DerailedNormal, 13));
    assert!(is_caught_early!(DerailedReverse, 10));
}

/// The list that this walk takes for the event.
fn list_of<'a>(walk: Walk, plan: &'a Plan, event: &[u8; 3]) -> Option<&'a [usize]> {
    let number = usize::from(event[1]);
    let route = plan.routes.get(number);
    match (event[0], walk) {
        (3, Walk::Entry) => Some(&plan.entries.get(number)?.clear),
        (1, Walk::Request) => Some(&route?.clear),
        (1, Walk::HeldNormal | Walk::DerailedNormal) => Some(&route?.normal),
        (1, Walk::HeldReverse | Walk::DerailedReverse) => Some(&route?.reverse),
        _ => None,
    }
}

/// The walks, each with a length, that show in a single step of this case when they end early.
fn shown_by(case: &Case) -> Vec<(Walk, usize)> {
    let Ok(plan) = read(&case.plan) else {
        return vec![];
    };
    let mut shown = vec![];
    for (arrays, event) in &case.steps {
        let Some(state) = State::from_arrays(&plan, arrays) else {
            continue;
        };
        let answer = step(&plan, &mut state.clone(), event);
        let lengths = WALKS.map(|(walk, _)| Some((walk, list_of(walk, &plan, event)?.len())));
        shown.extend(lengths.into_iter().flatten().filter(|&(walk, length)| {
            ends_early(walk, length, &plan, &mut state.clone(), event) != answer
        }));
    }
    shown
}

#[test]
fn a_walk_that_leaves_out_the_last_shows_for_each_length() {
    let each = |(walk, most)| (1..=most).map(move |length| (walk, length));
    let mut left: BTreeSet<(Walk, usize)> = WALKS.into_iter().flat_map(each).collect();
    let mut seeds = Random::new(1);
    for _ in 0..CASES_FOR_ALL {
        for shown in shown_by(&case(seeds.word())) {
            left.remove(&shown);
        }
    }
    assert_eq!(left, BTreeSet::new());
}

/// For points what is counted is less: the box may name another point in place of the last.
#[test]
fn what_is_counted_for_a_length_is_what_shows() {
    for seed in 0..1_000 {
        let mut case = case(seed);
        case.events.clear();
        let mut counts = Counts::default();
        counts.observe(&case);
        let shown = shown_by(&case);
        let of = |walk: Walk| &counts.spread[walk as usize];
        for (walk, most) in WALKS {
            for length in 1..=most {
                let times = shown.iter().filter(|&&one| one == (walk, length)).count() as u64;
                match walk {
                    Walk::Request | Walk::Entry => assert_eq!(of(walk)[length], times),
                    _ => assert!(of(walk)[length] <= times),
                }
            }
        }
    }
}

#[test]
fn a_box_without_42_for_late_routes_is_caught() {
    assert!(is_caught(|plan, state, event| {
        match step(plan, state, event) {
            Answer::Accident(Accident::Derailment { .. }) if event[1] > 40 => {
                let route = usize::from(event[1]);
                grant(state, &plan.routes[route], route);
                Answer::Granted { route }
            }
            answer => answer,
        }
    }));
}
