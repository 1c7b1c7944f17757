//! Where in a list the tests behind 13, 14 and 42 find what they look for. They walk lists, and a walk
//! goes wrong at its ends, at an empty list and where a number is taken for its place, so that each of
//! these must have been reached; and so must be what tells the train that 13 names from every other.

use super::special::kinds_in_words;
use crate::model::answer::{Accident, Answer, Refusal};
use crate::model::plan::{Lie, Plan, Route};
use crate::model::state::State;
use crate::model::step::{is_held, would_turn};

// What a clear list is like and where in it 13 finds a train. An empty list has no hit: that is tried
// first.
kinds_in_words! { Clear, CLEARS:
    Empty "passed with an empty list and a train in the plan",
    First "at the first place of several",
    Last "at the last place of several, none before",
    Middle "in the middle",
    Several "several tracks of the list have a train",
    PointAlone "a point, which alone of the list has a train",
    AllFirst "a list of all tracks, at the first",
    AllLast "a list of all tracks, at the last",
    AllPassed "passed with a list of all tracks",
    LowerUnlisted "a lower track that is not listed has a train",
    NotItsPlace "the track's number is not its place",
    NotItsPlaceNorFirst "the track's number is not its place, which is not the first",
    PastThree "past the third place",
    PastSixteen "past the 16th place",
    PastHalf "past the 32nd place",
    ManyFirst "at the first place of more than 48 that are not all",
    ManyLast "at the last place of more than 48 that are not all",
}

// What the two lists of points are like and where in them 14 finds a held point that would turn, or 42
// one with a train.
kinds_in_words! { Point, POINTS:
    BothEmpty "passed with both lists empty and a point elsewhere that is held or has a train",
    NormalAlone "in the normal list alone",
    ReverseAlone "in the reverse list alone",
    NormalLower "in both lists, the lower one in normal",
    ReverseLower "in both lists, the lower one in reverse",
    InBoth "a point that is in both lists",
    NormalEmpty "in the reverse list, the normal one being empty",
    ReverseEmpty "in the normal list, the reverse one being empty",
    NormalFirst "at the first place of several in normal",
    NormalLast "at the last place of several in normal",
    ReverseFirst "at the first place of several in reverse",
    ReverseLast "at the last place of several in reverse",
    NormalNotItsPlace "the number is not its place in normal",
    ReverseNotItsPlace "the number is not its place in reverse",
    NormalPastThree "past the third place of normal",
    ReversePastThree "past the third place of reverse",
    NormalVeryLast "at the 16th place of normal",
    ReverseVeryLast "at the 16th place of reverse",
    NormalMiddle "in the middle of normal",
    ReverseMiddle "in the middle of reverse",
    NormalSeveral "several points of normal",
    ReverseSeveral "several points of reverse",
    LowerUnlisted "a lower point that is not listed is held or has a train",
}

// What 42 alone has.
kinds_in_words! { Turn, TURNS:
    KeptReverse "granted over a train on a point in both lists that lies reverse",
    LowerKept "a lower listed point with a train keeps its lie",
}

// Which train 13 names, among those in the way and elsewhere.
kinds_in_words! { Named, NAMED:
    LowestOfSeveral "of several trains in the way the lowest is named",
    HighestOfSeveral "of several trains in the way the highest is named",
    BetweenOthers "the train named is neither the lowest nor the highest of those in the way",
    OtherOnZero "track 0 has another train and is not named",
    NotItsTrack "the train's number is not the track's",
    OfAnotherTrack "the train's number is that of another track of the list with a train",
    OtherOnItsOwn "the route's home, or the entry's own track, has another train",
    BelowTen "a train below 10",
    BelowHundred "a train from 10 to 99",
    FromHundred "a train above 99",
    AboveHalf "a train above 127",
    VeryLast "train 255",
}

const ASKING: [&str; 2] = ["13 for a request", "13 for an entry"];
const TESTS: [&str; 2] = ["14", "42"];

/// Where each group of kinds begins among the counts.
const POINTS_FROM: usize = 2 * CLEARS.len();
const TURNS_FROM: usize = POINTS_FROM + 2 * POINTS.len();
const NAMED_FROM: usize = TURNS_FROM + TURNS.len();
pub const KINDS: usize = NAMED_FROM + 2 * NAMED.len();

/// The name of each count.
pub fn names() -> Vec<String> {
    let each = |asking: [&'static str; 2], kinds: &'static [&'static str]| {
        let kinds = kinds.iter();
        kinds.flat_map(move |kind| asking.map(|asking| format!("{asking}: {kind}")))
    };
    let turns = TURNS.iter().map(|kind| format!("42: {kind}"));
    let names = each(ASKING, CLEARS).chain(each(TESTS, POINTS));
    names.chain(turns).chain(each(ASKING, NAMED)).collect()
}

/// Which of the two asks for a clear list.
#[derive(Clone, Copy)]
enum Asking {
    Request,
    Entry,
}

/// Which of the two looks at points.
#[derive(Clone, Copy)]
enum Test {
    Held,
    Derailed,
}

/// Counts the kinds that this answer is of. `before` is the state that the event found.
pub fn of_answer(plan: &Plan, before: &State, event: &[u8], answer: &Answer, counts: &mut [u64]) {
    let number = event.get(1).map_or(0, |&byte| usize::from(byte));
    let passes_all = matches!(answer, Answer::Granted { .. } | Answer::Entered { .. });
    if !passes_all && !is_of_a_walk(answer) {
        return;
    }
    match event[0] {
        3 => {
            let entry = &plan.entries[number];
            of_clear(before, plan, &entry.clear, answer, |kind| {
                counts[2 * kind as usize + Asking::Entry as usize] += 1;
            });
            let named = &mut counts[NAMED_FROM..];
            of_named(before, &entry.clear, entry.track, answer, |kind| {
                named[2 * kind as usize + Asking::Entry as usize] += 1;
            });
        }
        _ => {
            let route = &plan.routes[number];
            of_clear(before, plan, &route.clear, answer, |kind| {
                counts[2 * kind as usize + Asking::Request as usize] += 1;
            });
            let named = &mut counts[NAMED_FROM..];
            let home = plan.home_of(route);
            of_named(before, &route.clear, home, answer, |kind| {
                named[2 * kind as usize + Asking::Request as usize] += 1;
            });
            let points = &mut counts[POINTS_FROM..];
            of_held(before, route, answer, |kind| {
                points[2 * kind as usize + Test::Held as usize] += 1;
            });
            of_derailed(before, plan, route, answer, |kind| {
                points[2 * kind as usize + Test::Derailed as usize] += 1;
            });
            let turns = &mut counts[TURNS_FROM..];
            of_turns(before, route, answer, |kind| turns[kind as usize] += 1);
        }
    }
}

/// Whether a request or an entry came as far as a list. A move's 40 is none of them.
fn is_of_a_walk(answer: &Answer) -> bool {
    matches!(
        answer,
        Answer::Refused(Refusal::TrainInTheWay { .. } | Refusal::PointHeld { .. })
            | Answer::Accident(Accident::Derailment { .. })
    )
}

/// 13, or its being passed.
fn of_clear(
    before: &State,
    plan: &Plan,
    clear: &[usize],
    answer: &Answer,
    mut note: impl FnMut(Clear),
) {
    let is_all = clear.len() == plan.tracks.len() && clear.len() > 1;
    let Answer::Refused(Refusal::TrainInTheWay { track, .. }) = *answer else {
        if clear.is_empty() && before.trains.iter().any(Option::is_some) {
            note(Clear::Empty);
        }
        if is_all {
            note(Clear::AllPassed);
        }
        return;
    };
    let place = place_of(clear, track).expect("13 names a track of the list");
    let last = clear.len() - 1;
    if last > 0 {
        note(match place {
            0 => Clear::First,
            _ if place == last => Clear::Last,
            _ => Clear::Middle,
        });
    }
    let has_train = |track: &usize| before.trains[*track].is_some();
    if clear[place + 1..].iter().any(has_train) {
        note(Clear::Several);
    } else if plan.is_point(track) {
        note(Clear::PointAlone);
    }
    match place {
        0 if is_all => note(Clear::AllFirst),
        _ if is_all && place == last => note(Clear::AllLast),
        _ => {}
    }
    // None that is lower and listed has one.
    if (0..track).any(|lower| has_train(&lower)) {
        note(Clear::LowerUnlisted);
    }
    if track != place {
        note(Clear::NotItsPlace);
        if place != 0 {
            note(Clear::NotItsPlaceNorFirst);
        }
    }
    let far = [
        (3, Clear::PastThree),
        (16, Clear::PastSixteen),
        (32, Clear::PastHalf),
    ];
    far.into_iter()
        .filter(|(from, _)| place >= *from)
        .for_each(|(_, kind)| note(kind));
    if clear.len() > 48 && !is_all {
        match place {
            0 => note(Clear::ManyFirst),
            _ if place == last => note(Clear::ManyLast),
            _ => {}
        }
    }
}

/// Which train 13 names. `own` is the home of the route, or the track of the entry.
fn of_named(
    before: &State,
    clear: &[usize],
    own: usize,
    answer: &Answer,
    mut note: impl FnMut(Named),
) {
    let Answer::Refused(Refusal::TrainInTheWay { track, train }) = *answer else {
        return;
    };
    let in_the_way = || clear.iter().filter_map(|&listed| before.trains[listed]);
    let is_above = in_the_way().any(|other| other < train);
    let is_below = in_the_way().any(|other| other > train);
    let is_other = |other: usize| before.trains[other].is_some_and(|other| other != train);
    let of_train = usize::from(train);
    let is_of_another =
        of_train != track && place_of(clear, of_train).is_some_and(|_| is_other(of_train));
    let is = [
        (is_below && !is_above, Named::LowestOfSeveral),
        (is_above && !is_below, Named::HighestOfSeveral),
        (is_above && is_below, Named::BetweenOthers),
        (is_other(0), Named::OtherOnZero),
        (of_train != track, Named::NotItsTrack),
        (is_of_another, Named::OfAnotherTrack),
        (is_other(own), Named::OtherOnItsOwn),
        (train < 10, Named::BelowTen),
        ((10..100).contains(&train), Named::BelowHundred),
        (train >= 100, Named::FromHundred),
        (train > 127, Named::AboveHalf),
        (train == u8::MAX, Named::VeryLast),
    ];
    is.into_iter()
        .filter(|(holds, _)| *holds)
        .for_each(|(_, kind)| note(kind));
}

/// Lists rise.
fn place_of(list: &[usize], number: usize) -> Option<usize> {
    list.binary_search(&number).ok()
}

/// 14, or its being passed. What is held and lies right is no hit.
fn of_held(before: &State, route: &Route, answer: &Answer, note: impl FnMut(Point)) {
    let held = |point: usize| is_held(before, point);
    let is_hit = |point: usize| held(point) && would_turn(before, route, point);
    match *answer {
        Answer::Refused(Refusal::PointHeld { point }) => {
            of_points(route, point, is_hit, held, note)
        }
        Answer::Granted { .. } => passed(before, route, held, note),
        _ => {}
    }
}

/// 42, or its being passed.
fn of_derailed(
    before: &State,
    plan: &Plan,
    route: &Route,
    answer: &Answer,
    note: impl FnMut(Point),
) {
    let has_train = |point: usize| plan.is_point(point) && before.trains[point].is_some();
    let is_hit = |point: usize| has_train(point) && would_turn(before, route, point);
    match *answer {
        Answer::Accident(Accident::Derailment { point }) => {
            of_points(route, point, is_hit, has_train, note)
        }
        Answer::Granted { .. } => passed(before, route, has_train, note),
        _ => {}
    }
}

/// A request that lists no point at all is granted past one that would be in its way.
fn passed(
    before: &State,
    route: &Route,
    is_busy: impl Fn(usize) -> bool,
    mut note: impl FnMut(Point),
) {
    let lists_none = route.normal.is_empty() && route.reverse.is_empty();
    if lists_none && (0..before.trains.len()).any(is_busy) {
        note(Point::BothEmpty);
    }
}

/// The point that is named, by its places in the two lists. `is_busy` is what would be a hit or come
/// near to it if the point were listed.
fn of_points(
    route: &Route,
    named: usize,
    is_hit: impl Fn(usize) -> bool,
    is_busy: impl Fn(usize) -> bool,
    mut note: impl FnMut(Point),
) {
    let hit = |list: &[usize]| list.iter().copied().find(|&point| is_hit(point));
    match (hit(&route.normal), hit(&route.reverse)) {
        (Some(_), None) => note(Point::NormalAlone),
        (None, Some(_)) => note(Point::ReverseAlone),
        (Some(normal), Some(reverse)) if normal < reverse => note(Point::NormalLower),
        (Some(normal), Some(reverse)) if reverse < normal => note(Point::ReverseLower),
        _ => {}
    }
    if route.normal.is_empty() {
        note(Point::NormalEmpty);
    }
    if route.reverse.is_empty() {
        note(Point::ReverseEmpty);
    }
    const NORMAL: [Point; 7] = [
        Point::NormalFirst,
        Point::NormalLast,
        Point::NormalMiddle,
        Point::NormalSeveral,
        Point::NormalNotItsPlace,
        Point::NormalPastThree,
        Point::NormalVeryLast,
    ];
    const REVERSE: [Point; 7] = [
        Point::ReverseFirst,
        Point::ReverseLast,
        Point::ReverseMiddle,
        Point::ReverseSeveral,
        Point::ReverseNotItsPlace,
        Point::ReversePastThree,
        Point::ReverseVeryLast,
    ];
    // A point of both lists says little of a walk over one of them: the other one would find it.
    match [&route.normal, &route.reverse].map(|list| place_of(list, named)) {
        [Some(place), None] => of_place(&route.normal, place, &is_hit, NORMAL, &mut note),
        [None, Some(place)] => of_place(&route.reverse, place, &is_hit, REVERSE, &mut note),
        _ => note(Point::InBoth),
    }
    let is_unlisted = |point: &usize| !route.lists(*point) && is_busy(*point);
    if (0..named).any(|point| is_unlisted(&point)) {
        note(Point::LowerUnlisted);
    }
}

fn of_place(
    list: &[usize],
    place: usize,
    is_hit: &dyn Fn(usize) -> bool,
    kinds: [Point; 7],
    mut note: impl FnMut(Point),
) {
    let [first, last, middle, several, not_its_place, past_three, very_last] = kinds;
    let end = list.len() - 1;
    let later = &list[place + 1..];
    let is = [
        (end > 0 && place == 0, first),
        (end > 0 && place == end, last),
        (place > 0 && place < end, middle),
        (later.iter().any(|&point| is_hit(point)), several),
        (list[place] != place, not_its_place),
        (place >= 3, past_three),
        (place == 15, very_last),
    ];
    is.into_iter()
        .filter(|(holds, _)| *holds)
        .for_each(|(_, kind)| note(kind));
}

fn of_turns(before: &State, route: &Route, answer: &Answer, mut note: impl FnMut(Turn)) {
    let has_train = |point: &usize| before.trains[*point].is_some();
    match *answer {
        Answer::Granted { .. } => {
            let mut both = route
                .normal
                .iter()
                .filter(|point| route.reverse.contains(point));
            // A grant: the point lies reverse, or it would have turned.
            if both.any(|point| has_train(point) && before.lies[*point] == Lie::Reverse) {
                note(Turn::KeptReverse);
            }
        }
        Answer::Accident(Accident::Derailment { point }) => {
            let mut lower = route.listed().filter(|listed| *listed < point);
            // Any that would turn would be named.
            if lower.any(|listed| has_train(&listed)) {
                note(Turn::LowerKept);
            }
        }
        _ => {}
    }
}
