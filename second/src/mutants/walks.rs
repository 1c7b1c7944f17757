//! Walks over a list that begin late, end early, hand back the wrong thing or take the wrong list:
//! those of the tests behind 13, for requests and for entries, and of 14 and 42, which walk the normal
//! and the reverse points and name the lower of two hits.

use super::{Slip, Wrong};
use crate::model::answer::{Accident, Answer, Refusal};
use crate::model::plan::{Entry, Lie, Plan, Route};
use crate::model::state::State;
use crate::model::step::{grant, is_held, lie_in_the_end, step, would_turn};

/// What a walk is given: the list, what it looks for, and how many tracks the plan has.
struct Way<'a> {
    list: &'a [usize],
    is_hit: &'a dyn Fn(usize) -> bool,
    tracks: usize,
}

impl Way<'_> {
    /// The first of these that is a hit.
    fn first_of(&self, mut numbers: impl Iterator<Item = usize>) -> Option<usize> {
        numbers.find(|&number| (self.is_hit)(number))
    }

    fn numbers(&self) -> impl DoubleEndedIterator<Item = usize> + '_ {
        self.list.iter().copied()
    }
}

/// The number that a walk finds.
type Walk = fn(&Way) -> Option<usize>;

/// Which of two hits is named, each with its place in its list.
type Choice = fn(Option<Hit>, Option<Hit>) -> Option<usize>;

#[derive(Clone, Copy)]
struct Hit {
    number: usize,
    place: usize,
}

/// The lie that 42 expects in the end.
type End = fn(&Route, usize) -> Lie;

/// The tests of a request and of an entry, walk by walk.
#[derive(Clone, Copy)]
struct Walks {
    clear: Walk,
    entry: Walk,
    held_normal: Walk,
    held_reverse: Walk,
    held: Choice,
    derailed_normal: Walk,
    derailed_reverse: Walk,
    derailed: Choice,
    end: End,
    /// What 13 walks.
    list: fn(&Route) -> &[usize],
    entry_list: fn(&Entry) -> &[usize],
}

const RIGHT: Walks = Walks {
    clear: first_hit,
    entry: first_hit,
    held_normal: first_hit,
    held_reverse: first_hit,
    held: lower,
    derailed_normal: first_hit,
    derailed_reverse: first_hit,
    derailed: lower,
    end: lie_in_the_end,
    list: |route| &route.clear,
    entry_list: |entry| &entry.clear,
};

/// A box in which these parts are others.
macro_rules! walks {
    ($($part:ident: $wrong:expr),+) => {
        Wrong::Step(|plan, state, event| walked(plan, state, event, &Walks { $($part: $wrong,)+ ..RIGHT }))
    };
}

/// All the ways in which the walk over one list can be wrong, whatever the list is.
macro_rules! wrong_walks {
    ($group:ident, $part:ident, $test:literal $(, $most:literal $at_most:ident)+) => {
        const $group: &[Slip] = &[
            (
                concat!($test, " that are empty are hit"),
                walks!($part: empty_is_hit),
            ),
            (
                concat!($test, " that are empty are all of the plan"),
                walks!($part: empty_is_all),
            ),
            (
                concat!($test, " are walked from the second on"),
                walks!($part: from_second),
            ),
            (
                concat!($test, " are walked but for the last"),
                walks!($part: but_last),
            ),
            (
                concat!($test, " are walked and the place is named"),
                walks!($part: place),
            ),
            (
                concat!($test, " are counted, not looked up"),
                walks!($part: by_place),
            ),
            (
                concat!($test, " are walked by two at a time"),
                walks!($part: every_other),
            ),
            (
                concat!($test, " are walked to the last hit"),
                walks!($part: last_hit),
            ),
            (
                concat!($test, " are walked to the first that is no hit"),
                walks!($part: until_free),
            ),
            $((
                concat!($test, " are walked to the ", $most, " at most"),
                walks!($part: $at_most),
            ),)+
        ];
    };
}

wrong_walks! { CLEAR, clear, "13 for a request: clear tracks",
"third" at_most_3, "16th" at_most_16, "32nd" at_most_32, "63rd" at_most_63 }
wrong_walks! { ENTRY, entry, "13 for an entry: clear tracks",
"third" at_most_3, "16th" at_most_16, "32nd" at_most_32, "63rd" at_most_63 }
wrong_walks! { HELD_NORMAL, held_normal, "14: normal points", "third" at_most_3, "15th" at_most_15 }
wrong_walks! { HELD_REVERSE, held_reverse, "14: reverse points", "third" at_most_3, "15th" at_most_15 }
wrong_walks! { DERAILED_NORMAL, derailed_normal, "42: normal points",
"third" at_most_3, "15th" at_most_15 }
wrong_walks! { DERAILED_REVERSE, derailed_reverse, "42: reverse points",
"third" at_most_3, "15th" at_most_15 }

/// The wrong list, or the wrong one of two. Some of 14 stand among the requests.
const LISTS: &[Slip] = &[
    (
        "13 for a request walks the path",
        walks!(list: |route| &route.path),
    ),
    (
        "13 for a request walks the normal points",
        walks!(list: |route| &route.normal),
    ),
    (
        "13 for a request walks the reverse points",
        walks!(list: |route| &route.reverse),
    ),
    (
        "13 for a request walks both ends of its list alone",
        walks!(clear: both_ends),
    ),
    (
        "13 for a request walks what lies between listed tracks too",
        walks!(clear: all_between),
    ),
    (
        "13 for a request names the lowest of all tracks",
        walks!(clear: lowest_of_all),
    ),
    (
        "13 for an entry walks both ends of its list alone",
        walks!(entry: both_ends),
    ),
    (
        "13 for an entry walks what lies between listed tracks too",
        walks!(entry: all_between),
    ),
    (
        "13 for an entry names the lowest of all tracks",
        walks!(entry: lowest_of_all),
    ),
    (
        "13 for an entry walks the entry track alone",
        walks!(entry_list: |entry| std::slice::from_ref(&entry.track)),
    ),
    ("14 for reverse points alone", walks!(held_normal: nothing)),
    ("14 names the higher of two hits", walks!(held: higher)),
    (
        "14 names a reverse point first",
        walks!(held: reverse_first),
    ),
    (
        "14 names the hit at the lower place",
        walks!(held: lower_place),
    ),
    (
        "14 names the lowest of all points",
        walks!(held_normal: lowest_of_all, held_reverse: lowest_of_all),
    ),
    (
        "42 for normal points alone",
        walks!(derailed_reverse: nothing),
    ),
    (
        "42 for reverse points alone",
        walks!(derailed_normal: nothing),
    ),
    ("42 names the higher of two hits", walks!(derailed: higher)),
    (
        "42 names a normal point first",
        walks!(derailed: normal_first),
    ),
    (
        "42 names a reverse point first",
        walks!(derailed: reverse_first),
    ),
    (
        "42 names the hit at the lower place",
        walks!(derailed: lower_place),
    ),
    (
        "42 names the lowest of all points",
        walks!(derailed_normal: lowest_of_all, derailed_reverse: lowest_of_all),
    ),
    (
        "42 looks at the end as if normal won",
        walks!(end: normal_in_the_end),
    ),
];

/// Every wrong walk.
pub const ALL: [&[Slip]; 7] = [
    CLEAR,
    ENTRY,
    HELD_NORMAL,
    HELD_REVERSE,
    DERAILED_NORMAL,
    DERAILED_REVERSE,
    LISTS,
];

/// The step with these walks.
fn walked(plan: &Plan, state: &mut State, event: &[u8], walks: &Walks) -> Answer {
    let tracks = plan.tracks.len();
    match *event {
        [1, number, 0] if usize::from(number) < plan.routes.len() => {
            let number = usize::from(number);
            let route = &plan.routes[number];
            let is_red = state.signals[route.start].is_none();
            let refused = is_red.then(|| refused(state, route, tracks, walks));
            match refused {
                Some(None) => {
                    grant(state, route, number);
                    Answer::Granted { route: number }
                }
                Some(Some(answer)) => answer,
                // 12.
                None => step(plan, state, event),
            }
        }
        [3, entry, train] if usize::from(entry) < plan.entries.len() && train != 0 => {
            let entry = &plan.entries[usize::from(entry)];
            let list = (walks.entry_list)(entry);
            let found = with_train(state, list, tracks, walks.entry);
            match found {
                Some(track) if state.track_of(train).is_none() => in_the_way(state, track),
                // 17 and 40 are right, and nothing is in the way of an entry that looks at nothing.
                _ => {
                    let clear = vec![];
                    let track = entry.track;
                    crate::model::step::enter(&Entry { track, clear }, state, train)
                }
            }
        }
        _ => step(plan, state, event),
    }
}

/// The train is that of the track which is named, or 0 where that has none.
fn in_the_way(state: &State, track: usize) -> Answer {
    Answer::in_the_way((track, state.trains[track].unwrap_or(0)))
}

fn with_train(state: &State, list: &[usize], tracks: usize, walk: Walk) -> Option<usize> {
    let is_hit = &|track: usize| state.trains[track].is_some();
    walk(&Way {
        list,
        is_hit,
        tracks,
    })
}

/// 13, 14 or 42, if one of them applies.
fn refused(state: &State, route: &Route, tracks: usize, walks: &Walks) -> Option<Answer> {
    if let Some(track) = with_train(state, (walks.list)(route), tracks, walks.clear) {
        return Some(in_the_way(state, track));
    }
    let held_otherwise = |point: usize| is_held(state, point) && would_turn(state, route, point);
    let both = [walks.held_normal, walks.held_reverse];
    if let Some(point) = on_points(route, tracks, &held_otherwise, both, walks.held) {
        return Some(Answer::Refused(Refusal::PointHeld { point }));
    }
    let would_turn = |point: usize| {
        state.trains[point].is_some() && (walks.end)(route, point) != state.lies[point]
    };
    let both = [walks.derailed_normal, walks.derailed_reverse];
    let point = on_points(route, tracks, &would_turn, both, walks.derailed)?;
    Some(Answer::Accident(Accident::Derailment { point }))
}

/// Both lists of points are walked, and one of the hits is named.
fn on_points(
    route: &Route,
    tracks: usize,
    is_hit: &dyn Fn(usize) -> bool,
    [normal, reverse]: [Walk; 2],
    choice: Choice,
) -> Option<usize> {
    let hit = |list: &[usize], walk: Walk| {
        let way = Way {
            list,
            is_hit,
            tracks,
        };
        let number = walk(&way)?;
        let place = list.iter().position(|&listed| listed == number);
        Some(Hit {
            number,
            place: place.unwrap_or(0),
        })
    };
    choice(hit(&route.normal, normal), hit(&route.reverse, reverse))
}

fn first_hit(way: &Way) -> Option<usize> {
    way.first_of(way.numbers())
}

/// No walk at all.
fn nothing(_: &Way) -> Option<usize> {
    None
}

fn empty_is_hit(way: &Way) -> Option<usize> {
    match way.list {
        [] => Some(0),
        _ => first_hit(way),
    }
}

fn empty_is_all(way: &Way) -> Option<usize> {
    match way.list {
        [] => way.first_of(0..way.tracks),
        _ => first_hit(way),
    }
}

fn from_second(way: &Way) -> Option<usize> {
    way.first_of(way.numbers().skip(1))
}

fn but_last(way: &Way) -> Option<usize> {
    at_most(way, way.list.len().saturating_sub(1))
}

fn place(way: &Way) -> Option<usize> {
    way.numbers().position(|number| (way.is_hit)(number))
}

/// The tracks with the numbers of the places.
fn by_place(way: &Way) -> Option<usize> {
    way.first_of(0..way.list.len())
}

fn every_other(way: &Way) -> Option<usize> {
    way.first_of(way.numbers().step_by(2))
}

fn last_hit(way: &Way) -> Option<usize> {
    way.first_of(way.numbers().rev())
}

fn both_ends(way: &Way) -> Option<usize> {
    let ends = way.list.first().into_iter().chain(way.list.last());
    way.first_of(ends.copied())
}

fn all_between(way: &Way) -> Option<usize> {
    let (first, last) = (way.list.first()?, way.list.last()?);
    way.first_of(*first..=*last)
}

/// What is looked for is in the list, but what is named need not be.
fn lowest_of_all(way: &Way) -> Option<usize> {
    first_hit(way)?;
    way.first_of(0..way.tracks)
}

/// A walk that ends there has found nothing, unless it was at its first step.
fn until_free(way: &Way) -> Option<usize> {
    at_most(way, 1)
}

fn at_most(way: &Way, count: usize) -> Option<usize> {
    way.first_of(way.numbers().take(count))
}

fn at_most_3(way: &Way) -> Option<usize> {
    at_most(way, 3)
}

fn at_most_15(way: &Way) -> Option<usize> {
    at_most(way, 15)
}

fn at_most_16(way: &Way) -> Option<usize> {
    at_most(way, 16)
}

fn at_most_32(way: &Way) -> Option<usize> {
    at_most(way, 32)
}

fn at_most_63(way: &Way) -> Option<usize> {
    at_most(way, 63)
}

fn lower(normal: Option<Hit>, reverse: Option<Hit>) -> Option<usize> {
    let hits = normal.into_iter().chain(reverse);
    hits.map(|hit| hit.number).min()
}

fn higher(normal: Option<Hit>, reverse: Option<Hit>) -> Option<usize> {
    let hits = normal.into_iter().chain(reverse);
    hits.map(|hit| hit.number).max()
}

fn lower_place(normal: Option<Hit>, reverse: Option<Hit>) -> Option<usize> {
    let hits = normal.into_iter().chain(reverse);
    hits.min_by_key(|hit| hit.place).map(|hit| hit.number)
}

fn normal_first(normal: Option<Hit>, reverse: Option<Hit>) -> Option<usize> {
    normal.or(reverse).map(|hit| hit.number)
}

fn reverse_first(normal: Option<Hit>, reverse: Option<Hit>) -> Option<usize> {
    reverse.or(normal).map(|hit| hit.number)
}

fn normal_in_the_end(route: &Route, point: usize) -> Lie {
    match route.normal.contains(&point) {
        true => Lie::Normal,
        false => Lie::Reverse,
    }
}
