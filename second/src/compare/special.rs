//! Finer kinds of answers than the numbers alone, each of which the cases must reach.

use crate::model::answer::{Accident, Answer, Refusal};
use crate::model::plan::{Lie, Plan, Route, Track};
use crate::model::state::State;

/// Declares an enum together with the words that are printed for its members.
macro_rules! kinds_in_words {
    ($kind:ident, $words:ident: $($member:ident $text:literal,)*) => {
        #[derive(Clone, Copy, Debug, PartialEq, Eq)]
        pub enum $kind { $($member,)* }
        pub const $words: &[&str] = &[$($text,)*];
    };
}
pub(super) use kinds_in_words;

kinds_in_words! { Special, SPECIALS:
    UnknownKind "11: unknown kind",
    UnusedByte "11: unused byte not 0",
    NoSuchRoute "11: no such route",
    NoSuchEntry "11: no such entry",
    TrainZeroEnters "11: train 0 enters",
    TrainZeroMoves "11: train 0 moves",
    OneByteLeft "11: last event of one byte",
    TwoBytesLeft "11: last event of two bytes",
    GreenForItself "12: green for the same route",
    GreenForAnother "12: green for another route",
    HeldByItself "14: held by the same route alone",
    HeldByAnother "14: held by one other route",
    HeldBySeveral "14: held by several routes",
    RequestOverTrain "granted over a train on a point that keeps its lie",
    BothListsKept "granted over a train on a point in both lists",
    UnlistedDropped "cancelled: a hold of an unlisted point dropped",
    SharedKept "cancelled: another route goes on holding the point",
    ReleasedNothing "moved: nothing given back",
    ReleasedOne "moved: one hold given back",
    ReleasedSeveral "moved: several holds given back",
    LeftFromHome "left from an exit that is a home",
    CollisionByMove "40: by a move to another track",
    CollisionWithItself "40: by a track that leads to itself",
    CollisionByEntry "40: by an entry",
    FromOtherLeg "41: from the other leg",
    FromNoLeg "41: from no leg",
    DerailedInOneList "42: point in one list",
    DerailedInBothLists "42: point in both lists",
}

/// Calls `note` for each special kind that this answer is of. `before` is the state that the
/// event found.
pub fn of_answer(
    plan: &Plan,
    before: &State,
    after: &State,
    event: &[u8],
    answer: &Answer,
    mut note: impl FnMut(Special),
) {
    let number = event.get(1).map_or(0, |&byte| usize::from(byte));
    match *answer {
        Answer::Refused(Refusal::BadEvent) => bad_event(plan, event, note),
        Answer::Refused(Refusal::SignalNotRed) => {
            let green = before.signals[plan.routes[number].start];
            note(if green == Some(number) {
                Special::GreenForItself
            } else {
                Special::GreenForAnother
            });
        }
        Answer::Refused(Refusal::PointHeld { point }) => note(held(before, point, number)),
        Answer::Granted { route } => granted(before, &plan.routes[route], note),
        Answer::Cancelled { route } => cancelled(before, after, &plan.routes[route], route, note),
        Answer::Moved { .. } => note(moved(before, after)),
        Answer::Left { from, .. } if plan.is_home(from) => note(Special::LeftFromHome),
        Answer::Accident(accident) => note(of_accident(plan, before, event, accident)),
        _ => {}
    }
}

fn bad_event(plan: &Plan, event: &[u8], mut note: impl FnMut(Special)) {
    match *event {
        [_] => note(Special::OneByteLeft),
        [_, _] => note(Special::TwoBytesLeft),
        [1 | 2, route, unused] => {
            if usize::from(route) >= plan.routes.len() {
                note(Special::NoSuchRoute);
            } else if unused != 0 {
                note(Special::UnusedByte);
            }
        }
        [3, entry, _] if usize::from(entry) >= plan.entries.len() => note(Special::NoSuchEntry),
        [3, ..] => note(Special::TrainZeroEnters),
        [4, 0, _] => note(Special::TrainZeroMoves),
        [4, ..] => note(Special::UnusedByte),
        _ => note(Special::UnknownKind),
    }
}

fn held(before: &State, point: usize, route: usize) -> Special {
    let holders = before.holds[point];
    match (holders.len(), holders.contains(route)) {
        (1, true) => Special::HeldByItself,
        (1, false) => Special::HeldByAnother,
        _ => Special::HeldBySeveral,
    }
}

fn granted(before: &State, route: &Route, mut note: impl FnMut(Special)) {
    let mut occupied = route
        .listed()
        .filter(|&point| before.trains[point].is_some());
    if let Some(point) = occupied.next() {
        note(Special::RequestOverTrain);
        let in_both = route.normal.contains(&point) && route.reverse.contains(&point);
        if in_both && before.lies[point] == Lie::Reverse {
            note(Special::BothListsKept);
        }
    }
}

fn cancelled(
    before: &State,
    after: &State,
    route: &Route,
    number: usize,
    mut note: impl FnMut(Special),
) {
    for point in 0..before.holds.len() {
        if before.holds[point].contains(number) && !route.lists(point) {
            note(Special::UnlistedDropped);
        }
        if before.holds[point].contains(number) && !after.holds[point].is_empty() {
            note(Special::SharedKept);
        }
    }
}

fn moved(before: &State, after: &State) -> Special {
    let count = |state: &State| -> usize { state.holds.iter().map(|routes| routes.len()).sum() };
    match count(before) - count(after) {
        0 => Special::ReleasedNothing,
        1 => Special::ReleasedOne,
        _ => Special::ReleasedSeveral,
    }
}

fn of_accident(plan: &Plan, before: &State, event: &[u8], accident: Accident) -> Special {
    let from = before.track_of(event[1]);
    match accident {
        Accident::Collision { .. } if event[0] == 3 => Special::CollisionByEntry,
        Accident::Collision { track } if from == Some(track) => Special::CollisionWithItself,
        Accident::Collision { .. } => Special::CollisionByMove,
        Accident::RunThrough { track } => match plan.tracks[track] {
            Track::Trailing {
                normal_leg,
                reverse_leg,
                ..
            } if from == Some(normal_leg) || from == Some(reverse_leg) => Special::FromOtherLeg,
            _ => Special::FromNoLeg,
        },
        Accident::Derailment { point } => {
            let route = &plan.routes[usize::from(event[1])];
            if route.normal.contains(&point) && route.reverse.contains(&point) {
                Special::DerailedInBothLists
            } else {
                Special::DerailedInOneList
            }
        }
    }
}
