//! How often each length of a list came with the only hit at its last place, where a walk that ends
//! too early shows, how often each number of a route and of an entry came with 13, 14 and 42, how often
//! each route was the one that held a point, or gave back one that others held, how often each number of
//! holders, of points and of releases came, and how often 13 named each train and each track. A box can be
//! wrong for one of them alone, so that the rarest one must have come often enough.

use super::minima::LEAST;
use super::special::kinds_in_words;
use crate::model::answer::{Accident, Answer, Refusal};
use crate::model::plan::{self, Plan, Route};
use crate::model::state::{RouteSet, State};
use crate::model::step::{is_held, would_turn};
use std::collections::BTreeSet;
use std::ops::RangeInclusive;

// `#` stands for the rarest member.
kinds_in_words! { Family, FAMILIES:
    ClearOfRequest "13 for a request: the only hit at the last of # tracks, the rarest length",
    ClearOfEntry "13 for an entry: the only hit at the last of # tracks, the rarest length",
    HeldNormal "14: the only hit at the last of # normal points, the rarest length",
    HeldReverse "14: the only hit at the last of # reverse points, the rarest length",
    DerailedNormal "42: the only hit at the last of # normal points, the rarest length",
    DerailedReverse "42: the only hit at the last of # reverse points, the rarest length",
    RefusedRoute "13 for a request: for route #, the rarest one",
    RefusedEntry "13 for an entry: for entry #, the rarest one",
    HeldRoute "14: for route #, the rarest one",
    DerailedRoute "42: for route #, the rarest one",
    HeldNormalRight "14: the only hit at the last of # normal points, the others held and lying right, \
        the rarest length",
    HeldReverseRight "14: the only hit at the last of # reverse points, the others held and lying right, \
        the rarest length",
    HeldBy "14: held by route # alone, the rarest one",
    GrantedOver "granted over a point that route #, another one, alone holds, the rarest one",
    ArrivedBeside "moved: route # gives back a point that others held too, the rarest one",
    CancelledBeside "cancelled: route # gives back a point that others held too, the rarest one",
    HoldersHeld "14: # routes hold the point, the rarest number",
    HoldersGranted "granted over a point that # routes hold, the rarest number",
    HoldersArrived "moved: a hold given back of a point that # routes held, the rarest number",
    HoldersCancelled "cancelled: a hold given back of a point that # routes held, the rarest number",
    RoutesArrived "moved: # routes give one point back at once, the rarest number",
    PointsArrived "moved: # points are given back at once, the rarest number",
    LastRelease "moved: a hold given back by the last of # releases, the rarest length",
    InTheWay "14: # listed points are held and would turn, the rarest number",
    HoldsCancelled "cancelled: # holds of the route fall, the rarest number",
    TrainOfRequest "13 for a request: train #, the rarest one",
    TrainOfEntry "13 for an entry: train #, the rarest one",
    TrackOfRequest "13 for a request: track #, the rarest one",
    TrackOfEntry "13 for an entry: track #, the rarest one",
}

const TRACKS: RangeInclusive<usize> = 1..=*plan::CLEAR.end();
const POINTS: RangeInclusive<usize> = 1..=*plan::POINTS.end();
const SEVERAL: RangeInclusive<usize> = 2..=*plan::POINTS.end();
const ROUTES: RangeInclusive<usize> = 0..=*plan::ROUTES.end() - 1;
const ENTRIES: RangeInclusive<usize> = 0..=*plan::ENTRIES.end() - 1;
const HOLDERS: RangeInclusive<usize> = 1..=*plan::ROUTES.end();
const RELEASES: RangeInclusive<usize> = 1..=*plan::RELEASES.end();
/// Points of both lists.
const LISTED: RangeInclusive<usize> = 1..=2 * *plan::POINTS.end();
const TRAINS: RangeInclusive<usize> = 1..=u8::MAX as usize;
const NAMED: RangeInclusive<usize> = 0..=plan::MOST_TRACKS - 1;

/// The lengths or the numbers of each family.
const MEMBERS: [RangeInclusive<usize>; FAMILIES.len()] = [
    TRACKS, TRACKS, POINTS, POINTS, POINTS, POINTS, ROUTES, ENTRIES, ROUTES, ROUTES, SEVERAL,
    SEVERAL, ROUTES, ROUTES, ROUTES, ROUTES, HOLDERS, HOLDERS, HOLDERS, HOLDERS, HOLDERS, RELEASES,
    RELEASES, LISTED, TRACKS, TRAINS, TRAINS, NAMED, NAMED,
];

/// By family and member. No family has one above the highest train.
pub type Spread = [[u64; *TRAINS.end() + 1]; FAMILIES.len()];

pub static NONE: Spread = [[0; *TRAINS.end() + 1]; FAMILIES.len()];

/// Very few plans have so many points that so many holds fall.
const LEAST_CANCELLED: u64 = 25;

/// Each family, with its rarest member named and counted, and how often that must have come.
pub fn of_each(spread: &Spread) -> impl Iterator<Item = (String, u64, u64)> + '_ {
    let families = FAMILIES.iter().zip(MEMBERS).zip(spread);
    families.map(|((words, members), counts)| {
        let rarest = members.min_by_key(|&member| counts[member]);
        let rarest = rarest.expect("a family has members");
        let least = match *words == FAMILIES[Family::HoldsCancelled as usize] {
            true => LEAST_CANCELLED,
            false => LEAST,
        };
        (
            words.replace('#', &rarest.to_string()),
            counts[rarest],
            least,
        )
    })
}

/// Counts the members that this answer is of. `before` is the state that the event found.
pub fn of_answer(plan: &Plan, before: &State, event: &[u8], answer: &Answer, spread: &mut Spread) {
    let mut note = |family: Family, member: usize| spread[family as usize][member] += 1;
    let number = event.get(1).map_or(0, |&byte| usize::from(byte));
    match *answer {
        Answer::Refused(Refusal::TrainInTheWay { track, train }) if event[0] == 3 => {
            note(Family::RefusedEntry, number);
            note(Family::TrainOfEntry, train.into());
            note(Family::TrackOfEntry, track);
            of_list(&plan.entries[number].clear, track, |length| {
                note(Family::ClearOfEntry, length);
            });
        }
        Answer::Refused(Refusal::TrainInTheWay { track, train }) => {
            note(Family::RefusedRoute, number);
            note(Family::TrainOfRequest, train.into());
            note(Family::TrackOfRequest, track);
            of_list(&plan.routes[number].clear, track, |length| {
                note(Family::ClearOfRequest, length);
            });
        }
        Answer::Refused(Refusal::PointHeld { point }) => {
            note(Family::HeldRoute, number);
            note(Family::HoldersHeld, before.holds[point].len());
            if let Some(holder) = only_holder(before, point) {
                note(Family::HeldBy, holder);
            }
            let route = &plan.routes[number];
            let is_hit = |point: usize| is_held(before, point) && would_turn(before, route, point);
            let in_the_way = listed_once(route)
                .into_iter()
                .filter(|&point| is_hit(point));
            note(Family::InTheWay, in_the_way.count());
            let families = [Family::HeldNormal, Family::HeldReverse];
            of_points(route, point, is_hit, families, &mut note);
            let families = [Family::HeldNormalRight, Family::HeldReverseRight];
            of_held_right(before, route, point, families, note);
        }
        Answer::Granted { route } => {
            let holders = plan.routes[route].listed();
            let holders = holders.filter_map(|point| only_holder(before, point));
            let others = holders.filter(|&holder| holder != route);
            others.for_each(|holder| note(Family::GrantedOver, holder));
            let held = listed_once(&plan.routes[route]).into_iter();
            let held = held.filter(|&point| is_held(before, point));
            held.for_each(|point| note(Family::HoldersGranted, before.holds[point].len()));
        }
        Answer::Moved { to, .. } => of_arrival(plan, before, to, note),
        Answer::Cancelled { route } => {
            let is_shared = |holders: &&RouteSet| holders.contains(route) && holders.len() > 1;
            let count = before.holds.iter().filter(is_shared).count();
            (0..count).for_each(|_| note(Family::CancelledBeside, route));
            let fall = before
                .holds
                .iter()
                .filter(|holders| holders.contains(route));
            let mut count = 0;
            for holders in fall {
                note(Family::HoldersCancelled, holders.len());
                count += 1;
            }
            if count > 0 {
                note(Family::HoldsCancelled, count);
            }
        }
        Answer::Accident(Accident::Derailment { point }) => {
            note(Family::DerailedRoute, number);
            let route = &plan.routes[number];
            let is_hit =
                |point: usize| before.trains[point].is_some() && would_turn(before, route, point);
            let families = [Family::DerailedNormal, Family::DerailedReverse];
            of_points(route, point, is_hit, families, note);
        }
        _ => {}
    }
}

fn only_holder(before: &State, point: usize) -> Option<usize> {
    let holders = before.holds[point];
    holders.routes().next().filter(|_| holders.len() == 1)
}

/// The listed points, each once.
fn listed_once(route: &Route) -> BTreeSet<usize> {
    route.listed().collect()
}

/// Each route that gives back a point which others held too, and how many routes and points there are.
fn of_arrival(plan: &Plan, before: &State, to: usize, mut note: impl FnMut(Family, usize)) {
    let mut given_back = [0; plan::MOST_TRACKS];
    for (number, route) in plan.routes.iter().enumerate() {
        let here = route.releases.iter().filter(|release| release.track == to);
        for release in here.filter(|release| before.holds[release.point].contains(number)) {
            given_back[release.point] += 1;
            if before.holds[release.point].len() > 1 {
                note(Family::ArrivedBeside, number);
            }
            if route.releases.last() == Some(release) {
                note(Family::LastRelease, route.releases.len());
            }
        }
    }
    let points = given_back
        .iter()
        .enumerate()
        .filter(|(_, &routes)| routes > 0);
    let mut count = 0;
    for (point, &routes) in points {
        note(Family::RoutesArrived, routes);
        note(Family::HoldersArrived, before.holds[point].len());
        count += 1;
    }
    if RELEASES.contains(&count) {
        note(Family::PointsArrived, count);
    }
}

/// The named point ends its list, and all others of the list are held and lie right.
fn of_held_right(
    before: &State,
    route: &Route,
    named: usize,
    families: [Family; 2],
    mut note: impl FnMut(Family, usize),
) {
    let is_right = |&point: &usize| is_held(before, point) && !would_turn(before, route, point);
    for (list, family) in [&route.normal, &route.reverse].into_iter().zip(families) {
        match list.split_last() {
            Some((last, others @ [_, ..])) if *last == named && others.iter().all(is_right) => {
                note(family, list.len());
            }
            _ => {}
        }
    }
}

/// The lowest hit of a list is named, so that the last one is alone.
fn of_list(list: &[usize], named: usize, note: impl FnOnce(usize)) {
    if list.last() == Some(&named) {
        note(list.len());
    }
}

/// Lists of which one has the only hit. A point of both would be found in the other one too.
fn of_points(
    route: &Route,
    named: usize,
    is_hit: impl Fn(usize) -> bool,
    families: [Family; 2],
    mut note: impl FnMut(Family, usize),
) {
    if route.listed().filter(|&point| is_hit(point)).count() == 1 {
        for (list, family) in [&route.normal, &route.reverse].into_iter().zip(families) {
            of_list(list, named, |length| note(family, length));
        }
    }
}
