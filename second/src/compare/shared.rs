//! Points that are held: by how many routes and by which, what stands before the one that 14 names, and
//! what becomes of the other holds when one is taken or given back.

use super::special::kinds_in_words;
use crate::model::answer::{Accident, Answer, Refusal};
use crate::model::plan::{Plan, Route};
use crate::model::state::{RouteSet, State};
use crate::model::step::{is_held, lie_in_the_end, would_turn};

// Each is counted in whole runs on accepted plans, where it can come there, and elsewhere.
kinds_in_words! { Shared, SHARED:
    OverOne "granted over a point that one route holds",
    OverTwo "granted over a point that two routes hold",
    OverMore "granted over a point that three routes hold or more",
    OverNormal "granted over a held point, listed normal",
    OverReverse "granted over a held point, listed reverse",
    OverSeveral "granted over several held points",
    OverAndTurned "granted over a held point, and another turns",
    LowerRight "14: a lower listed point is held and lies right",
    LowerFree "14: a lower listed point would turn and is not held",
    LowerIdle "14: a lower listed point lies right and is not held",
    HigherRight "14: a higher listed point is held and lies right",
    ByTwo "14: held by two routes",
    ByMore "14: held by three routes or more",
    ByLower "14: held by routes of lower numbers alone",
    ByHigher "14: held by routes of higher numbers alone",
    ByGreen "14: held by routes alone whose signal is green",
    ByPassed "14: held by routes alone whose signal is no more green",
    BySameSignal "14: held by routes from the same signal alone",
    ByOtherSignal "14: held by routes from other signals alone",
    ArrivedLast "moved: a point's last hold given back",
    ArrivedOne "moved: a hold given back, one route goes on holding the point",
    ArrivedTwo "moved: a hold given back, two routes go on holding the point",
    ArrivedMore "moved: a hold given back, three routes or more go on holding the point",
    ArrivedLowest "moved: the lowest holder of several gives a point back",
    ArrivedHighest "moved: the highest holder of several gives a point back",
    ArrivedIdle "moved: a route has nothing to give back of a point that others hold",
    CancelledOne "cancelled: one route goes on holding a point",
    CancelledTwo "cancelled: two routes go on holding a point",
    CancelledMore "cancelled: three routes or more go on holding a point",
    CancelledLowest "cancelled: the lowest holder of several gives a point back",
    CancelledHighest "cancelled: the highest holder of several gives a point back",
}

// Each is counted wherever it comes. Most of them never come in a run on an accepted plan.
kinds_in_words! { Odd, ODD:
    OverOwn "granted over a point that the same route holds alone",
    OverMany "granted over a point that eight routes hold or more",
    OverBoth "granted over a held point of both lists",
    OverTrain "granted over a held point with a train",
    OverAnother "granted over a point held by a route that lists it otherwise",
    OwnAndOthers "14: held by the same route and others",
    ByMany "14: held by eight routes or more",
    ByLike "14: held by routes alone that list it as it is wanted",
    WithTrain "14: the point has a train too",
    DerailedBeside "42: a listed point is held and lies right",
    ArrivedSeveral "moved: several routes give one point back at once",
    ArrivedSeveralOne "moved: several routes give one point back at once, and another goes on holding it",
    ArrivedBetween "moved: a holder between others gives a point back",
    CancelledBetween "cancelled: a holder between others gives a point back",
    CancelledIdle "cancelled: a route has nothing to give back of a listed point that others hold",
}

const WHERE: [&str; 2] = ["in runs on accepted plans", "elsewhere"];
const ODD_FROM: usize = 2 * SHARED.len();
pub const KINDS: usize = ODD_FROM + ODD.len();

/// The name of each count.
pub fn names() -> Vec<String> {
    let shared = SHARED.iter();
    let shared = shared.flat_map(|kind| WHERE.map(|place| format!("{kind}, {place}")));
    shared
        .chain(ODD.iter().map(|kind| kind.to_string()))
        .collect()
}

/// Counts what an answer is of, once for each kind.
pub struct Notes<'a> {
    counts: &'a mut [u64],
    is_elsewhere: bool,
    seen: u64,
}

impl<'a> Notes<'a> {
    /// `in_order` in a whole run on an accepted plan.
    pub fn new(counts: &'a mut [u64], in_order: bool) -> Self {
        Notes {
            counts,
            is_elsewhere: !in_order,
            seen: 0,
        }
    }

    fn shared(&mut self, is_so: bool, kind: Shared) {
        let place = 2 * kind as usize + usize::from(self.is_elsewhere);
        self.note(is_so, kind as usize, place);
    }

    fn odd(&mut self, is_so: bool, kind: Odd) {
        let kind = kind as usize;
        self.note(is_so, SHARED.len() + kind, ODD_FROM + kind);
    }

    fn note(&mut self, is_so: bool, kind: usize, place: usize) {
        if is_so && self.seen >> kind & 1 == 0 {
            self.seen |= 1 << kind;
            self.counts[place] += 1;
        }
    }
}

/// Counts the kinds that this answer is of.
pub fn of_answer(
    plan: &Plan,
    before: &State,
    after: &State,
    event: &[u8],
    answer: &Answer,
    notes: &mut Notes,
) {
    match *answer {
        Answer::Granted { route } => granted(plan, before, route, notes),
        Answer::Refused(Refusal::PointHeld { point }) => {
            let number = usize::from(event[1]);
            lower_and_higher(before, &plan.routes[number], point, notes);
            refused(plan, before, number, point, notes);
        }
        // Whatever is held lies right, or it would be 14.
        Answer::Accident(Accident::Derailment { .. }) => {
            let mut listed = plan.routes[usize::from(event[1])].listed();
            let is_beside = listed.any(|point| is_held(before, point));
            notes.odd(is_beside, Odd::DerailedBeside);
        }
        Answer::Moved { to, .. } => moved(plan, before, after, to, notes),
        Answer::Cancelled { route } => cancelled(plan, before, after, route, notes),
        _ => {}
    }
}

fn granted(plan: &Plan, before: &State, number: usize, notes: &mut Notes) {
    let route = &plan.routes[number];
    let mut held: Vec<usize> = route
        .listed()
        .filter(|&point| is_held(before, point))
        .collect();
    held.sort_unstable();
    held.dedup();
    for &point in &held {
        let holders = before.holds[point];
        notes.shared(holders.len() == 1, Shared::OverOne);
        notes.shared(holders.len() == 2, Shared::OverTwo);
        notes.shared(holders.len() > 2, Shared::OverMore);
        let in_lists = [&route.normal, &route.reverse].map(|list| list.contains(&point));
        notes.shared(in_lists == [true, false], Shared::OverNormal);
        notes.shared(in_lists == [false, true], Shared::OverReverse);
        notes.odd(in_lists == [true, true], Odd::OverBoth);
        notes.odd(holders.len() > 7, Odd::OverMany);
        notes.odd(holders.routes().eq([number]), Odd::OverOwn);
        notes.odd(before.trains[point].is_some(), Odd::OverTrain);
        let otherwise = |holder| is_otherwise(plan, holder, route, point);
        notes.odd(holders.routes().any(otherwise), Odd::OverAnother);
    }
    notes.shared(held.len() > 1, Shared::OverSeveral);
    let turns = route.listed().any(|point| would_turn(before, route, point));
    notes.shared(!held.is_empty() && turns, Shared::OverAndTurned);
}

/// Whether a holder lists the point, and would leave it otherwise than the route.
fn is_otherwise(plan: &Plan, holder: usize, route: &Route, point: usize) -> bool {
    let holder = &plan.routes[holder];
    holder.lists(point) && lie_in_the_end(holder, point) != lie_in_the_end(route, point)
}

fn lower_and_higher(before: &State, route: &Route, named: usize, notes: &mut Notes) {
    for point in route.listed().filter(|&point| point != named) {
        let (held, turns) = (is_held(before, point), would_turn(before, route, point));
        let is_lower = point < named;
        notes.shared(is_lower && held, Shared::LowerRight);
        notes.shared(is_lower && turns, Shared::LowerFree);
        notes.shared(is_lower && !turns && !held, Shared::LowerIdle);
        notes.shared(!is_lower && held && !turns, Shared::HigherRight);
    }
}

fn refused(plan: &Plan, before: &State, number: usize, point: usize, notes: &mut Notes) {
    let route = &plan.routes[number];
    let holders = before.holds[point];
    let all = |is_so: &dyn Fn(usize) -> bool| holders.routes().all(is_so);
    let is_green = |holder: usize| before.signals[plan.routes[holder].start] == Some(holder);
    let is_same = |holder: usize| plan.routes[holder].start == route.start;
    notes.shared(holders.len() == 2, Shared::ByTwo);
    notes.shared(holders.len() > 2, Shared::ByMore);
    notes.shared(all(&|holder| holder < number), Shared::ByLower);
    notes.shared(all(&|holder| holder > number), Shared::ByHigher);
    notes.shared(all(&is_green), Shared::ByGreen);
    notes.shared(all(&|holder| !is_green(holder)), Shared::ByPassed);
    notes.shared(all(&is_same), Shared::BySameSignal);
    notes.shared(all(&|holder| !is_same(holder)), Shared::ByOtherSignal);
    let is_own = holders.contains(number);
    notes.odd(is_own && holders.len() > 1, Odd::OwnAndOthers);
    notes.odd(holders.len() > 7, Odd::ByMany);
    let is_like = |holder: usize| {
        let is_listed = plan.routes[holder].lists(point);
        is_listed && !is_otherwise(plan, holder, route, point)
    };
    notes.odd(all(&is_like), Odd::ByLike);
    notes.odd(before.trains[point].is_some(), Odd::WithTrain);
}

/// Of the routes that held a point those that gave it back, by where they stand among the others.
fn lowest_and_highest(before: RouteSet, left: RouteSet) -> [bool; 3] {
    let gone = |route: usize| !left.contains(route);
    let is_gone = |route: Option<usize>| route.is_some_and(gone);
    let lowest = !left.is_empty() && is_gone(before.routes().next());
    let highest = !left.is_empty() && is_gone(before.routes().next_back());
    let (first, last) = (left.routes().next(), left.routes().next_back());
    let between = |route: usize| gone(route) && first < Some(route) && Some(route) < last;
    [
        lowest,
        highest,
        first.is_some() && before.routes().any(between),
    ]
}

fn moved(plan: &Plan, before: &State, after: &State, to: usize, notes: &mut Notes) {
    for point in 0..before.holds.len() {
        let (old, left) = (before.holds[point], after.holds[point]);
        let count = old.len() - left.len();
        if count > 0 {
            notes.shared(left.is_empty(), Shared::ArrivedLast);
            notes.shared(left.len() == 1, Shared::ArrivedOne);
            notes.shared(left.len() == 2, Shared::ArrivedTwo);
            notes.shared(left.len() > 2, Shared::ArrivedMore);
            let [lowest, highest, between] = lowest_and_highest(old, left);
            notes.shared(lowest, Shared::ArrivedLowest);
            notes.shared(highest, Shared::ArrivedHighest);
            notes.odd(between, Odd::ArrivedBetween);
            notes.odd(count > 1, Odd::ArrivedSeveral);
            notes.odd(count > 1 && !left.is_empty(), Odd::ArrivedSeveralOne);
        }
    }
    for (number, route) in plan.routes.iter().enumerate() {
        let here = route.releases.iter().filter(|release| release.track == to);
        for release in here {
            let holders = before.holds[release.point];
            let is_idle = !holders.is_empty() && !holders.contains(number);
            notes.shared(is_idle, Shared::ArrivedIdle);
        }
    }
}

fn cancelled(plan: &Plan, before: &State, after: &State, number: usize, notes: &mut Notes) {
    for point in 0..before.holds.len() {
        let (old, left) = (before.holds[point], after.holds[point]);
        if old.contains(number) {
            notes.shared(left.len() == 1, Shared::CancelledOne);
            notes.shared(left.len() == 2, Shared::CancelledTwo);
            notes.shared(left.len() > 2, Shared::CancelledMore);
            let [lowest, highest, between] = lowest_and_highest(old, left);
            notes.shared(lowest, Shared::CancelledLowest);
            notes.shared(highest, Shared::CancelledHighest);
            notes.odd(between, Odd::CancelledBetween);
        } else {
            let is_idle = plan.routes[number].lists(point) && !old.is_empty();
            notes.odd(is_idle, Odd::CancelledIdle);
        }
    }
}
