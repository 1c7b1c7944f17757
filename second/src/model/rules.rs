//! The twelve plan rules. Each is a function from a plan to its lowest broken row.

use super::plan::{Plan, Release, Route, Track};
use std::fmt;

/// The lowest row at which a rule is broken, counted from 0.
pub type Rule = fn(&Plan) -> Option<usize>;

/// Rule 1 stands first.
pub const RULES: [Rule; 12] = [
    rule_1, rule_2, rule_3, rule_4, rule_5, rule_6, rule_7, rule_8, rule_9, rule_10, rule_11,
    rule_12,
];

/// A broken rule, 1 to 12, with its row.
#[derive(Clone, Copy, Debug, PartialEq, Eq)]
pub struct Broken {
    pub rule: usize,
    pub row: usize,
}

impl fmt::Display for Broken {
    fn fmt(&self, out: &mut fmt::Formatter) -> fmt::Result {
        write!(out, "rule {} row {}", self.rule, self.row)
    }
}

pub fn check(plan: &Plan) -> Option<Broken> {
    first_broken(plan, &RULES)
}

/// Each rule is tried over all its rows before the next rule is looked at.
pub fn first_broken(plan: &Plan, rules: &[Rule; 12]) -> Option<Broken> {
    rules.iter().zip(1..).find_map(|(lowest_row, rule)| {
        let row = lowest_row(plan)?;
        Some(Broken { rule, row })
    })
}

/// The two ways out of a facing point differ; so do the two legs of a trailing point.
pub fn rule_1(plan: &Plan) -> Option<usize> {
    plan.tracks.iter().position(|track| match track {
        Track::Facing { normal, reverse } => normal == reverse,
        Track::Trailing {
            normal_leg,
            reverse_leg,
            ..
        } => normal_leg == reverse_leg,
        Track::Plain { .. } | Track::Exit => false,
    })
}

/// Each leg of a trailing point leads to it.
pub fn rule_2(plan: &Plan) -> Option<usize> {
    let leads = |leg: usize, point: usize| plan.tracks[leg].leads_to(point);
    (0..plan.tracks.len()).find(|&point| match plan.tracks[point] {
        Track::Trailing {
            normal_leg,
            reverse_leg,
            ..
        } => !leads(normal_leg, point) || !leads(reverse_leg, point),
        _ => false,
    })
}

/// No two tracks lead to the same track but the two legs of a trailing point, and nothing but its
/// legs leads to a trailing point.
pub fn rule_3(plan: &Plan) -> Option<usize> {
    let leaders = leaders(plan);
    (0..plan.tracks.len()).find(|&track| match plan.tracks[track] {
        Track::Trailing {
            normal_leg,
            reverse_leg,
            ..
        } => leaders[track]
            .iter()
            .any(|&leader| leader != normal_leg && leader != reverse_leg),
        _ => leaders[track].len() > 1,
    })
}

/// For each track, the tracks that lead to it; a facing point with both ways there counts once.
pub fn leaders(plan: &Plan) -> Vec<Vec<usize>> {
    let mut leaders = vec![Vec::new(); plan.tracks.len()];
    for (leader, track) in plan.tracks.iter().enumerate() {
        for led_to in track.leads() {
            if leaders[led_to].last() != Some(&leader) {
                leaders[led_to].push(leader);
            }
        }
    }
    leaders
}

/// A home track is plain.
pub fn rule_4(plan: &Plan) -> Option<usize> {
    let is_plain = |&home: &usize| plan.tracks[home].is_plain();
    plan.homes.iter().position(|home| !is_plain(home))
}

/// An entry track is plain, is some signal's home, and nothing leads to it.
pub fn rule_5(plan: &Plan) -> Option<usize> {
    plan.entries.iter().position(|entry| {
        !plan.tracks[entry.track].is_plain()
            || !plan.is_home(entry.track)
            || plan.tracks.iter().any(|track| track.leads_to(entry.track))
    })
}

fn lowest_route(plan: &Plan, broken: impl Fn(&Route) -> bool) -> Option<usize> {
    plan.routes.iter().position(broken)
}

/// The home leads to the first path track, each path track to the following one; home and path
/// tracks are all different.
pub fn rule_6(plan: &Plan) -> Option<usize> {
    lowest_route(plan, |route| {
        !is_connected(plan, route) || repeats(plan, route)
    })
}

/// Each track of the path with the track it is reached from, the home first.
pub fn steps<'a>(plan: &Plan, route: &'a Route) -> impl Iterator<Item = (usize, usize)> + 'a {
    let home = plan.home_of(route);
    let from = std::iter::once(home).chain(route.path.iter().copied());
    from.zip(route.path.iter().copied())
}

pub fn is_connected(plan: &Plan, route: &Route) -> bool {
    steps(plan, route).all(|(from, to)| plan.tracks[from].leads_to(to))
}

pub fn repeats(plan: &Plan, route: &Route) -> bool {
    let mut met = vec![false; plan.tracks.len()];
    met[plan.home_of(route)] = true;
    route
        .path
        .iter()
        .any(|&track| std::mem::replace(&mut met[track], true))
}

/// No path track but the last is a home; the last is a home or an exit.
pub fn rule_7(plan: &Plan) -> Option<usize> {
    lowest_route(plan, |route| {
        let Some((&last, before)) = route.path.split_last() else {
            return true;
        };
        before.iter().any(|&track| plan.is_home(track)) || !ends_well(plan, last)
    })
}

pub fn ends_well(plan: &Plan, last: usize) -> bool {
    plan.is_home(last) || plan.tracks[last] == Track::Exit
}

/// The clear list holds the whole path.
pub fn rule_8(plan: &Plan) -> Option<usize> {
    lowest_route(plan, |route| {
        route
            .path
            .iter()
            .any(|track| !rising_holds(&route.clear, track))
    })
}

pub fn rising_holds(list: &[usize], track: &usize) -> bool {
    list.binary_search(track).is_ok()
}

/// Each facing point on the path is listed by the way out taken, each trailing point by the leg
/// it is entered from; no point is in both lists.
pub fn rule_9(plan: &Plan) -> Option<usize> {
    lowest_route(plan, |route| {
        !facing_listed(plan, route) || !trailing_listed(plan, route) || in_both_lists(route)
    })
}

pub fn facing_listed(plan: &Plan, route: &Route) -> bool {
    (0..route.path.len()).all(|place| match plan.tracks[route.path[place]] {
        Track::Facing { normal, reverse } => {
            // A facing point that ends the path has no way out taken, so no list is right for it.
            let taken = route.path.get(place + 1);
            let point = &route.path[place];
            (taken == Some(&normal) && rising_holds(&route.normal, point))
                || (taken == Some(&reverse) && rising_holds(&route.reverse, point))
        }
        _ => true,
    })
}

pub fn trailing_listed(plan: &Plan, route: &Route) -> bool {
    steps(plan, route).all(|(from, point)| match plan.tracks[point] {
        Track::Trailing {
            normal_leg,
            reverse_leg,
            ..
        } => {
            (from == normal_leg && rising_holds(&route.normal, &point))
                || (from == reverse_leg && rising_holds(&route.reverse, &point))
        }
        _ => true,
    })
}

pub fn in_both_lists(route: &Route) -> bool {
    let in_reverse = |point| rising_holds(&route.reverse, point);
    route.normal.iter().any(in_reverse)
}

/// Every listed point is in the clear list.
pub fn rule_10(plan: &Plan) -> Option<usize> {
    lowest_route(plan, |route| {
        route
            .listed()
            .any(|point| !rising_holds(&route.clear, &point))
    })
}

/// The release list's points are exactly the listed points; each release track is on the path,
/// and later than its point where the point is on the path.
pub fn rule_11(plan: &Plan) -> Option<usize> {
    lowest_route(plan, |route| {
        !releases_are_listed(route)
            || !listed_are_released(route)
            || !route.releases.iter().all(|release| in_time(route, release))
    })
}

pub fn releases_are_listed(route: &Route) -> bool {
    let listed = |release: &Release| route.lists(release.point);
    route.releases.iter().all(listed)
}

pub fn listed_are_released(route: &Route) -> bool {
    let released = |point: usize| {
        let found = route
            .releases
            .binary_search_by_key(&point, |release| release.point);
        found.is_ok()
    };
    route.listed().all(released)
}

/// The release track is on the path, and the point does not come at it or behind it.
pub fn in_time(route: &Route, release: &Release) -> bool {
    let place = route.path.iter().position(|&track| track == release.track);
    place.is_some_and(|place| !route.path[place..].contains(&release.point))
}

/// The clear list holds the entry track.
pub fn rule_12(plan: &Plan) -> Option<usize> {
    let holds_own = |entry: &super::plan::Entry| rising_holds(&entry.clear, &entry.track);
    plan.entries.iter().position(|entry| !holds_own(entry))
}
