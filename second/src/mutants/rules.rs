//! Each rule weakened, and the rows and the order of the rules wrong.

use super::{Slip, Wrong};
use crate::model::plan::{Plan, Route, Track};
use crate::model::rules::{
    check, ends_well, facing_listed, first_broken, in_both_lists, in_time, is_connected, leaders,
    listed_are_released, releases_are_listed, repeats, rising_holds, rule_1, rule_3, rule_5, steps,
    trailing_listed, Broken, Rule, RULES,
};

pub const ORDER: &[Slip] = &[
    ("rows counted from 1", Wrong::Check(rows_from_one)),
    (
        "the lowest row before the lowest rule",
        Wrong::Check(lowest_row),
    ),
];

pub const TRACKS: &[Slip] = &[
    (
        "rule 1 without legs",
        Wrong::Check(|plan| with(plan, 1, ways_alone)),
    ),
    (
        "rule 1 without ways out",
        Wrong::Check(|plan| with(plan, 1, legs_alone)),
    ),
    (
        "rule 2 for the normal leg alone",
        Wrong::Check(|plan| with(plan, 2, normal_leg_alone)),
    ),
    (
        "rule 3 without trailing points",
        Wrong::Check(|plan| with(plan, 3, trailing_exempt)),
    ),
    (
        "rule 3 for trailing points alone",
        Wrong::Check(|plan| with(plan, 3, trailing_alone)),
    ),
    (
        "rule 3 by the row of the track that leads",
        Wrong::Check(|plan| with(plan, 3, row_of_leader)),
    ),
    (
        "rule 4 lets points be homes",
        Wrong::Check(|plan| with(plan, 4, exits_alone)),
    ),
    (
        "rule 4 lets exits be homes",
        Wrong::Check(|plan| with(plan, 4, points_alone)),
    ),
    (
        "rule 5 without what leads there",
        Wrong::Check(|plan| with(plan, 5, led_to_passes)),
    ),
    (
        "rule 3 passes a track that leads to itself",
        Wrong::Check(|plan| with(plan, 3, self_leader_passes)),
    ),
    (
        "rule 5 passes a track that leads to itself",
        Wrong::Check(|plan| with(plan, 5, self_entry_passes)),
    ),
    (
        "rule 5 without homes",
        Wrong::Check(|plan| with(plan, 5, no_home_passes)),
    ),
    (
        "rule 12 passes an empty list",
        Wrong::Check(|plan| with(plan, 12, empty_entry_passes)),
    ),
    (
        "rule 12 passes any list but an empty one",
        Wrong::Check(|plan| with(plan, 12, any_entry_list)),
    ),
];

/// A rule in which a wrong test finds the routes that break it.
macro_rules! route_rule {
    ($rule:literal, $broken:expr) => {
        Wrong::Check(|plan| with(plan, $rule, |plan| route_where(plan, $broken)))
    };
}

pub const ROUTES: &[Slip] = &[
    (
        "rule 6 lets a path come back",
        route_rule!(6, |plan, route| { !is_connected(plan, route) }),
    ),
    ("rule 6 without connection", route_rule!(6, repeats)),
    (
        "rule 6 lets a path come back to its home",
        route_rule!(6, home_passes),
    ),
    (
        "rule 6 without the step from the home",
        route_rule!(6, first_step_passes),
    ),
    (
        "rule 7 lets a path end anywhere",
        route_rule!(7, inner_home),
    ),
    (
        "rule 7 lets a path pass a home",
        route_rule!(7, |plan, route| {
            !ends_well(plan, route.path[route.path.len() - 1])
        }),
    ),
    (
        "rule 8 passes an empty list (all of nothing)",
        route_rule!(8, |_, route| {
            !route.clear.is_empty() && !clear_holds(route, &route.path)
        }),
    ),
    (
        "rule 8 without the last path track",
        route_rule!(8, |_, route| {
            !clear_holds(route, &route.path[..route.path.len() - 1])
        }),
    ),
    (
        "rule 8 asks for one path track only",
        route_rule!(8, |_, route| {
            !route
                .path
                .iter()
                .any(|track| rising_holds(&route.clear, track))
        }),
    ),
    (
        "rule 9 without facing points",
        route_rule!(9, |plan, route| {
            !trailing_listed(plan, route) || in_both_lists(route)
        }),
    ),
    (
        "rule 9 without trailing points",
        route_rule!(9, |plan, route| {
            !facing_listed(plan, route) || in_both_lists(route)
        }),
    ),
    (
        "rule 9 lets a point be in both lists",
        route_rule!(9, |plan, route| {
            !facing_listed(plan, route) || !trailing_listed(plan, route)
        }),
    ),
    (
        "rule 9 takes either list",
        route_rule!(9, either_list_passes),
    ),
    (
        "rule 10 for the normal list alone",
        route_rule!(10, |_, route| { !clear_holds(route, &route.normal) }),
    ),
    (
        "rule 10 for the reverse list alone",
        route_rule!(10, |_, route| { !clear_holds(route, &route.reverse) }),
    ),
    (
        "rule 11 lets a point go unreleased",
        route_rule!(11, |_, route| {
            !releases_are_listed(route) || !timely(route)
        }),
    ),
    (
        "rule 11 lets an unlisted point be released",
        route_rule!(11, |_, route| {
            !listed_are_released(route) || !timely(route)
        }),
    ),
    (
        "rule 11 lets a point be released under the train",
        route_rule!(11, at_once_passes),
    ),
    (
        "rule 11 lets a release track be off the path",
        route_rule!(11, off_path_passes),
    ),
];

/// The check with one rule exchanged.
fn with(plan: &Plan, rule: usize, wrong: Rule) -> Option<Broken> {
    let mut rules = RULES;
    rules[rule - 1] = wrong;
    first_broken(plan, &rules)
}

fn route_where(plan: &Plan, broken: fn(&Plan, &Route) -> bool) -> Option<usize> {
    plan.routes.iter().position(|route| broken(plan, route))
}

fn rows_from_one(plan: &Plan) -> Option<Broken> {
    check(plan).map(|broken| Broken {
        row: broken.row + 1,
        ..broken
    })
}

fn lowest_row(plan: &Plan) -> Option<Broken> {
    let broken = RULES.iter().zip(1..).filter_map(|(lowest_row, rule)| {
        let row = lowest_row(plan)?;
        Some(Broken { rule, row })
    });
    broken.min_by_key(|broken| (broken.row, broken.rule))
}

/// Rule 1 over the tracks of one kind, with the rest left out.
fn rule_1_where(plan: &Plan, kept: fn(&Track) -> bool) -> Option<usize> {
    let mut fewer = plan.clone();
    for track in fewer.tracks.iter_mut().filter(|track| !kept(track)) {
        *track = Track::Exit;
    }
    rule_1(&fewer)
}

fn ways_alone(plan: &Plan) -> Option<usize> {
    rule_1_where(plan, |track| matches!(track, Track::Facing { .. }))
}

fn legs_alone(plan: &Plan) -> Option<usize> {
    rule_1_where(plan, |track| matches!(track, Track::Trailing { .. }))
}

fn normal_leg_alone(plan: &Plan) -> Option<usize> {
    (0..plan.tracks.len()).find(|&point| match plan.tracks[point] {
        Track::Trailing { normal_leg, .. } => !plan.tracks[normal_leg].leads_to(point),
        _ => false,
    })
}

/// The tracks led to against rule 3, those of one kind alone.
fn led_to_wrongly(plan: &Plan, trailing: bool) -> Option<usize> {
    let leaders = leaders(plan);
    (0..plan.tracks.len()).find(|&track| match plan.tracks[track] {
        Track::Trailing { .. } => trailing && leaders[track].len() > 2,
        _ => !trailing && leaders[track].len() > 1,
    })
}

fn trailing_exempt(plan: &Plan) -> Option<usize> {
    led_to_wrongly(plan, false)
}

fn trailing_alone(plan: &Plan) -> Option<usize> {
    led_to_wrongly(plan, true)
}

/// The plan without the ways of tracks to themselves.
fn without_loops(plan: &Plan) -> Plan {
    let mut fewer = plan.clone();
    for (number, track) in fewer.tracks.iter_mut().enumerate() {
        if *track == (Track::Plain { next: number }) {
            *track = Track::Exit;
        }
    }
    fewer
}

fn self_leader_passes(plan: &Plan) -> Option<usize> {
    rule_3(&without_loops(plan))
}

/// Only where nothing else leads to the entry; an exit in its place must not be found fault with.
fn self_entry_passes(plan: &Plan) -> Option<usize> {
    let loops = without_loops(plan);
    let led_to = |entry: usize| loops.tracks.iter().any(|track| track.leads_to(entry));
    let good = |track: usize| plan.tracks[track].is_plain() && plan.is_home(track);
    let broken = |track: usize| !good(track) || led_to(track);
    plan.entries.iter().position(|entry| broken(entry.track))
}

fn row_of_leader(plan: &Plan) -> Option<usize> {
    let row = RULES[2](plan)?;
    leaders(plan)[row].first().copied()
}

fn home_where(plan: &Plan, broken: fn(&Track) -> bool) -> Option<usize> {
    plan.homes
        .iter()
        .position(|&home| broken(&plan.tracks[home]))
}

fn exits_alone(plan: &Plan) -> Option<usize> {
    home_where(plan, |track| *track == Track::Exit)
}

fn points_alone(plan: &Plan) -> Option<usize> {
    home_where(plan, Track::is_point)
}

fn led_to_passes(plan: &Plan) -> Option<usize> {
    let good = |track: usize| plan.tracks[track].is_plain() && plan.is_home(track);
    plan.entries.iter().position(|entry| !good(entry.track))
}

fn no_home_passes(plan: &Plan) -> Option<usize> {
    let mut more_homes = plan.clone();
    more_homes.homes = (0..plan.tracks.len()).collect();
    rule_5(&more_homes)
}

fn empty_entry_passes(plan: &Plan) -> Option<usize> {
    plan.entries
        .iter()
        .position(|entry| !entry.clear.is_empty() && !entry.clear.contains(&entry.track))
}

fn any_entry_list(plan: &Plan) -> Option<usize> {
    plan.entries.iter().position(|entry| entry.clear.is_empty())
}

fn home_passes(plan: &Plan, route: &Route) -> bool {
    let twice = |place: usize| route.path[..place].contains(&route.path[place]);
    !is_connected(plan, route) || (1..route.path.len()).any(twice)
}

fn first_step_passes(plan: &Plan, route: &Route) -> bool {
    let later = steps(plan, route).skip(1);
    repeats(plan, route)
        || !later
            .into_iter()
            .all(|(from, to)| plan.tracks[from].leads_to(to))
}

fn inner_home(plan: &Plan, route: &Route) -> bool {
    let inner = &route.path[..route.path.len() - 1];
    inner.iter().any(|&track| plan.is_home(track))
}

fn clear_holds(route: &Route, tracks: &[usize]) -> bool {
    tracks.iter().all(|track| rising_holds(&route.clear, track))
}

fn either_list_passes(plan: &Plan, route: &Route) -> bool {
    let unlisted = |&track: &usize| plan.is_point(track) && !route.lists(track);
    route.path.iter().any(unlisted) || in_both_lists(route)
}

fn timely(route: &Route) -> bool {
    route.releases.iter().all(|release| in_time(route, release))
}

fn at_once_passes(_: &Plan, route: &Route) -> bool {
    let good = |release| in_time(route, release) || release.track == release.point;
    let on_path = |track| route.path.contains(&track);
    !releases_are_listed(route)
        || !listed_are_released(route)
        || !route
            .releases
            .iter()
            .all(|release| good(release) && on_path(release.track))
}

fn off_path_passes(_: &Plan, route: &Route) -> bool {
    let good = |release| in_time(route, release) || !route.path.contains(&release.track);
    !releases_are_listed(route) || !listed_are_released(route) || !route.releases.iter().all(good)
}
