//! Plan rules of which one half is missing, and rules asked of too few rows or in another order.

use super::Definition;
use crate::book::{Book, MODEL};
use crate::model::answer::Verdict;
use crate::model::plan::{Plan, Release, Route, Track};
use crate::model::reading::read;
use crate::model::rules::{
    check, facing_listed, first_broken, in_both_lists, in_time, is_connected, leaders,
    listed_are_released, releases_are_listed, repeats, rising_holds, steps, trailing_listed,
    Broken, Rule, RULES,
};

pub fn all() -> Vec<Definition> {
    let mut all = of_tracks();
    all.extend(of_paths());
    all.extend(of_points());
    all.extend(of_rows());
    all.extend(of_order());
    all
}

/// The model, but this is how it checks a plan.
fn checks(name: &str, check: fn(&Plan) -> Option<Broken>) -> Definition {
    let book = Book { check, ..MODEL };
    Definition::new(name, move |plan, events| book.whole_run(plan, events))
}

/// The same, whatever the check has to know.
pub fn says(name: String, verdict: impl Fn(&Plan) -> Option<Broken> + 'static) -> Definition {
    Definition::new(name, move |file, events| {
        let printed = MODEL.whole_run(file, events);
        let Ok(plan) = read(file) else {
            return printed;
        };
        let first = match verdict(&plan) {
            Some(broken) => Verdict::Broken(broken),
            None => Verdict::Accepted,
        };
        let rest = printed.iter().position(|&byte| byte == b'\n');
        let rest = &printed[rest.expect("there is a line") + 1..];
        [format!("{first}\n").as_bytes(), rest].concat()
    })
}

/// Whether a rule is broken at this row, whatever the others are.
fn is_broken_at(plan: &Plan, rule: usize, row: usize) -> bool {
    let mut alone = plan.clone();
    match rule {
        1 => alone.tracks = vec![plan.tracks[row]],
        2 => return has_stray_leg(plan, row),
        3 => return is_led_to_wrongly(plan, row),
        4 => alone.homes = vec![plan.homes[row]],
        5 | 12 => alone.entries = vec![plan.entries[row].clone()],
        _ => alone.routes = vec![plan.routes[row].clone()],
    }
    RULES[rule - 1](&alone).is_some()
}

fn legs(track: &Track) -> Option<[usize; 2]> {
    match *track {
        Track::Trailing {
            normal_leg,
            reverse_leg,
            ..
        } => Some([normal_leg, reverse_leg]),
        _ => None,
    }
}

fn has_stray_leg(plan: &Plan, point: usize) -> bool {
    let legs = legs(&plan.tracks[point]).into_iter().flatten();
    legs.into_iter()
        .any(|leg| !plan.tracks[leg].leads_to(point))
}

fn is_led_to_wrongly(plan: &Plan, track: usize) -> bool {
    let leaders = &leaders(plan)[track];
    match legs(&plan.tracks[track]) {
        Some(legs) => leaders.iter().any(|leader| !legs.contains(leader)),
        None => leaders.len() > 1,
    }
}

/// How many rows a rule has.
fn rows(plan: &Plan, rule: usize) -> usize {
    match rule {
        1..=3 => plan.tracks.len(),
        4 => plan.homes.len(),
        5 | 12 => plan.entries.len(),
        _ => plan.routes.len(),
    }
}

/// The first broken rule, of one of which these rows are looked at, in this order.
fn by_rows(plan: &Plan, asked: usize, order: impl Fn(usize) -> Vec<usize>) -> Option<Broken> {
    (1..=12).find_map(|rule| {
        let row = match rule == asked {
            true => {
                let mut rows = order(rows(plan, rule)).into_iter();
                rows.find(|&row| is_broken_at(plan, rule, row))?
            }
            false => RULES[rule - 1](plan)?,
        };
        Some(Broken { rule, row })
    })
}

fn of_rows() -> Vec<Definition> {
    let mut all = Vec::new();
    for rule in 1..=12 {
        all.push(says(
            format!("rule {rule} is reported with its highest row"),
            move |plan| by_rows(plan, rule, |rows| (0..rows).rev().collect()),
        ));
        all.push(says(
            format!("rule {rule} is not asked of row 0"),
            move |plan| by_rows(plan, rule, |rows| (1..rows).collect()),
        ));
        all.push(says(
            format!("rule {rule} is asked of row 0 alone"),
            move |plan| by_rows(plan, rule, |rows| (0..rows.min(1)).collect()),
        ));
        all.push(says(
            format!("rule {rule} is not asked of the last row"),
            move |plan| by_rows(plan, rule, |rows| (0..rows.saturating_sub(1)).collect()),
        ));
    }
    all
}

/// Where two rules are broken, the later one is reported.
fn of_order() -> Vec<Definition> {
    let mut all = Vec::new();
    for rule in 1..=12 {
        for later in rule + 1..=12 {
            all.push(says(
                format!("where rules {rule} and {later} are broken, {later} is reported"),
                move |plan| {
                    let first = check(plan)?;
                    let other = RULES[later - 1](plan).filter(|_| first.rule == rule);
                    Some(other.map_or(first, |row| Broken { rule: later, row }))
                },
            ));
        }
    }
    all
}

/// The check with one rule exchanged.
fn with(plan: &Plan, rule: usize, wrong: Rule) -> Option<Broken> {
    let mut rules = RULES;
    rules[rule - 1] = wrong;
    first_broken(plan, &rules)
}

/// A rule of which a wrong test finds the routes that break it.
macro_rules! route_rule {
    ($name:literal, $rule:literal, $broken:expr) => {
        checks($name, |plan| {
            with(plan, $rule, |plan| {
                let broken: fn(&Plan, &Route) -> bool = $broken;
                plan.routes.iter().position(|route| broken(plan, route))
            })
        })
    };
}

fn of_tracks() -> Vec<Definition> {
    vec![
        checks("rule 2 for the reverse leg alone", |plan| {
            with(plan, 2, |plan| {
                (0..plan.tracks.len()).find(|&point| match plan.tracks[point] {
                    Track::Trailing { reverse_leg, .. } => {
                        !plan.tracks[reverse_leg].leads_to(point)
                    }
                    _ => false,
                })
            })
        }),
        checks("rule 4 lets facing points be homes", |plan| {
            with(plan, 4, |plan| {
                let is_wrong = |&home: &usize| {
                    matches!(plan.tracks[home], Track::Trailing { .. } | Track::Exit)
                };
                plan.homes.iter().position(is_wrong)
            })
        }),
        checks("rule 5 asks for a home alone", |plan| {
            with(plan, 5, |plan| {
                let is_no_home = |track| !plan.is_home(track);
                plan.entries
                    .iter()
                    .position(|entry| is_no_home(entry.track))
            })
        }),
        checks("rule 5 asks that nothing leads there alone", |plan| {
            with(plan, 5, |plan| {
                let is_led_to = |to| plan.tracks.iter().any(|track| track.leads_to(to));
                plan.entries.iter().position(|entry| is_led_to(entry.track))
            })
        }),
    ]
}

fn of_paths() -> Vec<Definition> {
    vec![
        route_rule!("rule 6 without the later links", 6, |plan, route| {
            let home = plan.home_of(route);
            !plan.tracks[home].leads_to(route.path[0]) || repeats(plan, route)
        }),
        route_rule!(
            "rule 6 lets path tracks alone come back",
            6,
            |plan, route| {
                !is_connected(plan, route) || route.path.contains(&plan.home_of(route))
            }
        ),
        route_rule!("rule 8 for the first path track alone", 8, |_, route| {
            !rising_holds(&route.clear, &route.path[0])
        }),
        route_rule!("rule 8 for the last path track alone", 8, |_, route| {
            !rising_holds(&route.clear, &route.path[route.path.len() - 1])
        }),
        route_rule!("rule 8 for both ends of the path alone", 8, |_, route| {
            let ends = [route.path[0], route.path[route.path.len() - 1]];
            ends.iter().any(|track| !rising_holds(&route.clear, track))
        }),
    ]
}

/// Whether a point of the path stands in no list.
fn is_unlisted(plan: &Plan, route: &Route, of_kind: fn(&Track) -> bool) -> bool {
    let mut points = route
        .path
        .iter()
        .filter(|&&track| of_kind(&plan.tracks[track]));
    points.any(|&point| !route.lists(point))
}

fn is_facing(track: &Track) -> bool {
    matches!(track, Track::Facing { .. })
}

fn is_trailing(track: &Track) -> bool {
    matches!(track, Track::Trailing { .. })
}

fn is_in_both(route: &Route, asked: impl Fn(&usize) -> bool) -> bool {
    let in_reverse = |point: &&usize| rising_holds(&route.reverse, point);
    route.normal.iter().filter(in_reverse).any(asked)
}

/// The route with each unlisted point of this kind on its path listed as it is taken.
fn with_listed(plan: &Plan, route: &Route, of_kind: fn(&Track) -> bool) -> Route {
    let mut more = route.clone();
    let taken = |place: usize| route.path.get(place + 1).copied();
    for (place, (from, point)) in steps(plan, route).enumerate() {
        let track = &plan.tracks[point];
        if !of_kind(track) || route.lists(point) {
            continue;
        }
        let is_normal = match *track {
            Track::Facing { normal, .. } => taken(place) == Some(normal),
            Track::Trailing { normal_leg, .. } => from == normal_leg,
            _ => continue,
        };
        let list = if is_normal {
            &mut more.normal
        } else {
            &mut more.reverse
        };
        list.push(point);
        list.sort_unstable();
    }
    more
}

fn is_against_9(plan: &Plan, route: &Route) -> bool {
    !facing_listed(plan, route) || !trailing_listed(plan, route) || in_both_lists(route)
}

fn of_points() -> Vec<Definition> {
    vec![
        route_rule!(
            "rule 9 lets a facing point be in no list",
            9,
            |plan, route| { is_against_9(plan, &with_listed(plan, route, is_facing)) }
        ),
        route_rule!(
            "rule 9 lets a trailing point be in no list",
            9,
            |plan, route| { is_against_9(plan, &with_listed(plan, route, is_trailing)) }
        ),
        route_rule!(
            "rule 9 takes either list for a facing point",
            9,
            |plan, route| {
                is_unlisted(plan, route, is_facing)
                    || !trailing_listed(plan, route)
                    || in_both_lists(route)
            }
        ),
        route_rule!(
            "rule 9 takes either list for a trailing point",
            9,
            |plan, route| {
                is_unlisted(plan, route, is_trailing)
                    || !facing_listed(plan, route)
                    || in_both_lists(route)
            }
        ),
        route_rule!(
            "rule 9 lets a point of the path be in both lists",
            9,
            |plan, route| {
                !facing_listed(plan, route)
                    || !trailing_listed(plan, route)
                    || is_in_both(route, |point| !route.path.contains(point))
            }
        ),
        route_rule!(
            "rule 9 lets a point off the path be in both lists",
            9,
            |plan, route| {
                !facing_listed(plan, route)
                    || !trailing_listed(plan, route)
                    || is_in_both(route, |point| route.path.contains(point))
            }
        ),
        route_rule!("rule 10 for points of the path alone", 10, |_, route| {
            let on_path = |point: &usize| route.path.contains(point);
            let mut listed = route.listed().filter(on_path);
            listed.any(|point| !rising_holds(&route.clear, &point))
        }),
        route_rule!(
            "rule 11 lets a release come before its point",
            11,
            |_, route| {
                let good = |release: &Release| {
                    let on_path = route.path.contains(&release.track);
                    in_time(route, release) || on_path && release.track != release.point
                };
                !releases_are_listed(route)
                    || !listed_are_released(route)
                    || !route.releases.iter().all(good)
            }
        ),
        route_rule!(
            "rule 11 asks for the release track alone",
            11,
            |_, route| { !route.releases.iter().all(|release| in_time(route, release)) }
        ),
    ]
}
