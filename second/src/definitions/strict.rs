//! Rules that ask for more than the document does: each refuses a plan that is accepted.

use super::rules::says;
use super::Definition;
use crate::model::plan::{Entry, Plan, Release, Route, Track};
use crate::model::reading::{read, Fault, Form, Place};
use crate::model::rules::{leaders, rising_holds, steps, Broken, RULES};
use crate::writing::write_with_places;

pub fn all() -> Vec<Definition> {
    let mut all = of_tracks();
    all.extend(of_signals_and_entries());
    all.extend(of_paths());
    all.extend(of_clear_lists());
    all.extend(of_points());
    all.extend(of_releases());
    all.extend(of_reading());
    all
}

/// The check in which a rule asks for this too: the lowest row that has not got it, if one has not.
fn also(rule: usize, asked: &str, more: impl Fn(&Plan) -> Option<usize> + 'static) -> Definition {
    says(format!("rule {rule} asks too: {asked}"), move |plan| {
        (1..=12).find_map(|number| {
            let own = RULES[number - 1](plan);
            let row = match number == rule {
                true => own.into_iter().chain(more(plan)).min(),
                false => own,
            }?;
            Some(Broken { rule: number, row })
        })
    })
}

/// The same of each track, signal, route or entry alone: whether it has what is asked.
fn of_track(rule: usize, asked: &str, is_so: fn(&Plan, usize) -> bool) -> Definition {
    also(rule, asked, move |plan| {
        (0..plan.tracks.len()).find(|&track| !is_so(plan, track))
    })
}

fn of_home(rule: usize, asked: &str, is_so: fn(&Plan, usize) -> bool) -> Definition {
    also(rule, asked, move |plan| {
        plan.homes.iter().position(|&home| !is_so(plan, home))
    })
}

fn of_route(rule: usize, asked: &str, is_so: fn(&Plan, &Route) -> bool) -> Definition {
    also(rule, asked, move |plan| {
        plan.routes.iter().position(|route| !is_so(plan, route))
    })
}

fn of_entry(rule: usize, asked: &str, is_so: fn(&Plan, &Entry) -> bool) -> Definition {
    also(rule, asked, move |plan| {
        plan.entries.iter().position(|entry| !is_so(plan, entry))
    })
}

fn legs(plan: &Plan, point: usize) -> Vec<usize> {
    match plan.tracks[point] {
        Track::Trailing {
            normal_leg,
            reverse_leg,
            ..
        } => vec![normal_leg, reverse_leg],
        _ => Vec::new(),
    }
}

fn ways(plan: &Plan, point: usize) -> Vec<usize> {
    match plan.tracks[point] {
        Track::Facing { normal, reverse } => vec![normal, reverse],
        _ => Vec::new(),
    }
}

fn is_facing(plan: &Plan, track: usize) -> bool {
    matches!(plan.tracks[track], Track::Facing { .. })
}

fn is_trailing(plan: &Plan, track: usize) -> bool {
    matches!(plan.tracks[track], Track::Trailing { .. })
}

fn is_entry(plan: &Plan, track: usize) -> bool {
    plan.entries.iter().any(|entry| entry.track == track)
}

fn is_led_to(plan: &Plan, to: usize) -> bool {
    plan.tracks.iter().any(|track| track.leads_to(to))
}

/// Whether a route starts at the signal of this home.
fn is_start(plan: &Plan, home: usize) -> bool {
    plan.routes.iter().any(|route| plan.home_of(route) == home)
}

fn of_tracks() -> Vec<Definition> {
    vec![
        of_track(1, "no facing point leads to itself", |plan, track| {
            !ways(plan, track).contains(&track)
        }),
        of_track(
            1,
            "the normal way out has the lower number",
            |plan, track| ways(plan, track).is_sorted(),
        ),
        of_track(1, "the normal leg has the lower number", |plan, track| {
            legs(plan, track).is_sorted()
        }),
        of_track(2, "a leg is plain", |plan, track| {
            let mut legs = legs(plan, track).into_iter();
            legs.all(|leg| plan.tracks[leg].is_plain())
        }),
        of_track(2, "a leg leads nowhere else", |plan, track| {
            let mut legs = legs(plan, track).into_iter();
            legs.all(|leg| plan.tracks[leg].leads().all(|to| to == track))
        }),
        of_track(
            2,
            "a leg that is a facing point leads to it by its normal way",
            |plan, track| {
                let mut legs = legs(plan, track).into_iter();
                legs.all(|leg| ways(plan, leg).first().is_none_or(|&to| to == track))
            },
        ),
        of_track(2, "a trailing point is not its own leg", |plan, track| {
            !legs(plan, track).contains(&track)
        }),
        of_track(3, "the legs are not two points", |plan, track| {
            let legs = legs(plan, track);
            legs.is_empty() || legs.iter().any(|&leg| !plan.is_point(leg))
        }),
        of_track(3, "no leg is a trailing point", |plan, track| {
            let legs = legs(plan, track);
            !legs.iter().any(|&leg| is_trailing(plan, leg))
        }),
        of_track(3, "a track leads to each but the entries", |plan, track| {
            is_entry(plan, track) || is_led_to(plan, track)
        }),
        of_track(3, "no track leads to itself", |plan, track| {
            !leaders(plan)[track].contains(&track)
        }),
        of_track(3, "no plain track leads to itself", |plan, track| {
            plan.tracks[track] != Track::Plain { next: track }
        }),
    ]
}

fn of_signals_and_entries() -> Vec<Definition> {
    vec![
        of_home(4, "nothing leads to a home", |plan, home| {
            !is_led_to(plan, home)
        }),
        of_home(
            4,
            "a home that nothing leads to is an entry",
            |plan, home| is_led_to(plan, home) || is_entry(plan, home),
        ),
        of_home(4, "a route starts at each signal", is_start),
        of_home(4, "a home leads to a point", |plan, home| {
            plan.tracks[home].leads().any(|to| plan.is_point(to))
        }),
        of_home(4, "a home does not lead to a point", |plan, home| {
            !plan.tracks[home].leads().any(|to| plan.is_point(to))
        }),
        of_home(4, "a home does not lead to a home", |plan, home| {
            !plan.tracks[home].leads().any(|to| plan.is_home(to))
        }),
        of_entry(5, "a route starts at each entry", |plan, entry| {
            is_start(plan, entry.track)
        }),
        of_entry(12, "the clear list is the entry track alone", |_, entry| {
            entry.clear == [entry.track]
        }),
        of_entry(
            12,
            "the clear list begins with the entry track",
            |_, entry| entry.clear.first() == Some(&entry.track),
        ),
        of_entry(
            12,
            "the clear list ends with the entry track",
            |_, entry| entry.clear.last() == Some(&entry.track),
        ),
        of_entry(12, "the clear list holds the next track", |plan, entry| {
            let mut next = plan.tracks[entry.track].leads();
            next.all(|to| rising_holds(&entry.clear, &to))
        }),
        of_entry(12, "the clear list holds no point", |plan, entry| {
            !entry.clear.iter().any(|&track| plan.is_point(track))
        }),
        of_entry(12, "the clear list holds no other home", |plan, entry| {
            let mut others = entry.clear.iter().filter(|&&track| track != entry.track);
            !others.any(|&track| plan.is_home(track))
        }),
    ]
}

fn last(route: &Route) -> usize {
    route.path[route.path.len() - 1]
}

/// How many routes have this in common with the one given, itself included.
fn alike(plan: &Plan, is_alike: impl Fn(&Route) -> bool) -> usize {
    plan.routes.iter().filter(|other| is_alike(other)).count()
}

fn of_paths() -> Vec<Definition> {
    vec![
        also(6, "there is a route", |plan| {
            plan.routes.is_empty().then_some(0)
        }),
        of_route(6, "a path has two tracks", |_, route| route.path.len() > 1),
        of_route(6, "the numbers of a path rise", |_, route| {
            route.path.is_sorted()
        }),
        of_route(
            6,
            "the numbers of a path are above its home's",
            |plan, route| {
                let home = plan.home_of(route);
                route.path.iter().all(|&track| track > home)
            },
        ),
        of_route(
            6,
            "no other route starts at the same signal",
            |plan, route| alike(plan, |other| other.start == route.start) == 1,
        ),
        of_route(6, "no other route has the same path", |plan, route| {
            alike(plan, |other| other.path == route.path) == 1
        }),
        of_route(
            6,
            "no other route has a track of the path",
            |plan, route| {
                let shares =
                    |other: &Route| route.path.iter().any(|track| other.path.contains(track));
                alike(plan, shares) == 1
            },
        ),
        of_route(7, "the last is an exit", |plan, route| {
            plan.tracks[last(route)] == Track::Exit
        }),
        of_route(7, "the last is a home", |plan, route| {
            plan.is_home(last(route))
        }),
        of_route(
            7,
            "a route starts at the home that is the last",
            |plan, route| !plan.is_home(last(route)) || is_start(plan, last(route)),
        ),
    ]
}

fn of_clear_lists() -> Vec<Definition> {
    /// Whether the clear list is the path with these.
    fn is_path_and(route: &Route, more: impl Iterator<Item = usize>) -> bool {
        let mut tracks: Vec<usize> = route.path.iter().copied().chain(more).collect();
        tracks.sort_unstable();
        tracks.dedup();
        tracks == route.clear
    }
    vec![
        of_route(8, "the clear list is the path", |_, route| {
            is_path_and(route, std::iter::empty())
        }),
        of_route(
            8,
            "the clear list is the path and the listed points",
            |_, route| is_path_and(route, route.listed()),
        ),
        of_route(
            8,
            "beside the path the clear list holds points alone",
            |plan, route| {
                let mut clear = route.clear.iter();
                clear.all(|track| route.path.contains(track) || plan.is_point(*track))
            },
        ),
        of_route(8, "the clear list begins with a path track", |_, route| {
            route
                .clear
                .first()
                .is_none_or(|track| route.path.contains(track))
        }),
        of_route(8, "the clear list holds the home", |plan, route| {
            rising_holds(&route.clear, &plan.home_of(route))
        }),
        of_route(8, "the clear list does not hold the home", |plan, route| {
            !rising_holds(&route.clear, &plan.home_of(route))
        }),
    ]
}

/// Whether each of these points, where it is off the path, passes.
fn off_the_path(
    route: &Route,
    points: impl Iterator<Item = usize>,
    passes: impl Fn(usize) -> bool,
) -> bool {
    let mut off = points.filter(|point| !route.path.contains(point));
    off.all(passes)
}

fn of_points() -> Vec<Definition> {
    vec![
        of_route(9, "no point off the path is listed", |_, route| {
            off_the_path(route, route.listed(), |_| false)
        }),
        of_route(
            9,
            "no facing point off the path is listed",
            |plan, route| off_the_path(route, route.listed(), |point| !is_facing(plan, point)),
        ),
        of_route(
            9,
            "no trailing point off the path is listed",
            |plan, route| off_the_path(route, route.listed(), |point| !is_trailing(plan, point)),
        ),
        of_route(9, "no point off the path is listed normal", |_, route| {
            off_the_path(route, route.normal.iter().copied(), |_| false)
        }),
        of_route(9, "no point off the path is listed reverse", |_, route| {
            off_the_path(route, route.reverse.iter().copied(), |_| false)
        }),
        of_route(9, "every point of the plan is listed", |plan, route| {
            (0..plan.tracks.len()).all(|track| !plan.is_point(track) || route.lists(track))
        }),
        of_route(
            9,
            "every trailing point of the plan is listed",
            |plan, route| {
                (0..plan.tracks.len()).all(|track| !is_trailing(plan, track) || route.lists(track))
            },
        ),
        of_route(
            9,
            "a point that is the leg not taken is listed",
            |plan, route| {
                steps(plan, route).all(|(from, point)| {
                    let mut legs = legs(plan, point).into_iter();
                    legs.all(|leg| leg == from || !plan.is_point(leg) || route.lists(leg))
                })
            },
        ),
        of_route(
            9,
            "a point on the way out not taken is listed",
            |plan, route| {
                let mut ways = route.path.iter().flat_map(|&point| ways(plan, point));
                ways.all(|way| !plan.is_point(way) || route.lists(way))
            },
        ),
        of_route(9, "a path has a point", |plan, route| {
            route.path.iter().any(|&track| plan.is_point(track))
        }),
        of_route(10, "a listed point is on the path", |_, route| {
            off_the_path(route, route.listed(), |_| false)
        }),
        of_route(
            10,
            "every point of the clear list is listed",
            |plan, route| {
                let mut clear = route.clear.iter();
                clear.all(|&track| !plan.is_point(track) || route.lists(track))
            },
        ),
    ]
}

/// A rule 11 that asks this of each release, given the places of its track and its point on the
/// path, of the point if it is there.
fn of_release(
    asked: &str,
    is_so: fn(&Plan, &Route, &Release, usize, Option<usize>) -> bool,
) -> Definition {
    also(11, asked, move |plan| {
        plan.routes.iter().position(|route| {
            let place = |track: usize| route.path.iter().position(|&on| on == track);
            !route.releases.iter().all(|release| {
                let at = place(release.track);
                at.is_none_or(|at| is_so(plan, route, release, at, place(release.point)))
            })
        })
    })
}

/// A rule 11 that asks this of every two releases that follow one another.
fn of_neighbours(asked: &str, is_so: fn(&Route, usize, usize) -> bool) -> Definition {
    also(11, asked, move |plan| {
        plan.routes.iter().position(|route| {
            let mut pairs = route.releases.windows(2);
            !pairs.all(|pair| is_so(route, pair[0].track, pair[1].track))
        })
    })
}

fn of_releases() -> Vec<Definition> {
    vec![
        of_release("a release track is the last", |_, route, _, at, _| {
            at + 1 == route.path.len()
        }),
        of_release("a release track is not the last", |_, route, _, at, _| {
            at + 1 < route.path.len()
        }),
        of_release("a release track is not the first", |_, _, _, at, _| at > 0),
        of_release(
            "a release track is the one after its point",
            |_, _, _, at, point| point.is_none_or(|point| at == point + 1),
        ),
        of_release(
            "a release track is not the one after its point",
            |_, _, _, at, point| point.is_none_or(|point| at > point + 1),
        ),
        of_release("a release track is no point", |plan, _, release, _, _| {
            !plan.is_point(release.track)
        }),
        of_release("a release track is a point", |plan, _, release, _, _| {
            plan.is_point(release.track)
        }),
        of_release(
            "a release track is later than every listed point",
            |_, route, _, at, _| !route.path[at..].iter().any(|&track| route.lists(track)),
        ),
        of_release(
            "a point off the path is given back at the last track",
            |_, route, _, at, point| point.is_some() || at + 1 == route.path.len(),
        ),
        of_release(
            "a point off the path is given back before the last track",
            |_, route, _, at, point| point.is_some() || at + 1 < route.path.len(),
        ),
        of_neighbours("release tracks rise strictly", |_, one, next| one < next),
        of_neighbours("release tracks do not fall", |_, one, next| one <= next),
        of_neighbours(
            "two points are not given back at one track",
            |_, one, next| one != next,
        ),
        of_neighbours("release tracks come in travel order", |route, one, next| {
            let place = |track: usize| route.path.iter().position(|&on| on == track);
            place(one) <= place(next)
        }),
    ]
}

/// A list in which the bytes stand so far apart must rise too.
fn rises_too(name: &str, list: Place, apart: usize) -> Definition {
    Definition::reads(name, move |file| {
        let plan = read(file)?;
        let places = write_with_places(&plan).places;
        let stands = |at: usize| places[at] == list;
        let falls =
            |at: &usize| stands(*at) && stands(*at - apart) && file[*at] <= file[at - apart];
        match (apart..places.len()).find(falls) {
            Some(offset) => {
                let form = Form { number: 4, offset };
                Err(Fault { form, place: list })
            }
            None => Ok(plan),
        }
    })
}

fn of_reading() -> Vec<Definition> {
    vec![
        rises_too("a path rises strictly, or it is form 4", Place::Path, 1),
        rises_too(
            "releases rise strictly by track too, or it is form 4",
            Place::ReleaseTrack,
            2,
        ),
    ]
}
