//! Plans and states for the tests that walk a list, which are those behind 13, 14 and 42: lists of
//! every length, or that are empty, hold all tracks or share a point, and a hit at either end of a
//! list, in between or nowhere, with trains and holds beside it that are none of the list's business, and
//! holds of listed points that lie right.

use super::events::Event;
use super::{accepted, largest, shared, wild};
use crate::model::plan::{self, Lie, Plan, Release, Route};
use crate::model::state::State;
use crate::model::step::lie_in_the_end;
use crate::random::Random;

/// A readable plan with other lists than it should have.
pub fn relisted(random: &mut Random) -> Plan {
    match random.below(8) {
        0..=3 => of_every_length(random),
        4..=5 => with_odd_lists(random, wild::wild),
        _ => with_odd_lists(random, accepted),
    }
}

/// As many tracks, routes and entries as there can be. For each list a length is chosen first, so
/// that each is as likely as any other; a share of the tracks would hardly ever give some of them.
fn of_every_length(random: &mut Random) -> Plan {
    let mut plan = match random.chance(35) {
        true => wild::full_of_points(random),
        false => largest::busy(random),
    };
    let tracks: Vec<usize> = (0..plan.tracks.len()).collect();
    let points = points_of(&plan);
    let most = *plan::POINTS.end();
    let releases = Releases::of(random, &plan);
    for route in &mut plan.routes {
        route.normal = some_of(random, &points, most);
        // A point of both lists is no hit of one of them alone.
        let rest = without(random, 75, &points, &route.normal);
        route.reverse = some_of(random, &rest, most);
        let listed: Vec<usize> = route.listed().collect();
        // A point that is listed and not clear: 42 can come.
        let rest = without(random, 25, &tracks, &listed);
        route.clear = some_of(random, &rest, rest.len());
        // No event looks at these, and the file stays short.
        route.path.truncate(1);
        route.releases = releases.some(random, &points);
    }
    for entry in &mut plan.entries {
        entry.clear = some_of(random, &tracks, tracks.len());
    }
    plan
}

/// Where the routes of a plan give back which points, listed or not.
struct Releases {
    /// Tracks to which a train can come.
    tracks: Vec<usize>,
    /// Now and then most routes give back all of theirs at this one.
    meeting: Option<usize>,
    /// And then all of them the same, as many as there can be.
    are_full: bool,
}

impl Releases {
    fn of(random: &mut Random, plan: &Plan) -> Self {
        let is_led_to = |to: &usize| {
            let mut others = (0..plan.tracks.len()).filter(|from| from != to);
            others.any(|from| plan.tracks[from].leads_to(*to))
        };
        let tracks: Vec<usize> = (0..plan.tracks.len()).filter(is_led_to).collect();
        let meeting = random.pick(&tracks).filter(|_| random.chance(25));
        Releases {
            tracks,
            meeting,
            are_full: random.chance(50),
        }
    }

    /// As likely few as many, mostly all at one track.
    fn some(&self, random: &mut Random, points: &[usize]) -> Vec<Release> {
        let most = *plan::RELEASES.end();
        let mut given_back = some_of(random, points, most);
        let meeting = self.meeting.filter(|_| self.are_full || random.chance(90));
        if meeting.is_some() && self.are_full {
            given_back = points[..most].to_vec();
        }
        let own = random.pick(&self.tracks).filter(|_| random.chance(75));
        let one = meeting.or(own);
        let release = |point| Release {
            track: one.or_else(|| random.pick(&self.tracks)).unwrap_or(0),
            point,
        };
        given_back.into_iter().map(release).collect()
    }
}

fn points_of(plan: &Plan) -> Vec<usize> {
    let is_point = |track: &usize| plan.is_point(*track);
    (0..plan.tracks.len()).filter(is_point).collect()
}

/// A plan with lists that are empty, hold all or share points.
fn with_odd_lists(random: &mut Random, plan: fn(&mut Random) -> Plan) -> Plan {
    let mut plan = plan(random);
    let tracks: Vec<usize> = (0..plan.tracks.len()).collect();
    let points = points_of(&plan);
    for route in &mut plan.routes {
        relist_points(random, route, &points);
        let listed: Vec<usize> = route.listed().collect();
        relist_clear(random, &mut route.clear, &tracks);
        route.clear = without(random, 50, &route.clear, &listed);
    }
    for entry in &mut plan.entries {
        relist_clear(random, &mut entry.clear, &tracks);
    }
    if random.chance(40) {
        put_short_ones_first(random, &mut plan.routes);
    }
    plan
}

/// Routes without lists come before the others, so that these have high numbers too.
fn put_short_ones_first(random: &mut Random, routes: &mut Vec<Route>) {
    let Some(first) = routes.first() else {
        return;
    };
    let short = Route {
        start: first.start,
        path: first.path[..1].to_vec(),
        clear: vec![],
        normal: vec![],
        reverse: vec![],
        releases: vec![],
    };
    let room = *plan::ROUTES.end() - routes.len();
    let count = match random.chance(50) {
        true => room,
        false => random.between(0, room),
    };
    routes.splice(0..0, vec![short; count]);
}

fn relist_clear(random: &mut Random, clear: &mut Vec<usize>, tracks: &[usize]) {
    match random.below(9) {
        0 => clear.clear(),
        1..=2 => *clear = tracks.to_vec(),
        3..=6 => *clear = some_of(random, tracks, tracks.len()),
        _ => {}
    }
}

fn relist_points(random: &mut Random, route: &mut Route, points: &[usize]) {
    let most = *plan::POINTS.end();
    match random.below(8) {
        0 => route.normal.clear(),
        1 => route.reverse.clear(),
        // Some points of each list stand in the other one too.
        2 => {
            for &point in points.iter().filter(|_| random.chance(40)) {
                put(&mut route.normal, point);
                put(&mut route.reverse, point);
            }
        }
        3 => {
            let (normal, reverse) = points.iter().partition(|_| random.chance(50));
            (route.normal, route.reverse) = (normal, reverse);
        }
        // Lists of every length.
        4..=5 => {
            route.normal = some_of(random, points, most);
            route.reverse = some_of(random, points, most);
        }
        _ => {}
    }
    route.normal.truncate(most);
    route.reverse.truncate(most);
}

/// Some of a rising list, this many at most: as likely few as many.
fn some_of(random: &mut Random, list: &[usize], most: usize) -> Vec<usize> {
    let mut some = list.to_vec();
    random.shuffle(&mut some);
    some.truncate(random.between(0, most));
    some.sort_unstable();
    some
}

/// The list, that many times in a hundred without the others.
fn without(
    random: &mut Random,
    in_a_hundred: usize,
    list: &[usize],
    others: &[usize],
) -> Vec<usize> {
    let is_without = random.chance(in_a_hundred);
    let stays = |item: &usize| !is_without || !others.contains(item);
    list.iter().copied().filter(stays).collect()
}

/// Puts an item into a rising list.
fn put(list: &mut Vec<usize>, item: usize) {
    if let Err(place) = list.binary_search(&item) {
        list.insert(place, item);
    }
}

/// How many are tried on a plan: more where lists are long and have many places.
pub fn count(plan: &Plan) -> usize {
    match plan.tracks.len() == *plan::TRACKS.end() {
        true => 48,
        false => 2,
    }
}

/// A state with a request or an entry that walks its list there, if the plan has one.
pub fn walk(random: &mut Random, plan: &Plan) -> Option<(State, Event)> {
    let asks_entry = random.chance(30);
    match asks_entry {
        true => entering(random, plan).or_else(|| requesting(random, plan)),
        false => requesting(random, plan).or_else(|| entering(random, plan)),
    }
}

fn entering(random: &mut Random, plan: &Plan) -> Option<(State, Event)> {
    let number = random.below(plan.entries.len());
    let clear = &plan.entries.get(number)?.clear;
    let numbers = Numbers::any(random);
    let mut state = beside(random, plan, clear, &[], numbers);
    for track in hits(random, clear) {
        numbers.place(&mut state, track);
    }
    Some((state, [3, number as u8, numbers.new_one(random)]))
}

/// Mostly the number of a route that has what is asked for, if there is one.
fn number_of(random: &mut Random, plan: &Plan, has_it: fn(&Route) -> bool) -> usize {
    let any = random.below(plan.routes.len());
    let has_it = |number: &usize| has_it(&plan.routes[*number]);
    let numbers: Vec<usize> = (0..plan.routes.len()).filter(has_it).collect();
    match random.chance(10) {
        true => any,
        false => random.pick(&numbers).unwrap_or(any),
    }
}

/// Whether there is something to walk.
fn has_lists(route: &Route) -> bool {
    !route.clear.is_empty() || route.listed().next().is_some()
}

/// Whether 13 leaves every listed point to 42.
fn can_derail(route: &Route) -> bool {
    let is_clear = |point| route.clear.contains(&point);
    route.listed().next().is_some() && !route.listed().any(is_clear)
}

fn requesting(random: &mut Random, plan: &Plan) -> Option<(State, Event)> {
    // Clear lists have the most lengths.
    let test = match random.below(18) {
        0..=7 => 13,
        8..=13 => 14,
        _ => 42,
    };
    let has_it = match test {
        42 => can_derail,
        _ => has_lists,
    };
    // Now and then the one that lists the most points, with any number of them in the way.
    let is_full = test == 14 && random.chance(20);
    let number = match is_full {
        true => {
            (0..plan.routes.len()).max_by_key(|&number| plan.routes[number].listed().count())?
        }
        false => number_of(random, plan, has_it),
    };
    let route = plan.routes.get(number)?;
    let listed: Vec<usize> = route.listed().collect();
    let numbers = Numbers::any(random);
    let mut state = beside(random, plan, &route.clear, &listed, numbers);
    state.signals[route.start] = None;
    match test {
        13 => {
            for track in hits(random, &route.clear) {
                numbers.place(&mut state, track);
            }
        }
        14 => hold_otherwise(random, plan, number, &mut state, is_full),
        _ => place_under_trains(random, plan, number, &mut state, numbers),
    }
    Some((state, [1, number as u8, 0]))
}

/// Trains and holds that the lists leave out, with lies anyhow.
fn beside(
    random: &mut Random,
    plan: &Plan,
    clear: &[usize],
    listed: &[usize],
    numbers: Numbers,
) -> State {
    let mut state = State::fresh(plan);
    let share = [0, 10, 50, 100][random.below(4)];
    for track in 0..plan.tracks.len() {
        let is_point = plan.is_point(track);
        if is_point && random.chance(50) {
            state.lies[track] = Lie::Reverse;
        }
        let is_listed = listed.contains(&track);
        if !clear.contains(&track) && !is_listed && random.chance(share) {
            numbers.place(&mut state, track);
        }
        if is_point && !is_listed && !plan.routes.is_empty() && random.chance(share) {
            state.holds[track].insert(random.below(plan.routes.len()));
        }
    }
    state
}

/// Which train stands on which track, so that none appears twice and every number comes on every one.
#[derive(Clone, Copy)]
struct Numbers {
    first: usize,
    /// From the train of a track to that of the next.
    by: usize,
}

impl Numbers {
    const COUNT: usize = u8::MAX as usize;

    fn any(random: &mut Random) -> Self {
        // They rise, fall or jump. None shares a divisor with 255, so that each comes to all numbers.
        let by = [1, 254, 2, 127, 7, 38, 91, 202][random.below(8)];
        let first = random.below(Self::COUNT);
        Numbers { first, by }
    }

    fn train(&self, track: usize) -> u8 {
        1 + ((self.first + track * self.by) % Self::COUNT) as u8
    }

    fn place(&self, state: &mut State, track: usize) {
        state.trains[track] = Some(self.train(track));
    }

    /// A train that no track has.
    fn new_one(&self, random: &mut Random) -> u8 {
        self.train(random.between(plan::MOST_TRACKS, Self::COUNT - 1))
    }
}

/// Places of a list where something is found, none at times.
fn hits(random: &mut Random, list: &[usize]) -> Vec<usize> {
    let (Some(&first), Some(&last)) = (list.first(), list.last()) else {
        return vec![];
    };
    let any = list[random.below(list.len())];
    match random.below(10) {
        0 => vec![],
        1 => vec![first],
        // Where a walk that ends too early shows, whatever the list's length.
        2..=6 => vec![last],
        7 => vec![any],
        8 => vec![any, last],
        _ => list.iter().copied().filter(|_| random.chance(40)).collect(),
    }
}

/// In one of the two lists, or at times in both.
fn hits_of_both(random: &mut Random, route: &Route) -> Vec<usize> {
    let lists: &[&[usize]] = match random.below(8) {
        0..=2 => &[&route.normal],
        3..=5 => &[&route.reverse],
        _ => &[&route.normal, &route.reverse],
    };
    lists.iter().flat_map(|list| hits(random, list)).collect()
}

/// Any number of listed points, now and then all.
fn any_number(random: &mut Random, route: &Route) -> Vec<usize> {
    let mut points: Vec<usize> = route.listed().collect();
    if random.chance(75) {
        random.shuffle(&mut points);
        points.truncate(random.between(0, points.len()));
    }
    points
}

/// Listed points that are held and would turn, and others that are not in the way: held and lying right,
/// or not held, whether they would turn or not.
fn hold_otherwise(
    random: &mut Random,
    plan: &Plan,
    number: usize,
    state: &mut State,
    is_full: bool,
) {
    let route = &plan.routes[number];
    let hits = match is_full {
        true => any_number(random, route),
        false => hits_of_both(random, route),
    };
    // What the others are: all alike, or each by itself.
    let alike = [0, 1, 1, 1, 1, 1, 2, 3, 3][random.below(9)];
    let by_itself = random.chance(10);
    for point in route.listed() {
        let is_hit = hits.contains(&point);
        let kind = match alike {
            3 => random.below(3),
            kind => kind,
        };
        let in_the_end = lie_in_the_end(route, point);
        state.lies[point] = match is_hit || kind == 2 {
            true => other(in_the_end),
            false => in_the_end,
        };
        if is_hit && by_itself {
            state.holds[point].insert(number);
        } else if is_hit || kind == 1 {
            shared::hold(random, plan, state, point);
        }
    }
}

/// Trains on listed points, which would turn under them or keep their lie. Those of the clear list
/// stay free, so that 13 does not come before 42; and only points that lie right are held, so that 14
/// does not.
fn place_under_trains(
    random: &mut Random,
    plan: &Plan,
    number: usize,
    state: &mut State,
    numbers: Numbers,
) {
    let route = &plan.routes[number];
    let hits = hits_of_both(random, route);
    let held = [0, 0, 0, 30, 100][random.below(5)];
    for point in route.listed().filter(|point| !route.clear.contains(point)) {
        let is_hit = hits.contains(&point);
        let in_the_end = lie_in_the_end(route, point);
        if is_hit {
            state.lies[point] = other(in_the_end);
        }
        if is_hit || random.chance(20) {
            numbers.place(state, point);
            if !is_hit {
                state.lies[point] = in_the_end;
            }
        }
        if !is_hit && random.chance(held) {
            state.lies[point] = in_the_end;
            shared::hold(random, plan, state, point);
        }
    }
}

fn other(lie: Lie) -> Lie {
    match lie {
        Lie::Normal => Lie::Reverse,
        Lie::Reverse => Lie::Normal,
    }
}
