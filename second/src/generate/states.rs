//! Arbitrary states, well formed and not.

use crate::model::plan::{Lie, Plan, MOST_SIGNALS, MOST_TRACKS};
use crate::model::state::{Arrays, State};
use crate::random::Random;

/// A well-formed state, whether events can reach it or not.
pub fn well_formed(random: &mut Random, plan: &Plan) -> State {
    let mut state = State::fresh(plan);
    place_trains(random, &mut state);
    let reverse = random.pick(&[0, 50, 50, 100]).unwrap_or(50);
    let held = random.pick(&[0, 0, 10, 50, 85]).unwrap_or(0);
    for track in (0..plan.tracks.len()).filter(|&track| plan.is_point(track)) {
        if random.chance(reverse) {
            state.lies[track] = Lie::Reverse;
        }
        while random.chance(held) && !plan.routes.is_empty() {
            state.holds[track].insert(random.below(plan.routes.len()));
        }
    }
    let green = random.pick(&[0, 30, 80]).unwrap_or(30);
    for (route, start) in plan.routes.iter().map(|route| route.start).enumerate() {
        if random.chance(green) {
            state.signals[start] = Some(route);
        }
    }
    state
}

fn place_trains(random: &mut Random, state: &mut State) {
    let density = random.pick(&[0, 4, 12, 40, 95]).unwrap_or(0);
    for track in 0..state.trains.len() {
        let train = random.train();
        if random.chance(density) && state.track_of(train).is_none() {
            state.trains[track] = Some(train);
        }
    }
}

/// A state with exactly one thing wrong, or with everything wrong.
pub fn not_well_formed(random: &mut Random, plan: &Plan) -> Arrays {
    if random.chance(10) {
        return noise(random);
    }
    let mut arrays = well_formed(random, plan).to_arrays();
    spoil(random, plan, &mut arrays);
    arrays
}

/// Arrays that hold anything at all.
pub fn noise(random: &mut Random) -> Arrays {
    let mut arrays = Arrays::fresh();
    arrays.trains.fill_with(|| random.byte());
    arrays.lies.fill_with(|| random.byte());
    arrays.holds.fill_with(|| random.word());
    arrays.signals.fill_with(|| random.byte());
    arrays
}

/// Does one thing that a well-formed state does not have; a small plan may lack the room for it.
fn spoil(random: &mut Random, plan: &Plan, arrays: &mut Arrays) {
    let (tracks, signals, routes) = (plan.tracks.len(), plan.homes.len(), plan.routes.len());
    let inside = random.below(tracks);
    // The first cell beyond the counts is the one most easily forgotten.
    let beyond = |random: &mut Random, count: usize, size: usize| match random.below(2) {
        0 => count.min(size - 1),
        _ => random.between(count.min(size - 1), size - 1),
    };
    let some_route = random.below(routes.max(1));
    match random.below(11) {
        0 => arrays.trains[inside] = arrays.trains[random.below(tracks)].max(1),
        1 => arrays.trains[random.below(tracks)] = arrays.trains[inside].max(1),
        2 => arrays.trains[beyond(random, tracks, MOST_TRACKS)] = random.train(),
        3 => arrays.lies[inside] = random.between(1, 255) as u8,
        4 => arrays.lies[inside] = 1,
        5 => arrays.lies[beyond(random, tracks, MOST_TRACKS)] = 1,
        6 => arrays.holds[inside] |= 1 << some_route,
        7 => arrays.holds[inside] |= 1 << beyond(random, routes, u64::BITS as usize),
        8 => arrays.holds[beyond(random, tracks, MOST_TRACKS)] = 1 << some_route,
        9 => arrays.signals[beyond(random, signals, MOST_SIGNALS)] = some_route as u8 + 1,
        _ => {
            let green = [some_route as u8 + 1, routes as u8 + 1, random.byte()];
            arrays.signals[random.below(signals.max(1))] = green[random.below(3)];
        }
    }
}

/// Another well-formed state that agrees with this one on all that a request for the route looks
/// at: its signal, the trains on its clear list, and the trains, lies and holds of its points.
pub fn agreeing(random: &mut Random, plan: &Plan, state: &State, route: usize) -> State {
    let route = &plan.routes[route];
    let mut other = well_formed(random, plan);
    other.signals[route.start] = state.signals[route.start];
    for point in route.listed() {
        other.lies[point] = state.lies[point];
        other.holds[point] = state.holds[point];
    }
    let looked_at: Vec<usize> = route.clear.iter().copied().chain(route.listed()).collect();
    for &track in &looked_at {
        other.trains[track] = None;
    }
    for &track in &looked_at {
        // A train can stand on one track only.
        let elsewhere = state.trains[track].and_then(|train| other.track_of(train));
        if let Some(elsewhere) = elsewhere {
            other.trains[elsewhere] = None;
        }
        other.trains[track] = state.trains[track];
    }
    other
}
