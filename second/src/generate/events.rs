//! Event lists. Each event is chosen with an eye on the model's state, so that trains get through
//! on good plans and meet with accidents on bad ones.

use crate::model::answer::Answer;
use crate::model::plan::Plan;
use crate::model::state::State;
use crate::model::step;
use crate::random::Random;

pub type Event = [u8; 3];

/// Chooses an event, if the plan and the state have one of its sort.
type Chooser = fn(&mut Random, &Plan, &State) -> Option<Event>;

/// How often each sort of event is chosen, in a hundred together.
type Manner = [(usize, Chooser); 7];

const SMOOTH: Manner = [
    (76, advance),
    (10, enter_wisely),
    (4, request),
    (3, cancel),
    (3, push),
    (0, seek),
    (4, nonsense),
];

const FICKLE: Manner = [
    (50, advance),
    (12, enter),
    (12, request),
    (12, cancel),
    (8, push),
    (0, seek),
    (6, nonsense),
];

/// One train at a time, which enters when there is none.
const TOURING: Manner = [
    (93, advance),
    (0, enter),
    (2, request),
    (1, cancel),
    (2, push),
    (0, seek),
    (2, nonsense),
];

/// Hardly any trains: routes are had and given back.
const GRANTING: Manner = [
    (5, advance),
    (2, enter),
    (46, request),
    (40, cancel),
    (4, push),
    (0, seek),
    (3, nonsense),
];

const RECKLESS: Manner = [
    (40, advance),
    (16, enter),
    (14, request),
    (6, cancel),
    (6, push),
    (15, seek),
    (3, nonsense),
];

/// A list for an accepted plan: mostly trains on their way.
pub fn orderly(random: &mut Random, plan: &Plan, count: usize) -> Vec<u8> {
    let manner = [SMOOTH, SMOOTH, SMOOTH, SMOOTH, TOURING, FICKLE, GRANTING][random.below(7)];
    list(random, plan, count, &manner)
}

/// A list of whole events with as many moves as can be had.
pub fn smooth(random: &mut Random, plan: &Plan, count: usize) -> Vec<u8> {
    let mut events = list(random, plan, count, &SMOOTH);
    events.truncate(3 * count);
    events
}

/// The same with one train at a time, for plans in which two would wait for each other.
pub fn touring(random: &mut Random, plan: &Plan, count: usize) -> Vec<u8> {
    let mut events = list(random, plan, count, &TOURING);
    events.truncate(3 * count);
    events
}

/// A list of requests and cancels alone.
pub fn granting(random: &mut Random, plan: &Plan, count: usize) -> Vec<u8> {
    let mut state = State::fresh(plan);
    let mut events = Vec::with_capacity(3 * count);
    for _ in 0..count {
        let chooser = if random.chance(50) { request } else { cancel };
        let event = chooser(random, plan, &state).unwrap_or([1, 0, 0]);
        step::step(plan, &mut state, &event);
        events.extend(event);
    }
    events
}

/// A list of whole events that are mostly requests, with so many trains at most at each event. Where
/// nothing can move, and no route is had that no train waits for, all events are requests.
pub fn asking(
    random: &mut Random,
    plan: &Plan,
    count: usize,
    most_trains: impl Fn(usize) -> usize,
) -> Vec<u8> {
    let mut state = State::fresh(plan);
    let mut events = Vec::with_capacity(3 * count);
    for number in 0..count {
        let has_room = occupied(&state).len() < most_trains(number);
        let chosen = match random.below(100) {
            0..=29 => on_its_way(random, plan, &state),
            30..=31 if has_room => enter_wisely(random, plan, &state),
            32..=47 => give_back(random, plan, &state),
            48 => cancel(random, plan, &state),
            49 => nonsense(random, plan, &state),
            _ => None,
        };
        let event = chosen.or_else(|| request(random, plan, &state));
        let event = event.unwrap_or([1, 0, 0]);
        step::step(plan, &mut state, &event);
        events.extend(event);
    }
    events
}

/// Cancels a route for which no train waits.
fn give_back(random: &mut Random, plan: &Plan, state: &State) -> Option<Event> {
    let is_empty = |route: &usize| state.trains[plan.home_of(&plan.routes[*route])].is_none();
    let green = state.signals.iter().copied().flatten();
    let green: Vec<usize> = green.filter(is_empty).collect();
    random.pick(&green).map(|route| [2, route as u8, 0])
}

/// Moves a train that stands at no red signal.
fn on_its_way(random: &mut Random, plan: &Plan, state: &State) -> Option<Event> {
    let is_red = |signal: usize| state.signals[signal].is_none();
    let mut tracks = occupied(state);
    tracks.retain(|&track| !plan.signal_at(track).is_some_and(is_red));
    let track = random.pick(&tracks)?;
    Some([4, state.trains[track]?, 0])
}

/// A list for a bad plan, in search of accidents.
pub fn reckless(random: &mut Random, plan: &Plan, count: usize) -> Vec<u8> {
    let manner = if random.chance(80) { RECKLESS } else { FICKLE };
    list(random, plan, count, &manner)
}

/// A list of whole events that goes on from a state, and the event that would be the next.
pub fn going_on(
    random: &mut Random,
    plan: &Plan,
    mut state: State,
    count: usize,
) -> (Vec<u8>, Event) {
    let manner = [SMOOTH, FICKLE, GRANTING, RECKLESS][random.below(4)];
    let mut events = Vec::with_capacity(3 * count + 2);
    for _ in 0..count {
        let event = choose(random, plan, &state, &manner);
        step::step(plan, &mut state, &event);
        events.extend(event);
    }
    let next = choose(random, plan, &state, &manner);
    (events, next)
}

/// Whole events that go on from a state and leave it after them. Unwanted ones are chosen anew, and
/// where none is found there is one that is none.
pub fn wanted(
    random: &mut Random,
    plan: &Plan,
    state: &mut State,
    count: usize,
    is_wanted: impl Fn(&State, &Event) -> bool,
) -> Vec<u8> {
    const TRIES: usize = 8;
    let manner = match crate::model::rules::check(plan) {
        None => [SMOOTH, SMOOTH, TOURING, FICKLE][random.below(4)],
        Some(_) => [RECKLESS, FICKLE][random.below(2)],
    };
    let mut events = Vec::with_capacity(3 * count);
    for _ in 0..count {
        let mut tries = (0..TRIES).map(|_| choose(random, plan, state, &manner));
        let event = tries
            .find(|event| is_wanted(state, event))
            .unwrap_or_default();
        step::step(plan, state, &event);
        events.extend(event);
    }
    events
}

fn list(random: &mut Random, plan: &Plan, count: usize, manner: &Manner) -> Vec<u8> {
    let mut state = State::fresh(plan);
    let mut events = Vec::with_capacity(3 * count + 2);
    for _ in 0..count {
        let event = choose(random, plan, &state, manner);
        step::step(plan, &mut state, &event);
        events.extend(event);
    }
    if random.chance(10) {
        // An incomplete event at the end.
        for _ in 0..random.between(1, 2) {
            events.push(random.below(5) as u8);
        }
    }
    events
}

fn choose(random: &mut Random, plan: &Plan, state: &State, manner: &Manner) -> Event {
    let mut draw = random.below(100);
    let sorts = manner.iter();
    let chosen = sorts.copied().find(|&(share, _)| {
        let here = draw < share;
        draw = draw.saturating_sub(share);
        here
    });
    let (_, chooser) = chosen.unwrap_or(manner[0]);
    chooser(random, plan, state)
        .or_else(|| enter_wisely(random, plan, state))
        .or_else(|| request(random, plan, state))
        .unwrap_or([1, 0, 0])
}

/// Gets some train a step further: moves it, or asks for the route it waits for.
fn advance(random: &mut Random, plan: &Plan, state: &State) -> Option<Event> {
    let occupied = occupied(state);
    let mut event = None;
    for _ in 0..4 {
        let track = random.pick(&occupied)?;
        let is_red = |signal: &usize| state.signals[*signal].is_none();
        let Some(signal) = plan.signal_at(track).filter(is_red) else {
            return Some([4, state.trains[track]?, 0]);
        };
        let starts_here = |&route: &usize| plan.routes[route].start == signal;
        let routes: Vec<usize> = (0..plan.routes.len()).filter(starts_here).collect();
        for _ in 0..3 {
            let Some(route) = random.pick(&routes) else {
                break;
            };
            event = Some([1, route as u8, 0]);
            if is_promising(plan, state, route) {
                return event;
            }
        }
    }
    event
}

fn occupied(state: &State) -> Vec<usize> {
    let has_train = |&track: &usize| state.trains[track].is_some();
    (0..state.trains.len()).filter(has_train).collect()
}

fn is_promising(plan: &Plan, state: &State, number: usize) -> bool {
    let route = &plan.routes[number];
    state.first_train_on(&route.clear).is_none()
        && step::lowest_held_otherwise(state, route).is_none()
}

/// A new train where it can get on: a train that no route takes up again may block everything.
fn enter_wisely(random: &mut Random, plan: &Plan, state: &State) -> Option<Event> {
    let goes_on = |&entry: &usize| {
        let signal = plan.signal_at(plan.entries[entry].track);
        plan.routes.iter().any(|route| Some(route.start) == signal)
    };
    let entries: Vec<usize> = (0..plan.entries.len()).filter(goes_on).collect();
    match random.pick(&entries) {
        Some(entry) => Some([3, entry as u8, random.train()]),
        None => enter(random, plan, state),
    }
}

/// Mostly a new train, sometimes one that is in the plan already.
fn enter(random: &mut Random, plan: &Plan, state: &State) -> Option<Event> {
    let entry = random.below(plan.entries.len());
    plan.entries.get(entry)?;
    let train = if random.chance(85) {
        random.train()
    } else {
        let present: Vec<u8> = state.trains.iter().copied().flatten().collect();
        random.pick(&present).unwrap_or(1)
    };
    Some([3, entry as u8, train])
}

fn request(random: &mut Random, plan: &Plan, _: &State) -> Option<Event> {
    let route = random.below(plan.routes.len());
    plan.routes.get(route)?;
    Some([1, route as u8, 0])
}

/// Mostly a route that is green.
fn cancel(random: &mut Random, plan: &Plan, state: &State) -> Option<Event> {
    let green: Vec<usize> = state.signals.iter().copied().flatten().collect();
    let any = random.below(plan.routes.len());
    let route = match random.pick(&green) {
        Some(route) if random.chance(80) => route,
        _ => any,
    };
    plan.routes.get(route)?;
    Some([2, route as u8, 0])
}

/// Moves a train without a look at its signal.
fn push(random: &mut Random, _: &Plan, state: &State) -> Option<Event> {
    let present: Vec<u8> = state.trains.iter().copied().flatten().collect();
    match random.pick(&present) {
        Some(train) if random.chance(80) => Some([4, train, 0]),
        _ => Some([4, random.train(), 0]),
    }
}

/// An event that ends in an accident, if there is one.
fn seek(random: &mut Random, plan: &Plan, state: &State) -> Option<Event> {
    let moves = state
        .trains
        .iter()
        .copied()
        .flatten()
        .map(|train| [4, train, 0]);
    let requests = (0..plan.routes.len()).map(|route| [1, route as u8, 0]);
    let new_train = random.train();
    let entering = (0..plan.entries.len()).map(|entry| [3, entry as u8, new_train]);
    let mut events: Vec<Event> = moves.chain(requests).chain(entering).collect();
    random.shuffle(&mut events);
    events.truncate(8);
    let ends_badly = |event: &Event| {
        let answer = step::step(plan, &mut state.clone(), event);
        matches!(answer, Answer::Accident(_))
    };
    events.into_iter().find(ends_badly)
}

/// An event that is 11, or nearly one.
fn nonsense(random: &mut Random, plan: &Plan, _: &State) -> Option<Event> {
    let (route, entry) = (plan.routes.len() as u8, plan.entries.len() as u8);
    let train = random.train();
    Some(match random.below(9) {
        0 => [0, random.byte(), random.byte()],
        1 => [random.between(5, 255) as u8, 0, 0],
        2 => [1, random.byte(), random.byte()],
        3 => [random.between(1, 2) as u8, route, 0],
        4 => [2, random.byte(), random.below(2) as u8],
        5 => [3, entry, train],
        6 => [3, random.below(plan.entries.len()) as u8, 0],
        7 => [4, train, random.byte()],
        _ => [4, 0, 0],
    })
}

/// Any sort of event for a state that came from nowhere.
pub fn for_state(random: &mut Random, plan: &Plan, state: &State) -> Event {
    const SORTS: [Chooser; 6] = [request, request, cancel, enter, push, nonsense];
    let chooser = SORTS[random.below(SORTS.len())];
    chooser(random, plan, state).unwrap_or([random.byte(), random.byte(), 0])
}
