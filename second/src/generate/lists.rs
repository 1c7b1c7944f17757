//! Many events for one call, with the room that is lent for what comes of them.

use super::{events, states};
use crate::model::plan::{Plan, MOST_TRACKS};
use crate::model::state::{Arrays, State};
use crate::model::step::step;
use crate::random::Random;
use crate::subject::{EVENT, LINE};

#[derive(Clone, Debug, PartialEq, Eq)]
pub struct List {
    pub from: Arrays,
    pub events: Vec<u8>,
    /// Room for answers.
    pub room: usize,
}

/// A list from the fresh state, from one that the events of a run reach, from any well-formed one
/// or from one that is not well formed.
pub fn list(random: &mut Random, plan: &Plan, run: &[u8]) -> List {
    let (from, events) = going_on(random, plan, run);
    with_room(random, from, events)
}

/// A state and events that go on from it, the last of them perhaps incomplete. The state may be
/// exchanged for one that is not well formed.
pub fn going_on(random: &mut Random, plan: &Plan, run: &[u8]) -> (Arrays, Vec<u8>) {
    let state = match random.below(4) {
        0 => State::fresh(plan),
        1..=2 => reached(random, plan, run),
        _ => states::well_formed(random, plan),
    };
    let count = random.between(0, 6);
    let (mut events, next) = events::going_on(random, plan, state.clone(), count);
    // The bytes left over begin an event that may well be carried out, were it whole.
    events.extend(&next[..random.below(EVENT)]);
    let from = if random.chance(25) {
        states::not_well_formed(random, plan)
    } else {
        state.to_arrays()
    };
    (from, events)
}

/// A list for a plan that cannot be read.
pub fn for_no_plan(random: &mut Random) -> List {
    let (from, events) = going_nowhere(random);
    with_room(random, from, events)
}

/// A state that some plan may have, or that none has, and events.
pub fn going_nowhere(random: &mut Random) -> (Arrays, Vec<u8>) {
    let mut events = Vec::new();
    for _ in 0..random.between(0, 4) {
        events.extend([random.between(1, 5) as u8, random.below(2) as u8, 0]);
    }
    events.extend(&[4, 1][..random.below(EVENT)]);
    let mut from = Arrays::fresh();
    match random.below(3) {
        0 => from.trains[random.below(MOST_TRACKS)] = random.train(),
        1 => from.lies[random.below(MOST_TRACKS)] = random.between(2, 255) as u8,
        _ => {}
    }
    (from, events)
}

fn reached(random: &mut Random, plan: &Plan, run: &[u8]) -> State {
    let mut state = State::fresh(plan);
    let count = random.between(1, 30);
    for event in run.chunks_exact(EVENT).take(count) {
        step(plan, &mut state, event);
    }
    state
}

fn with_room(random: &mut Random, from: Arrays, events: Vec<u8>) -> List {
    let room = room(random, events.len().div_ceil(EVENT));
    List { from, events, room }
}

/// Room for the line for the plan, in one case out of five.
pub fn opening(random: &mut Random) -> Option<usize> {
    random.chance(20).then(|| room(random, LINE))
}

/// None, some, one too few, as many as needed, one more or more.
pub fn room(random: &mut Random, needed: usize) -> usize {
    match random.below(7) {
        0 => 0,
        1 => random.below(needed),
        2 => needed.saturating_sub(1),
        3..=4 => needed,
        5 => needed + 1,
        _ => needed + random.between(1, 4),
    }
}
