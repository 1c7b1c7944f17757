//! One case of the comparison: a plan file with all that is tried on it, made from one seed.

use super::events::{self, Event};
use super::images::{self, Writing};
use super::lists::{self, List};
use super::pieces::{self, Pieces};
use super::{accepted, broken, faults, shared, states, walks, wild};
use crate::model::plan::Plan;
use crate::model::reading::read;
use crate::model::rules;
use crate::model::state::Arrays;
use crate::random::Random;
use crate::subject::Kept;
use crate::writing::write;

/// Two well-formed states that a request for the route cannot tell apart.
#[derive(Clone, Debug)]
pub struct Pair {
    pub route: u8,
    pub one: Arrays,
    pub other: Arrays,
}

#[derive(Clone, Debug)]
pub struct Case {
    pub plan: Vec<u8>,
    /// For a whole run from the fresh state.
    pub events: Vec<u8>,
    /// Single events, each from its own state.
    pub steps: Vec<(Arrays, Event)>,
    pub pairs: Vec<Pair>,
    /// Events at once, with more room than they need or less.
    pub list: List,
    /// Inputs in pieces: one from any state and, in every other case, the whole run.
    pub pieces: Vec<Pieces>,
    /// Memory in which a session is to start.
    pub memory: Kept,
    /// Now and then the room for the line for the plan, which whole runs try with as much as it
    /// needs.
    pub opening: Option<usize>,
    /// For the marks in the image into which the plan is loaded.
    pub fill: u8,
    pub writings: Vec<Writing>,
}

/// The case of this seed.
pub fn case(seed: u64) -> Case {
    let mut random = Random::new(seed);
    let file = file(&mut random);
    match read(&file) {
        Ok(plan) => with_readable(&mut random, file, &plan),
        Err(_) => with_unreadable(&mut random, file),
    }
}

fn file(random: &mut Random) -> Vec<u8> {
    match random.below(100) {
        0..=46 => write(&accepted(random)),
        47..=61 => write(&broken::broken(random)),
        62..=65 => write(&walks::relisted(random)),
        66..=75 => write(&wild::wild(random)),
        76..=83 => {
            let plan = accepted(random);
            faults::one_byte_changed(random, &plan)
        }
        84..=96 => faults::faulty(random),
        _ => faults::noise(random),
    }
}

fn with_readable(random: &mut Random, file: Vec<u8>, plan: &Plan) -> Case {
    let events = match rules::check(plan) {
        None => {
            let count = event_count(random, 40, 130);
            events::orderly(random, plan, count)
        }
        Some(_) => {
            let count = event_count(random, 20, 60);
            events::reckless(random, plan, count)
        }
    };
    let mut steps: Vec<(Arrays, Event)> = (0..5).map(|_| single_step(random, plan)).collect();
    let walks = (0..walks::count(plan)).filter_map(|_| walks::walk(random, plan));
    steps.extend(walks.map(|(state, event)| (state.to_arrays(), event)));
    let given = (0..walks::count(plan) / 2).filter_map(|_| shared::giving_back(random, plan));
    steps.extend(given.map(|(state, event)| (state.to_arrays(), event)));
    let pairs = pair(random, plan).into_iter().collect();
    let list = lists::list(random, plan, &events);
    let mut pieces = vec![pieces::pieces(random, plan, &events)];
    pieces.extend(pieces::session(random, &events));
    let opening = lists::opening(random);
    Case {
        plan: file,
        events,
        steps,
        pairs,
        list,
        pieces,
        memory: pieces::memory(random),
        opening,
        fill: random.byte(),
        writings: images::writings(random, plan),
    }
}

/// How many events a run has: sometimes none or a few, rarely some thousand.
fn event_count(random: &mut Random, low: usize, high: usize) -> usize {
    match random.below(1000) {
        0..=1 => random.between(3000, 6000),
        2..=30 => random.between(0, 3),
        _ => random.between(low, high),
    }
}

fn single_step(random: &mut Random, plan: &Plan) -> (Arrays, Event) {
    let state = states::well_formed(random, plan);
    let event = events::for_state(random, plan, &state);
    if random.chance(25) {
        (states::not_well_formed(random, plan), event)
    } else {
        (state.to_arrays(), event)
    }
}

fn pair(random: &mut Random, plan: &Plan) -> Option<Pair> {
    let route = random.below(plan.routes.len());
    plan.routes.get(route)?;
    let one = states::well_formed(random, plan);
    let other = states::agreeing(random, plan, &one, route);
    Some(Pair {
        route: route as u8,
        one: one.to_arrays(),
        other: other.to_arrays(),
    })
}

/// Nothing runs on an unreadable plan, whatever the state and the event.
fn with_unreadable(random: &mut Random, file: Vec<u8>) -> Case {
    let fresh = Arrays::fresh();
    let step = |kind: u8| (fresh.clone(), [kind, random.below(2) as u8, 0]);
    let steps = (1..=5).map(step).collect();
    let list = lists::for_no_plan(random);
    let opening = lists::opening(random);
    Case {
        plan: file,
        events: vec![3, 0, 1, 1, 0],
        steps,
        pairs: Vec::new(),
        list,
        pieces: vec![pieces::for_no_plan(random)],
        memory: pieces::memory(random),
        opening,
        fill: random.byte(),
        writings: vec![images::without_plan(random)],
    }
}
