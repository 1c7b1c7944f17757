//! What the sessions have reached: how they are cut, and how much their last answers tell of what
//! came first.

use super::quiet;
use super::sessions::{range_words, Manner, Session, MANNERS, RANGES};
use super::special::LONGEST;
use super::stories::{Story, KINDS};
use crate::model::plan::Plan;
use crate::model::reading::read;
use crate::model::state::State;
use crate::model::step::step;
use crate::subject::EVENT;
use std::collections::{BTreeMap, BTreeSet};

#[derive(Default)]
pub struct Counts {
    kinds: BTreeMap<String, u64>,
}

const NO_PLAN: &str = "sessions on no plan";
const LENGTHS: [(usize, &str); 2] = [
    (3000, "sessions of 3,000 events or more"),
    (100_000, "sessions of 100,000 events or more"),
];
const ENDS: [&str; EVENT] = [
    "no byte left over at the end",
    "one byte left over at the end",
    "two bytes left over at the end",
];
const BYTE_BY_BYTE: &str = "more than 65,536 pieces of one byte, each read by itself";
const EVERY_LENGTH: &str = "a piece of every length up to 3,100 bytes, each read by itself";
const PIPED: &str = "the plan comes in pieces through a pipe";
const REMEMBERED: &str = "the last answers tell of a state lost at each of six points";

/// A part of the state, and how it is lost.
type Part = (&'static str, fn(&mut State, &State));

const PARTS: [Part; 4] = [
    (
        "the last answers tell of trains lost halfway",
        |state, fresh| state.trains.clone_from(&fresh.trains),
    ),
    (
        "the last answers tell of lies lost halfway",
        |state, fresh| state.lies.clone_from(&fresh.lies),
    ),
    (
        "the last answers tell of holds lost halfway",
        |state, fresh| state.holds.clone_from(&fresh.holds),
    ),
    (
        "the last answers tell of greens lost halfway",
        |state, fresh| state.signals.clone_from(&fresh.signals),
    ),
];

/// What there must be.
fn least() -> Vec<(String, u64)> {
    let mut least = vec![
        (NO_PLAN.to_string(), 5),
        (LENGTHS[0].1.to_string(), 200),
        (LENGTHS[1].1.to_string(), 4),
        (REMEMBERED.to_string(), 200),
        (BYTE_BY_BYTE.to_string(), 1),
        (EVERY_LENGTH.to_string(), 2),
        (PIPED.to_string(), 2),
    ];
    let quiets = quiet::all().into_iter().map(|quiet| quiet.what);
    let plans = quiets.chain(KINDS);
    least.extend(plans.map(|plan| (plan.to_string(), 10)));
    least.extend(RANGES.map(|range| (range_words(range), 3)));
    least.extend(MANNERS.map(|(_, words)| (words.to_string(), 10)));
    least.extend(ENDS.map(|end| (end.to_string(), 50)));
    least.extend(PARTS.map(|(name, _)| (name.to_string(), 20)));
    least
}

impl Counts {
    pub fn observe(&mut self, session: &Session) {
        let story = &session.story;
        let events = story.input.len().div_ceil(EVENT);
        self.add("sessions", 1);
        self.add("events", events as u64);
        self.add("pieces", session.pieces().len() as u64);
        let Ok(plan) = read(story.file()) else {
            return self.add(NO_PLAN, 1);
        };
        self.add(story.what, 1);
        for (least, name) in LENGTHS {
            self.add(name, u64::from(events >= least));
        }
        self.add(&range_words(session.range), 1);
        self.add(session.manner.words(), 1);
        self.add(ENDS[story.input.len() % EVENT], 1);
        self.add(PIPED, u64::from(session.is_plan_piped));
        if self.observe_memory(&plan, story) && session.manner == Manner::LockStep {
            self.observe_lengths(&session.lengths);
        }
    }

    fn observe_lengths(&mut self, lengths: &[usize]) {
        let ones = lengths.iter().filter(|&&length| length == 1).count();
        self.add(BYTE_BY_BYTE, u64::from(ones > 65_536));
        let different: BTreeSet<usize> = lengths.iter().copied().collect();
        let is_every = (1..=LONGEST).all(|length| different.contains(&length));
        self.add(EVERY_LENGTH, u64::from(is_every));
    }

    /// True if the last answers tell whenever the state is lost.
    fn observe_memory(&mut self, plan: &Plan, story: &Story) -> bool {
        let questions = story.questions / EVENT;
        let right = last_answers(plan, story, usize::MAX, |_, _| ());
        let tells = |at, lose: fn(&mut State, &State)| last_answers(plan, story, at, lose) != right;
        // Behind the first events, of which there are four at most, and as late as can be.
        let points = [
            4,
            5,
            questions / 4,
            questions / 2,
            questions * 3 / 4,
            questions,
        ];
        let is_remembered = points.into_iter().all(|at| tells(at, State::clone_from));
        self.add(REMEMBERED, u64::from(is_remembered));
        for (name, lose) in PARTS {
            self.add(name, u64::from(tells(questions / 2, lose)));
        }
        is_remembered
    }

    fn add(&mut self, name: &str, count: u64) {
        *self.kinds.entry(name.to_string()).or_default() += count;
    }

    /// Prints all counts; true if none is too small.
    pub fn report(&self) -> bool {
        for (name, count) in &self.kinds {
            println!("{count:>10} {name}");
        }
        let count = |name: &str| self.kinds.get(name).copied().unwrap_or(0);
        let mut too_few = least();
        too_few.retain(|(name, least)| count(name) < *least);
        for (name, least) in &too_few {
            println!("too few: {name}: {} of {least}", count(name));
        }
        too_few.is_empty()
    }
}

/// The answers to the questions at the end if something is lost before this event.
fn last_answers(
    plan: &Plan,
    story: &Story,
    at: usize,
    lose: impl Fn(&mut State, &State),
) -> Vec<String> {
    let fresh = State::fresh(plan);
    let mut state = fresh.clone();
    let mut answers = Vec::new();
    for (number, event) in story.input.chunks(EVENT).enumerate() {
        if number == at {
            lose(&mut state, &fresh);
        }
        let answer = step(plan, &mut state, event);
        if number >= story.questions / EVENT {
            answers.push(answer.to_string());
        }
    }
    answers
}
