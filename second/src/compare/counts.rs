//! Counting what the cases have reached, so that nothing goes untried unnoticed.

use super::before;
use super::calls::{self, Kind, Kinds};
use super::dropped::{self, Tried};
use super::flaws::{self, FLAWS};
use super::images;
use super::rarest::{self, Spread};
use super::shared::{self, Notes};
use super::special::{self, SPECIALS};
use super::walks;
use crate::book::MODEL;
use crate::generate::case::Case;
use crate::generate::faults::PLACES;
use crate::model::answer::{Answer, Refusal, Verdict};
use crate::model::plan::Plan;
use crate::model::reading::{read, Fault, Place};
use crate::model::state::{Arrays, State};
use crate::model::step::step;
use std::collections::BTreeSet;

pub const EVENT_KINDS: [&str; 6] = [
    "request",
    "cancel",
    "enter",
    "move",
    "unknown",
    "incomplete",
];

/// The answers by their numbers, those without a number by others that are free.
pub const GRANTED: usize = 50;
pub const CANCELLED: usize = 51;
pub const ENTERED: usize = 52;
pub const MOVED: usize = 53;
pub const LEFT: usize = 54;
pub const ANSWERS: usize = 55;

#[derive(Clone, Debug)]
pub struct Counts {
    pub plans: u64,
    pub accepted: u64,
    pub events: u64,
    /// By form number and place.
    pub forms: [[u64; PLACES.len()]; 6],
    /// The different offsets of each form number.
    pub offsets: [BTreeSet<usize>; 6],
    /// Bytes at which both 3 and 4 apply.
    pub three_before_four: u64,
    /// By rule: at row 0, at a higher row.
    pub rules: [[u64; 2]; 13],
    /// By event kind and answer.
    pub answers: [[u64; ANSWERS]; EVENT_KINDS.len()],
    pub specials: Vec<u64>,
    /// Where 13, 14 and 42 find what they look for in their lists.
    pub walks: [u64; walks::KINDS],
    /// What stands before the point that 14 names.
    pub before: [u64; before::KINDS],
    /// Points that are held, by how many routes and by which.
    pub shared: [u64; shared::KINDS],
    /// By the length of a list, and by the number of a route, an entry, a train or a track.
    pub spread: Spread,
    pub flaws: Vec<u64>,
    /// Pairs of agreeing states by the answer to the request.
    pub pairs: [u64; ANSWERS],
    /// Calls that do all or nothing, loads and writes among them.
    pub calls: Kinds,
    /// What was held against document 01.
    pub tried: Tried,
}

impl Default for Counts {
    fn default() -> Self {
        Counts {
            plans: 0,
            accepted: 0,
            events: 0,
            forms: [[0; PLACES.len()]; 6],
            offsets: Default::default(),
            three_before_four: 0,
            rules: [[0; 2]; 13],
            answers: [[0; ANSWERS]; EVENT_KINDS.len()],
            specials: vec![0; SPECIALS.len()],
            walks: [0; walks::KINDS],
            before: [0; before::KINDS],
            shared: [0; shared::KINDS],
            spread: rarest::NONE,
            flaws: vec![0; FLAWS.len()],
            pairs: [0; ANSWERS],
            calls: Kinds::new(),
            tried: dropped::NONE,
        }
    }
}

pub fn code(answer: &Answer) -> usize {
    match answer {
        Answer::Unreadable(form) => usize::from(form.number),
        Answer::Refused(refusal) => usize::from(refusal.number()),
        Answer::Accident(accident) => usize::from(accident.number()),
        Answer::Granted { .. } => GRANTED,
        Answer::Cancelled { .. } => CANCELLED,
        Answer::Entered { .. } => ENTERED,
        Answer::Moved { .. } => MOVED,
        Answer::Left { .. } => LEFT,
    }
}

fn event_kind(event: &[u8]) -> usize {
    match *event {
        [kind @ 1..=4, _, _] => usize::from(kind) - 1,
        [_, _, _] => 4,
        _ => 5,
    }
}

impl Counts {
    /// Runs the model over the case and counts what it meets.
    pub fn observe(&mut self, case: &Case) {
        self.plans += 1;
        let plan = read(&case.plan);
        calls::of_case(plan.as_ref().ok(), case, &mut self.noting());
        match plan {
            Err(fault) => self.observe_unreadable(case, fault),
            Ok(plan) => self.observe_readable(case, &plan),
        }
    }

    /// Counts a kind of call.
    fn noting(&mut self) -> impl FnMut(Kind) + '_ {
        |kind| *self.calls.entry(kind).or_default() += 1
    }

    fn observe_unreadable(&mut self, case: &Case, fault: Fault) {
        images::of_no_plan(case, fault.form, &mut self.noting());
        let form = usize::from(fault.form.number);
        let place = PLACES.iter().position(|&place| place == fault.place);
        self.forms[form][place.expect("every place is in the list")] += 1;
        self.offsets[form].insert(fault.form.offset);
        self.three_before_four += u64::from(is_three_before_four(&case.plan, fault));
        for (_, event) in &case.steps {
            self.count_answer(event, &Answer::Unreadable(fault.form));
        }
    }

    fn observe_readable(&mut self, case: &Case, plan: &Plan) {
        let verdict = MODEL.verdict(plan);
        images::of_plan(case, plan, verdict, &mut self.noting());
        match verdict {
            Verdict::Broken(broken) => {
                self.rules[broken.rule][usize::from(broken.row > 0)] += 1;
            }
            _ => self.accepted += 1,
        }
        let mut state = State::fresh(plan);
        let mut before = state.clone();
        for event in case.events.chunks(3) {
            before.clone_from(&state);
            let answer = step(plan, &mut state, event);
            let in_order = verdict == Verdict::Accepted;
            self.count_step(plan, [&before, &state], event, &answer, in_order);
        }
        for (arrays, event) in &case.steps {
            self.observe_single(plan, arrays, event);
        }
        for pair in &case.pairs {
            let state = State::from_arrays(plan, &pair.one);
            let mut state = state.expect("the states of a pair are well formed");
            let answer = step(plan, &mut state, &[1, pair.route, 0]);
            self.pairs[code(&answer)] += 1;
        }
    }

    fn observe_single(&mut self, plan: &Plan, arrays: &Arrays, event: &[u8]) {
        match State::from_arrays(plan, arrays) {
            Some(mut state) => {
                let before = state.clone();
                let answer = step(plan, &mut state, event);
                self.count_step(plan, [&before, &state], event, &answer, false);
            }
            None => {
                self.count_answer(event, &Answer::Refused(Refusal::NotWellFormed));
                if let Some(flaw) = flaws::only(plan, arrays) {
                    self.flaws[flaw as usize] += 1;
                }
            }
        }
    }

    /// `in_order` in a whole run on an accepted plan.
    fn count_step(
        &mut self,
        plan: &Plan,
        [before, after]: [&State; 2],
        event: &[u8],
        answer: &Answer,
        in_order: bool,
    ) {
        self.count_answer(event, answer);
        let specials = &mut self.specials;
        special::of_answer(plan, before, after, event, answer, |special| {
            specials[special as usize] += 1;
        });
        walks::of_answer(plan, before, event, answer, &mut self.walks);
        rarest::of_answer(plan, before, event, answer, &mut self.spread);
        if let Answer::Refused(Refusal::PointHeld { point }) = *answer {
            let route = &plan.routes[usize::from(event[1])];
            before::of_named(before, route, point, &mut self.before);
        }
        let mut notes = Notes::new(&mut self.shared, in_order);
        shared::of_answer(plan, before, after, event, answer, &mut notes);
    }

    fn count_answer(&mut self, event: &[u8], answer: &Answer) {
        self.events += 1;
        self.answers[event_kind(event)][code(answer)] += 1;
    }

    /// Moves that were granted: trains that went on or left.
    pub fn granted_moves(&self) -> u64 {
        self.answers[3][MOVED] + self.answers[3][LEFT]
    }
}

/// A byte that names no point and does not rise either: the lower form number must win.
pub fn is_three_before_four(file: &[u8], fault: Fault) -> bool {
    let back = match fault.place {
        Place::Normal | Place::Reverse => 1,
        Place::ReleasePoint => 2,
        _ => return false,
    };
    if fault.form.number != 3 || fault.form.offset <= back {
        return false;
    }
    // With a forerunner in place of the bad byte the list would be found not to rise.
    let mut mended = file[..=fault.form.offset].to_vec();
    let bad = mended[fault.form.offset];
    mended[fault.form.offset] = mended[fault.form.offset - back];
    let doubled = read(&mended).err();
    let has_forerunner = doubled.is_some_and(|found| found.form.number == 4);
    has_forerunner && bad <= mended[fault.form.offset]
}
