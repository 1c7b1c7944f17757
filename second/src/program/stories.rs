//! Plans with thousands of events, of which the last ask what has become of the first.

use super::quiet::{self, Quiet, TRAIN};
use super::sleepers::Sleepers;
use crate::document::BENCH_PLAN;
use crate::generate::beside::{beside, Shift};
use crate::generate::{accepted, broken, events, faults, largest, wild};
use crate::model::plan::Plan;
use crate::model::reading::read;
use crate::model::state::State;
use crate::model::step::step;
use crate::random::Random;
use crate::subject::EVENT;
use crate::writing::write;

/// A plan with its events, before they are cut.
#[derive(Clone, Debug)]
pub struct Story {
    /// What is remembered, or what kind of plan this is.
    pub what: &'static str,
    /// The bytes of `plan.bin`, if there is such a file.
    pub plan: Option<Vec<u8>>,
    pub input: Vec<u8>,
    /// How many bytes there are before the questions at the end.
    pub questions: usize,
}

impl Story {
    /// A file that can't be opened counts as empty.
    pub fn file(&self) -> &[u8] {
        self.plan.as_deref().unwrap_or_default()
    }
}

/// The kinds of plans that have no quiet junction.
pub const KINDS: [&str; 4] = [
    "the bench plan",
    "an accepted plan",
    "a plan that breaks a rule",
    "a wild plan",
];

/// A story of so many events. The number decides its kind, and how many bytes are left over.
pub fn long(random: &mut Random, number: usize, count: usize) -> Story {
    let mut story = match number % 18 {
        0..=9 => beside_a_quiet_one(random, number / 2, count),
        10 => asleep(random, KINDS[0], count, |_| bench_plan()),
        11..=14 => asleep(random, KINDS[1], count, accepted),
        15..=16 => asleep(random, KINDS[2], count, broken::broken),
        _ => asleep(random, KINDS[3], count, wild::wild),
    };
    // The beginning of an event that never comes whole.
    story.input.extend(&[4, TRAIN][..number % EVENT]);
    story
}

/// A story on a plan of the most bytes.
pub fn largest(random: &mut Random, count: usize) -> Story {
    asleep(random, KINDS[1], count, largest::largest)
}

fn bench_plan() -> Plan {
    read(&BENCH_PLAN).expect("the bench plan can be read")
}

/// How many there are of these.
pub const ODD: usize = 10;

/// No plan at all, bytes that are none, or hardly any input.
pub fn odd(random: &mut Random, number: usize) -> Story {
    let events = [[3, 0, 1], [1, 0, 0], [4, 1, 0]].concat().repeat(2000);
    let (what, plan, input) = match number {
        0 => ("no plan.bin", None, events),
        1 => ("an empty plan.bin", Some(vec![]), events),
        2 => ("no plan.bin and no events", None, vec![]),
        3 => ("no events", Some(BENCH_PLAN.to_vec()), vec![]),
        4 => ("one byte", Some(BENCH_PLAN.to_vec()), vec![3]),
        5 => ("two bytes", Some(BENCH_PLAN.to_vec()), vec![3, 0]),
        _ => ("an unreadable plan", Some(faults::faulty(random)), events),
    };
    Story {
        what,
        plan,
        questions: input.len(),
        input,
    }
}

/// A quiet junction, and beside it a lively one that has all the events in between.
fn beside_a_quiet_one(random: &mut Random, number: usize, count: usize) -> Story {
    let mut quiets = quiet::all();
    let quiet = quiets.swap_remove(number % quiets.len());
    let Quiet { what, plan, .. } = &quiet;
    let (both, lively) = loop {
        let lively = liveliest(random);
        if let Some(both) = beside(plan, &lively) {
            break (both, lively);
        }
    };
    let mut state = State::fresh(&lively);
    let between = events::wanted(random, &lively, &mut state, count, |_, event| {
        !matches!(event, [3, _, TRAIN] | [4, TRAIN, _])
    });
    let shift = Shift::behind(plan);
    let mut input = quiet.first.concat();
    for event in between.chunks_exact(EVENT) {
        input.extend(shift.event([event[0], event[1], event[2]]));
    }
    let questions = input.len();
    input.extend(quiet.last.concat());
    Story {
        what,
        plan: Some(write(&both)),
        input,
        questions,
    }
}

/// The accepted plan on which most is done, among some.
fn liveliest(random: &mut Random) -> Plan {
    let plans = (0..8).map(|_| accepted(random));
    let liveliness = |plan: &Plan| Sleepers::default().deeds_around(plan);
    plans.max_by_key(liveliness).expect("there are some")
}

/// Of some plans the one on which most is done while something sleeps, and that for long.
fn asleep(
    random: &mut Random,
    what: &'static str,
    count: usize,
    make: impl Fn(&mut Random) -> Plan,
) -> Story {
    let candidates = (0..6).map(|_| {
        let plan = make(random);
        (Sleepers::choose(random, &plan), plan)
    });
    let most =
        candidates.max_by_key(|(sleepers, plan)| (sleepers.is_any(), sleepers.deeds_around(plan)));
    let (sleepers, plan) = most.expect("there are some");
    let (mut input, mut state) = sleepers.around(random, &plan, count);
    let questions = input.len();
    for event in sleepers.questions(&plan) {
        step(&plan, &mut state, &event);
        input.extend(event);
    }
    input.extend(events::wanted(random, &plan, &mut state, 30, |_, _| true));
    Story {
        what,
        plan: Some(write(&plan)),
        input,
        questions,
    }
}
