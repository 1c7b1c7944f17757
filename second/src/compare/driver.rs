//! Case after case until there are enough plans and events, or until the first mismatch.

use super::counts::Counts;
use super::dropped::{self, Tried};
use super::shrink::shrink;
use super::trouble::{trouble, works, Sides, Trouble, Work};
use super::{describe, minima};
use crate::generate::case::{case, Case};
use crate::random::Random;
use crate::subject::Subject;

/// How much is compared at least.
#[derive(Clone, Copy, Debug)]
pub struct Extent {
    pub plans: u64,
    pub events: u64,
}

pub const USUAL: Extent = Extent {
    plans: 100_000,
    events: 5_000_000,
};

pub const LONG: Extent = Extent {
    plans: 1_000_000,
    events: 50_000_000,
};

/// Which cases are compared.
#[derive(Clone, Copy, Debug)]
pub struct Search {
    pub seed: u64,
    pub extent: Extent,
    /// Names each case before it is tried: the only trace of it if the subject takes the whole
    /// program down.
    pub trace: bool,
}

impl Default for Search {
    fn default() -> Self {
        Search {
            seed: 1,
            extent: USUAL,
            trace: false,
        }
    }
}

/// The first thing on which a subject and the model disagree.
#[derive(Clone, Debug)]
pub struct Mismatch {
    /// Of the case.
    pub seed: u64,
    pub plan: Vec<u8>,
    pub work: Work,
    pub trouble: Trouble,
}

impl Mismatch {
    /// Which comparison has found it.
    pub fn work_in_words(&self) -> &'static str {
        match self.work {
            Work::Step(..) => "single steps",
            Work::Agreement(_) => "two states",
            _ => "cases",
        }
    }
}

/// Compares one case, made from this seed. What was held against document 01 is counted.
pub fn try_case(
    subject: &dyn Subject,
    seed: u64,
    case: &Case,
    tried: &mut Tried,
) -> Option<Mismatch> {
    let mut sides = Sides::new(subject, &case.plan);
    let mismatch = works(case).into_iter().find_map(|work| {
        let trouble = sides.trouble(&work)?;
        Some(Mismatch {
            seed,
            plan: case.plan.clone(),
            work,
            trouble,
        })
    });
    for (sum, count) in tried.iter_mut().zip(sides.dropped.tried) {
        *sum += count;
    }
    mismatch
}

/// Compares and prints. True if nothing is wrong and nothing was missed.
pub fn compare(subject: &dyn Subject, search: &Search) -> bool {
    let mut seeds = Random::new(search.seed);
    let mut counts = Counts::default();
    while counts.plans < search.extent.plans || counts.events < search.extent.events {
        let seed = seeds.word();
        if search.trace {
            eprintln!("case {seed}");
        }
        let case = case(seed);
        counts.observe(&case);
        if let Some(mismatch) = try_case(subject, seed, &case, &mut counts.tried) {
            print_mismatch(subject, &mismatch);
            return false;
        }
    }
    let too_few = minima::report(&counts);
    for name in &too_few {
        println!("too few: {name}");
    }
    too_few.is_empty()
}

/// The first mismatch among this many cases, and how many it took.
pub fn hunt(subject: &dyn Subject, seed: u64, most: usize) -> Option<(usize, Mismatch)> {
    let mut seeds = Random::new(seed);
    (1..=most).find_map(|number| {
        let seed = seeds.word();
        let mismatch = try_case(subject, seed, &case(seed), &mut dropped::NONE.clone())?;
        Some((number, mismatch))
    })
}

/// Compares the one case of a seed that was printed before.
pub fn repeat(subject: &dyn Subject, seed: u64) -> bool {
    let mismatch = try_case(subject, seed, &case(seed), &mut dropped::NONE.clone());
    if let Some(mismatch) = &mismatch {
        print_mismatch(subject, mismatch);
    }
    mismatch.is_none()
}

fn print_mismatch(subject: &dyn Subject, mismatch: &Mismatch) {
    println!("mismatch in case {}", mismatch.seed);
    println!("expected: {}", mismatch.trouble.expected);
    println!("found:    {}", mismatch.trouble.found);
    print!("{}", small_words(subject, mismatch));
}

/// The mismatch made small, in words.
pub fn small_words(subject: &dyn Subject, mismatch: &Mismatch) -> String {
    let (plan, work) = shrink(subject, &mismatch.plan, &mismatch.work);
    let mut words = String::from("made small:\n");
    words.push_str(&describe::plan(&plan));
    words.push_str(&describe::work(&work));
    if let Some(trouble) = trouble(subject, &plan, &work) {
        words.push_str(&format!("expected: {}\n", trouble.expected));
        words.push_str(&format!("found:    {}\n", trouble.found));
    }
    words
}
