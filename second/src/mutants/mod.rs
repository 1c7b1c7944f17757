//! Boxes with one thing wrong. The comparison must catch every one of them.

mod beside;
mod calls;
mod events;
mod given;
mod impostors;
mod loaders;
mod many;
mod moves;
mod pieces;
pub mod programs;
mod reading;
mod requests;
mod rules;
mod shared;
mod states;
mod trains;
mod unasked;
mod walks;
mod writers;

use crate::book::{Book, Call, Loader, Writer, MODEL};
use crate::compare::driver::{hunt, Mismatch};
use crate::model::answer::{Answer, Verdict};
use crate::model::plan::Plan;
use crate::model::reading::Fault;
use crate::model::rules::Broken;
use crate::model::state::{Arrays, State};
use crate::program::sessions::{self, Session};
use crate::program::{expected, trouble_with};
use crate::subject::{Kept, Lent};
use programs::InProcess;

/// More cases than any of them has needed so far; a mutant that gets through them all survives.
pub const MOST_CASES: usize = 20_000;

/// How many there must be at least, so that none is lost unseen. They may only grow.
const LEAST_BOXES: usize = 760;
const LEAST_PROGRAMS: usize = 50;

/// A wrong function in place of a right one.
#[derive(Clone, Copy)]
enum Wrong {
    Read(fn(&[u8]) -> Result<Plan, Fault>),
    Check(fn(&Plan) -> Option<Broken>),
    Load(fn(&mut State, &Plan, &Arrays) -> bool),
    Step(fn(&Plan, &mut State, &[u8]) -> Answer),
    StepArrays(fn(&Book, &Plan, &mut Arrays, &[u8], &mut State) -> Answer),
    Whole(fn(&Book, &[u8], &[u8]) -> Vec<u8>),
    Fresh(fn(&mut Kept)),
    Run(Call<Answer>),
    Feed(Call<u8>),
    Finish(Call<u8>),
    Open(fn(Verdict, usize) -> Lent<u8>),
    LoadImage(Loader),
    Write(Writer),
}

/// What is wrong, in words and in deed.
type Slip = (&'static str, Wrong);

/// Where a wrong function shows.
#[derive(Clone, Copy, Debug, PartialEq, Eq)]
pub enum Shows {
    /// In what is printed from the fresh state on.
    InSessions,
    /// In single steps from arbitrary states, and in no session from the fresh one.
    InSteps,
    /// In cases from seeds: of more holds than any session has.
    InCases,
    /// In calls that are no matter of the document.
    InCalls,
}

impl Wrong {
    fn shows(&self) -> Shows {
        match self {
            Wrong::Read(_) | Wrong::Check(_) | Wrong::Step(_) | Wrong::Whole(_) => {
                Shows::InSessions
            }
            Wrong::Load(_) | Wrong::StepArrays(_) => Shows::InSteps,
            _ => Shows::InCalls,
        }
    }
}

/// A book with one wrong function.
pub struct Mutant {
    pub name: &'static str,
    pub book: Book,
    pub shows: Shows,
}

/// Every mutant there is.
pub fn all() -> Vec<Mutant> {
    let groups = [
        reading::ALL,
        rules::ORDER,
        rules::TRACKS,
        rules::ROUTES,
        states::ALL,
        requests::TESTS,
        requests::GRANTS,
        events::ALL,
        moves::ALL,
        impostors::ALL,
        calls::ANY_RUN,
        calls::RUN,
        calls::OPEN,
        calls::ANY_FEED,
        pieces::FEED,
        calls::ANY_FINISH,
        pieces::FINISH,
        pieces::FRESH,
        loaders::ALL,
        writers::ANSWERS,
        writers::BYTES,
        writers::STRICT,
        unasked::COUNTS,
        unasked::NUMBERS,
        unasked::ORDERS,
        unasked::PAST,
        unasked::LAST_BYTE,
    ];
    let slips = groups.concat().into_iter();
    let printed = trains::PRINTED.concat().into_iter();
    let slips = slips.map(mutant).chain(wrong_walks());
    let slips = slips.chain(wrong_trains()).chain(wrong_holds());
    let slips = slips.chain(printed.map(mutant));
    slips.chain(wrong_for_many()).collect()
}

/// Those of them that go wrong where there are very many holds.
pub fn wrong_for_many() -> Vec<Mutant> {
    let slips = [many::REQUESTS, many::GIVEN_BACK].concat().into_iter();
    let in_cases = slips.map(|slip| Mutant {
        shows: Shows::InCases,
        ..mutant(slip)
    });
    let in_sessions = many::POINTS_GIVEN_BACK.iter().copied().map(mutant);
    in_cases.chain(in_sessions).collect()
}

/// Those of them whose 13 names the wrong train.
pub fn wrong_trains() -> Vec<Mutant> {
    trains::STEPS.concat().into_iter().map(mutant).collect()
}

/// Those of them that take a point that is held, or its holders, for something else.
pub fn wrong_holds() -> Vec<Mutant> {
    let groups = [
        shared::REASONS,
        shared::HOLDERS,
        shared::POINTS,
        given::TAKEN,
        given::GIVEN_BACK,
        given::CANCELLED,
        beside::GRANTS,
        beside::MOVES,
        beside::STATES,
    ];
    groups.concat().into_iter().map(mutant).collect()
}

/// Those of them that walk a list wrongly.
pub fn wrong_walks() -> Vec<Mutant> {
    walks::ALL.concat().into_iter().map(mutant).collect()
}

fn mutant((name, wrong): Slip) -> Mutant {
    let mut book = MODEL;
    let shows = wrong.shows();
    match wrong {
        Wrong::Read(read) => book.read = read,
        Wrong::Check(check) => book.check = check,
        Wrong::Load(load) => book.load = load,
        Wrong::Step(step) => book.step = step,
        Wrong::StepArrays(step_arrays) => book.step_arrays = step_arrays,
        Wrong::Whole(whole) => book.whole = whole,
        Wrong::Fresh(fresh) => book.fresh = fresh,
        Wrong::Run(run) => book.run = run,
        Wrong::Feed(feed) => book.feed = feed,
        Wrong::Finish(finish) => book.finish = finish,
        Wrong::Open(open) => book.open = open,
        Wrong::LoadImage(load_image) => book.load_image = load_image,
        Wrong::Write(write) => book.write = write,
    }
    Mutant { name, book, shows }
}

/// Holds every mutant and every wrong program against the model, a line for each; true if there are
/// enough of them and all are caught.
pub fn catch_all(seed: u64) -> bool {
    let boxes = catch_boxes(seed);
    let programs = catch_programs(seed);
    boxes && programs
}

fn catch_programs(seed: u64) -> bool {
    let sessions = with_expected(sessions::all(seed));
    let programs = programs::all();
    let mut survivors = 0;
    for program in &programs {
        match first_trouble(program, &sessions) {
            Some((number, sentence)) => println!(
                "caught in session {number:>2}: {} ({})",
                program.name,
                shortened(&sentence)
            ),
            None => {
                survivors += 1;
                println!("SURVIVED all sessions: {}", program.name);
            }
        }
    }
    println!("{} wrong programs, {survivors} survived", programs.len());
    is_enough("wrong programs", programs.len(), LEAST_PROGRAMS) && survivors == 0
}

/// A session with what must be printed in it.
pub type Known = (Session, Vec<u8>);

pub fn with_expected(sessions: impl Iterator<Item = Session>) -> Vec<Known> {
    let known = sessions.map(|session| {
        let expected = expected(&session);
        (session, expected)
    });
    known.collect()
}

/// The first session that goes wrong, and how.
pub fn first_trouble(program: &InProcess, sessions: &[Known]) -> Option<(usize, String)> {
    let mut sessions = sessions.iter().enumerate();
    sessions.find_map(|(number, (session, expected))| {
        Some((number, trouble_with(program, session, expected)?))
    })
}

fn catch_boxes(seed: u64) -> bool {
    let mutants = all();
    let mut survivors = 0;
    for mutant in &mutants {
        match hunt(&mutant.book, seed, MOST_CASES) {
            Some((cases, mismatch)) => print_caught(mutant, cases, &mismatch),
            None => {
                survivors += 1;
                println!("SURVIVED {MOST_CASES:>5} cases: {}", mutant.name);
            }
        }
    }
    println!("{} mutants, {survivors} survived", mutants.len());
    is_enough("mutants", mutants.len(), LEAST_BOXES) && survivors == 0
}

/// Says so if there are too few.
fn is_enough(name: &str, count: usize, least: usize) -> bool {
    if count < least {
        println!("too few: {name}: {count} of {least}");
    }
    count >= least
}

fn print_caught(mutant: &Mutant, cases: usize, mismatch: &Mismatch) {
    println!(
        "caught in case {cases:>5}: {} (expected {}; found {})",
        mutant.name,
        shortened(&mismatch.trouble.expected),
        shortened(&mismatch.trouble.found)
    );
}

pub fn shortened(words: &str) -> String {
    match words.char_indices().nth(70) {
        Some((end, _)) => format!("{} ...", &words[..end]),
        None => words.to_string(),
    }
}
