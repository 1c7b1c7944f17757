//! Wrong readings of the document, each alone, held against the session folders: what a box would
//! print that has this one definition wrong must differ from `expected.txt` in a session that a
//! person can read.

mod events;
pub mod folders;
mod lines;
pub mod list;
mod orders;
mod reading;
mod rules;
pub mod singles;
mod strict;

use crate::book::{print_line, Book, MODEL};
use crate::compare::driver::hunt;
use crate::model::answer::Answer;
use crate::model::plan::Plan;
use crate::model::reading::Fault;
use crate::model::state::State;
use crate::mutants::{self, Mutant, Shows, MOST_CASES};
use crate::singles::{due, outcome, Single};
use crate::subject::{Subject, EVENT};
use folders::Folder;
use singles::OfSteps;

/// A whole run: what is printed for the bytes of a plan and of the events.
type Printed = Box<dyn Fn(&[u8], &[u8]) -> Vec<u8>>;

/// A wrong definition.
pub struct Definition {
    /// What the document would have to say.
    pub name: String,
    pub prints: Printed,
}

impl Definition {
    fn new(name: impl Into<String>, prints: impl Fn(&[u8], &[u8]) -> Vec<u8> + 'static) -> Self {
        Definition {
            name: name.into(),
            prints: Box::new(prints),
        }
    }

    /// The model, but this is how it reads a plan.
    fn reads(
        name: impl Into<String>,
        read: impl Fn(&[u8]) -> Result<Plan, Fault> + 'static,
    ) -> Self {
        Definition::new(name, move |plan, events| match read(plan) {
            Ok(plan) => played(&plan, State::fresh(&plan), events),
            Err(fault) => format!("{}\n", fault.form).into_bytes(),
        })
    }

    /// A mutant that has the same name here.
    fn mutant(mutant: &Mutant) -> Self {
        let book: Book = mutant.book;
        Definition::new(mutant.name, move |plan, events| {
            (book.whole)(&book, plan, events)
        })
    }
}

/// What the model prints for a plan that has been read, from this state on.
fn played(plan: &Plan, state: State, events: &[u8]) -> Vec<u8> {
    played_by(plan, state, events, MODEL.step)
}

/// The same with another step.
fn played_by(
    plan: &Plan,
    mut state: State,
    events: &[u8],
    step: impl Fn(&Plan, &mut State, &[u8]) -> Answer,
) -> Vec<u8> {
    let mut lines = Vec::new();
    print_line(&mut lines, MODEL.verdict(plan));
    for event in events.chunks(EVENT) {
        print_line(&mut lines, step(plan, &mut state, event));
    }
    lines
}

/// Mutants that no session from the fresh state can show: there each hold of a route is of a point
/// that it lists, and the point lies as the route left it.
const NEVER_FRESH: &[&str] = &[
    "a cancel drops listed holds alone",
    "14 passes the route's own holds",
    "14 where a holder wants the point otherwise, however it lies",
    "14 where all holders want the point otherwise, however it lies",
    "14 where a holder wants the point otherwise and it would turn",
    "14 by the lowest holder, if it is another",
    "14 by the highest holder, if it is another",
    "a held point leads as its lowest holder lists it",
    "a held point leads as its highest holder lists it",
];

/// Where a mutant must be caught.
#[derive(Clone, Copy, Debug, PartialEq, Eq)]
pub enum Held {
    BySessions,
    /// In the single steps of `steps.txt`, and in cases from seeds.
    ByCases,
    /// It is no matter of the document, or of more holds than any session has.
    Elsewhere,
}

/// Where this one must be.
pub fn held(mutant: &Mutant) -> Held {
    let is_by_cases = NEVER_FRESH.contains(&mutant.name);
    match mutant.shows {
        Shows::InSessions if !is_by_cases => Held::BySessions,
        Shows::InSessions | Shows::InSteps => Held::ByCases,
        Shows::InCases | Shows::InCalls => Held::Elsewhere,
    }
}

/// Rules that ask for too much; each must show in a session whose plan is accepted.
pub fn too_strict() -> Vec<Definition> {
    strict::all()
}

/// Every wrong definition that must show in a session.
pub fn all() -> Vec<Definition> {
    let mut all = lines::all();
    all.extend(reading::all());
    all.extend(rules::all());
    all.extend(too_strict());
    all.extend(events::all());
    all.extend(orders::all());
    let mutants = mutants::all();
    let seen = mutants
        .iter()
        .filter(|mutant| held(mutant) == Held::BySessions);
    all.extend(seen.map(Definition::mutant));
    all
}

/// Where a wrong definition shows: a session, its first line that differs, counted from 1, and how
/// many more sessions show it.
pub struct Shown<'a> {
    pub folder: &'a Folder,
    pub line: usize,
    pub expected: String,
    pub got: String,
    pub more: usize,
    /// Whether no other session shows it as well as this one.
    pub is_alone: bool,
}

impl Shown<'_> {
    /// Whether a plan that must not be read is not read for another reason.
    fn is_unreadable_otherwise(&self) -> bool {
        let is_form = |line: &str| line.starts_with("`form ");
        is_form(&self.expected) && is_form(&self.got)
    }

    /// Whether a plan that must be accepted is not.
    fn is_accepted_no_more(&self) -> bool {
        self.line == 1 && self.expected == "`accepted`"
    }
}

/// Where a definition shows in these sessions, if it does: in the smallest, but where a plan is read
/// by it that can't be read rather than where it is unreadable all the same, and where an accepted
/// plan is so no more rather than where a bad one is bad for another reason.
pub fn shown<'a>(definition: &Definition, folders: &'a [Folder]) -> Option<Shown<'a>> {
    let shown = folders.iter().filter_map(|folder| {
        let got = (definition.prints)(&folder.plan, &folder.events);
        let (line, expected, got) = first_difference(&folder.expected, &got)?;
        Some(Shown {
            folder,
            line,
            expected,
            got,
            more: 0,
            is_alone: false,
        })
    });
    let mut shown: Vec<Shown> = shown.collect();
    let more = shown.len().saturating_sub(1);
    if !shown.iter().all(Shown::is_unreadable_otherwise) {
        shown.retain(|shown| !shown.is_unreadable_otherwise());
    }
    if shown.iter().any(Shown::is_accepted_no_more) {
        shown.retain(Shown::is_accepted_no_more);
    }
    let is_alone = shown.len() == 1;
    let first = shown.into_iter().next();
    first.map(|shown| Shown {
        more,
        is_alone,
        ..shown
    })
}

/// The number of the first line that differs, and both.
fn first_difference(expected: &[u8], got: &[u8]) -> Option<(usize, String, String)> {
    if expected == got {
        return None;
    }
    let lines = |bytes: &[u8]| -> Vec<String> {
        let lines = bytes.split_inclusive(|&byte| byte == b'\n');
        lines.map(shown_line).collect()
    };
    let (expected, got) = (lines(expected), lines(got));
    let line = (0..).find(|&line| expected.get(line) != got.get(line))?;
    let at = |lines: &[String]| lines.get(line).cloned().unwrap_or("nothing".to_string());
    Some((line + 1, at(&expected), at(&got)))
}

fn shown_line(line: &[u8]) -> String {
    let text = String::from_utf8_lossy(line);
    match text.strip_suffix('\n') {
        Some(line) => format!("`{line}`"),
        None => format!("`{text}` without an end"),
    }
}

/// Holds every wrong definition against these sessions or the single steps, a line for each. True if
/// the model and the box do what is expected in all of them, every wrong definition is caught, and
/// the lists that stand in the tree are these.
pub fn catch_all(folders: Vec<Folder>, seed: u64, the_box: Option<&dyn Subject>) -> bool {
    let right: Vec<(&str, &dyn Subject)> = match the_box {
        Some(the_box) => vec![("the model", &MODEL), ("the box", the_box)],
        None => vec![("the model", &MODEL)],
    };
    let is_right = |folder: &&Folder| right.iter().all(|one| prints_the_same(one, folder));
    let wrong = folders.len() - folders.iter().filter(is_right).count();
    let sessions = folders.len();
    let in_full = folders.into_iter().filter(Folder::is_told_in_full);
    let in_full: Vec<Folder> = in_full.collect();
    let all = all();
    let missed = all.iter().filter(|one| !is_caught(one, &in_full)).count();
    let steps = crate::singles::all();
    let is_right = |step: &&Single| right.iter().all(|one| comes_the_same(one, step));
    let wrong_steps = steps.len() - steps.iter().filter(is_right).count();
    let of_steps = singles::all();
    let missed_steps = of_steps
        .iter()
        .filter(|one| !is_caught_in_steps(one, &steps));
    let missed_steps = missed_steps.count();
    let mutants = mutants::all();
    let by_cases = mutants
        .iter()
        .filter(|mutant| held(mutant) == Held::ByCases);
    let by_cases: Vec<&Mutant> = by_cases.collect();
    let survived = by_cases
        .iter()
        .filter(|one| !is_caught_in_cases(one, seed))
        .count();
    let names: Vec<&str> = right.iter().map(|(name, _)| *name).collect();
    let names = names.join(" and ");
    let is_standing = list::is_standing(&in_full);
    println!(
        "{sessions} sessions and {} single steps, each as {names} would do it but for {}",
        steps.len(),
        wrong + wrong_steps,
    );
    println!(
        "{} wrong definitions, each alone, against the {} sessions that are told in full: {missed} \
         not caught",
        all.len(),
        in_full.len(),
    );
    println!(
        "{} more, against the single steps: {missed_steps} not caught; {} of them against the \
         comparison of cases: {survived} not caught",
        of_steps.len(),
        by_cases.len(),
    );
    wrong + missed + wrong_steps + missed_steps + survived == 0 && is_standing
}

/// Whether what is expected of a session is printed; says so if it is not.
fn prints_the_same((name, subject): &(&str, &dyn Subject), folder: &Folder) -> bool {
    let got = subject.run(&folder.plan, &folder.events);
    let difference = first_difference(&folder.expected, &got);
    if let Some((line, expected, got)) = &difference {
        let session = &folder.name;
        println!("NOT RIGHT: {name}, {session}, line {line}: expected {expected}, got {got}");
    }
    difference.is_none()
}

/// The same of what comes of a single step.
fn comes_the_same((name, subject): &(&str, &dyn Subject), step: &Single) -> bool {
    let (due, got) = (due(step), outcome(*subject, step));
    if due != got {
        println!(
            "NOT RIGHT: {name}, {}: expected {due}, got {got}",
            step.about
        );
    }
    due == got
}

/// Says where a definition is caught, or that it is not.
fn is_caught(definition: &Definition, folders: &[Folder]) -> bool {
    let shown = shown(definition, folders);
    match &shown {
        Some(shown) => {
            let more = match shown.more {
                0 => String::new(),
                more => format!(", and by {more} more"),
            };
            println!(
                "{}: caught by {}, line {}, expected {}, got {}{more}",
                definition.name, shown.folder.name, shown.line, shown.expected, shown.got
            );
        }
        None => println!("NOT CAUGHT: {}", definition.name),
    }
    shown.is_some()
}

fn is_caught_in_steps(definition: &OfSteps, steps: &[Single]) -> bool {
    let shown = singles::shown(definition, steps);
    let name = &definition.name;
    match &shown {
        Some((step, due, got)) => {
            println!("{name}: caught by step {step}, expected {due}, got {got}")
        }
        None => println!("NOT CAUGHT in any step: {name}"),
    }
    shown.is_some()
}

/// Whether a mutant of single steps is caught by the comparison of cases too, with its steps from
/// arbitrary states.
fn is_caught_in_cases(mutant: &Mutant, seed: u64) -> bool {
    let found = hunt(&mutant.book, seed, MOST_CASES);
    match &found {
        Some((case, mismatch)) => println!(
            "{}: held by the comparison of {}, case {case}: expected {}, got {}",
            mutant.name,
            mismatch.work_in_words(),
            mutants::shortened(&mismatch.trouble.expected),
            mutants::shortened(&mismatch.trouble.found),
        ),
        None => println!("NOT CAUGHT in {MOST_CASES} cases: {}", mutant.name),
    }
    found.is_some()
}
