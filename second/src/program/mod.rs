//! The program itself against the model: everything that it prints in long sessions.

pub mod child;
pub mod counts;
pub mod quiet;
pub mod sessions;
mod sleepers;
pub mod special;
pub mod stories;

use crate::book::MODEL;
use crate::compare::trouble::first_difference;
use crate::mutants::shortened;
use crate::subject::Subject;
use child::Executable;
use counts::Counts;
use sessions::Session;

/// Anything that reads a plan and an input in pieces and prints: a child process or a function.
pub trait Program {
    fn run(&self, session: &Session) -> Output;
}

/// What a program leaves.
pub struct Output {
    /// All that it prints, or a sentence about what went wrong.
    pub printed: Result<Vec<u8>, String>,
    /// What it tells on standard error.
    pub told: Vec<u8>,
}

/// A sentence about the first thing in which the program is not what it should be.
pub fn trouble(program: &dyn Program, session: &Session) -> Option<String> {
    trouble_with(program, session, &expected(session))
}

/// What must be printed in a session.
pub fn expected(session: &Session) -> Vec<u8> {
    MODEL.run(session.story.file(), &session.story.input)
}

/// The same where it is known what must be printed.
pub fn trouble_with(program: &dyn Program, session: &Session, expected: &[u8]) -> Option<String> {
    let Output { printed, told } = program.run(session);
    let sentence = match printed {
        Err(sentence) => sentence,
        Ok(printed) if printed == expected => told_trouble(session, &told)?.to_string(),
        Ok(printed) => {
            let difference = first_difference(expected, &printed);
            let (expected, found) = (difference.expected, difference.found);
            format!("expected {expected}; found {found}")
        }
    };
    Some(match told.is_empty() {
        true => sentence,
        false => format!("{sentence}; on standard error it tells {}", quoted(&told)),
    })
}

/// What is wrong with what is told on standard error: a plan that is not there, in one line, and
/// otherwise nothing, since all that is printed has been taken.
fn told_trouble(session: &Session, told: &[u8]) -> Option<&'static str> {
    match &session.story.plan {
        Some(_) => (!told.is_empty()).then_some("standard error must be empty"),
        None => (!is_line_about_plan(told))
            .then_some("standard error must have one line that names plan.bin"),
    }
}

fn is_line_about_plan(told: &[u8]) -> bool {
    let text = String::from_utf8_lossy(told);
    text.ends_with('\n') && text.lines().count() == 1 && text.contains("plan.bin")
}

/// What is told, in one line and not too long.
fn quoted(told: &[u8]) -> String {
    let text = String::from_utf8_lossy(told);
    format!("{:?}", shortened(&text))
}

/// Compares and prints. True if nothing is wrong and nothing was missed.
pub fn compare(program: &Executable, seed: u64) -> bool {
    let mut counts = Counts::default();
    for (number, session) in sessions::all(seed).enumerate() {
        counts.observe(&session);
        if let Some(sentence) = trouble(program, &session) {
            println!("session {number}, {}: {sentence}", session.words());
            let folder = program.folder.display();
            println!("its plan.bin, events.bin and told.txt are in {folder}");
            return false;
        }
    }
    // It was only for the sessions.
    let _ = std::fs::remove_dir_all(&program.folder);
    counts.report()
}
