//! The words of the command line: what they ask for, or a sentence about the one that makes no sense.

use crate::compare::driver::{Search, LONG};
use std::path::Path;

pub const USAGE: &str =
    "usage: second [--long] [--seed N] [--trace]  compare the box with the model
       second --case SEED                  compare one case again
       second --mutants [--seed N]         catch every mutant
       second --program PATH [--seed N]    compare a program with the model
       second --readable DIR [--seed N]    catch every wrong definition in the session folders
       second --list DIR                   print the list of wrong definitions, definitions.txt
       second --steps                      print the text of the single steps, steps.txt
       second --bench [LIBRARY]            print times, those of another box's shared library too
       second --earlier LIBRARY [--seed N] compare the box with an earlier one, event by event
       second --limits                     print the sizes that it goes by
       second sessions DIR                 write the session folders
       second run                          read plan.bin and events like the program itself
       second --help                       print this";

/// What is asked for.
#[derive(Clone, Copy, Debug)]
pub enum Command<'a> {
    Help,
    Compare(Search),
    Case(u64),
    Mutants(u64),
    Program(&'a Path, u64),
    Readable(&'a Path, u64),
    List(&'a Path),
    Steps,
    /// With the path of a shared library, if another box is to be timed too.
    Bench(Option<&'a Path>),
    /// With the path of an earlier box's shared library.
    Earlier(&'a Path, u64),
    Limits,
    Sessions(&'a Path),
    Run,
}

/// What these words ask for, or a sentence about what is missing or not understood.
pub fn understood<'a>(words: &'a [&'a str]) -> Result<Command<'a>, String> {
    let is_help = |word: &&str| matches!(*word, "--help" | "-h");
    if words.iter().any(is_help) || words == ["help"] {
        return Ok(Command::Help);
    }
    let mut rest = Words {
        before: words.first().copied().unwrap_or_default(),
        rest: words.get(1..).unwrap_or_default(),
    };
    let command = match rest.before {
        "--case" => Command::Case(rest.number()?),
        "--mutants" => Command::Mutants(rest.seed()?),
        "--program" => Command::Program(rest.path("PATH, the program to run")?, rest.seed()?),
        "--readable" => Command::Readable(rest.path(READ_FROM)?, rest.seed()?),
        "--list" => Command::List(rest.path(READ_FROM)?),
        "--steps" => Command::Steps,
        "--bench" => Command::Bench(rest.optional_path()),
        "--earlier" => Command::Earlier(rest.path(EARLIER)?, rest.seed()?),
        "--limits" => Command::Limits,
        "sessions" => Command::Sessions(rest.path("DIR, where the session folders are written")?),
        "run" => Command::Run,
        _ => {
            rest = Words {
                before: "",
                rest: words,
            };
            Command::Compare(rest.search()?)
        }
    };
    rest.end()?;
    Ok(command)
}

const EARLIER: &str = "LIBRARY, the shared library of an earlier box";
const READ_FROM: &str = "DIR, where the session folders are, such as ../sessions";

/// Words that are taken one by one.
struct Words<'a> {
    /// The one that was taken last, for the sentences.
    before: &'a str,
    rest: &'a [&'a str],
}

impl<'a> Words<'a> {
    /// True if the next one is this, which is then taken.
    fn take(&mut self, word: &'a str) -> bool {
        let is_this = self.rest.first() == Some(&word);
        if is_this {
            (self.before, self.rest) = (word, &self.rest[1..]);
        }
        is_this
    }

    /// What the word before can't do without. Another option, or the nothing that an unset variable
    /// of the shell gives, does not stand for it.
    fn needed(&mut self, what: &str) -> Result<&'a str, String> {
        match *self.rest {
            [word, ref rest @ ..] if !word.is_empty() && !word.starts_with("--") => {
                (self.before, self.rest) = (word, rest);
                Ok(word)
            }
            _ => Err(format!("{} needs {what}", self.before)),
        }
    }

    fn path(&mut self, what: &str) -> Result<&'a Path, String> {
        self.needed(what).map(Path::new)
    }

    /// A path, if the next word can be one.
    fn optional_path(&mut self) -> Option<&'a Path> {
        self.path("").ok()
    }

    fn number(&mut self) -> Result<u64, String> {
        let what = format!("a number from 0 to {}", u64::MAX);
        let option = self.before;
        let word = self.needed(&what)?;
        let words = |_| format!("{option} needs {what}, and '{word}' is none");
        word.parse().map_err(words)
    }

    fn seed(&mut self) -> Result<u64, String> {
        match self.take("--seed") {
            true => self.number(),
            false => Ok(Search::default().seed),
        }
    }

    fn search(&mut self) -> Result<Search, String> {
        let mut search = Search::default();
        loop {
            if self.take("--long") {
                search.extent = LONG;
            } else if self.take("--trace") {
                search.trace = true;
            } else if self.take("--seed") {
                search.seed = self.number()?;
            } else {
                return Ok(search);
            }
        }
    }

    /// Nothing may be left over.
    fn end(&self) -> Result<(), String> {
        match (self.rest.first(), self.before) {
            (None, _) => Ok(()),
            (Some(word), "") => Err(format!("what is '{word}'?")),
            (Some(word), before) => Err(format!("what is '{word}' after '{before}'?")),
        }
    }
}
