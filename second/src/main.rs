#![doc = include_str!("../README.md")]

use second::bench::{self, Boxes};
use second::book::MODEL;
use second::boxed::Boxed;
use second::compare::driver::{self, Search};
use second::compared::{of_seed, CASES, EARLIER, FOLDERS, IS_LINKED, TIMES};
use second::definitions::folders;
use second::program::child::Executable;
use second::subject::{Kept, Lent, Subject, EVENT, LINE};
use second::words::{self, Command, USAGE};
use second::{definitions, earlier, limits, mutants, program, sessions, singles};
use std::io::{self, Read, Write};
use std::panic::{self, PanicHookInfo};
use std::path::Path;
use std::process::{self, ExitCode};

/// What is held against the model: the box where it is linked.
#[cfg(feature = "boxed")]
fn subject() -> &'static dyn Subject {
    &second::boxed::LINKED
}

/// Without the box the model itself, which tries the generators and the counts.
#[cfg(not(feature = "boxed"))]
fn subject() -> &'static dyn Subject {
    &MODEL
}

/// The subject, if it is another one than the model.
fn other_subject() -> Option<&'static dyn Subject> {
    IS_LINKED.then(subject)
}

fn main() -> ExitCode {
    let usual = panic::take_hook();
    panic::set_hook(Box::new(move |panic| {
        end_where_nothing_can_be_said(panic);
        usual(panic);
    }));
    let arguments = std::env::args_os().skip(1);
    // A word that is no text is not understood, or names nothing that is there.
    let arguments: Vec<String> = arguments
        .map(|word| word.to_string_lossy().into_owned())
        .collect();
    let words: Vec<&str> = arguments.iter().map(String::as_str).collect();
    match words::understood(&words).map(carry_out) {
        Ok(Ok(true)) => ExitCode::SUCCESS,
        Ok(Ok(false)) => ExitCode::FAILURE,
        Ok(Err(sentence)) => {
            eprintln!("second: {sentence}");
            ExitCode::FAILURE
        }
        Err(sentence) => {
            eprintln!("second: {sentence}\n`second --help` shows what there is");
            ExitCode::from(2)
        }
    }
}

/// `println!` panics where its line can't be written. That is no mistake in this program: whoever
/// reads may have read enough, as `head` does, and for anything else a sentence will do.
fn end_where_nothing_can_be_said(panic: &PanicHookInfo) {
    let payload = panic.payload();
    let words = payload.downcast_ref::<&str>().copied();
    let words = words.or(payload.downcast_ref::<String>().map(String::as_str));
    let words = words.unwrap_or_default();
    let Some(lost) = words.strip_prefix("failed printing to ") else {
        return;
    };
    if !lost.contains("Broken pipe") {
        // If this can't be said either, the status must do.
        let _ = writeln!(io::stderr(), "second: {lost}");
    }
    process::exit(1);
}

/// True if all went well; a sentence if it could not be done.
fn carry_out(command: Command) -> Result<bool, String> {
    match command {
        Command::Help => println!("{USAGE}"),
        Command::Compare(search) => return Ok(compare(&search)),
        Command::Case(seed) => return Ok(repeat(seed)),
        Command::Mutants(seed) => return Ok(mutants::catch_all(seed)),
        Command::Program(path, seed) => return compare_program(path, seed),
        Command::Readable(directory, seed) => return readable(directory, seed),
        Command::List(directory) => print_list(directory)?,
        Command::Steps => print!("{}", singles::told()),
        Command::Bench(library) => bench(library)?,
        Command::Earlier(library, seed) => return compare_earlier(library, seed),
        Command::Limits => {
            for (name, size) in limits::all() {
                println!("{name} {size}");
            }
        }
        Command::Sessions(directory) => write_sessions(directory)?,
        // Its status is 0 all the same, like that of the program itself.
        Command::Run => run().unwrap_or_else(|error| eprintln!("second: run: {error}")),
    }
    Ok(true)
}

fn compare(search: &Search) -> bool {
    CASES.begin();
    let is_good = driver::compare(subject(), search);
    CASES.end(&of_seed(search.seed, is_good));
    is_good
}

/// Compares the one case of a seed that was printed before.
fn repeat(seed: u64) -> bool {
    CASES.begin();
    let is_good = driver::repeat(subject(), seed);
    let words = if is_good { "no mismatch" } else { "a mismatch" };
    CASES.end(&format!("case {seed}: {words}"));
    is_good
}

/// The box is no part of this, linked or not.
fn compare_program(path: &Path, seed: u64) -> Result<bool, String> {
    let program = Executable::new(path)?;
    println!("compared: the program {} with the model", path.display());
    let is_good = program::compare(&program, seed);
    println!("{}", of_seed(seed, is_good));
    Ok(is_good)
}

fn readable(directory: &Path, seed: u64) -> Result<bool, String> {
    let folders = folders::all(directory).map_err(|error| unread(directory, &error))?;
    FOLDERS.begin();
    let is_good = definitions::catch_all(folders, seed, other_subject());
    FOLDERS.end(&of_seed(seed, is_good));
    Ok(is_good)
}

/// Another box is opened before anything else, so that a path that is wrong is told at once.
fn bench(library: Option<&Path>) -> Result<(), String> {
    let other = library.map(Boxed::open).transpose()?;
    TIMES.begin();
    if let Some(library) = library {
        println!("timed too: the other box, {}", library.display());
    }
    bench::bench(Boxes {
        linked: other_subject(),
        other: other.as_ref().map(|other| other as &dyn Subject),
    });
    TIMES.end("done");
    Ok(())
}

/// The earlier box is opened before anything else too.
fn compare_earlier(library: &Path, seed: u64) -> Result<bool, String> {
    let other = Boxed::open(library)?;
    EARLIER.begin();
    println!("the earlier box: {}", library.display());
    let search = Search {
        seed,
        ..Search::default()
    };
    let is_good = earlier::compare(subject(), &other, &search);
    EARLIER.end(&of_seed(seed, is_good));
    Ok(is_good)
}

fn print_list(directory: &Path) -> Result<(), String> {
    let folders = folders::in_full(directory).map_err(|error| unread(directory, &error))?;
    print!("{}", definitions::list::list(&folders));
    Ok(())
}

fn unread(directory: &Path, error: &io::Error) -> String {
    let directory = directory.display();
    format!("the session folders of '{directory}' can't be read: {error}")
}

fn write_sessions(directory: &Path) -> Result<(), String> {
    let count = sessions::write_all(directory).map_err(|error| {
        let directory = directory.display();
        format!("the session folders can't be written to '{directory}': {error}")
    })?;
    println!("{count} sessions");
    Ok(())
}

/// The program as the document describes it: what has come of the input is answered before more
/// of it is read.
fn run() -> io::Result<()> {
    // A file that can't be opened counts as empty, and whoever looks is told so.
    let plan = std::fs::read("plan.bin").unwrap_or_else(|error| {
        eprintln!("second: plan.bin: {error}");
        vec![]
    });
    let mut ready = MODEL.prepare(&plan);
    let mut kept = Kept::fresh();
    print(ready.open(LINE))?;
    if MODEL.read(&plan).is_some() {
        return Ok(());
    }
    let mut buffer = vec![0; 1 << 16];
    loop {
        let count = io::stdin().read(&mut buffer)?;
        if count == 0 {
            return print(ready.finish(&mut kept, LINE));
        }
        let room = count.div_ceil(EVENT) * LINE;
        print(ready.feed(&mut kept, &buffer[..count], room))?;
    }
}

fn print(lines: Lent<u8>) -> io::Result<()> {
    let bytes: Vec<u8> = lines.written().collect();
    let mut out = io::stdout().lock();
    out.write_all(&bytes)?;
    out.flush()
}
