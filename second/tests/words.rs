//! The words of the command line, and what the program says of itself: whoever mistypes, forgets
//! something or has not linked the box is told so.

use second::compared::{of_seed, CASES, FOLDERS, TIMES};
use second::program::child::Executable;
use std::fs::{remove_dir, remove_file, File};
use std::io::{BufRead, BufReader};
use std::os::fd::OwnedFd;
use std::os::unix::net::UnixStream;
use std::path::Path;
use std::process::{Command, Output, Stdio};

const SECOND: &str = env!("CARGO_BIN_EXE_second");

fn second(words: &[&str]) -> Command {
    let mut command = Command::new(SECOND);
    command.args(words).stdin(Stdio::null());
    command
}

fn output(words: &[&str]) -> Output {
    second(words).output().expect("the program starts")
}

fn text(bytes: &[u8]) -> String {
    String::from_utf8_lossy(bytes).into_owned()
}

/// It must end with this status, print nothing and tell this on standard error in one of its lines.
fn refuses(words: &[&str], status: i32, sentence: &str) {
    let output = output(words);
    let told = text(&output.stderr);
    assert_eq!(output.status.code(), Some(status), "{words:?}: {told}");
    assert_eq!(text(&output.stdout), "", "{words:?}");
    let line = format!("second: {sentence}");
    let is_told = told.lines().any(|told| told.starts_with(&line));
    assert!(is_told, "{words:?}: {told}");
}

/// The program in a build like that of these tests says so at its two ends, or does not.
fn says_whether_linked(line: &str, due: &str) {
    let boxed = cfg!(feature = "boxed");
    assert!(line.starts_with(due), "{line}");
    for words in [
        "the box is not linked",
        "`./library`",
        "`cargo build --release --offline --features boxed`",
    ] {
        assert_eq!(line.contains(words), !boxed, "{line}");
    }
}

#[test]
fn help_is_printed_where_it_is_asked_for() {
    let ways: [&[&str]; 4] = [&["--help"], &["-h"], &["help"], &["--program", "--help"]];
    for words in ways {
        let output = output(words);
        assert_eq!(output.status.code(), Some(0), "{words:?}");
        assert_eq!(text(&output.stderr), "", "{words:?}");
        assert!(text(&output.stdout).starts_with("usage: second"));
    }
}

#[test]
fn the_usage_and_the_readme_have_the_same_commands() {
    let usage = text(&output(&["--help"]).stdout);
    let in_usage = usage.lines().filter_map(|line| {
        let (_, words) = line.split_once("second ")?;
        words.split_whitespace().next()
    });
    // The first line has the options, each of which has a line of its own in the table.
    let mut in_usage: Vec<&str> = in_usage.skip(1).collect();
    in_usage.extend(["--long", "--seed", "--trace"]);
    let readme = include_str!("../README.md");
    let in_readme = readme.lines().filter_map(|line| {
        let (words, _) = line.strip_prefix("| `second ")?.split_once('`')?;
        words.split_whitespace().next()
    });
    let mut in_readme: Vec<&str> = in_readme.collect();
    in_usage.sort();
    in_readme.sort();
    assert_eq!(in_usage, in_readme);
}

#[test]
fn a_word_that_makes_no_sense_is_named() {
    refuses(&["--sed"], 2, "what is '--sed'?");
    refuses(&["--seed", "1", "now"], 2, "what is 'now' after '1'?");
    refuses(&["--bench", "x", "y"], 2, "what is 'y' after 'x'?");
    refuses(
        &["--bench", "--long"],
        2,
        "what is '--long' after '--bench'?",
    );
    // As an unset variable of the shell has it.
    refuses(&["--bench", ""], 2, "what is '' after '--bench'?");
    let long = "what is '--long' after '--mutants'?";
    refuses(&["--mutants", "--long"], 2, long);
    refuses(&["--list", "a", "b"], 2, "what is 'b' after 'a'?");
    let told = text(&output(&["--sed"]).stderr);
    assert!(told.contains("second --help"), "{told}");
}

#[test]
fn a_word_that_is_missing_is_named() {
    refuses(&["--seed"], 2, "--seed needs a number");
    refuses(&["--mutants", "--seed"], 2, "--seed needs a number");
    refuses(&["--case"], 2, "--case needs a number");
    refuses(&["--program"], 2, "--program needs PATH");
    refuses(&["--program", "--seed", "1"], 2, "--program needs PATH");
    refuses(&["--earlier"], 2, "--earlier needs LIBRARY");
    refuses(&["--earlier", "--seed", "1"], 2, "--earlier needs LIBRARY");
    refuses(&["--readable"], 2, "--readable needs DIR");
    refuses(&["--list"], 2, "--list needs DIR");
    refuses(&["sessions"], 2, "sessions needs DIR");
    // As an unset variable of the shell has it.
    refuses(&["sessions", ""], 2, "sessions needs DIR");
}

#[test]
fn a_number_that_is_none_is_named() {
    for words in [["--case", "x"], ["--seed", "-1"], ["--seed", "1.5"]] {
        let output = output(&words);
        let told = text(&output.stderr);
        assert_eq!(output.status.code(), Some(2), "{told}");
        let [option, number] = words;
        assert!(told.contains(&format!("'{number}' is none")), "{told}");
        assert!(told.starts_with(&format!("second: {option} ")), "{told}");
    }
}

#[test]
fn a_case_says_at_both_ends_what_was_compared() {
    let output = output(&["--case", "5"]);
    let printed = text(&output.stdout);
    assert_eq!(output.status.code(), Some(0), "{printed}");
    let lines: Vec<&str> = printed.lines().collect();
    assert_eq!(lines.len(), 2, "{printed}");
    says_whether_linked(lines[0], "compared: the ");
    says_whether_linked(lines[1], "case 5: no mismatch");
}

/// These take long; their first line comes at once.
#[test]
fn what_is_compared_is_said_before_anything_else() {
    let sessions = concat!(env!("CARGO_MANIFEST_DIR"), "/../sessions");
    let ways: [(&[&str], &str); 3] = [
        (&[], "compared: the "),
        (&["--readable", sessions], "compared: the model "),
        (&["--bench"], "timed: the model "),
    ];
    for (words, due) in ways {
        let mut child = second(words)
            .stdout(Stdio::piped())
            .spawn()
            .expect("the program starts");
        let mut line = String::new();
        let stdout = child.stdout.take().expect("it has an output");
        let read = BufReader::new(stdout).read_line(&mut line);
        child.kill().expect("it can be stopped");
        child.wait().expect("it ends");
        read.expect("its first line can be read");
        says_whether_linked(&line, due);
    }
}

#[test]
fn the_last_line_is_the_verdict_alone_where_the_box_is_linked_and_nowhere_else() {
    assert_eq!(of_seed(1, true), "seed 1: good");
    assert_eq!(of_seed(7, false), "seed 7: NOT good");
    let alones = [
        (CASES, "the model with itself"),
        (FOLDERS, "the model alone"),
        (TIMES, "the model alone"),
    ];
    for (compared, alone) in alones {
        let verdict = "seed 1: good";
        assert_eq!(compared.last_line(true, verdict), verdict);
        assert!(compared.first_line(true).contains("the box"));
        for line in [
            compared.first_line(false),
            compared.last_line(false, verdict),
        ] {
            assert!(line.contains(alone), "{line}");
            assert!(line.contains("the box is not linked"), "{line}");
        }
    }
}

#[test]
fn a_program_that_cannot_be_run_is_met_with_a_sentence() {
    let cases = [
        ("/nowhere", "No such file or directory"),
        ("Cargo.toml", "it is not executable"),
        ("src", "it is no file"),
    ];
    for (path, why) in cases {
        let sentence = format!("'{path}' can't be run: {why}");
        refuses(&["--program", path], 1, &sentence);
    }
    let program = Executable::new(Path::new(SECOND)).expect("it can be run");
    remove_dir(&program.folder).expect("its folder is there and empty");
}

#[test]
fn a_library_that_is_no_box_is_met_with_a_sentence() {
    let unopened = |path| format!("the library '{path}' can't be opened: ");
    let missing = unopened("/nowhere.so") + "No such file or directory";
    refuses(&["--bench", "/nowhere.so"], 1, &missing);
    refuses(&["--earlier", "/nowhere.so"], 1, &missing);
    refuses(&["--bench", "Cargo.toml"], 1, &unopened("Cargo.toml"));
    let folder = unopened("src") + "it is no file";
    refuses(&["--bench", "src"], 1, &folder);
    // Some library that there is, on Linux: one that this test itself has open.
    let maps = std::fs::read_to_string("/proc/self/maps").unwrap_or_default();
    let mut paths = maps
        .lines()
        .filter_map(|line| line.split_whitespace().nth(5));
    let library = paths.find(|path| path.starts_with('/') && path.contains("/libc.so"));
    if let Some(library) = library {
        let lacking = format!("the library '{library}' has no function signalbox_fresh");
        refuses(&["--bench", library], 1, &lacking);
    }
}

#[test]
fn a_library_for_another_processor_is_met_with_a_sentence() {
    let mut head = std::fs::read(SECOND).expect("the program can be read");
    head.truncate(64);
    // Where such a file says for which processor it is.
    head[18] ^= 1;
    let library = std::env::temp_dir().join(format!("second-{}.so", std::process::id()));
    std::fs::write(&library, head).expect("a file can be written");
    let path = library.to_str().expect("it is a plain name");
    let sentence = format!("the library '{path}' can't be opened: it is for another processor");
    refuses(&["--bench", path], 1, &sentence);
    remove_file(&library).expect("it was written");
}

#[test]
fn a_directory_that_cannot_be_read_or_written_is_met_with_a_sentence() {
    let unread = |directory| format!("the session folders of '{directory}' can't be read: ");
    for command in ["--readable", "--list"] {
        let missing = unread("/nowhere") + "No such file or directory";
        refuses(&[command, "/nowhere"], 1, &missing);
        let other = unread("src") + "there is no src/";
        refuses(&[command, "src"], 1, &other);
        let empty = unread("src/told") + "there are none";
        refuses(&[command, "src/told"], 1, &empty);
    }
    // Nobody can write there, whoever runs these tests.
    let below = "/dev/null/sessions";
    let unwritten = format!("the session folders can't be written to '{below}': ");
    refuses(&["sessions", below], 1, &unwritten);
}

#[test]
fn an_output_that_nobody_reads_is_no_panic() {
    for words in [["--limits"].as_slice(), &["--steps"], &["--case", "5"]] {
        let (reader, writer) = UnixStream::pair().expect("a pair can be made");
        drop(reader);
        let output = second(words).stdout(OwnedFd::from(writer)).output();
        let output = output.expect("the program starts");
        assert_eq!(text(&output.stderr), "", "{words:?}");
        assert_eq!(output.status.code(), Some(1), "{words:?}");
    }
}

/// On an output that is always full, where there is such a file, it must tell this in one line and
/// end with this status.
fn tells_that_all_is_full(mut command: Command, status: i32, sentence: &str) {
    let Ok(full) = File::options().write(true).open("/dev/full") else {
        return;
    };
    let output = command.stdout(full).output().expect("the program starts");
    let told = text(&output.stderr);
    assert!(told.starts_with(sentence), "{told}");
    assert_eq!(told.lines().count(), 1, "{told}");
    assert_eq!(output.status.code(), Some(status));
}

#[test]
fn an_output_that_is_full_is_met_with_a_sentence() {
    let limits = second(&["--limits"]);
    tells_that_all_is_full(limits, 1, "second: stdout: No space left");
}

#[test]
fn a_run_ends_with_status_0_whatever_it_must_tell() {
    let bench = concat!(env!("CARGO_MANIFEST_DIR"), "/../sessions/bench");
    let mut run = second(&["run"]);
    run.current_dir(bench);
    tells_that_all_is_full(run, 0, "second: run: No space left");
    // There is no plan.bin here.
    let output = output(&["run"]);
    assert_eq!(text(&output.stdout), "form 1 at 0\n");
    assert!(text(&output.stderr).starts_with("second: plan.bin: "));
    assert_eq!(output.status.code(), Some(0));
}
