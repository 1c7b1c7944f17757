//! The comparison of a program with the model: it passes programs that are right, and no others.

use second::mutants::{first_trouble, programs, with_expected};
use second::program::child::Executable;
use second::program::counts::Counts;
use second::program::sessions::{self, Manner, Session, LONG};
use second::program::trouble;
use std::path::PathBuf;
use std::time::{Duration, Instant};

const SECOND: &str = env!("CARGO_BIN_EXE_second");

/// A command of the shell as a program, in a folder of its own.
fn shell(name: &str, script: &str) -> Executable {
    let folder = std::env::temp_dir().join(format!("second-{name}-{}", std::process::id()));
    std::fs::create_dir_all(&folder).expect("the folder can be made");
    Executable {
        command: ["/bin/sh", "-c", script].map(PathBuf::from).to_vec(),
        folder,
        patience: Duration::from_millis(500),
    }
}

/// What is said of a program after this session.
fn said(name: &str, script: &str, session: &Session) -> Option<String> {
    let program = shell(name, script);
    let said = trouble(&program, session);
    std::fs::remove_dir_all(&program.folder).expect("the folder can be removed");
    said
}

fn session_of(manner: Manner) -> Session {
    let found = sessions::all(1).find(|session| session.manner == manner);
    found.expect("there is such a session")
}

#[test]
fn programs_that_are_right_pass() {
    let sessions = with_expected(sessions::all(1).take(19));
    for buffer in [1, 3072, 4096, 65_536] {
        let program = programs::right(buffer);
        assert_eq!(first_trouble(&program, &sessions), None, "buffer {buffer}");
    }
}

#[test]
fn every_wrong_program_is_caught_and_nothing_is_missed() {
    let sessions = with_expected(sessions::all(2));
    for program in programs::all() {
        let caught = first_trouble(&program, &sessions).is_some();
        assert!(caught, "{}", program.name);
    }
    let mut counts = Counts::default();
    assert!(!counts.report());
    for (session, _) in &sessions {
        counts.observe(session);
    }
    assert!(counts.report());
}

#[test]
fn the_second_program_passes_as_a_child() {
    let script = format!("exec {SECOND} run");
    let short = |number: &usize| number % 9 < 2;
    for (number, session) in sessions::all(1).enumerate() {
        if number < 30 && short(&number) || number >= LONG {
            let said = said("right", &script, &session);
            assert_eq!(said, None, "{number}: {}", session.words());
        }
    }
}

#[test]
fn a_program_that_answers_late_is_told_by_the_sessions_that_wait() {
    let script = format!("cat > all; exec {SECOND} run < all");
    let freely = said("late-freely", &script, &session_of(Manner::Freely));
    assert_eq!(freely, None);
    let answered = said("late", &script, &session_of(Manner::Answered));
    let sentence = answered.expect("it answers late");
    assert!(sentence.starts_with("it keeps still"), "{sentence}");
}

#[test]
fn a_program_that_hangs_does_not_hang_the_comparison() {
    let start = Instant::now();
    for manner in [Manner::Freely, Manner::LockStep, Manner::Answered] {
        let said = said("hanging", "exec sleep 100", &session_of(manner));
        let sentence = said.expect("it hangs");
        assert!(sentence.starts_with("it keeps still"), "{sentence}");
    }
    assert!(start.elapsed() < Duration::from_secs(50));
}

#[test]
fn a_plan_in_pieces_must_be_read_whole() {
    let copy = "mkdir -p one && dd if=plan.bin of=one/plan.bin bs=65536";
    let rest = format!("2> said && cd one && exec {SECOND} run");
    let piped = sessions::all(1).filter(|session| session.is_plan_piped);
    for session in piped {
        let whole = said("whole", &format!("{copy} {rest}"), &session);
        assert_eq!(whole, None, "{}", session.words());
        let first = said("first", &format!("{copy} count=1 {rest}"), &session);
        let sentence = first.expect("it reads the first piece alone");
        assert!(sentence.starts_with("expected line 0"), "{sentence}");
        let none = said("none", "exec sleep 100", &session);
        let sentence = none.expect("it does not read the plan");
        assert!(sentence.starts_with("it keeps still"), "{sentence}");
    }
}

#[test]
fn status_and_output_must_both_be_right() {
    let session = session_of(Manner::LockStep);
    let failing = said("failing", &format!("{SECOND} run; exit 3"), &session);
    let sentence = failing.expect("its status is not 0");
    assert!(sentence.contains("exit status: 3"), "{sentence}");
    for script in ["exit 0", "cat > /dev/null", "echo accepted"] {
        let sentence = said("silent", script, &session).expect("it prints too little");
        assert!(sentence.starts_with("expected line"), "{sentence}");
    }
}

#[test]
fn nothing_is_told_where_nothing_is_wrong() {
    let script = format!("echo all right >&2; exec {SECOND} run");
    let session = session_of(Manner::LockStep);
    let sentence = said("telling", &script, &session).expect("it tells something");
    let words = "on standard error it tells \"all right\\n\"";
    assert_eq!(sentence, format!("standard error must be empty; {words}"));
    // What else is wrong comes first.
    let failing = said("told", "echo all right >&2; exit 3", &session);
    let sentence = failing.expect("its status is not 0");
    assert!(sentence.contains("exit status: 3"), "{sentence}");
    assert!(sentence.ends_with(words), "{sentence}");
}

#[test]
fn a_plan_that_is_not_there_is_told_in_one_line() {
    let without = sessions::all(1).filter(|session| session.story.plan.is_none());
    let without: Vec<Session> = without.collect();
    assert_eq!(without.len(), 2);
    for session in &without {
        let told = |script: &str| said("no-plan", script, session);
        assert_eq!(told(&format!("exec {SECOND} run")), None);
        for before in ["", "echo no plan >&2; ", "echo plan.bin >&2; echo >&2; "] {
            let said = told(&format!("{before}exec {SECOND} run 2> /dev/null"));
            let sentence = said.expect("it must tell of plan.bin alone");
            let due = "standard error must have one line that names plan.bin";
            assert!(sentence.starts_with(due), "{before}: {sentence}");
        }
    }
}

#[test]
fn a_program_that_ends_late_does_not_hang_the_comparison() {
    let start = Instant::now();
    // What is left of it keeps standard error open, which nobody waits for.
    let script = format!("{SECOND} run; exec >&-; sleep 20");
    let session = session_of(Manner::Freely);
    let sentence = said("lingering", &script, &session).expect("it does not end");
    assert_eq!(sentence, "it has closed its output and does not end");
    assert!(start.elapsed() < Duration::from_secs(15));
}
