//! The session folders: that they are what this program writes, that a person can read them, and
//! that every wrong definition shows in them.

use second::book::MODEL;
use second::definitions::folders::{self, Folder};
use second::definitions::{all, held, list, shown, singles, too_strict, Definition, Held};
use second::document::Session;
use second::singles::{due as due_of, outcome};
use second::subject::Subject;
use second::{
    accepted, forms, junctions, mutants, numbers, orders, parts, sessions, shared, trains, walks,
};
use std::collections::{BTreeMap, BTreeSet};
use std::path::{Path, PathBuf};

/// A folder of files by their names.
type Files = BTreeMap<String, Vec<u8>>;

fn tree() -> PathBuf {
    Path::new(env!("CARGO_MANIFEST_DIR")).join("../sessions")
}

/// Every folder of a directory by its name.
fn standing(directory: &Path) -> BTreeMap<String, Files> {
    let entries = |folder: &Path| {
        let entries = std::fs::read_dir(folder).expect("the folder is there");
        let paths = entries.map(|entry| entry.expect("it can be listed").path());
        paths.map(|path| {
            let name = path.file_name().expect("it has a name");
            (name.to_string_lossy().into_owned(), path)
        })
    };
    let files = |folder: PathBuf| -> Files {
        let files = entries(&folder).collect::<Vec<_>>().into_iter();
        files
            .map(|(name, file)| (name, std::fs::read(file).expect("it can be read")))
            .collect()
    };
    let folders = entries(directory).collect::<Vec<_>>().into_iter();
    folders
        .map(|(name, folder)| (name, files(folder)))
        .collect()
}

/// Every folder as it must be.
fn due() -> BTreeMap<String, Files> {
    let folders = sessions::all().into_iter().map(|session| {
        let files = sessions::files(&session).into_iter();
        let files = files.map(|(name, bytes)| (name.to_string(), bytes));
        (session.name.to_string(), files.collect())
    });
    folders.collect()
}

fn must_be_due(found: BTreeMap<String, Files>) {
    let due = due();
    let names = |folders: &BTreeMap<String, Files>| folders.keys().cloned().collect::<Vec<_>>();
    assert_eq!(names(&found), names(&due));
    for (name, files) in &due {
        let names = |files: &Files| files.keys().cloned().collect::<Vec<_>>();
        assert_eq!(names(&found[name]), names(files), "{name}");
        for (file, bytes) in files {
            assert!(found[name][file] == *bytes, "{name}/{file} is another");
        }
    }
}

#[test]
fn the_folders_of_the_tree_are_what_this_program_writes() {
    must_be_due(standing(&tree()));
}

#[test]
fn folders_are_written_as_they_are_and_nothing_else_stays_in_them() {
    let directory = std::env::temp_dir().join(format!("second-sessions-{}", std::process::id()));
    for left in ["bench/about.txt", "no-plan/plan.bin"] {
        let file = directory.join(left);
        let folder = file.parent().expect("it is in a folder");
        std::fs::create_dir_all(folder).expect("the folder can be made");
        std::fs::write(file, "left").expect("the file can be written");
    }
    let count = sessions::write_all(&directory).expect("the folders can be written");
    let found = standing(&directory);
    std::fs::remove_dir_all(&directory).expect("the folder can be removed");
    assert_eq!(found.len(), count);
    must_be_due(found);
}

/// The sessions of the tree that are told in full.
fn in_full() -> Vec<Folder> {
    folders::in_full(&tree()).expect("the sessions can be read")
}

#[test]
fn every_wrong_definition_shows_in_a_session_that_is_told_in_full() {
    let folders = in_full();
    for definition in all() {
        let shown = shown(&definition, &folders);
        assert!(shown.is_some(), "{}", definition.name);
    }
}

#[test]
fn every_rule_that_is_too_strict_shows_where_a_plan_is_accepted() {
    let is_accepted = |folder: &Folder| folder.expected.starts_with(b"accepted\n");
    let accepted: Vec<Folder> = in_full().into_iter().filter(is_accepted).collect();
    for definition in too_strict() {
        let shown = shown(&definition, &accepted);
        let line = shown.map(|shown| shown.line);
        assert_eq!(line, Some(1), "{}", definition.name);
    }
}

#[test]
fn the_lists_of_the_tree_are_what_this_program_writes() {
    assert!(list::is_standing(&in_full()));
}

#[test]
fn a_lost_or_hollow_definition_is_not_in_the_list() {
    let list = list::list(&in_full());
    let standing =
        std::fs::read_to_string(Path::new(env!("CARGO_MANIFEST_DIR")).join("definitions.txt"));
    assert_eq!(standing.expect("the list is there"), list);
    assert!(!list.contains(": nowhere"));
    for definition in all() {
        let row = format!("\n{}: ", definition.name);
        assert!(list.contains(&row), "{}", definition.name);
    }
}

#[test]
fn the_single_steps_are_what_the_model_does_and_show_what_no_session_does() {
    let steps = second::singles::all();
    for step in &steps {
        let outcome = second::singles::outcome(&MODEL, step);
        assert_eq!(outcome, second::singles::due(step), "{}", step.about);
    }
    for definition in singles::all() {
        let shown = singles::shown(&definition, &steps);
        assert!(shown.is_some(), "{}", definition.name);
    }
    let text = second::singles::told();
    assert!(text.contains(
        "1. A train appears twice.\n    state: train 1 on track 0, train 1 on track 1\n    \
         event: 1 0 0\n    answer: `refused 10`, nothing changes\n"
    ));
}

#[test]
fn the_model_itself_shows_nowhere() {
    let right = Definition {
        name: "nothing is wrong".to_string(),
        prints: Box::new(|plan, events| MODEL.whole_run(plan, events)),
    };
    assert!(shown(&right, &in_full()).is_none());
}

#[test]
fn no_two_wrong_definitions_share_a_name() {
    let all = all();
    let names: BTreeSet<&str> = all.iter().map(|one| one.name.as_str()).collect();
    assert_eq!(names.len(), all.len());
}

#[test]
fn what_no_session_shows_is_said_of_mutants_that_there_are() {
    let mutants = mutants::all();
    let by_cases = mutants
        .iter()
        .filter(|mutant| held(mutant) == Held::ByCases);
    assert_eq!(by_cases.count(), 28);
    let folders = in_full();
    for mutant in mutants
        .iter()
        .filter(|mutant| held(mutant) == Held::ByCases)
    {
        let book = mutant.book;
        let same = Definition {
            name: mutant.name.to_string(),
            prints: Box::new(move |plan, events| (book.whole)(&book, plan, events)),
        };
        assert!(shown(&same, &folders).is_none(), "{}", mutant.name);
    }
}

/// Wrong definitions that every proof would pass, and the session that was made for each.
const NAMED: [(&str, &str); 6] = [
    (
        "facing point: reverse way out, normal way out, 0",
        "both-ways-and-both-legs",
    ),
    (
        "trailing point: next, reverse leg, normal leg",
        "both-ways-and-both-legs",
    ),
    ("tracks of a path, 1 to 33, not 1 to 32", "limit-path-of-33"),
    (
        "tracks of a path beyond the limits is form 3, not 2",
        "limit-path-of-33",
    ),
    (
        "17 for \"move: train not in the plan\" and 18 for \"entry: train already in the plan\"",
        "every-refusal",
    ),
    (
        "an unused byte is refused only if it is 1",
        "unused-plain-second-made-2",
    ),
];

#[test]
fn each_named_definition_shows_in_the_session_made_for_it() {
    let (folders, all) = (in_full(), all());
    for (name, session) in NAMED {
        let definition = all.iter().find(|definition| definition.name == name);
        let definition = definition.expect("there is such a definition");
        let folder = folders.iter().find(|folder| folder.name == session);
        let folder = folder.expect("there is such a session");
        let printed = (definition.prints)(&folder.plan, &folder.events);
        assert!(printed != folder.expected, "{name}: {session}");
    }
}

/// A wrong walk shows where the walks are told one by one, not only by chance elsewhere.
#[test]
fn every_wrong_walk_shows_in_the_sessions_made_for_walks() {
    let made: Vec<&str> = walks::sessions()
        .iter()
        .map(|session| session.name)
        .collect();
    let mut folders = in_full();
    folders.retain(|folder| made.contains(&folder.name.as_str()));
    assert_eq!(folders.len(), made.len());
    let wrong: BTreeSet<&str> = mutants::wrong_walks().iter().map(|one| one.name).collect();
    assert_eq!(wrong.len(), 93);
    let mut tried = 0;
    for one in all().iter().filter(|one| wrong.contains(one.name.as_str())) {
        assert!(shown(one, &folders).is_some(), "{}", one.name);
        tried += 1;
    }
    assert_eq!(tried, wrong.len());
}

/// A wrong train shows in a line of 13, and most of them where the trains are told one by one.
#[test]
fn every_wrong_train_shows_in_a_line_of_13() {
    let made: Vec<&str> = trains::sessions().iter().map(|one| one.name).collect();
    let folders = in_full();
    let mut told = in_full();
    told.retain(|folder| made.contains(&folder.name.as_str()));
    assert_eq!(told.len(), made.len());
    let wrong: BTreeSet<&str> = mutants::wrong_trains().iter().map(|one| one.name).collect();
    assert_eq!(wrong.len(), 111);
    let mut elsewhere = vec![];
    for one in all().iter().filter(|one| wrong.contains(one.name.as_str())) {
        let shown_in = |folders| shown(one, folders).map(|shown| shown.expected);
        let expected = shown_in(&folders).expect("it shows");
        assert!(expected.starts_with("`refused 13 track "), "{}", one.name);
        if shown_in(&told).is_none() {
            elsewhere.push(one.name.clone());
        }
    }
    // No route of those sessions lists a point.
    assert_eq!(
        elsewhere,
        ["13 for a request names no train where 14 applies too"]
    );
}

/// A wrong hold shows in a session or, where no run comes to such a state, in a single step alone.
#[test]
fn every_wrong_hold_shows_in_a_session_or_a_step() {
    let (folders, steps) = (in_full(), second::singles::all());
    let mut in_steps_alone = BTreeSet::new();
    let wrong = mutants::wrong_holds();
    for one in &wrong {
        let prints_another =
            |folder: &Folder| one.book.run(&folder.plan, &folder.events) != folder.expected;
        if !folders.iter().any(prints_another) {
            let shows = steps
                .iter()
                .any(|step| outcome(&one.book, step) != due_of(step));
            assert!(shows, "{}", one.name);
            in_steps_alone.insert(one.name);
        }
    }
    assert_eq!((wrong.len(), in_steps_alone.len()), (122, 10));
    let by_cases = wrong.iter().filter(|one| held(one) == Held::ByCases);
    assert_eq!(
        by_cases.map(|one| one.name).collect::<BTreeSet<_>>(),
        in_steps_alone
    );
}

#[test]
fn no_small_session_can_be_left_out() {
    let small = [
        forms::sessions(),
        numbers::sessions(),
        junctions::sessions(),
        orders::sessions(),
        walks::sessions(),
        trains::sessions(),
        shared::sessions(),
        parts::sessions(),
        accepted::sessions(),
    ]
    .concat();
    let mut needless: BTreeSet<&str> = small.iter().map(|session| session.name).collect();
    let folders = in_full();
    for definition in all() {
        let shown = shown(&definition, &folders).filter(|shown| shown.is_alone);
        if let Some(shown) = shown {
            needless.remove(shown.folder.name.as_str());
        }
    }
    assert_eq!(needless, BTreeSet::new());
}

fn session(name: &str) -> Session {
    let all = sessions::all();
    let found = all.into_iter().find(|session| session.name == name);
    found.expect("there is such a session")
}

fn text(name: &str) -> String {
    second::told::told(&session(name))
}

#[test]
fn a_text_says_what_a_session_shows_its_plan_and_its_events() {
    let expected = "\
exit-that-is-a-home

One track, an exit, with a signal, an entry and a route. A train leaves when the signal is green,
and it goes red behind the train: the next one is held at red.

The plan (plan.bin, 18 bytes), with the offset of each row:

     0  1                   1 track
     1  3 0 0 0             track 0: exit
     5  1                   1 signal
     6  0                   signal 0: its home is track 0
     7  1                   1 route
     8  0                   route 0: starts at signal 0
     9  1 0                   path: track 0
    11  0                     clear: none
    12  0                     normal: none
    13  0                     reverse: none
    14  0                     releases: none
    15  1                   1 entry
    16  0                   entry 0: at track 0
    17  0                     clear: none

Printed: rule 4 row 0. Rule 4: A home track is plain. The lowest row that breaks it (signal) is 0;
the events run all the same.

The 7 events (events.bin), each with its bytes, what they say, the line that is printed,
and what else changes, or why nothing does:

     1  3 0 1        enter entry 0 train 1  entered 1 track 0
     2  4 1 0        move train 1           refused 19 signal 0  signal 0 is red
     3  1 0 0        request route 0        granted 0            signal 0 green for route 0
     4  4 1 0        move train 1           left 1 from 0        signal 0 red
     5  4 1 0        move train 1           refused 18           the train is not in the plan
     6  3 0 2        enter entry 0 train 2  entered 2 track 0
     7  4 2 0        move train 2           refused 19 signal 0  signal 0 is red
";
    assert_eq!(text("exit-that-is-a-home"), expected);
}

#[test]
fn a_text_says_which_byte_is_bad_and_why() {
    for (name, row, why) in [
        (
            "limit-path-of-33",
            "   261  33                    path: a count of 33  <- byte 261\n",
            "Byte 261 is a count beyond its limits: 33 tracks in a path",
        ),
        (
            "unused-plain-third-made-255",
            "     1  0 2 0 255           track 0: plain, leads to track 2  <- byte 4\n",
            "Byte 4 is unused and must be 0; it is 255.",
        ),
        (
            "slip-bytes-26-27-made-3-2",
            "    25  2 3 2                 clear: tracks 3, 2  <- byte 27\n",
            "Byte 27, 2, is not above its forerunner, 3: the list doesn't rise strictly.",
        ),
        (
            "entries-that-do-not-rise",
            "    51  0                   entry 1: at track 0  <- byte 51\n",
            "Byte 51, 0, is not above its forerunner, 0",
        ),
        (
            "no-such-signal",
            "signal 2  <- byte 21\n",
            "Byte 21 names signal 2, which doesn't exist.",
        ),
        (
            "slip-one-byte-more",
            "    54  0                   <- left over\n",
            "1 byte is left over.",
        ),
    ] {
        let text = text(name);
        assert!(text.contains(row), "{name}: {text}");
        assert!(text.contains(why), "{name}: {text}");
        assert!(text.ends_with("not answered.\n"), "{name}: {text}");
    }
}

#[test]
fn unknown_kinds_are_told_together() {
    let text = text("every-event-byte");
    for row in [
        "     2  5-255 1 0    kinds 5 to 255, all unknown            refused 11           \
         251 events, each answered so\n",
        "   253  0 0 1        kind 0, which is unknown ",
        "   527  4 3 0        move train 3 ",
    ] {
        assert!(text.contains(row), "{row}: {text}");
    }
}

#[test]
fn a_text_says_so_where_a_row_is_cut() {
    for session in sessions::all() {
        let text = text(session.name);
        let says_so = text.contains("with `..` for");
        assert_eq!(says_so, text.contains(" .. "), "{}", session.name);
    }
}

#[test]
fn a_text_says_what_it_leaves_out_and_only_then() {
    let mut in_part = Vec::new();
    for session in sessions::all() {
        let plan = session.plan.as_deref().unwrap_or(&[]);
        let is_in_full = second::told::is_told_in_full(plan, &session.events);
        let says_so = text(session.name).to_lowercase().contains("left out here");
        assert_eq!(says_so, !is_in_full, "{}", session.name);
        in_part.extend((!is_in_full).then_some(session.name));
    }
    assert_eq!(in_part.len(), 6, "{in_part:?}");
}
