//! The comparison finds nothing where there is nothing, and something where there is something.

use second::book::{Book, MODEL};
use second::compare::counts::Counts;
use second::compare::driver::hunt;
use second::compare::dropped::{Dropped, Due};
use second::compare::files;
use second::compare::history::{check, check_agreement, play};
use second::compare::minima::report;
use second::compare::shrink::shrink;
use second::compare::trouble::{trouble, Work};
use second::generate::case::case;
use second::generate::images::Writing;
use second::model::answer::{Answer, Refusal};
use second::model::image::{Image, CLEAR_AT, IMAGE_SIZE, PATH_AT, ROUTES_AT};
use second::model::reading::{read, Form};
use second::model::state::Arrays;
use second::model::step::step;
use second::mutants;
use second::subject::{Fenced, Kept, Memory, Prepared, Reason, Subject, EVENT};
use std::cell::Cell;

const SLIPS: [&str; 3] = [
    "a point is released when the train arrives on it",
    "points are turned before all tests are passed",
    "a signal stays green behind a train",
];

fn mutant(name: &str) -> Book {
    let found = mutants::all()
        .into_iter()
        .find(|mutant| mutant.name == name);
    found.expect("there is such a mutant").book
}

/// The checks from outside alone, without any look at the model's answers.
fn outside(book: &Book, seed: u64) -> Result<(), String> {
    let case = case(seed);
    let mut ready = book.prepare(&case.plan);
    let verdict = ready.check();
    let story = play(ready.as_mut(), &case.events);
    let lines = book.run(&case.plan, &case.events);
    let plan = read(&case.plan).ok();
    check(plan.as_ref(), &case.events, verdict, &lines, &story)
}

#[test]
fn the_model_agrees_with_itself() {
    assert!(hunt(&MODEL, 3, 300).is_none());
}

#[test]
fn the_three_slips_are_caught_from_outside_alone() {
    assert_eq!((0..300).find_map(|seed| outside(&MODEL, seed).err()), None);
    for name in SLIPS {
        let book = mutant(name);
        let caught = (0..300).any(|seed| outside(&book, seed).is_err());
        assert!(caught, "{name}");
    }
}

/// Wrong 14s and holds that show from outside, and what is found then.
const HOLDS: [(&str, &str); 9] = [
    ("14 by routes of lower numbers", LIE),
    ("14 by routes from the same signal", LIE),
    ("14 where one route holds the point, not several", LIE),
    ("a grant leaves its own hold alone", HISTORY),
    ("a grant takes no hold of a point that is held", HISTORY),
    (
        "an arrival drops all holds where the route has one",
        HISTORY,
    ),
    ("an arrival drops a hold where it is the only one", HISTORY),
    ("a cancel drops other routes' holds", HISTORY),
    ("a cancel drops no hold that is shared", HISTORY),
];
const LIE: &str = "a holder of a point does not list it in its lie";
const HISTORY: &str = "the holds are not those of history";

#[test]
fn shared_holds_are_looked_at_from_outside_alone() {
    for (name, words) in HOLDS {
        let book = mutant(name);
        let mut found = (0..2_000).filter_map(|seed| outside(&book, seed).err());
        let caught = found.any(|found| found.contains(words));
        assert!(caught, "{name}");
    }
}

/// A 14 that looks at what two agreeing states need not have in common: the holders' signals.
#[test]
fn a_14_that_looks_elsewhere_tells_agreeing_states_apart() {
    let told_apart = |book: &Book| {
        (0..5_000).any(|seed| {
            let case = case(seed);
            let mut ready = book.prepare(&case.plan);
            let mut pairs = case.pairs.iter();
            pairs.any(|pair| check_agreement(ready.as_mut(), pair).is_err())
        })
    };
    assert!(!told_apart(&MODEL));
    for name in [
        "14 by routes whose signal is green",
        "14 by routes whose signal is no more green",
    ] {
        assert!(told_apart(&mutant(name)), "{name}");
    }
}

/// Wrong writers and loaders that show when a plan is loaded and written again.
const LOADED_AND_WRITTEN: [&str; 10] = [
    "write says 7 for everything",
    "write says 7 for a plan that breaks a rule",
    "write says 6 for a buffer as long as the file",
    "write does nothing and says that it is done",
    "write says one byte too many",
    "write begins the signals one byte early",
    "load leaves what stood past the counts",
    "load leaves the last byte of the image",
    "load counts one too few in the last list of a route",
    "load sets the top bit of every byte where there is no plan",
];

/// Those that show when the one file that an image can be is loaded.
const WRITTEN_AND_LOADED: [&str; 11] = [
    "write says 7 for everything",
    "write says 6 before 7",
    "write says 6 in place of 7",
    "write says 6 for a buffer as long as the file",
    "write says 7 and empties the buffer",
    "write begins the signals one byte early",
    "write takes any byte past a count",
    "write takes a clear list that does not rise",
    "write does not look at the last byte of the image",
    "load leaves what stood past the counts",
    "load refuses a plan that breaks a rule",
];

/// The images that are written in a case.
fn images(seed: u64) -> Vec<(Image, Writing)> {
    let case = case(seed);
    let mut own = Fenced::of(&[0; IMAGE_SIZE]);
    // Without a plan it stays empty.
    let _ = MODEL.load(&case.plan, &mut own);
    let image = |writing: Writing| {
        let mut image = [0; IMAGE_SIZE];
        writing.show(&own.image, &mut image);
        (image, writing)
    };
    case.writings.into_iter().map(image).collect()
}

/// A plan loaded and written again, without any look at the model.
fn loads_well(book: &Book, seed: u64) -> bool {
    let case = case(seed);
    files::outside_load(book, &case.plan, case.fill).is_ok()
}

/// Images and what their counts ask for, without any look at the model.
fn writes_well(book: &Book, seed: u64) -> bool {
    let is_well = |(image, writing): &(Image, Writing)| {
        files::outside_write(book, image, writing.fill).is_ok()
    };
    images(seed).iter().all(is_well)
}

/// What is looked at, and the names of mutants that must show there.
type Check = (fn(&Book, u64) -> bool, &'static [&'static str]);

#[test]
fn wrong_loaders_and_writers_are_caught_from_outside_alone() {
    let checks: [Check; 2] = [
        (loads_well, &LOADED_AND_WRITTEN),
        (writes_well, &WRITTEN_AND_LOADED),
    ];
    for (is_well, names) in checks {
        assert_eq!((0..300).find(|&seed| !is_well(&MODEL, seed)), None);
        for name in names {
            let book = mutant(name);
            assert!((0..300).any(|seed| !is_well(&book, seed)), "{name}");
        }
    }
}

/// The comparison of a load looks at no write of the model, and that of writes at no load: a wrong one
/// shows there from outside alone.
#[test]
fn loads_and_writes_are_compared_from_outside_too() {
    let load = |book: &Book, seed: u64| {
        let case = case(seed);
        files::load(book, &case.plan, case.fill).is_ok()
    };
    let write = |book: &Book, seed: u64| {
        let mut images = images(seed).into_iter();
        images.all(|(image, writing)| files::write(book, &image, &writing).is_ok())
    };
    assert!((0..100).all(|seed| load(&MODEL, seed) && write(&MODEL, seed)));
    for name in [
        "write says 7 for everything",
        "write begins the signals one byte early",
    ] {
        let book = mutant(name);
        assert!((0..100).any(|seed| !load(&book, seed)), "{name}");
    }
    for name in [
        "load leaves what stood past the counts",
        "load refuses a plan that breaks a rule",
    ] {
        let book = mutant(name);
        assert!((0..300).any(|seed| !write(&book, seed)), "{name}");
    }
}

/// The lines of a whole run and the codes of its events, with the train dropped, against document 01,
/// without any look at what the model prints.
fn is_as_before(book: &Book, seed: u64) -> bool {
    let case = case(seed);
    let mut dropped = Dropped::new(&case.plan);
    if dropped.plan().is_none() {
        return true;
    }
    let events = &case.events;
    let codes = &dropped.codes(&Arrays::fresh(), events);
    let due = Due { events, codes };
    let verdict = MODEL.prepare(&case.plan).check();
    let printed = book.run(&case.plan, events);
    let lines = dropped.opening(verdict, &printed);
    let room = events.len().div_ceil(EVENT);
    let mut ready = book.prepare(&case.plan);
    let answers = ready.run(&mut Kept::fresh(), events, room);
    let mut are_due = |lines: &[u8]| dropped.lines(due, lines).is_ok();
    lines.is_ok_and(&mut are_due) && dropped.answers(due, answers.cells.iter().flatten()).is_ok()
}

/// Boxes of which something else than the train of 13 is not as document 01 has it.
const NOT_AS_BEFORE: [&str; 14] = [
    "a run prints no train in 13",
    "a run prints the train of 13 before the track",
    "a run prints the train of 13 with three digits",
    "a run prints the track of 13 as a point",
    "a run prints a train in 12",
    "a run prints a train in 16",
    "a run prints a train in 40",
    "a run prints the train of an entry once more",
    "a run prints another word in a move",
    "a run prints a train where a rule is broken",
    "run puts a train into the code of 16",
    "run says 16 for 13",
    "13 names the highest track",
    "13 for an entry walks the entry track alone",
];

/// Boxes of which nothing else is.
const AS_BEFORE: [&str; 4] = [
    "13 for a request names train 1",
    "13 for an entry names the train that enters",
    "a run prints the train that it named before in 13",
    "run drops the train of 13",
];

#[test]
fn with_the_train_dropped_all_is_as_before() {
    assert_eq!((0..300).find(|&seed| !is_as_before(&MODEL, seed)), None);
    for name in NOT_AS_BEFORE {
        let book = mutant(name);
        assert!((0..300).any(|seed| !is_as_before(&book, seed)), "{name}");
    }
    for name in AS_BEFORE {
        let book = mutant(name);
        assert!((0..300).all(|seed| is_as_before(&book, seed)), "{name}");
    }
}

/// A wrong train shows in 13 and nowhere else.
#[test]
fn a_wrong_train_is_caught_where_13_is_said() {
    for mutant in mutants::wrong_trains() {
        let mut found = (1..=9).map(|seed| {
            let (_, mismatch) = hunt(&mutant.book, seed, 3000).expect("it is caught");
            mismatch.trouble.found
        });
        // A single byte of a line does not say which line it is of.
        let found = found.find(|found| !found.starts_with("cell "));
        let found = found.expect("a line or a code is another");
        assert!(found.contains("refused 13"), "{}: {found}", mutant.name);
    }
}

thread_local! {
    static NAMED_BEFORE: Cell<u8> = const { Cell::new(1) };
}

#[test]
fn a_box_that_remembers_the_train_it_named_before_is_caught() {
    let mut book = MODEL;
    book.step = |plan, state, event| match step(plan, state, event) {
        Answer::Refused(Refusal::TrainInTheWay { track, train }) => {
            Answer::in_the_way((track, NAMED_BEFORE.replace(train)))
        }
        answer => answer,
    };
    assert!(hunt(&book, 1, 300).is_some());
}

#[test]
fn every_mutant_is_caught_within_a_few_thousand_cases() {
    for mutant in mutants::all() {
        assert!(hunt(&mutant.book, 1, 3000).is_some(), "{}", mutant.name);
    }
}

#[test]
fn no_two_mutants_share_a_name() {
    let mut names: Vec<&str> = mutants::all().iter().map(|mutant| mutant.name).collect();
    let count = names.len();
    names.sort_unstable();
    names.dedup();
    assert_eq!(names.len(), count);
}

#[test]
fn a_request_that_looks_too_far_is_caught_by_agreement() {
    let mut far_sighted = MODEL;
    // Refuses if a train is anywhere at all.
    far_sighted.step = |plan, state, event| match state.trains.iter().position(Option::is_some) {
        Some(track) if event[0] == 1 => {
            Answer::in_the_way((track, state.trains[track].unwrap_or(0)))
        }
        _ => second::model::step::step(plan, state, event),
    };
    let disagrees = |book: &Book, seed: u64| {
        let case = case(seed);
        let mut ready = book.prepare(&case.plan);
        case.pairs
            .iter()
            .any(|pair| check_agreement(ready.as_mut(), pair).is_err())
    };
    assert!((0..300).any(|seed| disagrees(&far_sighted, seed)));
    assert!(!(0..300).any(|seed| disagrees(&MODEL, seed)));
}

#[test]
fn a_mismatch_is_made_small_and_stays_one() {
    for name in SLIPS {
        let book = mutant(name);
        let (_, mismatch) = hunt(&book, 1, 300).expect("a slip is caught");
        let (plan, work) = shrink(&book, &mismatch.plan, &mismatch.work);
        assert!(trouble(&book, &plan, &work).is_some(), "{name}");
        assert!(trouble(&MODEL, &plan, &work).is_none(), "{name}");
        assert!(plan.len() <= 60, "{name}: {} bytes", plan.len());
    }
}

#[test]
fn a_list_of_events_is_made_small_too() {
    let Work::List(list) = made_small("run counts no room for an incomplete event") else {
        panic!("only a list of events shows it");
    };
    assert_eq!(list.room, 0);
    assert!(list.events.len() < EVENT);
}

#[test]
fn an_input_in_pieces_is_made_small_too() {
    let Work::Pieces(session) = made_small("feed loses the bytes of an event begun before") else {
        panic!("only an input in pieces shows it");
    };
    let lengths = session.pieces.iter().map(|piece| piece.bytes.len());
    assert!(lengths.sum::<usize>() <= EVENT);
    let Work::Fresh(memory) = made_small("fresh leaves the holds") else {
        panic!("only the start of a session shows it");
    };
    assert_eq!(memory.state.trains, Arrays::fresh().trains);
}

#[test]
fn an_image_is_made_small_too() {
    let Work::Write(writing) = made_small("write takes any byte past a path") else {
        panic!("only an image shows it");
    };
    assert_eq!((writing.changes.len(), writing.rooms.len()), (1, 1));
    // Nothing before the path of the first route is left.
    let [(at, _)] = writing.changes[..] else {
        panic!("it is one byte");
    };
    let path = ROUTES_AT + 1 + PATH_AT..ROUTES_AT + 1 + CLEAR_AT;
    assert!(path.contains(&at), "byte {at}");
    let book = mutant("write says 6 for a buffer above 100,000 bytes");
    let (_, mismatch) = hunt(&book, 1, 3000).expect("it is caught");
    let (plan, work) = shrink(&book, &mismatch.plan, &mismatch.work);
    let Work::Write(writing) = work else {
        panic!("only a very long buffer shows it");
    };
    assert_eq!((plan.len(), writing.rooms), (8, vec![100_001]));
    let Work::Load(_) = made_small("load leaves what stood past the signals") else {
        panic!("only a load shows it");
    };
}

/// The model, but writing alters the image that it is lent.
struct Scribbler;

impl Subject for Scribbler {
    fn read(&self, plan: &[u8]) -> Option<Form> {
        MODEL.read(plan)
    }

    fn prepare<'a>(&'a self, plan: &'a [u8]) -> Box<dyn Prepared + 'a> {
        MODEL.prepare(plan)
    }

    fn fresh(&self, memory: &mut Kept) {
        MODEL.fresh(memory);
    }

    fn run(&self, plan: &[u8], events: &[u8]) -> Vec<u8> {
        MODEL.run(plan, events)
    }

    fn load(&self, plan: &[u8], lent: &mut Fenced) -> Result<(), Reason> {
        MODEL.load(plan, lent)
    }

    fn write(&self, lent: &mut Fenced, memory: &mut Memory) -> Result<usize, Reason> {
        let said = MODEL.write(lent, memory);
        lent.image[IMAGE_SIZE - 1] ^= 1;
        said
    }
}

#[test]
fn an_image_that_is_altered_is_noticed() {
    let (_, mismatch) = hunt(&Scribbler, 1, 10).expect("it is caught");
    assert!(mismatch.trouble.found.contains("byte 10851 of the image"));
}

/// The work on which a mutant still goes wrong when it has been made small.
fn made_small(name: &str) -> Work {
    let book = mutant(name);
    let (_, mismatch) = hunt(&book, 1, 300).expect("it is caught");
    let (plan, work) = shrink(&book, &mismatch.plan, &mismatch.work);
    assert!(trouble(&book, &plan, &work).is_some(), "{name}");
    assert!(trouble(&MODEL, &plan, &work).is_none(), "{name}");
    work
}

#[test]
fn too_few_cases_are_noticed() {
    let mut counts = Counts::default();
    let few = report(&counts).len();
    assert!(few > 150, "only {few} kinds are asked for");
    for seed in 0..100 {
        counts.observe(&case(seed));
    }
    assert!(report(&counts).len() < few);
    assert!(!report(&counts).is_empty());
}

#[test]
fn the_rarest_length_and_the_rarest_number_must_be_reached_too() {
    let too_rare = |counts: &Counts| {
        let too_few = report(counts).into_iter();
        let names = too_few.filter(|name| name.contains("the rarest"));
        names.collect::<Vec<String>>()
    };
    let mut counts = Counts::default();
    for members in &mut counts.spread {
        members.fill(100);
    }
    assert!(too_rare(&counts).is_empty());
    let ends = [(1, 64), (1, 64), (1, 16), (1, 16), (1, 16), (1, 16)];
    let ends = ends.into_iter().chain([(0, 47), (0, 15), (0, 47), (0, 47)]);
    let ends = ends.chain([(2, 16), (2, 16), (0, 47), (0, 47), (0, 47), (0, 47)]);
    let ends = ends
        .chain([(1, 48); 5])
        .chain([(1, 32); 3])
        .chain([(1, 64)]);
    let ends = ends.chain([(1, 255), (1, 255), (0, 63), (0, 63)]);
    assert_eq!(ends.clone().count(), counts.spread.len());
    for (family, (first, last)) in ends.enumerate() {
        for member in [first, last] {
            // Of holds that fall at a cancel 25 are enough.
            counts.spread[family][member] = if family == 24 { 24 } else { 99 };
            let names = too_rare(&counts);
            assert_eq!(names.len(), 1, "{names:?}");
            assert!(names[0].contains(&format!(" {member}")), "{names:?}");
            counts.spread[family][member] = 100;
        }
    }
}
