//! `second --earlier`: a box beside an earlier one, here the model with the 14 of document 01.

use second::book::{Book, MODEL};
use second::compare::driver::{Extent, Search};
use second::compare::dropped;
use second::earlier::{compare, compare_case, may_part, Seen, BEFORE};
use second::generate::case::case;
use second::model::answer::{Answer, Refusal};
use second::model::reading::read;
use second::model::state::State;
use second::mutants;

fn search(plans: u64) -> Search {
    Search {
        extent: Extent { plans, events: 0 },
        ..Search::default()
    }
}

#[test]
fn the_model_is_the_earlier_one_but_for_14() {
    assert!(compare(&MODEL, &BEFORE, &search(3_000)));
}

#[test]
fn the_earlier_one_refuses_where_a_point_is_held_at_all() {
    let plan = read(&second::document::BENCH_PLAN).expect("the bench plan can be read");
    let mut state = State::fresh(&plan);
    state.holds[2].insert(1);
    let held = Answer::Refused(Refusal::PointHeld { point: 2 });
    let granted = Answer::Granted { route: 0 };
    let event = [1, 0, 0];
    assert_eq!((BEFORE.step)(&plan, &mut state.clone(), &event), held);
    assert_eq!((MODEL.step)(&plan, &mut state, &event), granted);
}

#[test]
fn too_few_of_what_may_be_another_are_noticed() {
    assert!(!compare(&MODEL, &BEFORE, &search(1)));
    // These never part.
    assert!(!compare(&BEFORE, &BEFORE, &search(300)));
    assert!(!compare(&MODEL, &MODEL, &search(300)));
}

#[test]
fn lines_part_at_14_alone() {
    let held = "refused 14 point 7";
    for now in ["refused 14 point 8", "granted 0", "accident 42 point 3"] {
        assert!(may_part(held, now), "{now}");
        assert!(!may_part("refused 13 track 7 train 1", now), "{now}");
    }
    for now in [
        "refused 14 point 6",
        "refused 14 point",
        "refused 13 track 8 train 1",
        "refused 12",
        "accident 40 track 8",
        "cancelled 0",
    ] {
        assert!(!may_part(held, now), "{now}");
    }
    assert!(!may_part("granted 0", held));
}

#[test]
fn the_train_is_dropped_from_13_and_from_nothing_else() {
    let now = b"accepted\nrefused 13 track 2 train 1\nentered 1 track 0\nleft 1 from 3 train 1\n";
    let before = b"accepted\nrefused 13 track 2\nentered 1 track 0\nleft 1 from 3 train 1\n";
    assert_eq!(dropped::without_trains(now), before);
    for line in [
        "refused 13 track 2",
        "refused 13 track 2 train",
        "refused 13 track 2 train 0",
        "refused 13 track 2 train 01",
        "refused 13 track 2 train 256",
        "refused 13 track 2 train +1",
        "refused 13 track 2 train 1 ",
    ] {
        assert_eq!(dropped::without_train(line.as_bytes()), None, "{line}");
    }
}

fn differs(now: &Book, earlier: &Book) -> bool {
    let mut seen = Seen::default();
    (0..1_000).any(|seed| compare_case(now, earlier, &case(seed), &mut seen).is_err())
}

#[test]
fn a_box_that_refuses_more_than_the_earlier_one_is_noticed() {
    assert!(!differs(&MODEL, &BEFORE));
    assert!(differs(&BEFORE, &MODEL));
}

/// 14 too, and holds: what the earlier box turns without them says of which points it is.
#[test]
fn every_wrong_14_and_every_wrong_hold_is_noticed() {
    for mutant in mutants::wrong_holds() {
        assert!(differs(&mutant.book, &BEFORE), "{}", mutant.name);
    }
}

/// Everything else is compared: a box with something else wrong is another one.
#[test]
fn whatever_else_is_another_is_noticed() {
    for name in [
        "a run prints a train in 16",
        "feed prints a train in 16",
        "feed prints another word in a move",
        "feed prints no train in 13",
        "run puts a train into the code of 16",
        "run drops the train of 13",
        "open prints a train where a rule is broken",
        "13 for an entry names train 0",
        "13 for a request names train 1",
        "13 for a request: clear tracks are walked to the last hit",
        "14 for a point that would turn, held or not",
        "14 names the lowest listed point",
        "14 names the lowest of all points",
        "a cancel keeps the holds",
        "a grant leaves its own hold alone",
        "an arrival drops the lowest holder",
        "feed writes past what it hands back",
        "fresh leaves the holds",
        "load leaves the last byte of the image",
        "write says 7 for everything",
    ] {
        let mutants = mutants::all();
        let mutant = mutants.iter().find(|mutant| mutant.name == name);
        let mutant = mutant.expect("there is such a mutant");
        assert!(differs(&mutant.book, &BEFORE), "{name}");
    }
}
