//! Well-formed states and others.

use second::document::BENCH_PLAN;
use second::model::plan::{Lie, Plan};
use second::model::reading::read;
use second::model::state::{Arrays, State};

fn bench() -> Plan {
    read(&BENCH_PLAN).expect("the bench plan can be read")
}

fn well_formed(change: impl FnOnce(&mut Arrays)) -> bool {
    let mut arrays = Arrays::fresh();
    change(&mut arrays);
    State::from_arrays(&bench(), &arrays).is_some()
}

#[test]
fn what_is_well_formed() {
    assert!(well_formed(|_| ()));
    assert!(well_formed(
        |arrays| arrays.trains[..4].copy_from_slice(&[1, 255, 7, 9])
    ));
    assert!(well_formed(|arrays| arrays.lies[2] = 1));
    assert!(well_formed(|arrays| arrays.holds[2] = 3));
    assert!(well_formed(|arrays| arrays.signals[1] = 2));
}

#[test]
fn trains() {
    assert!(!well_formed(
        |arrays| arrays.trains[..4].copy_from_slice(&[1, 0, 0, 1])
    ));
    assert!(!well_formed(|arrays| arrays.trains[4] = 1));
    assert!(!well_formed(|arrays| arrays.trains[63] = 1));
}

#[test]
fn lies() {
    assert!(!well_formed(|arrays| arrays.lies[2] = 2));
    assert!(!well_formed(|arrays| arrays.lies[0] = 1));
    assert!(!well_formed(|arrays| arrays.lies[4] = 1));
}

#[test]
fn holds() {
    assert!(!well_formed(|arrays| arrays.holds[2] = 4));
    assert!(!well_formed(|arrays| arrays.holds[2] = 1 << 63));
    assert!(!well_formed(|arrays| arrays.holds[3] = 1));
    assert!(!well_formed(|arrays| arrays.holds[4] = 1));
}

#[test]
fn signals() {
    assert!(!well_formed(|arrays| arrays.signals[0] = 2));
    assert!(!well_formed(|arrays| arrays.signals[0] = 3));
    assert!(!well_formed(|arrays| arrays.signals[0] = 255));
    assert!(!well_formed(|arrays| arrays.signals[2] = 1));
}

#[test]
fn arrays_show_the_state_they_were_made_from() {
    let mut state = State::fresh(&bench());
    state.trains[3] = Some(200);
    state.lies[2] = Lie::Reverse;
    state.holds[2].insert(1);
    state.signals[1] = Some(1);
    let arrays = state.to_arrays();
    assert_eq!((arrays.trains[3], arrays.lies[2]), (200, 1));
    assert_eq!((arrays.holds[2], arrays.signals[1]), (2, 2));
    assert_eq!(State::from_arrays(&bench(), &arrays), Some(state));
}
