//! The generators keep what they promise.

use second::generate::case::case;
use second::generate::faults::faulty;
use second::generate::images::{Base, Writing};
use second::generate::largest::{busy, largest};
use second::generate::states::{agreeing, not_well_formed, well_formed};
use second::generate::{accepted, broken::broken, wild::wild};
use second::model::image::IMAGE_SIZE;
use second::model::plan::LARGEST_FILE;
use second::model::reading::read;
use second::model::rules::check;
use second::model::state::State;
use second::random::Random;
use second::writing::write;

#[test]
fn accepted_plans_are_accepted() {
    for seed in 0..2000 {
        let plan = accepted(&mut Random::new(seed));
        assert_eq!(read(&write(&plan)), Ok(plan.clone()), "seed {seed}");
        assert_eq!(check(&plan), None, "seed {seed}");
    }
}

#[test]
fn the_largest_plan_is_at_every_limit_and_accepted() {
    let plan = largest(&mut Random::new(1));
    assert_eq!(write(&plan).len(), LARGEST_FILE);
    assert_eq!(check(&plan), None);
    assert_eq!(check(&busy(&mut Random::new(1))), None);
}

#[test]
fn broken_and_wild_plans_can_be_read() {
    let mut accepted = 0;
    for seed in 0..1000 {
        let plan = broken(&mut Random::new(seed));
        assert_eq!(read(&write(&plan)), Ok(plan.clone()), "seed {seed}");
        accepted += usize::from(check(&plan).is_none());
        let plan = wild(&mut Random::new(seed));
        assert_eq!(read(&write(&plan)), Ok(plan), "seed {seed}");
    }
    // A change made at random may happen to break nothing, but not often.
    assert!(
        accepted < 100,
        "{accepted} of 1000 broken plans are accepted"
    );
}

#[test]
fn faulty_files_cannot_be_read() {
    let readable = |seed: &u64| read(&faulty(&mut Random::new(*seed))).is_ok();
    assert_eq!((0..1000).find(readable), None);
}

#[test]
fn a_plans_own_image_comes_first_with_a_buffer_of_its_length() {
    for seed in 0..1000 {
        let case = case(seed);
        let [own, others @ ..] = case.writings.as_slice() else {
            panic!("nothing is written in case {seed}");
        };
        if read(&case.plan).is_ok() {
            assert_eq!((own.base, own.changes.len()), (Base::Plan, 0));
            assert!(own.rooms.contains(&case.plan.len()), "seed {seed}");
            assert!(others.len() >= 3, "seed {seed}");
        }
        let is_inside = |writing: &Writing| writing.changes.iter().all(|(at, _)| *at < IMAGE_SIZE);
        assert!(case.writings.iter().all(is_inside), "seed {seed}");
    }
}

#[test]
fn states_are_well_formed_or_not_as_asked() {
    let mut wrong = 0;
    for seed in 0..1000 {
        let mut random = Random::new(seed);
        let plan = accepted(&mut random);
        let state = well_formed(&mut random, &plan);
        assert_eq!(State::from_arrays(&plan, &state.to_arrays()), Some(state));
        let arrays = not_well_formed(&mut random, &plan);
        wrong += usize::from(State::from_arrays(&plan, &arrays).is_none());
    }
    assert!(
        wrong > 600,
        "only {wrong} of 1000 states are not well formed"
    );
}

#[test]
fn agreeing_states_agree_and_differ_elsewhere() {
    let mut differ = 0;
    for seed in 0..1000 {
        let mut random = Random::new(seed);
        let plan = accepted(&mut random);
        let Some(route) = plan.routes.first() else {
            continue;
        };
        let one = well_formed(&mut random, &plan);
        let other = agreeing(&mut random, &plan, &one, 0);
        assert!(
            State::from_arrays(&plan, &other.to_arrays()).is_some(),
            "seed {seed}"
        );
        assert_eq!(one.signals[route.start], other.signals[route.start]);
        for &track in &route.clear {
            assert_eq!(one.trains[track], other.trains[track], "seed {seed}");
        }
        for point in route.listed() {
            assert_eq!(one.lies[point], other.lies[point], "seed {seed}");
            assert_eq!(one.holds[point], other.holds[point], "seed {seed}");
        }
        differ += usize::from(one != other);
    }
    assert!(differ > 800, "only {differ} pairs differ at all");
}

#[test]
fn a_seed_makes_one_case_and_another_seed_another() {
    let bytes = |seed: u64| {
        let case = case(seed);
        (case.plan, case.events, case.steps)
    };
    assert_eq!(bytes(7), bytes(7));
    assert_ne!(bytes(7), bytes(8));
}
