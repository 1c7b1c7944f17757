//! The readings of `README.md`, one by one.

use second::book::MODEL;
use second::document::BENCH_PLAN;
use second::model::answer::{Accident, Answer, Refusal};
use second::model::plan::{Lie, Plan, Track, CLEAR, MOST_TRACKS};
use second::model::reading::{read, Form};
use second::model::rules::{check, rule_3, rule_5, rule_9, Broken};
use second::model::state::{Arrays, State};
use second::model::step::step;
use second::subject::Subject;

fn bench() -> Plan {
    read(&BENCH_PLAN).expect("the bench plan can be read")
}

fn form(file: &[u8]) -> Option<Form> {
    MODEL.read(file)
}

fn at(number: u8, offset: usize) -> Option<Form> {
    Some(Form { number, offset })
}

/// Tracks 0 and 1 are trailing points, 2 is plain; one route from signal 0 with these lists.
fn file_with_lists(normal: &[u8], releases: &[u8]) -> Vec<u8> {
    let mut file = vec![3, 2, 2, 1, 2, 2, 2, 0, 2, 0, 2, 0, 0, 1, 2, 1, 0, 1, 0, 0];
    file.push(normal.len() as u8);
    file.extend(normal);
    file.push(0);
    file.push(releases.len() as u8 / 2);
    file.extend(releases);
    file.push(0);
    file
}

#[test]
fn three_comes_before_four_at_one_byte() {
    assert_eq!(form(&file_with_lists(&[0, 1], &[])), None);
    assert_eq!(form(&file_with_lists(&[1, 0], &[])), at(4, 22));
    assert_eq!(form(&file_with_lists(&[1, 2], &[])), at(3, 22));
    let mut falls_to_plain = file_with_lists(&[1, 0], &[]);
    // Track 0 becomes plain: the byte that falls now also names no point.
    falls_to_plain[1..5].copy_from_slice(&[0, 2, 0, 0]);
    assert_eq!(form(&falls_to_plain), at(3, 22));
}

#[test]
fn a_release_pairs_four_stands_at_its_point() {
    assert_eq!(form(&file_with_lists(&[], &[2, 0, 0, 1])), None);
    assert_eq!(form(&file_with_lists(&[], &[0, 1, 2, 1])), at(4, 26));
    assert_eq!(form(&file_with_lists(&[], &[0, 1, 3, 0])), at(3, 25));
}

#[test]
fn a_count_may_be_larger_than_the_number_of_tracks() {
    let mut file = BENCH_PLAN.to_vec();
    file[25] = *CLEAR.end() as u8;
    // Bytes 26 and 27 rise, byte 28 is the 1 that was the next count.
    assert_eq!(form(&file), at(4, 28));
    file[25] += 1;
    assert_eq!(form(&file), at(2, 25));
}

#[test]
fn one_facing_point_with_both_ways_to_a_track_is_one_leader() {
    let plan = Plan {
        tracks: vec![
            Track::Facing {
                normal: 1,
                reverse: 1,
            },
            Track::Exit,
        ],
        homes: vec![],
        routes: vec![],
        entries: vec![],
    };
    assert_eq!(rule_3(&plan), None);
}

#[test]
fn rule_three_names_the_lowest_track_led_to() {
    let plain = |next| Track::Plain { next };
    let plan = Plan {
        tracks: vec![
            plain(5),
            plain(5),
            plain(3),
            plain(3),
            plain(3),
            Track::Exit,
        ],
        homes: vec![],
        routes: vec![],
        entries: vec![],
    };
    assert_eq!(check(&plan), Some(Broken { rule: 3, row: 3 }));
}

#[test]
fn a_track_that_leads_to_itself_is_led_to() {
    let mut plan = bench();
    plan.tracks[1] = Track::Plain { next: 1 };
    assert_eq!(rule_5(&plan), Some(1));
}

#[test]
fn rule_nine_is_broken_at_a_facing_point_that_ends_the_path() {
    let mut plan = bench();
    plan.tracks[3] = Track::Facing {
        normal: 0,
        reverse: 1,
    };
    plan.routes[0].normal = vec![2, 3];
    assert_eq!(rule_9(&plan), Some(0));
}

#[test]
fn rule_eight_at_a_higher_row_comes_before_rule_eleven() {
    let mut plan = bench();
    plan.routes[0].releases[0].track = 2;
    plan.routes[1].clear.clear();
    assert_eq!(check(&plan), Some(Broken { rule: 8, row: 1 }));
}

#[test]
fn a_state_that_is_not_well_formed_comes_before_a_bad_event() {
    let plan = bench();
    let mut arrays = Arrays::fresh();
    arrays.lies[2] = 2;
    let before = arrays.clone();
    for event in [&[9, 9, 9][..], &[1, 0], &[4], &[1, 0, 0]] {
        let answer = MODEL.any_step(&plan, &mut arrays, event, &mut State::fresh(&plan));
        assert_eq!(answer, Answer::Refused(Refusal::NotWellFormed));
        assert_eq!(arrays, before);
    }
}

#[test]
fn train_number_zero_is_a_bad_event() {
    let plan = bench();
    let mut state = State::fresh(&plan);
    for event in [[3, 0, 0], [4, 0, 0]] {
        let answer = step(&plan, &mut state, &event);
        assert_eq!(answer, Answer::Refused(Refusal::BadEvent));
    }
}

#[test]
fn a_train_that_leaves_a_home_puts_its_signal_to_red() {
    let mut plan = bench();
    plan.homes.push(3);
    plan.routes[0].start = 2;
    let mut state = State::fresh(&plan);
    state.trains[3] = Some(7);
    let red = Answer::Refused(Refusal::SignalRed { signal: 2 });
    assert_eq!(step(&plan, &mut state, &[4, 7, 0]), red);
    state.signals[2] = Some(0);
    assert_eq!(
        step(&plan, &mut state, &[4, 7, 0]),
        Answer::Left { train: 7, from: 3 }
    );
    assert_eq!(state.signals[2], None);
}

#[test]
fn a_track_that_leads_to_itself_collides_before_it_runs_through() {
    let mut plan = bench();
    plan.tracks[2] = Track::Trailing {
        next: 2,
        normal_leg: 0,
        reverse_leg: 1,
    };
    let mut state = State::fresh(&plan);
    state.trains[2] = Some(7);
    let collision = Answer::Accident(Accident::Collision { track: 2 });
    assert_eq!(step(&plan, &mut state, &[4, 7, 0]), collision);
}

#[test]
fn a_track_that_is_no_leg_always_runs_through() {
    let mut plan = bench();
    plan.tracks[3] = Track::Plain { next: 2 };
    let mut state = State::fresh(&plan);
    state.trains[3] = Some(7);
    for lie in [Lie::Normal, Lie::Reverse] {
        state.lies[2] = lie;
        let run_through = Answer::Accident(Accident::RunThrough { track: 2 });
        assert_eq!(step(&plan, &mut state, &[4, 7, 0]), run_through);
    }
}

#[test]
fn a_derailment_looks_at_the_lie_in_the_end() {
    let mut plan = bench();
    plan.routes[0].clear.clear();
    plan.routes[0].reverse = vec![2];
    let mut state = State::fresh(&plan);
    state.trains[2] = Some(7);
    let derailment = Answer::Accident(Accident::Derailment { point: 2 });
    assert_eq!(step(&plan, &mut state, &[1, 0, 0]), derailment);
    state.lies[2] = Lie::Reverse;
    assert_eq!(
        step(&plan, &mut state, &[1, 0, 0]),
        Answer::Granted { route: 0 }
    );
    assert_eq!(state.lies[2], Lie::Reverse);
}

#[test]
fn all_holds_of_a_route_fall_with_its_cancel_and_no_others() {
    let mut plan = bench();
    plan.routes[0].normal.clear();
    let mut state = State::fresh(&plan);
    state.signals[0] = Some(0);
    state.holds[2].insert(0);
    state.holds[2].insert(1);
    assert_eq!(
        step(&plan, &mut state, &[2, 0, 0]),
        Answer::Cancelled { route: 0 }
    );
    assert!(!state.holds[2].contains(0));
    assert!(state.holds[2].contains(1));
    // Route 1's own hold counts against itself, since it wants the point reverse.
    let held = Answer::Refused(Refusal::PointHeld { point: 2 });
    assert_eq!(step(&plan, &mut state, &[1, 1, 0]), held);
}

#[test]
fn a_held_point_is_in_the_way_if_it_would_turn_whoever_holds_it() {
    let plan = bench();
    let held = Answer::Refused(Refusal::PointHeld { point: 2 });
    for holders in [&[0][..], &[1], &[0, 1]] {
        for (lie, refused, granted) in [(Lie::Normal, 1, 0), (Lie::Reverse, 0, 1)] {
            let mut state = State::fresh(&plan);
            state.lies[2] = lie;
            holders
                .iter()
                .for_each(|&route| state.holds[2].insert(route));
            let before = state.clone();
            assert_eq!(step(&plan, &mut state, &[1, refused, 0]), held);
            assert_eq!(state, before);
            let route = usize::from(granted);
            let answer = step(&plan, &mut state, &[1, granted, 0]);
            assert_eq!(answer, Answer::Granted { route });
            // Its hold is added to theirs, and the lie stays.
            let all = [0, 1].into_iter();
            let all = all.filter(|other| *other == route || holders.contains(other));
            assert!(state.holds[2].routes().eq(all));
            assert_eq!(state.lies[2], lie);
        }
    }
}

#[test]
fn a_held_point_of_both_lists_is_in_the_way_if_it_lies_normal() {
    let mut plan = bench();
    plan.routes[0].reverse = vec![2];
    let mut state = State::fresh(&plan);
    state.holds[2].insert(1);
    let held = Answer::Refused(Refusal::PointHeld { point: 2 });
    assert_eq!(step(&plan, &mut state, &[1, 0, 0]), held);
    state.lies[2] = Lie::Reverse;
    let granted = Answer::Granted { route: 0 };
    assert_eq!(step(&plan, &mut state, &[1, 0, 0]), granted);
}

#[test]
fn an_entry_is_asked_17_then_13_then_40_and_drops_no_hold() {
    let mut plan = bench();
    plan.routes[0].releases[0].track = 0;
    let mut state = State::fresh(&plan);
    state.holds[2].insert(0);
    assert_eq!(
        step(&plan, &mut state, &[3, 0, 7]),
        Answer::Entered { train: 7, track: 0 }
    );
    assert!(state.holds[2].contains(0));
    let known = Answer::Refused(Refusal::AlreadyInPlan);
    assert_eq!(step(&plan, &mut state, &[3, 0, 7]), known);
    let in_the_way = Answer::in_the_way((0, 7));
    assert_eq!(step(&plan, &mut state, &[3, 0, 8]), in_the_way);
    plan.entries[0].clear.clear();
    let collision = Answer::Accident(Accident::Collision { track: 0 });
    assert_eq!(step(&plan, &mut state, &[3, 0, 8]), collision);
}

#[test]
fn an_unreadable_plan_answers_every_event_with_its_form() {
    let file = &BENCH_PLAN[..53];
    let mut arrays = Arrays::fresh();
    arrays.trains = [9; MOST_TRACKS];
    let before = arrays.clone();
    let answer = MODEL.prepare(file).step(&mut arrays, &[9, 9, 9]);
    assert_eq!(Some(answer), at(1, 53).map(Answer::Unreadable));
    assert_eq!(arrays, before);
}
