//! The document's own examples, against the model.

use second::book::MODEL;
use second::document::{sessions, Session, BENCH_PLAN};
use second::model::plan::{Entry, Lie, Plan, Route, Track};
use second::model::reading::read;
use second::model::rules::{check, RULES};
use second::model::state::State;
use second::model::step::step;
use second::subject::Subject;
use std::collections::BTreeSet;

#[test]
fn every_session_prints_exactly_its_lines() {
    for session in second::sessions::all() {
        let plan = session.plan.as_deref().unwrap_or(&[]);
        let printed = MODEL.run(plan, &session.events);
        let printed = String::from_utf8(printed).expect("lines are text");
        assert_eq!(printed, session.expected, "{}", session.name);
    }
}

#[test]
fn no_two_sessions_share_a_name() {
    let sessions = second::sessions::all();
    let names: BTreeSet<&str> = sessions.iter().map(|session| session.name).collect();
    assert_eq!(names.len(), sessions.len());
}

#[test]
fn the_bench_session_and_every_slip_are_there() {
    let names: Vec<&str> = sessions().iter().map(|session| session.name).collect();
    assert_eq!(
        names
            .iter()
            .filter(|name| name.starts_with("slip-"))
            .count(),
        15
    );
    assert!(names.contains(&"bench"));
}

#[test]
fn a_plan_for_a_last_row_breaks_its_rule_there_and_nothing_else() {
    let sessions = second::sessions::all();
    let mut rules = Vec::new();
    for session in &sessions {
        let rest = session.name.strip_prefix("rule-");
        let Some(number) = rest.and_then(|rest| rest.strip_suffix("-last-row")) else {
            continue;
        };
        let rule: usize = number.parse().expect("a rule has a number");
        let plan = read(session.plan.as_ref().expect("there is a plan")).expect("it can be read");
        let rows = match rule {
            1..=3 => plan.tracks.len(),
            4 => plan.homes.len(),
            5 | 12 => plan.entries.len(),
            _ => plan.routes.len(),
        };
        for (lowest_row, tried) in RULES.iter().zip(1..) {
            let expected = (tried == rule).then_some(rows - 1);
            assert_eq!(lowest_row(&plan), expected, "{}: {tried}", session.name);
        }
        assert!(rows > 1, "{}", session.name);
        rules.push(rule);
    }
    assert_eq!(rules, [1, 2, 3, 4, 5, 6, 7, 10]);
}

#[test]
fn a_row_past_the_last_would_break_a_rule_where_the_exit_is_first() {
    let sessions = second::sessions::all();
    let session = sessions
        .iter()
        .find(|session| session.name == "accepted-exit-first");
    let file = session.and_then(|session| session.plan.as_ref());
    let plan = read(file.expect("there is such a plan")).expect("it can be read");
    let broken = |change: fn(&mut Plan)| {
        let mut plan = plan.clone();
        change(&mut plan);
        check(&plan).map(|broken| (broken.rule, broken.row))
    };
    let empty_entry = |plan: &mut Plan| {
        plan.entries.push(Entry {
            track: 0,
            clear: vec![],
        })
    };
    let empty_route = |plan: &mut Plan| {
        plan.routes.push(Route {
            start: 0,
            path: vec![0],
            clear: vec![],
            normal: vec![],
            reverse: vec![],
            releases: vec![],
        })
    };
    assert_eq!(broken(|_| ()), None);
    let track_more = |plan: &mut Plan| plan.tracks.push(Track::Plain { next: 0 });
    assert_eq!(broken(track_more), Some((3, 0)));
    assert_eq!(broken(|plan| plan.homes.push(0)), Some((4, 2)));
    assert_eq!(broken(empty_entry), Some((5, 2)));
    assert_eq!(broken(empty_route), Some((6, 2)));
}

/// How many events of each long session come first, and the first line that they change besides
/// their own, counted from 1.
const LONG: [(&str, usize, usize); 4] = [
    ("long-train-waits", 1, 4003),
    ("long-route-granted", 1, 4003),
    ("long-point-turned", 2, 4807),
    ("long-train-in-the-loop", 4, 5606),
];

#[test]
fn long_sessions_show_their_first_events_at_the_end_and_nowhere_else() {
    let sessions = second::sessions::all();
    let is_long = |session: &&Session| session.name.starts_with("long-");
    assert_eq!(sessions.iter().filter(is_long).count(), LONG.len());
    for (session, (name, first, changed)) in sessions.iter().filter(is_long).zip(LONG) {
        assert_eq!(session.name, name);
        let count = session.events.len() / 3;
        assert!((3000..=6000).contains(&count), "{name}: {count} events");
        assert!(count - changed < 10, "{name}");
        let plan = session.plan.as_ref().expect("there is a plan");
        let printed = MODEL.run(plan, &session.events[3 * first..]);
        let printed = String::from_utf8(printed).expect("lines are text");
        let with = session.expected.lines().skip(1 + first);
        let mut pairs = printed.lines().skip(1).zip(with);
        let difference = pairs.position(|(without, with)| without != with);
        // Lines before it: that of the plan and those of the first events.
        assert_eq!(
            difference.map(|place| place + 2 + first),
            Some(changed),
            "{name}"
        );
        assert!(session.about.contains(&changed.to_string()), "{name}");
    }
}

#[test]
fn a_cancelled_route_leaves_its_point_reverse_and_unheld() {
    let plan = read(&BENCH_PLAN).expect("the bench plan can be read");
    let mut state = State::fresh(&plan);
    step(&plan, &mut state, &[1, 1, 0]);
    assert!(state.holds[2].contains(1));
    step(&plan, &mut state, &[2, 1, 0]);
    assert_eq!(state.lies[2], Lie::Reverse);
    assert!(state.holds[2].is_empty());
    assert_eq!(state.signals, [None, None]);
}
