//! Single steps from states that no run from the fresh one comes to: those that are not well formed,
//! which 10 is for, and some that are well formed all the same. And the text that tells them.
//!
//! The states and the lines are written out by hand from the document.

use crate::document::{bench_with, BENCH_PLAN};
use crate::model::answer::Answer;
use crate::model::state::Arrays;
use crate::subject::Subject;
use crate::told::wrapped;
use std::fmt::Write;

/// A step and what must come of it.
pub struct Single {
    pub about: &'static str,
    pub plan: Vec<u8>,
    pub state: Arrays,
    pub event: &'static [u8],
    pub line: &'static str,
    pub after: Arrays,
}

fn state(change: impl Fn(&mut Arrays)) -> Arrays {
    let mut state = Arrays::fresh();
    change(&mut state);
    state
}

/// A request for route 0 of the bench plan, which every state here would grant if what is wrong with
/// it were not there.
const REQUEST: &[u8] = &[1, 0, 0];

/// A step on the bench plan that changes nothing.
fn refused(
    about: &'static str,
    change: impl Fn(&mut Arrays),
    event: &'static [u8],
    line: &'static str,
) -> Single {
    Single {
        about,
        plan: BENCH_PLAN.to_vec(),
        state: state(&change),
        event,
        line,
        after: state(change),
    }
}

fn not_well_formed(about: &'static str, change: impl Fn(&mut Arrays)) -> Single {
    refused(about, change, REQUEST, "refused 10")
}

pub fn all() -> Vec<Single> {
    let mut all = states_of_ten();
    all.extend(order_of_ten());
    all.extend(well_formed());
    all.extend(holds_otherwise());
    all
}

fn states_of_ten() -> Vec<Single> {
    vec![
        not_well_formed("A train appears twice.", |state| {
            state.trains[0] = 1;
            state.trains[1] = 1;
        }),
        not_well_formed(
            "Signal 0 is green for route 1, which starts at signal 1.",
            |state| state.signals[0] = 2,
        ),
        not_well_formed(
            "A train is on track 4, and the plan has tracks 0 to 3 alone.",
            |state| state.trains[4] = 1,
        ),
        not_well_formed(
            "Track 4 lies reverse, and the plan has tracks 0 to 3 alone.",
            |state| state.lies[4] = 1,
        ),
        not_well_formed(
            "Track 4 is held, and the plan has tracks 0 to 3 alone.",
            |state| state.holds[4] = 1,
        ),
        not_well_formed(
            "Signal 2 is green, and the plan has signals 0 and 1 alone.",
            |state| state.signals[2] = 1,
        ),
        not_well_formed(
            "Point 2 is held by route 2, and the plan has routes 0 and 1 alone.",
            |state| state.holds[2] = 1 << 2,
        ),
        not_well_formed(
            "Signal 0 is green for route 2, and the plan has routes 0 and 1 alone.",
            |state| state.signals[0] = 3,
        ),
        not_well_formed("Track 0 is plain and lies reverse.", |state| {
            state.lies[0] = 1
        }),
        not_well_formed("Track 3 is an exit and lies reverse.", |state| {
            state.lies[3] = 1
        }),
        not_well_formed("Track 0 is plain and held.", |state| state.holds[0] = 1),
        not_well_formed("Track 3 is an exit and held.", |state| state.holds[3] = 1),
        not_well_formed(
            "The lie of point 2 is neither normal nor reverse.",
            |state| state.lies[2] = 2,
        ),
    ]
}

fn order_of_ten() -> Vec<Single> {
    let train_twice = |state: &mut Arrays| {
        state.trains[0] = 1;
        state.trains[1] = 1;
    };
    vec![
        refused(
            "A train appears twice, and the event's kind is unknown: 10 comes before 11.",
            train_twice,
            &[0, 0, 0],
            "refused 10",
        ),
        refused(
            "A train appears twice, and signal 0 is not red: 10 comes before 12.",
            |state| {
                state.trains[0] = 1;
                state.trains[1] = 1;
                state.signals[0] = 1;
            },
            REQUEST,
            "refused 10",
        ),
        Single {
            plan: vec![],
            ..refused(
                "The plan is an empty file, and a train appears twice: an unreadable plan gives \
                 its form, before 10.",
                train_twice,
                REQUEST,
                "form 1 at 0",
            )
        },
    ]
}

fn well_formed() -> Vec<Single> {
    let granted = |holders: u64| {
        state(|state| {
            state.signals[0] = 1;
            state.holds[2] = holders;
        })
    };
    let step = |about, event, line, before, after| Single {
        about,
        plan: BENCH_PLAN.to_vec(),
        state: before,
        event,
        line,
        after,
    };
    vec![
        step(
            "Well formed, but no events lead here: both routes hold point 2, which route 0 lists \
             normal and route 1 reverse. A cancel drops the holds of its own route and no other.",
            &[2, 0, 0],
            "cancelled 0",
            granted(0b11),
            state(|state| state.holds[2] = 0b10),
        ),
        Single {
            plan: bench_with(28..34, &[0, 0, 0]),
            ..step(
                "Well formed, but no events lead here: route 0 holds point 2, which it does not \
                 list in this plan (that of sessions/slip-route-0-no-points-no-releases). A \
                 cancel drops all holds of its route.",
                &[2, 0, 0],
                "cancelled 0",
                granted(0b1),
                Arrays::fresh(),
            )
        },
        step(
            "The fresh state and an incomplete event, which is 11.",
            &[1, 0],
            "refused 11",
            Arrays::fresh(),
            Arrays::fresh(),
        ),
        step(
            "The fresh state and more than three bytes, of which a single step plays the first \
             three.",
            &[1, 0, 0, 2, 0, 0],
            "granted 0",
            Arrays::fresh(),
            granted(0b1),
        ),
    ]
}

/// Holds of a point that does not lie as its holder lists it. A route takes its hold when it turns the
/// point, and as long as it has it no grant turns it again, so that no events lead here.
fn holds_otherwise() -> Vec<Single> {
    let held = |lie: u8, holders: u64| {
        move |state: &mut Arrays| {
            state.lies[2] = lie;
            state.holds[2] = holders;
        }
    };
    let on_point = |holders: u64, place: usize| {
        state(|state| {
            state.holds[2] = holders;
            state.trains[place] = 1;
        })
    };
    let granted = state(|state| {
        state.holds[2] = 0b11;
        state.signals[0] = 1;
    });
    let coming = |is_before: bool| {
        state(|state| {
            state.holds[2] = 0b10;
            match is_before {
                true => (state.trains[0], state.signals[0]) = (1, 1),
                false => state.trains[2] = 1,
            }
        })
    };
    let of_bench = |about, event, line, before, after| Single {
        about,
        plan: BENCH_PLAN.to_vec(),
        state: before,
        event,
        line,
        after,
    };
    vec![
        refused(
            "Well formed, but no events lead here: route 0 holds point 2, lists it normal, and it \
             lies reverse. The asking route's own hold counts for 14 like any other.",
            held(1, 0b1),
            REQUEST,
            "refused 14 point 2",
        ),
        refused(
            "Well formed, but no events lead here: route 1 holds point 2, lists it reverse, and it \
             lies normal. Its own hold is in its way.",
            held(0, 0b10),
            &[1, 1, 0],
            "refused 14 point 2",
        ),
        refused(
            "Well formed, but no events lead here: both routes hold point 2, which lies normal. \
             Route 1 lists it reverse.",
            held(0, 0b11),
            &[1, 1, 0],
            "refused 14 point 2",
        ),
        refused(
            "Well formed, but no events lead here: both routes hold point 2, which lies reverse. \
             Route 0 lists it normal.",
            held(1, 0b11),
            REQUEST,
            "refused 14 point 2",
        ),
        of_bench(
            "Well formed, but no events lead here: route 1 holds point 2, lists it reverse, and it \
             lies normal, as route 0 lists it. It is not in the way of route 0, whoever holds it; \
             then both hold it.",
            REQUEST,
            "granted 0",
            state(held(0, 0b10)),
            granted,
        ),
        of_bench(
            "Well formed, but no events lead here: both routes hold point 2, and train 1 stands on \
             it. Both have point 2 in their release lists with track 3, so that its arrival there \
             drops both holds.",
            &[4, 1, 0],
            "moved 1 from 2 to 3",
            on_point(0b11, 2),
            on_point(0, 3),
        ),
        of_bench(
            "Well formed, but no events lead here: route 1 holds point 2, lists it reverse, and it \
             lies normal. A point leads as it lies, whoever holds it: train 1 comes from its normal \
             leg, track 0.",
            &[4, 1, 0],
            "moved 1 from 0 to 2",
            coming(true),
            coming(false),
        ),
    ]
}

/// What comes of a step: the answer, and the state after it in words.
pub fn outcome(subject: &dyn Subject, single: &Single) -> String {
    let mut state = single.state.clone();
    let answer: Answer = subject.prepare(&single.plan).step(&mut state, single.event);
    said(&answer.to_string(), &single.state, &state)
}

/// What must come of it.
pub fn due(single: &Single) -> String {
    said(single.line, &single.state, &single.after)
}

fn said(line: &str, before: &Arrays, after: &Arrays) -> String {
    match before == after {
        true => format!("`{line}`, nothing changes"),
        false => format!("`{line}`, then {}", in_words(after)),
    }
}

/// What is not as in the fresh state.
fn in_words(state: &Arrays) -> String {
    let mut words = Vec::new();
    for (track, train) in state
        .trains
        .iter()
        .enumerate()
        .filter(|(_, train)| **train != 0)
    {
        words.push(format!("train {train} on track {track}"));
    }
    for (track, lie) in state.lies.iter().enumerate().filter(|(_, lie)| **lie != 0) {
        words.push(match lie {
            1 => format!("track {track} reverse"),
            _ => format!("lie {lie} of track {track}"),
        });
    }
    for (track, routes) in state.holds.iter().enumerate() {
        for route in (0..u64::BITS).filter(|route| routes >> route & 1 == 1) {
            words.push(format!("track {track} held by route {route}"));
        }
    }
    for (signal, green) in state
        .signals
        .iter()
        .enumerate()
        .filter(|(_, green)| **green != 0)
    {
        words.push(format!("signal {signal} green for route {}", green - 1));
    }
    match words.is_empty() {
        true => "the fresh state".to_string(),
        false => words.join(", "),
    }
}

/// The text of `steps.txt`.
pub fn told() -> String {
    let mut text = "\
Single steps that no session has

A session starts with the fresh state, and its states are always well formed, so none prints
`refused 10`. These steps start with other states. The plan is that of sessions/bench, which is told
there byte by byte, where nothing else is said: tracks 0 and 1 are plain and lead to the trailing
point 2, which leads to the exit 3; signals 0 and 1 stand at the ends of tracks 0 and 1; route 0
starts at signal 0, and route 1 at signal 1, and both list point 2.

Each has what it shows; the state, as far as it is not the fresh one; the bytes of the event; the
line of its answer, and what the state is then.
"
    .to_string();
    for (number, single) in all().iter().enumerate() {
        let bytes: Vec<String> = single.event.iter().map(u8::to_string).collect();
        let _ = write!(
            text,
            "\n{}\n    state: {}\n    event: {}\n    answer: {}\n",
            wrapped(&format!("{}. {}", number + 1, single.about)),
            in_words(&single.state),
            bytes.join(" "),
            due(single)
        );
    }
    text
}
