//! Wrong event bytes, and answers that name something else.

use super::{played_by, Definition};
use crate::book::{Book, MODEL};
use crate::model::answer::{Accident, Answer, Refusal};
use crate::model::plan::Plan;
use crate::model::reading::read;
use crate::model::state::State;
use crate::model::step::{enter, is_held, lie_in_the_end, move_train, step, would_turn};
use crate::subject::EVENT;

pub fn all() -> Vec<Definition> {
    let mut all = other_kinds();
    all.extend(other_orders());
    all.extend(other_trains());
    all.extend(other_names());
    all
}

/// The model, given other bytes for each whole event.
fn given(name: impl Into<String>, change: impl Fn(&mut [u8]) + 'static) -> Definition {
    Definition::new(name, move |plan, events| {
        let mut events = events.to_vec();
        events.chunks_exact_mut(EVENT).for_each(&change);
        MODEL.whole_run(plan, &events)
    })
}

const KINDS: [(u8, &str); 4] = [(1, "request"), (2, "cancel"), (3, "enter"), (4, "move")];

fn other_kinds() -> Vec<Definition> {
    let mut all = Vec::new();
    for (place, (one, name)) in KINDS.into_iter().enumerate() {
        for (other, other_name) in KINDS.into_iter().skip(place + 1) {
            let name = format!("event {one} is {other_name} and event {other} is {name}");
            all.push(given(name, move |event| {
                event[0] = match event[0] {
                    kind if kind == one => other,
                    kind if kind == other => one,
                    kind => kind,
                }
            }));
        }
    }
    for unknown in std::iter::once(0).chain(5..=255) {
        for (kind, name) in KINDS {
            let name = format!("event {unknown} is {name} too");
            all.push(given(name, move |event| {
                if event[0] == unknown {
                    event[0] = kind;
                }
            }));
        }
    }
    all.push(given("events are counted from 0, not from 1", |event| {
        event[0] = event[0].wrapping_add(1);
    }));
    all
}

fn other_orders() -> Vec<Definition> {
    let mut all = Vec::new();
    for (kind, name) in [
        (1, "request (0, route)"),
        (2, "cancel (0, route)"),
        (3, "enter (train, entry)"),
        (4, "move (0, train)"),
    ] {
        all.push(given(name, move |event| {
            if event[0] == kind {
                event.swap(1, 2);
            }
        }));
    }
    for (kind, name) in [(1, "request"), (2, "cancel"), (4, "move")] {
        let name = format!("{name}: the unused byte is refused only if it is");
        let passes = |name: String, passes: fn(u8) -> bool| {
            given(name, move |event| {
                if event[0] == kind && passes(event[2]) {
                    event[2] = 0;
                }
            })
        };
        all.push(passes(format!("{name} 1"), |byte| byte != 1));
        all.push(passes(format!("{name} not 1"), |byte| byte == 1));
        all.push(passes(format!("{name} below 255"), |byte| byte == 255));
    }
    all.push(given("the event's kind stands last", |event| {
        event.rotate_right(1)
    }));
    all
}

/// The model with another step, whatever it has to know.
pub fn steps_by(
    name: impl Into<String>,
    step: impl Fn(&Plan, &mut State, &[u8]) -> Answer + 'static,
) -> Definition {
    Definition::new(name, move |file, events| match read(file) {
        Ok(plan) => played_by(&plan, State::fresh(&plan), events, &step),
        Err(fault) => format!("{}\n", fault.form).into_bytes(),
    })
}

/// The model with another step.
fn steps(name: &str, step: fn(&Plan, &mut State, &[u8]) -> Answer) -> Definition {
    let book = Book { step, ..MODEL };
    Definition::new(name, move |plan, events| book.whole_run(plan, events))
}

fn other_trains() -> Vec<Definition> {
    vec![
        steps(
            "enter: train number 0 is a train",
            |plan, state, event| match *event {
                [3, entry, 0] if usize::from(entry) < plan.entries.len() => {
                    enter(&plan.entries[usize::from(entry)], state, 0)
                }
                _ => step(plan, state, event),
            },
        ),
        steps(
            "move: train number 0 is a train",
            |plan, state, event| match *event {
                [4, 0, 0] => move_train(plan, state, 0),
                _ => step(plan, state, event),
            },
        ),
        steps(
            "enter: a train number 1 to 254",
            |plan, state, event| match *event {
                [3, _, 255] => step(plan, state, &[]),
                _ => step(plan, state, event),
            },
        ),
        steps(
            "enter: a train number 2 to 255",
            |plan, state, event| match *event {
                [3, _, 1] => step(plan, state, &[]),
                _ => step(plan, state, event),
            },
        ),
        steps(
            "no such route: 15 for a cancel",
            |plan, state, event| match *event {
                [2, route, 0] if usize::from(route) >= plan.routes.len() => {
                    Answer::Refused(Refusal::SignalNotGreen)
                }
                _ => step(plan, state, event),
            },
        ),
        steps(
            "an incomplete event is filled up with 0",
            |plan, state, event| {
                let mut whole = [0; EVENT];
                whole[..event.len()].copy_from_slice(event);
                step(plan, state, &whole)
            },
        ),
    ]
}

/// The route of a request, by its number.
fn requested(event: &[u8]) -> usize {
    usize::from(event[1])
}

fn other_names() -> Vec<Definition> {
    vec![
        steps(
            "entry: 13 names the highest track",
            |plan, state, event| match (step(plan, state, event), event[0]) {
                (Answer::Refused(Refusal::TrainInTheWay { .. }), 3) => {
                    let from_last = plan.entries[requested(event)].clear.iter().rev();
                    let mut occupied =
                        from_last.filter_map(|&track| Some((track, state.trains[track]?)));
                    Answer::in_the_way(occupied.next().expect("one has a train"))
                }
                (answer, _) => answer,
            },
        ),
        steps(
            "13 names the train as its track too",
            |plan, state, event| match step(plan, state, event) {
                Answer::Refused(Refusal::TrainInTheWay { train, .. }) => {
                    Answer::in_the_way((usize::from(train), train))
                }
                answer => answer,
            },
        ),
        steps(
            "14 names the highest point",
            |plan, state, event| match step(plan, state, event) {
                Answer::Refused(Refusal::PointHeld { .. }) => {
                    let route = &plan.routes[requested(event)];
                    let is_hit =
                        |&point: &usize| is_held(state, point) && would_turn(state, route, point);
                    let point = route.listed().filter(is_hit).max().expect("one is held");
                    Answer::Refused(Refusal::PointHeld { point })
                }
                answer => answer,
            },
        ),
        steps(
            "14 names the route that holds",
            |plan, state, event| match step(plan, state, event) {
                Answer::Refused(Refusal::PointHeld { point }) => {
                    let mut routes = 0..plan.routes.len();
                    let holder = routes.find(|&route| state.holds[point].contains(route));
                    let point = holder.expect("one holds it");
                    Answer::Refused(Refusal::PointHeld { point })
                }
                answer => answer,
            },
        ),
        steps("16 names the signal", |plan, state, event| {
            match step(plan, state, event) {
                Answer::Refused(Refusal::TrainAtHome { track }) => {
                    let track = plan.signal_at(track).expect("it is a home");
                    Answer::Refused(Refusal::TrainAtHome { track })
                }
                answer => answer,
            }
        }),
        steps("40 names the track left", |plan, state, event| {
            match (step(plan, state, event), event[0]) {
                (Answer::Accident(Accident::Collision { .. }), 4) => {
                    let track = state.track_of(event[1]).expect("it is in the plan");
                    Answer::Accident(Accident::Collision { track })
                }
                (answer, _) => answer,
            }
        }),
        steps(
            "42 names the highest point",
            |plan, state, event| match step(plan, state, event) {
                Answer::Accident(Accident::Derailment { .. }) => {
                    let route = &plan.routes[requested(event)];
                    let derailed = route.listed().filter(|&point| {
                        let lie = lie_in_the_end(route, point);
                        state.trains[point].is_some() && lie != state.lies[point]
                    });
                    let point = derailed.max().expect("one would turn");
                    Answer::Accident(Accident::Derailment { point })
                }
                answer => answer,
            },
        ),
        steps(
            "`granted` names the signal",
            |plan, state, event| match step(plan, state, event) {
                Answer::Granted { route } => Answer::Granted {
                    route: plan.routes[route].start,
                },
                answer => answer,
            },
        ),
        steps(
            "`cancelled` names the signal",
            |plan, state, event| match step(plan, state, event) {
                Answer::Cancelled { route } => Answer::Cancelled {
                    route: plan.routes[route].start,
                },
                answer => answer,
            },
        ),
        steps(
            "`entered` names the entry",
            |plan, state, event| match step(plan, state, event) {
                Answer::Entered { train, .. } => Answer::Entered {
                    train,
                    track: requested(event),
                },
                answer => answer,
            },
        ),
        steps("entry tests run 17, 40, 13", |plan, state, event| {
            match (step(plan, state, event), event[0]) {
                (Answer::Refused(Refusal::TrainInTheWay { .. }), 3) => {
                    let track = plan.entries[requested(event)].track;
                    match state.trains[track] {
                        Some(_) => Answer::Accident(Accident::Collision { track }),
                        None => step(plan, state, event),
                    }
                }
                (answer, _) => answer,
            }
        }),
    ]
}
