//! Wrong cancels and entries, and events that are not told from nonsense.

use super::{Slip, Wrong};
use crate::model::answer::{Answer, Refusal};
use crate::model::plan::{Lie, Plan};
use crate::model::state::{RouteSet, State};
use crate::model::step::{release, step};

pub const ALL: &[Slip] = &[
    (
        "15 is missing for another route's green",
        Wrong::Step(any_green_cancels),
    ),
    ("16 is missing", Wrong::Step(cancels_before_train)),
    ("16 before 15", Wrong::Step(home_before_signal)),
    ("a cancel keeps the holds", Wrong::Step(cancel_keeps_holds)),
    (
        "a cancel drops listed holds alone",
        Wrong::Step(cancel_drops_listed),
    ),
    (
        "a cancel drops other routes' holds",
        Wrong::Step(cancel_drops_all),
    ),
    (
        "a cancel turns the points back",
        Wrong::Step(cancel_turns_back),
    ),
    ("entry: 13 before 17", Wrong::Step(clear_before_known)),
    (
        "entry: 13 names the entry track",
        Wrong::Step(names_entry_track),
    ),
    ("entry: 17 is missing", Wrong::Step(enters_again)),
    ("entry: 13 is missing", Wrong::Step(enters_unclear)),
    ("entry: 40 is missing", Wrong::Step(enters_upon)),
    ("entry: holds are given back", Wrong::Step(entry_releases)),
    ("train 0 moving is 18", Wrong::Step(zero_unknown)),
    ("train 0 entering is 17", Wrong::Step(zero_known)),
    ("the third byte is not looked at", Wrong::Step(third_passes)),
    ("kind 5 is a request", Wrong::Step(kind_five)),
    (
        "the route after the last is the last",
        Wrong::Step(one_route_more),
    ),
];

/// The event's route, if it is a cancel that makes sense.
fn cancelled(plan: &Plan, event: &[u8]) -> Option<usize> {
    match *event {
        [2, route, 0] if usize::from(route) < plan.routes.len() => Some(usize::from(route)),
        _ => None,
    }
}

fn any_green_cancels(plan: &Plan, state: &mut State, event: &[u8]) -> Answer {
    if let Some(route) = cancelled(plan, event) {
        let start = plan.routes[route].start;
        if state.signals[start].is_some() {
            state.signals[start] = Some(route);
        }
    }
    step(plan, state, event)
}

fn cancels_before_train(plan: &Plan, state: &mut State, event: &[u8]) -> Answer {
    let Some(route) = cancelled(plan, event) else {
        return step(plan, state, event);
    };
    let home = plan.home_of(&plan.routes[route]);
    let train = state.trains[home].take();
    let answer = step(plan, state, event);
    state.trains[home] = train;
    answer
}

fn home_before_signal(plan: &Plan, state: &mut State, event: &[u8]) -> Answer {
    let home = cancelled(plan, event).map(|route| plan.home_of(&plan.routes[route]));
    match home.filter(|&home| state.trains[home].is_some()) {
        Some(track) => Answer::Refused(Refusal::TrainAtHome { track }),
        None => step(plan, state, event),
    }
}

/// The step, with other holds than it should leave after a cancel.
fn after_cancel(
    plan: &Plan,
    state: &mut State,
    event: &[u8],
    change: impl Fn(&State, &mut State, usize),
) -> Answer {
    let before = state.clone();
    let answer = step(plan, state, event);
    if let Answer::Cancelled { route } = answer {
        change(&before, state, route);
    }
    answer
}

fn cancel_keeps_holds(plan: &Plan, state: &mut State, event: &[u8]) -> Answer {
    after_cancel(plan, state, event, |before, after, _| {
        after.holds.clone_from(&before.holds)
    })
}

fn cancel_drops_listed(plan: &Plan, state: &mut State, event: &[u8]) -> Answer {
    after_cancel(plan, state, event, |before, after, route| {
        for point in (0..after.holds.len()).filter(|&point| !plan.routes[route].lists(point)) {
            after.holds[point] = before.holds[point];
        }
    })
}

fn cancel_drops_all(plan: &Plan, state: &mut State, event: &[u8]) -> Answer {
    after_cancel(plan, state, event, |_, after, route| {
        for point in plan.routes[route].listed() {
            after.holds[point] = RouteSet::default();
        }
    })
}

fn cancel_turns_back(plan: &Plan, state: &mut State, event: &[u8]) -> Answer {
    after_cancel(plan, state, event, |_, after, route| {
        for point in plan.routes[route].listed() {
            after.lies[point] = Lie::Normal;
        }
    })
}

/// The event's entry and train, if it is an entry that makes sense.
fn entering(plan: &Plan, event: &[u8]) -> Option<(usize, u8)> {
    match *event {
        [3, entry, train] if usize::from(entry) < plan.entries.len() && train != 0 => {
            Some((usize::from(entry), train))
        }
        _ => None,
    }
}

fn clear_before_known(plan: &Plan, state: &mut State, event: &[u8]) -> Answer {
    let occupied = entering(plan, event)
        .and_then(|(entry, _)| state.first_train_on(&plan.entries[entry].clear));
    match occupied {
        Some(found) => Answer::in_the_way(found),
        None => step(plan, state, event),
    }
}

fn names_entry_track(plan: &Plan, state: &mut State, event: &[u8]) -> Answer {
    match (step(plan, state, event), entering(plan, event)) {
        (Answer::Refused(Refusal::TrainInTheWay { train, .. }), Some((entry, _))) => {
            Answer::in_the_way((plan.entries[entry].track, train))
        }
        (answer, _) => answer,
    }
}

fn enters_again(plan: &Plan, state: &mut State, event: &[u8]) -> Answer {
    let known = entering(plan, event).and_then(|(_, train)| Some((state.track_of(train)?, train)));
    let Some((track, train)) = known else {
        return step(plan, state, event);
    };
    // Any other number in its place, so that the step does not know the train.
    let stranger = (1..=255).find(|&other| state.track_of(other).is_none());
    state.trains[track] = stranger;
    let answer = step(plan, state, event);
    state.trains[track] = Some(train);
    answer
}

fn enters_unclear(plan: &Plan, state: &mut State, event: &[u8]) -> Answer {
    let Some((entry, _)) = entering(plan, event) else {
        return step(plan, state, event);
    };
    let mut careless = plan.clone();
    careless.entries[entry].clear.clear();
    step(&careless, state, event)
}

fn enters_upon(plan: &Plan, state: &mut State, event: &[u8]) -> Answer {
    match (step(plan, state, event), entering(plan, event)) {
        (Answer::Accident(_), Some((entry, train))) => {
            let track = plan.entries[entry].track;
            state.trains[track] = Some(train);
            Answer::Entered { train, track }
        }
        (answer, _) => answer,
    }
}

fn entry_releases(plan: &Plan, state: &mut State, event: &[u8]) -> Answer {
    let answer = step(plan, state, event);
    if let Answer::Entered { track, .. } = answer {
        release(plan, state, track);
    }
    answer
}

fn zero_unknown(plan: &Plan, state: &mut State, event: &[u8]) -> Answer {
    match *event {
        [4, 0, 0] => Answer::Refused(Refusal::NotInPlan),
        _ => step(plan, state, event),
    }
}

fn zero_known(plan: &Plan, state: &mut State, event: &[u8]) -> Answer {
    match *event {
        [3, entry, 0] if usize::from(entry) < plan.entries.len() => {
            Answer::Refused(Refusal::AlreadyInPlan)
        }
        _ => step(plan, state, event),
    }
}

fn third_passes(plan: &Plan, state: &mut State, event: &[u8]) -> Answer {
    match *event {
        [kind @ (1 | 2 | 4), number, _] => step(plan, state, &[kind, number, 0]),
        _ => step(plan, state, event),
    }
}

fn kind_five(plan: &Plan, state: &mut State, event: &[u8]) -> Answer {
    match *event {
        [5, route, unused] => step(plan, state, &[1, route, unused]),
        _ => step(plan, state, event),
    }
}

fn one_route_more(plan: &Plan, state: &mut State, event: &[u8]) -> Answer {
    match *event {
        [1, route, 0] if route > 0 && usize::from(route) == plan.routes.len() => {
            step(plan, state, &[1, route - 1, 0])
        }
        _ => step(plan, state, event),
    }
}
