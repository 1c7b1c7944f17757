//! Boxes that do not do the work at all, and programs that print the wrong lines.

use super::{Slip, Wrong};
use crate::book::{print_line, Book, MODEL};
use crate::model::answer::{Answer, Refusal};
use crate::model::plan::Plan;
use crate::model::reading::read;
use crate::model::rules;
use crate::model::state::State;
use crate::model::step::step;

pub const ALL: &[Slip] = &[
    ("every plan is accepted", Wrong::Check(|_| None)),
    (
        "everything is refused",
        Wrong::Step(|_, _, _| Answer::Refused(Refusal::BadEvent)),
    ),
    (
        "one stock answer",
        Wrong::Step(|_, _, _| Answer::Granted { route: 0 }),
    ),
    (
        "the state is never altered",
        Wrong::Step(|plan, state, event| step(plan, &mut state.clone(), event)),
    ),
    (
        "the whole list is played at the first event",
        Wrong::Whole(played_at_once),
    ),
    ("40 to 42 are never said", Wrong::Step(never_an_accident)),
    (
        "an incomplete last event is passed over",
        Wrong::Whole(whole_events_alone),
    ),
    (
        "an unreadable plan is followed by answers",
        Wrong::Whole(answers_anyway),
    ),
    ("a broken rule ends the run", Wrong::Whole(stops_at_rule)),
    ("the last line has no end", Wrong::Whole(last_line_open)),
];

fn played_at_once(book: &Book, file: &[u8], events: &[u8]) -> Vec<u8> {
    let Ok(plan) = read(file) else {
        return book.whole_run(file, events);
    };
    let mut state = State::fresh(&plan);
    for event in events.chunks(3) {
        step(&plan, &mut state, event);
    }
    let mut lines = Vec::new();
    print_line(&mut lines, book.verdict(&plan));
    for event in events.chunks(3) {
        print_line(&mut lines, step(&plan, &mut state.clone(), event));
    }
    lines
}

fn never_an_accident(plan: &Plan, state: &mut State, event: &[u8]) -> Answer {
    match step(plan, state, event) {
        Answer::Accident(_) => Answer::Refused(Refusal::BadEvent),
        answer => answer,
    }
}

fn whole_events_alone(book: &Book, file: &[u8], events: &[u8]) -> Vec<u8> {
    book.whole_run(file, &events[..events.len() / 3 * 3])
}

fn answers_anyway(book: &Book, file: &[u8], events: &[u8]) -> Vec<u8> {
    let mut lines = book.whole_run(file, events);
    if read(file).is_err() {
        for _ in events.chunks(3) {
            print_line(&mut lines, Answer::Refused(Refusal::BadEvent));
        }
    }
    lines
}

fn stops_at_rule(book: &Book, file: &[u8], events: &[u8]) -> Vec<u8> {
    let is_broken = read(file).is_ok_and(|plan| rules::check(&plan).is_some());
    let played = if is_broken { &[] } else { events };
    book.whole_run(file, played)
}

fn last_line_open(_: &Book, file: &[u8], events: &[u8]) -> Vec<u8> {
    let mut lines = MODEL.whole_run(file, events);
    lines.pop();
    lines
}
