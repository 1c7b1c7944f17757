//! Each event in words beside its printed line, with what else it has changed or why it was not
//! carried out.

use super::{bytes_in_words, counted, listed, ENDS, MOST_EVENTS};
use crate::document::Session;
use crate::model::plan::{Lie, Plan};
use crate::model::reading::read;
use crate::model::state::State;
use crate::model::step::step;
use std::fmt::Write;
use std::ops::Range;

/// So many events of unknown kinds that differ in nothing but the next kind are told in one row.
const ALIKE: usize = 3;

/// An event as it is told, or several at once: its bytes, in words, its line, and what it means.
struct Told {
    /// Counted from 0.
    first: usize,
    bytes: String,
    words: String,
    line: String,
    note: String,
}

/// The events of each row: most are told alone.
pub fn rows(events: &[u8]) -> Vec<Range<usize>> {
    let events: Vec<&[u8]> = events.chunks(3).collect();
    let is_next = |event: &[u8], next: &[u8]| match (event, next) {
        ([kind, rest @ ..], [next_kind, next_rest @ ..]) => {
            *kind > 4 && kind.checked_add(1) == Some(*next_kind) && rest == next_rest
        }
        _ => false,
    };
    let mut rows = Vec::new();
    let mut first = 0;
    for run in events.chunk_by(|event, next| is_next(event, next)) {
        let end = first + run.len();
        match run.len() >= ALIKE {
            true => rows.push(first..end),
            false => rows.extend((first..end).map(|number| number..number + 1)),
        }
        first = end;
    }
    rows
}

pub fn told(file: &[u8], session: &Session) -> String {
    let count = session.events.len().div_ceil(3);
    if count == 0 {
        return "\nThere are no events (events.bin is empty).\n".to_string();
    }
    let events = counted(count, "event", "events");
    let Ok(plan) = read(file) else {
        let verb = if count == 1 { "is" } else { "are" };
        return format!(
            "\nNothing more is printed: the {events} of events.bin {verb} not answered.\n"
        );
    };
    let told = all(&plan, session);
    let mut text = format!(
        "\nThe {events} (events.bin), each with its bytes, what they say, the line that is printed,\nand \
         what else changes, or why nothing does:\n\n"
    );
    let width = |part: fn(&Told) -> &str| {
        let shown = told.iter().filter(|told| part(told).len() <= 40);
        shown.map(|told| part(told).len()).max().unwrap_or(0)
    };
    let (words, lines) = (width(|told| &told.words), width(|told| &told.line));
    let is_left_out =
        |row: usize| told.len() > MOST_EVENTS && row >= ENDS && row + ENDS < told.len();
    for (row, event) in told.iter().enumerate() {
        if is_left_out(row) {
            if !is_left_out(row - 1) {
                let (first, last) = (event.first + 1, told[told.len() - ENDS].first);
                let words = format!(
                    "events {first} to {last} are left out here; they are in \
                                     events.bin, and their lines in expected.txt"
                );
                let _ = writeln!(text, "\n        ({words})\n");
            }
            continue;
        }
        let row = format!(
            "  {:>4}  {:<11}  {:<words$}  {:<lines$}  {}",
            event.first + 1,
            event.bytes,
            event.words,
            event.line,
            event.note
        );
        let _ = writeln!(text, "{}", row.trim_end());
    }
    text
}

/// Every event, played on the model beside the lines that are expected.
fn all(plan: &Plan, session: &Session) -> Vec<Told> {
    let mut state = State::fresh(plan);
    let lines: Vec<&str> = session.expected.lines().skip(1).collect();
    let events: Vec<&[u8]> = session.events.chunks(3).collect();
    let told = rows(&session.events).into_iter().map(|row| {
        let (first, line) = (row.start, lines[row.start]);
        if row.len() > 1 {
            return told_together(first, &events[row.clone()], &lines[row]);
        }
        let event = events[first];
        let before = state.clone();
        step(plan, &mut state, event);
        let note = match reason(line) {
            Some(reason) => reason,
            None => changes(&before, &state),
        };
        Told {
            first,
            bytes: bytes_in_words(event),
            words: in_words(plan, event),
            line: line.to_string(),
            note,
        }
    });
    told.collect()
}

/// Events of unknown kinds in one row. None of them changes anything.
fn told_together(first: usize, events: &[&[u8]], lines: &[&str]) -> Told {
    assert!(lines.iter().all(|line| *line == lines[0]), "told together");
    let (lowest, highest) = (events[0][0], events[events.len() - 1][0]);
    let rest = bytes_in_words(&events[0][1..]);
    Told {
        first,
        bytes: format!("{lowest}-{highest} {rest}"),
        words: format!("kinds {lowest} to {highest}, all unknown"),
        line: lines[0].to_string(),
        note: format!("{} events, each answered so", events.len()),
    }
}

/// An event in words, with what makes it none.
fn in_words(plan: &Plan, event: &[u8]) -> String {
    let (mut words, mut flaws) = (String::new(), Vec::new());
    match *event {
        [kind @ (1 | 2), route, unused] => {
            let verb = if kind == 1 { "request" } else { "cancel" };
            words = format!("{verb} route {route}");
            flaws.extend(
                (usize::from(route) >= plan.routes.len()).then_some("no such route".into()),
            );
            flaws.extend((unused != 0).then(|| format!("unused byte {unused}")));
        }
        [3, entry, train] => {
            words = format!("enter entry {entry} train {train}");
            flaws.extend(
                (usize::from(entry) >= plan.entries.len()).then_some("no such entry".into()),
            );
            flaws.extend((train == 0).then_some("no such train".into()));
        }
        [4, train, unused] => {
            words = format!("move train {train}");
            flaws.extend((train == 0).then_some("no such train".into()));
            flaws.extend((unused != 0).then(|| format!("unused byte {unused}")));
        }
        [kind, _, _] => words = format!("kind {kind}, which is unknown"),
        _ => words.push_str("an incomplete event"),
    }
    if !flaws.is_empty() {
        words = format!("{words} ({})", flaws.join(", "));
    }
    words
}

/// Why an event was not carried out, from its line.
fn reason(line: &str) -> Option<String> {
    let words: Vec<&str> = line.split(' ').collect();
    let item = words.last()?;
    Some(match *words.get(1)? {
        _ if !matches!(words[0], "refused" | "accident") => return None,
        "11" => "unknown event, unused byte not 0, no such route or entry, or train 0".to_string(),
        "12" => "the start signal is not red".to_string(),
        "13" => format!(
            "train {item} stands on track {} of the clear list",
            words.get(3)?
        ),
        "14" => format!("point {item} is held and would turn"),
        "15" => "the start signal is not green for this route".to_string(),
        "16" => format!("the home, track {item}, has a train"),
        "17" => "the train is already in the plan".to_string(),
        "18" => "the train is not in the plan".to_string(),
        "19" => format!("signal {item} is red"),
        "40" => format!("collision: track {item} has a train"),
        "41" => format!("run-through: point {item} does not lie for the track left"),
        "42" => format!("derailment: point {item} would turn under a train"),
        _ => return None,
    })
}

/// What is different after an event, besides where its train is.
fn changes(before: &State, after: &State) -> String {
    let mut words = Vec::new();
    for (signal, (old, new)) in before.signals.iter().zip(&after.signals).enumerate() {
        match new {
            _ if old == new => {}
            Some(route) => words.push(format!("signal {signal} green for route {route}")),
            None => words.push(format!("signal {signal} red")),
        }
    }
    let mut points: Vec<(String, Vec<u8>)> = Vec::new();
    for point in 0..before.lies.len() {
        let done = done_to(point, before, after);
        match points.iter_mut().find(|(said, _)| *said == done) {
            _ if done.is_empty() => {}
            Some((_, same)) => same.push(point as u8),
            None => points.push((done, vec![point as u8])),
        }
    }
    for (done, points) in points {
        words.push(format!("{} {done}", listed("point", &points)));
    }
    words.join("; ")
}

/// What has been done to a point: turned, and held or given back, beside other routes where there are.
fn done_to(point: usize, before: &State, after: &State) -> String {
    let mut words = Vec::new();
    if before.lies[point] != after.lies[point] {
        words.push(match after.lies[point] {
            Lie::Normal => "turned normal".to_string(),
            Lie::Reverse => "turned reverse".to_string(),
        });
    }
    let (old, new) = (before.holds[point], after.holds[point]);
    let routes = || 0..u64::BITS as usize;
    let mut is_given_back = false;
    for route in routes() {
        match (old.contains(route), new.contains(route)) {
            (false, true) if old.is_empty() => words.push(format!("held by route {route}")),
            (false, true) => words.push(format!("held by route {route} too")),
            (true, false) => {
                words.push(format!("given back by route {route}"));
                is_given_back = true;
            }
            _ => {}
        }
    }
    let left: Vec<u8> = routes()
        .filter(|&route| new.contains(route))
        .map(|route| route as u8)
        .collect();
    if is_given_back && !left.is_empty() {
        words.push(format!("still held by {}", listed("route", &left)));
    }
    words.join(", ")
}
