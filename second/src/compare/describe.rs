//! Plans, states and events in words, for the person who has to find the mistake.

use super::trouble::Work;
use crate::generate::images::{Base, Writing};
use crate::generate::pieces::{Piece, Pieces};
use crate::model::plan::{Plan, Track, MOST_TRACKS};
use crate::model::reading::read;
use crate::model::state::Arrays;
use crate::subject::Kept;
use std::fmt::Write;

pub fn plan(file: &[u8]) -> String {
    let mut words = format!("plan of {} bytes: {file:?}\n", file.len());
    match read(file) {
        Ok(plan) => words.push_str(&readable_plan(&plan)),
        Err(fault) => {
            let _ = writeln!(words, "  unreadable at {:?}", fault.place);
        }
    }
    words
}

fn readable_plan(plan: &Plan) -> String {
    let mut words = String::new();
    for (number, track) in plan.tracks.iter().enumerate() {
        let _ = writeln!(words, "  track {number}: {}", track_in_words(track));
    }
    for (number, home) in plan.homes.iter().enumerate() {
        let _ = writeln!(words, "  signal {number}: home {home}");
    }
    for (number, route) in plan.routes.iter().enumerate() {
        let releases: Vec<(usize, usize)> = route
            .releases
            .iter()
            .map(|release| (release.track, release.point))
            .collect();
        let _ = writeln!(
            words,
            "  route {number}: from signal {} by {:?}, clear {:?}, normal {:?}, reverse {:?}, \
             releases {releases:?}",
            route.start, route.path, route.clear, route.normal, route.reverse
        );
    }
    for (number, entry) in plan.entries.iter().enumerate() {
        let _ = writeln!(
            words,
            "  entry {number}: track {}, clear {:?}",
            entry.track, entry.clear
        );
    }
    words
}

fn track_in_words(track: &Track) -> String {
    match track {
        Track::Plain { next } => format!("plain to {next}"),
        Track::Facing { normal, reverse } => format!("facing to {normal} or reverse {reverse}"),
        Track::Trailing {
            next,
            normal_leg,
            reverse_leg,
        } => format!("trailing from {normal_leg} or reverse {reverse_leg} to {next}"),
        Track::Exit => "exit".to_string(),
    }
}

/// All that is not fresh.
pub fn state(arrays: &Arrays) -> String {
    let mut words = Vec::new();
    for track in 0..MOST_TRACKS {
        if arrays.trains[track] != 0 {
            words.push(format!("train {} on {track}", arrays.trains[track]));
        }
        if arrays.lies[track] != 0 {
            words.push(format!("lie {} at {track}", arrays.lies[track]));
        }
        if arrays.holds[track] != 0 {
            words.push(format!("{track} held by {:?}", routes(arrays.holds[track])));
        }
    }
    for (signal, &cell) in arrays.signals.iter().enumerate() {
        if cell != 0 {
            words.push(format!("signal {signal} green for {}", cell - 1));
        }
    }
    if words.is_empty() {
        "a fresh state".to_string()
    } else {
        words.join(", ")
    }
}

/// All that is not fresh, with the unfinished event.
pub fn kept(kept: &Kept) -> String {
    match kept.unfinished {
        [0, 0, 0] => state(&kept.state),
        bytes => format!("{} and unfinished {bytes:?}", state(&kept.state)),
    }
}

fn routes(set: u64) -> Vec<usize> {
    (0..u64::BITS as usize)
        .filter(|route| set >> route & 1 == 1)
        .collect()
}

pub fn event(event: &[u8]) -> String {
    match *event {
        [1, route, 0] => format!("request route {route}"),
        [2, route, 0] => format!("cancel route {route}"),
        [3, entry, train] => format!("enter train {train} at entry {entry}"),
        [4, train, 0] => format!("move train {train}"),
        _ => format!("event {event:?}"),
    }
}

pub fn work(work: &Work) -> String {
    match work {
        Work::Read => "reading it\n".to_string(),
        Work::Check => "checking it\n".to_string(),
        Work::Run(events) => format!("a whole run:\n{}", events_in_words(events)),
        Work::Step(arrays, bytes) => {
            format!(
                "one step from {}:\n{}",
                state(arrays),
                events_in_words(bytes)
            )
        }
        Work::Agreement(pair) => format!(
            "request route {} from two states:\n  {}\n  {}\n",
            pair.route,
            state(&pair.one),
            state(&pair.other)
        ),
        Work::List(list) => format!(
            "many events at once from {}, room for {} answers:\n{}",
            state(&list.from),
            list.room,
            events_in_words(&list.events)
        ),
        Work::Pieces(session) => pieces_in_words(session),
        Work::Fresh(memory) => format!("the fresh state in memory with {}\n", kept(memory)),
        Work::Open(room) => format!("the line for the plan, room for {room} bytes\n"),
        Work::Load(fill) => format!("loading it into an image of marks, fill {fill}\n"),
        Work::Write(writing) => writing_in_words(writing),
    }
}

fn writing_in_words(writing: &Writing) -> String {
    let base = match writing.base {
        Base::Plan => "its image",
        Base::Empty => "an image of 0",
    };
    let mut words = format!("writing {base}, into buffers of {:?} bytes", writing.rooms);
    let _ = writeln!(words, ", fill {}:", writing.fill);
    for (at, byte) in &writing.changes {
        let _ = writeln!(words, "  byte {at} made {byte}");
    }
    words
}

fn pieces_in_words(session: &Pieces) -> String {
    let mut words = format!("an input in pieces from {}:\n", kept(&session.from));
    for Piece { bytes, room } in &session.pieces {
        let _ = writeln!(words, "  {bytes:?}, room for {room} bytes of lines");
    }
    let _ = writeln!(words, "  its end, room for {} bytes", session.ending);
    words
}

fn events_in_words(events: &[u8]) -> String {
    events
        .chunks(3)
        .map(|bytes| format!("  {}\n", event(bytes)))
        .collect()
}
