//! Small cuts in a readable plan, with the work on it put right for what is gone.

use super::trouble::Work;
use crate::generate::case::Pair;
use crate::generate::pieces::Pieces;
use crate::model::image::{ENTRIES_AT, ENTRY_SIZE, IMAGE_SIZE, ROUTES_AT, ROUTE_SIZE};
use crate::model::plan::{Plan, Release, Route, Track};
use crate::model::state::Arrays;
use crate::subject::EVENT;
use std::ops::Range;

#[derive(Clone, Copy, Debug)]
pub enum Cut {
    Entry(usize),
    Route(usize),
    Signal(usize),
    /// A track that nothing names.
    Track(usize),
    /// All lists of a route at once; its path keeps its first track.
    Lists(usize),
    /// The track becomes an exit, so that others may come to be named by nothing.
    Exit(usize),
    EntryClear(usize, usize),
    Path(usize, usize),
    Clear(usize, usize),
    Normal(usize, usize),
    Reverse(usize, usize),
    Release(usize, usize),
}

/// All cuts that can be tried on a plan, the large ones first.
pub fn cuts(plan: &Plan) -> Vec<Cut> {
    let mut cuts: Vec<Cut> = Vec::new();
    cuts.extend((0..plan.routes.len()).rev().map(Cut::Route));
    cuts.extend((0..plan.entries.len()).rev().map(Cut::Entry));
    cuts.extend((0..plan.routes.len()).map(Cut::Lists));
    cuts.extend((0..plan.homes.len()).rev().map(Cut::Signal));
    cuts.extend((0..plan.tracks.len()).rev().map(Cut::Track));
    cuts.extend((0..plan.tracks.len()).map(Cut::Exit));
    for (number, entry) in plan.entries.iter().enumerate() {
        cuts.extend((0..entry.clear.len()).map(|item| Cut::EntryClear(number, item)));
    }
    for (number, route) in plan.routes.iter().enumerate() {
        cuts.extend((0..route.path.len()).map(|item| Cut::Path(number, item)));
        cuts.extend((0..route.clear.len()).map(|item| Cut::Clear(number, item)));
        cuts.extend((0..route.normal.len()).map(|item| Cut::Normal(number, item)));
        cuts.extend((0..route.reverse.len()).map(|item| Cut::Reverse(number, item)));
        cuts.extend((0..route.releases.len()).map(|item| Cut::Release(number, item)));
    }
    cuts
}

/// The plan and the work after a cut, or nothing if it cannot be made.
pub fn apply(cut: Cut, plan: &Plan, work: &Work) -> Option<(Plan, Work)> {
    let mut plan = plan.clone();
    let mut work = work.clone();
    match cut {
        Cut::Entry(number) => {
            plan.entries.remove(number);
            drop_events(&mut work, &[3], number);
            drop_row(&mut work, ENTRIES_AT..IMAGE_SIZE, ENTRY_SIZE, number);
        }
        Cut::Route(number) => {
            plan.routes.remove(number);
            drop_events(&mut work, &[1, 2], number);
            change_states(&mut work, |arrays| drop_route(arrays, number));
            drop_row(&mut work, ROUTES_AT..ENTRIES_AT, ROUTE_SIZE, number);
        }
        Cut::Signal(number) => {
            cut_signal(&mut plan, number)?;
            change_states(&mut work, |arrays| close_up(&mut arrays.signals, number));
        }
        Cut::Track(number) => {
            cut_track(&mut plan, number)?;
            change_states(&mut work, |arrays| {
                close_up(&mut arrays.trains, number);
                close_up(&mut arrays.lies, number);
                close_up(&mut arrays.holds, number);
            });
        }
        Cut::Lists(number) => cut_lists(&mut plan.routes[number])?,
        Cut::Exit(number) => {
            let old = std::mem::replace(&mut plan.tracks[number], Track::Exit);
            (old != Track::Exit).then_some(())?;
        }
        _ => cut_item(cut, &mut plan),
    }
    Some((plan, work))
}

fn cut_item(cut: Cut, plan: &mut Plan) {
    match cut {
        Cut::EntryClear(number, item) => {
            plan.entries[number].clear.remove(item);
        }
        Cut::Path(number, item) => {
            plan.routes[number].path.remove(item);
        }
        Cut::Clear(number, item) => {
            plan.routes[number].clear.remove(item);
        }
        Cut::Normal(number, item) => {
            plan.routes[number].normal.remove(item);
        }
        Cut::Reverse(number, item) => {
            plan.routes[number].reverse.remove(item);
        }
        Cut::Release(number, item) => {
            plan.routes[number].releases.remove(item);
        }
        _ => {}
    }
}

fn cut_lists(route: &mut Route) -> Option<()> {
    let before = route.clone();
    route.path.truncate(1);
    route.clear.clear();
    route.normal.clear();
    route.reverse.clear();
    route.releases.clear();
    (*route != before).then_some(())
}

fn cut_signal(plan: &mut Plan, signal: usize) -> Option<()> {
    let in_use = plan.routes.iter().any(|route| route.start == signal);
    (!in_use).then_some(())?;
    plan.homes.remove(signal);
    for route in &mut plan.routes {
        route.start -= usize::from(route.start > signal);
    }
    Some(())
}

fn cut_track(plan: &mut Plan, track: usize) -> Option<()> {
    plan.tracks.remove(track);
    // Every number in the plan goes through this; a named track cannot be cut.
    let mut named = false;
    let mut close = |number: &mut usize| {
        named |= *number == track;
        *number -= usize::from(*number > track);
    };
    for other in &mut plan.tracks {
        for_numbers(other, &mut close);
    }
    plan.homes.iter_mut().for_each(&mut close);
    for entry in &mut plan.entries {
        close(&mut entry.track);
        entry.clear.iter_mut().for_each(&mut close);
    }
    for route in &mut plan.routes {
        for_route_numbers(route, &mut close);
    }
    (!named).then_some(())
}

fn for_numbers(track: &mut Track, change: &mut impl FnMut(&mut usize)) {
    match track {
        Track::Plain { next } => change(next),
        Track::Facing { normal, reverse } => {
            change(normal);
            change(reverse);
        }
        Track::Trailing {
            next,
            normal_leg,
            reverse_leg,
        } => {
            change(next);
            change(normal_leg);
            change(reverse_leg);
        }
        Track::Exit => {}
    }
}

fn for_route_numbers(route: &mut Route, change: &mut impl FnMut(&mut usize)) {
    let lists = [
        &mut route.path,
        &mut route.clear,
        &mut route.normal,
        &mut route.reverse,
    ];
    for list in lists {
        list.iter_mut().for_each(&mut *change);
    }
    for Release { track, point } in &mut route.releases {
        change(track);
        change(point);
    }
}

/// Moves the cells behind a dropped one up by one.
fn close_up<T: Copy + Default>(cells: &mut [T], dropped: usize) {
    cells.copy_within(dropped + 1.., dropped);
    if let Some(last) = cells.last_mut() {
        *last = T::default();
    }
}

fn drop_route(arrays: &mut Arrays, number: usize) {
    for routes in &mut arrays.holds {
        let below = *routes & ((1 << number) - 1);
        *routes = below | ((*routes >> number >> 1) << number);
    }
    let cell = number as u8 + 1;
    for green in &mut arrays.signals {
        match (*green).cmp(&cell) {
            std::cmp::Ordering::Less => {}
            std::cmp::Ordering::Equal => *green = 0,
            std::cmp::Ordering::Greater => *green -= 1,
        }
    }
}

fn change_states(work: &mut Work, change: impl Fn(&mut Arrays)) {
    match work {
        Work::Step(arrays, _) => change(arrays),
        Work::List(list) => change(&mut list.from),
        Work::Pieces(session) => change(&mut session.from.state),
        Work::Agreement(pair) => {
            let Pair { one, other, .. } = &mut **pair;
            change(one);
            change(other);
        }
        _ => {}
    }
}

/// Moves the changed bytes of an image up by a row, if they stand behind the one that was dropped.
fn drop_row(work: &mut Work, section: Range<usize>, size: usize, row: usize) {
    let Work::Write(writing) = work else { return };
    let behind = section.start + 1 + size * (row + 1)..section.end;
    let changes = writing.changes.iter_mut();
    changes
        .filter(|(at, _)| behind.contains(at))
        .for_each(|(at, _)| *at -= size);
}

/// Renames the events behind what was dropped; those that name it become none, so that the others
/// stay where they are, whole or in pieces.
fn drop_events(work: &mut Work, kinds: &[u8], dropped: usize) {
    let dropped = dropped as u8;
    let names = |kind: u8| kinds.contains(&kind);
    let rename = |event: &mut [u8]| match event {
        [kind, number, _] if names(*kind) && *number == dropped => *kind = 0,
        [kind, number, _] if names(*kind) && *number > dropped => *number -= 1,
        _ => {}
    };
    match work {
        Work::Run(events) => events.chunks_mut(EVENT).for_each(rename),
        Work::List(list) => list.events.chunks_mut(EVENT).for_each(rename),
        Work::Pieces(session) => rename_in_pieces(session, rename),
        Work::Step(_, event) => rename(event),
        Work::Agreement(pair) if names(1) => pair.route -= u8::from(pair.route > dropped),
        _ => {}
    }
}

/// Puts the input together, renames, and cuts it where it was cut.
fn rename_in_pieces(session: &mut Pieces, rename: impl Fn(&mut [u8])) {
    let begun = session.from.begun().map_or(0, <[u8]>::len);
    let cells = session.from.unfinished[1..][..begun].iter_mut();
    let bytes = session.pieces.iter_mut().flat_map(|piece| &mut piece.bytes);
    let mut places: Vec<&mut u8> = cells.chain(bytes).collect();
    let mut input: Vec<u8> = places.iter().map(|place| **place).collect();
    input.chunks_mut(EVENT).for_each(rename);
    for (place, byte) in places.iter_mut().zip(input) {
        **place = byte;
    }
}
