//! What can keep an image from being a plan's, told apart for counting: what is wrong, and of what.

use crate::model::image::{
    Image, CLEAR_AT, ENTRIES_AT, ENTRY_CLEAR_AT, ENTRY_SIZE, IMAGE_SIZE, NORMAL_AT, PATH_AT,
    RELEASES_AT, REVERSE_AT, ROUTES_AT, ROUTE_SIZE, SIGNALS_AT, TRACKS_AT, TRACK_SIZE,
};
use crate::model::plan;
use std::collections::BTreeSet;
use std::ops::{Range, RangeInclusive};

/// What is wrong, and of what.
pub type Cause = [&'static str; 2];

pub const ABOVE: &str = "a count above its most";
pub const BELOW: &str = "a count below its least";
pub const NOTHING: &str = "a number that stands for nothing";
pub const NO_POINT: &str = "a point that is none";
pub const UNUSED: &str = "an unused byte that is not 0";
pub const FALLS: &str = "a list that does not rise";
pub const JUST_PAST: &str = "a byte in the first place past a count";
pub const FURTHER: &str = "a byte further past a count";
pub const AT_LAST: &str = "a byte in the last place past a count";

pub const KIND: &str = "kind";
pub const TRACK_NUMBER: &str = "a track's number";
pub const START: &str = "start";
pub const ENTRY_TRACK: &str = "entry track";
pub const RELEASE_TRACK: &str = "release track";
pub const TRACKS: &str = "tracks";
pub const SIGNALS: &str = "signals";
pub const ROUTES: &str = "routes";
pub const ENTRIES: &str = "entries";
pub const PATH: &str = "path";
pub const CLEAR: &str = "clear";
pub const NORMAL: &str = "normal";
pub const REVERSE: &str = "reverse";
pub const RELEASES: &str = "releases";
pub const ENTRY_CLEAR: &str = "an entry's clear";

const COUNTED: [(&str, RangeInclusive<usize>); 10] = [
    (TRACKS, plan::TRACKS),
    (SIGNALS, plan::SIGNALS),
    (ROUTES, plan::ROUTES),
    (PATH, plan::PATH),
    (CLEAR, plan::CLEAR),
    (NORMAL, plan::POINTS),
    (REVERSE, plan::POINTS),
    (RELEASES, plan::RELEASES),
    (ENTRIES, plan::ENTRIES),
    (ENTRY_CLEAR, plan::CLEAR),
];

const NAMING: [&str; 12] = [
    KIND,
    TRACK_NUMBER,
    SIGNALS,
    START,
    PATH,
    CLEAR,
    NORMAL,
    REVERSE,
    RELEASE_TRACK,
    RELEASES,
    ENTRY_TRACK,
    ENTRY_CLEAR,
];

const RISING: [&str; 7] = [
    SIGNALS,
    CLEAR,
    NORMAL,
    REVERSE,
    RELEASES,
    ENTRY_TRACK,
    ENTRY_CLEAR,
];

pub const PLAIN: &str = "plain track";
pub const FACING: &str = "facing point";
pub const TRAILING: &str = "trailing point";
pub const EXIT: &str = "exit";
const KINDS: [&str; 4] = [PLAIN, FACING, TRAILING, EXIT];

/// Every cause that there is.
pub fn names() -> Vec<Cause> {
    let mut names = Vec::new();
    names.extend(COUNTED.map(|(of, _)| [ABOVE, of]));
    names.extend([TRACKS, PATH].map(|of| [BELOW, of]));
    names.extend(NAMING.map(|of| [NOTHING, of]));
    names.extend([NORMAL, REVERSE, RELEASES].map(|of| [NO_POINT, of]));
    // A trailing point has no unused byte.
    names.extend([PLAIN, FACING, EXIT].map(|kind| [UNUSED, kind]));
    names.extend(RISING.map(|of| [FALLS, of]));
    for what in [JUST_PAST, FURTHER, AT_LAST] {
        names.extend(COUNTED.map(|(of, _)| [what, of]));
    }
    names
}

/// How many there may be of this.
pub fn most(of: &str) -> usize {
    let found = COUNTED.into_iter().find(|(counted, _)| *counted == of);
    let (_, limits) = found.expect("it is counted");
    *limits.end()
}

/// The only one of these causes, if there is no other.
pub fn only(causes: &BTreeSet<Cause>) -> Option<Cause> {
    let only = (causes.len() == 1).then(|| causes.first());
    only.flatten().copied()
}

/// Every cause for which an image is no plan's.
pub fn all(image: &Image) -> BTreeSet<Cause> {
    let mut look = Look {
        image,
        tracks: *plan::TRACKS.end(),
        found: BTreeSet::new(),
    };
    look.tracks();
    let homes = look.items(SIGNALS_AT..ROUTES_AT, 1, plan::SIGNALS, SIGNALS);
    look.rising(SIGNALS, homes, Look::is_track);
    let signals = match image[SIGNALS_AT].into() {
        count if plan::SIGNALS.contains(&count) => count,
        _ => *plan::SIGNALS.end(),
    };
    for row in look.items(ROUTES_AT..ENTRIES_AT, ROUTE_SIZE, plan::ROUTES, ROUTES) {
        look.route(row, signals);
    }
    let entries = look.items(ENTRIES_AT..IMAGE_SIZE, ENTRY_SIZE, plan::ENTRIES, ENTRIES);
    look.rising(ENTRY_TRACK, entries.clone(), Look::is_track);
    for row in entries {
        let list = row + ENTRY_CLEAR_AT..row + ENTRY_SIZE;
        let clear = look.items(list, 1, plan::CLEAR, ENTRY_CLEAR);
        look.rising(ENTRY_CLEAR, clear, Look::is_track);
    }
    look.found
}

/// Where items begin.
type Items = std::iter::StepBy<Range<usize>>;

struct Look<'a> {
    image: &'a Image,
    /// As many as there may be where their count is beyond its limits, so that nothing else is
    /// wrong for it.
    tracks: usize,
    found: BTreeSet<Cause>,
}

impl Look<'_> {
    fn byte(&self, at: usize) -> usize {
        usize::from(self.image[at])
    }

    fn is_track(&self, track: usize) -> bool {
        track < self.tracks
    }

    fn is_point(&self, track: usize) -> bool {
        self.is_track(track) && matches!(self.byte(1 + TRACK_SIZE * track), 1 | 2)
    }

    fn demand(&mut self, holds: bool, cause: Cause) {
        if !holds {
            self.found.insert(cause);
        }
    }

    /// The items of a list, after a look past them. There are none where their count is beyond its
    /// limits.
    fn items(
        &mut self,
        list: Range<usize>,
        size: usize,
        limits: RangeInclusive<usize>,
        of: &'static str,
    ) -> Items {
        let count = self.byte(list.start);
        self.demand(count <= *limits.end(), [ABOVE, of]);
        self.demand(count >= *limits.start(), [BELOW, of]);
        let first = list.start + 1;
        if !limits.contains(&count) {
            return (first..first).step_by(size);
        }
        let past = first + size * count;
        self.look_past(past..list.end, size, of);
        (first..past).step_by(size)
    }

    fn look_past(&mut self, past: Range<usize>, size: usize, of: &'static str) {
        let bytes = self.image[past.clone()].iter();
        if bytes.fold(0, |met, byte| met | byte) == 0 {
            return;
        }
        for at in past.clone().filter(|&at| self.image[at] != 0) {
            let what = match at {
                _ if at < past.start + size => JUST_PAST,
                _ if at >= past.end - size => AT_LAST,
                _ => FURTHER,
            };
            self.found.insert([what, of]);
        }
    }

    fn tracks(&mut self) {
        let rows = self.items(TRACKS_AT..SIGNALS_AT, TRACK_SIZE, plan::TRACKS, TRACKS);
        if rows.len() > 0 {
            self.tracks = rows.len();
        }
        for row in rows {
            let kind = self.byte(row);
            self.demand(kind < KINDS.len(), [NOTHING, KIND]);
            let in_use = match kind {
                0..=2 => kind + 1,
                3 => 0,
                // What the bytes would be is not known.
                _ => continue,
            };
            for place in 1..TRACK_SIZE {
                let number = self.byte(row + place);
                match place <= in_use {
                    true => self.demand(self.is_track(number), [NOTHING, TRACK_NUMBER]),
                    false => self.demand(number == 0, [UNUSED, KINDS[kind]]),
                }
            }
        }
    }

    /// Numbers of which each names something and is above the last one that did.
    fn rising(&mut self, of: &'static str, items: Items, is_good: fn(&Self, usize) -> bool) {
        let mut before = None;
        for at in items {
            let number = self.byte(at);
            if !is_good(self, number) {
                let is_track = self.is_track(number);
                let what = if is_track { NO_POINT } else { NOTHING };
                self.found.insert([what, of]);
                continue;
            }
            self.demand(before < Some(number), [FALLS, of]);
            before = Some(number);
        }
    }

    /// Numbers of tracks in any order.
    fn tracks_of(&mut self, of: &'static str, items: Items) {
        for at in items {
            let is_track = self.is_track(self.byte(at));
            self.demand(is_track, [NOTHING, of]);
        }
    }

    fn route(&mut self, row: usize, signals: usize) {
        self.demand(self.byte(row) < signals, [NOTHING, START]);
        let list = |one: usize, next: usize| row + one..row + next;
        let path = self.items(list(PATH_AT, CLEAR_AT), 1, plan::PATH, PATH);
        self.tracks_of(PATH, path);
        let clear = self.items(list(CLEAR_AT, NORMAL_AT), 1, plan::CLEAR, CLEAR);
        self.rising(CLEAR, clear, Self::is_track);
        let normal = self.items(list(NORMAL_AT, REVERSE_AT), 1, plan::POINTS, NORMAL);
        self.rising(NORMAL, normal, Self::is_point);
        let reverse = self.items(list(REVERSE_AT, RELEASES_AT), 1, plan::POINTS, REVERSE);
        self.rising(REVERSE, reverse, Self::is_point);
        let releases = list(RELEASES_AT, ROUTE_SIZE);
        let pairs = self.items(releases.clone(), 2, plan::RELEASES, RELEASES);
        self.tracks_of(RELEASE_TRACK, pairs.clone());
        let points = releases.start + 2..releases.start + 2 + 2 * pairs.len();
        self.rising(RELEASES, points.step_by(2), Self::is_point);
    }
}
