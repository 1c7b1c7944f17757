//! What a readable plan says, as plain data. Nothing here knows the twelve rules.

use std::ops::RangeInclusive;

pub const TRACKS: RangeInclusive<usize> = 1..=64;
pub const SIGNALS: RangeInclusive<usize> = 0..=32;
pub const ROUTES: RangeInclusive<usize> = 0..=48;
pub const ENTRIES: RangeInclusive<usize> = 0..=16;
pub const PATH: RangeInclusive<usize> = 1..=32;
pub const CLEAR: RangeInclusive<usize> = 0..=64;
pub const POINTS: RangeInclusive<usize> = 0..=16;
pub const RELEASES: RangeInclusive<usize> = 0..=32;

/// How many cells a state needs for its tracks and its signals.
pub const MOST_TRACKS: usize = *TRACKS.end();
pub const MOST_SIGNALS: usize = *SIGNALS.end();

/// The size in bytes of the largest file that can be read.
pub const LARGEST_FILE: usize = 10_852;

/// The way a point lies.
#[derive(Clone, Copy, Debug, PartialEq, Eq)]
pub enum Lie {
    Normal,
    Reverse,
}

/// A track, by what a train on it can do next.
#[derive(Clone, Copy, Debug, PartialEq, Eq)]
pub enum Track {
    Plain {
        next: usize,
    },
    Facing {
        normal: usize,
        reverse: usize,
    },
    Trailing {
        next: usize,
        normal_leg: usize,
        reverse_leg: usize,
    },
    Exit,
}

impl Track {
    pub fn is_point(&self) -> bool {
        matches!(self, Track::Facing { .. } | Track::Trailing { .. })
    }

    pub fn is_plain(&self) -> bool {
        matches!(self, Track::Plain { .. })
    }

    /// The tracks this one leads to. A facing point with both ways to one track yields it twice.
    pub fn leads(&self) -> impl Iterator<Item = usize> {
        let (one, other) = match *self {
            Track::Plain { next } | Track::Trailing { next, .. } => (Some(next), None),
            Track::Facing { normal, reverse } => (Some(normal), Some(reverse)),
            Track::Exit => (None, None),
        };
        one.into_iter().chain(other)
    }

    pub fn leads_to(&self, track: usize) -> bool {
        self.leads().any(|led_to| led_to == track)
    }
}

/// On a train's arrival at `track` the route's hold of `point` is dropped.
#[derive(Clone, Copy, Debug, PartialEq, Eq)]
pub struct Release {
    pub track: usize,
    pub point: usize,
}

#[derive(Clone, Debug, PartialEq, Eq)]
pub struct Route {
    pub start: usize,
    pub path: Vec<usize>,
    pub clear: Vec<usize>,
    pub normal: Vec<usize>,
    pub reverse: Vec<usize>,
    pub releases: Vec<Release>,
}

impl Route {
    /// The listed points, those of the normal list first.
    pub fn listed(&self) -> impl Iterator<Item = usize> + '_ {
        self.normal.iter().chain(&self.reverse).copied()
    }

    pub fn lists(&self, point: usize) -> bool {
        self.normal.contains(&point) || self.reverse.contains(&point)
    }
}

#[derive(Clone, Debug, PartialEq, Eq)]
pub struct Entry {
    pub track: usize,
    pub clear: Vec<usize>,
}

/// A plan that has been read: every number in it names something that exists, every list that
/// must rise does.
#[derive(Clone, Debug, PartialEq, Eq)]
pub struct Plan {
    pub tracks: Vec<Track>,
    /// The home track of each signal.
    pub homes: Vec<usize>,
    pub routes: Vec<Route>,
    pub entries: Vec<Entry>,
}

impl Plan {
    /// The signal whose home is this track; homes rise, so there is at most one.
    pub fn signal_at(&self, track: usize) -> Option<usize> {
        self.homes.binary_search(&track).ok()
    }

    pub fn is_home(&self, track: usize) -> bool {
        self.signal_at(track).is_some()
    }

    pub fn is_point(&self, track: usize) -> bool {
        self.tracks.get(track).is_some_and(Track::is_point)
    }

    pub fn home_of(&self, route: &Route) -> usize {
        self.homes[route.start]
    }
}
