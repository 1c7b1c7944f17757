//! Two junctions in one plan that know nothing of each other.

use crate::model::plan::{self, Entry, Plan, Release, Route, Track};

/// The numbers by which the second junction's things are moved up.
#[derive(Clone, Copy, Debug)]
pub struct Shift {
    pub tracks: usize,
    pub signals: usize,
    pub routes: usize,
    pub entries: usize,
}

impl Shift {
    /// Behind all that this plan has.
    pub fn behind(plan: &Plan) -> Self {
        Shift {
            tracks: plan.tracks.len(),
            signals: plan.homes.len(),
            routes: plan.routes.len(),
            entries: plan.entries.len(),
        }
    }

    /// An event of the second junction. A number that it does not have stays one that neither has.
    pub fn event(&self, event: [u8; 3]) -> [u8; 3] {
        let up = |number: u8, by: usize| number.saturating_add(by as u8);
        match event {
            [kind @ (1 | 2), route, unused] => [kind, up(route, self.routes), unused],
            [3, entry, train] => [3, up(entry, self.entries), train],
            other => other,
        }
    }

    fn track(&self, track: &Track) -> Track {
        let up = |number: usize| number + self.tracks;
        match *track {
            Track::Plain { next } => Track::Plain { next: up(next) },
            Track::Facing { normal, reverse } => Track::Facing {
                normal: up(normal),
                reverse: up(reverse),
            },
            Track::Trailing {
                next,
                normal_leg,
                reverse_leg,
            } => Track::Trailing {
                next: up(next),
                normal_leg: up(normal_leg),
                reverse_leg: up(reverse_leg),
            },
            Track::Exit => Track::Exit,
        }
    }

    fn list(&self, tracks: &[usize]) -> Vec<usize> {
        tracks.iter().map(|track| track + self.tracks).collect()
    }

    fn route(&self, route: &Route) -> Route {
        let releases = route.releases.iter().map(|release| Release {
            track: release.track + self.tracks,
            point: release.point + self.tracks,
        });
        Route {
            start: route.start + self.signals,
            path: self.list(&route.path),
            clear: self.list(&route.clear),
            normal: self.list(&route.normal),
            reverse: self.list(&route.reverse),
            releases: releases.collect(),
        }
    }

    fn entry(&self, entry: &Entry) -> Entry {
        Entry {
            track: entry.track + self.tracks,
            clear: self.list(&entry.clear),
        }
    }
}

/// One plan behind the other, or nothing if they are too large together.
pub fn beside(first: &Plan, second: &Plan) -> Option<Plan> {
    let shift = Shift::behind(first);
    let mut both = first.clone();
    let tracks = second.tracks.iter().map(|track| shift.track(track));
    both.tracks.extend(tracks);
    both.homes.extend(shift.list(&second.homes));
    let routes = second.routes.iter().map(|route| shift.route(route));
    both.routes.extend(routes);
    let entries = second.entries.iter().map(|entry| shift.entry(entry));
    both.entries.extend(entries);
    let fits = plan::TRACKS.contains(&both.tracks.len())
        && plan::SIGNALS.contains(&both.homes.len())
        && plan::ROUTES.contains(&both.routes.len())
        && plan::ENTRIES.contains(&both.entries.len());
    fits.then_some(both)
}
