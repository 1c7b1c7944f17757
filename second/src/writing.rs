//! A plan back into the bytes of its file, with the part of the file that each byte belongs to, and
//! where the bytes of a file stand in an image.

use crate::model::image::{
    Image, CLEAR_AT, ENTRIES_AT, ENTRY_CLEAR_AT, ENTRY_SIZE, IMAGE_SIZE, NORMAL_AT, PATH_AT,
    RELEASES_AT, REVERSE_AT, ROUTES_AT, ROUTE_SIZE, SIGNALS_AT, TRACKS_AT, TRACK_SIZE,
};
use crate::model::plan::{Entry, Plan, Route, Track};
use crate::model::reading::Place;
use std::ops::Range;

/// The bytes of a file and, for each of them, its place.
#[derive(Clone, Debug, Default)]
pub struct File {
    pub bytes: Vec<u8>,
    pub places: Vec<Place>,
}

/// Writes a plan. Nothing is checked, so that a bad plan can be written too.
pub fn write(plan: &Plan) -> Vec<u8> {
    write_with_places(plan).bytes
}

pub fn write_with_places(plan: &Plan) -> File {
    let mut file = File::default();
    file.put(Place::TrackCount, plan.tracks.len());
    for track in &plan.tracks {
        file.put_track(track);
    }
    file.put_list(Place::SignalCount, Place::Home, &plan.homes);
    file.put(Place::RouteCount, plan.routes.len());
    for route in &plan.routes {
        file.put_route(route);
    }
    file.put(Place::EntryCount, plan.entries.len());
    for entry in &plan.entries {
        file.put_entry(entry);
    }
    file
}

impl File {
    fn put(&mut self, place: Place, number: usize) {
        self.bytes.push(number as u8);
        self.places.push(place);
    }

    fn put_list(&mut self, count_place: Place, place: Place, list: &[usize]) {
        self.put(count_place, list.len());
        for &number in list {
            self.put(place, number);
        }
    }

    fn put_track(&mut self, track: &Track) {
        let (kind, numbers) = match *track {
            Track::Plain { next } => (0, vec![next]),
            Track::Facing { normal, reverse } => (1, vec![normal, reverse]),
            Track::Trailing {
                next,
                normal_leg,
                reverse_leg,
            } => (2, vec![next, normal_leg, reverse_leg]),
            Track::Exit => (3, vec![]),
        };
        self.put(Place::TrackKind, kind);
        for &number in &numbers {
            self.put(Place::TrackNumber, number);
        }
        for _ in numbers.len()..3 {
            self.put(Place::UnusedByte, 0);
        }
    }

    fn put_route(&mut self, route: &Route) {
        self.put(Place::Start, route.start);
        self.put_list(Place::PathCount, Place::Path, &route.path);
        self.put_list(Place::ClearCount, Place::Clear, &route.clear);
        self.put_list(Place::NormalCount, Place::Normal, &route.normal);
        self.put_list(Place::ReverseCount, Place::Reverse, &route.reverse);
        self.put(Place::ReleaseCount, route.releases.len());
        for release in &route.releases {
            self.put(Place::ReleaseTrack, release.track);
            self.put(Place::ReleasePoint, release.point);
        }
    }

    fn put_entry(&mut self, entry: &Entry) {
        self.put(Place::EntryTrack, entry.track);
        self.put_list(Place::EntryClearCount, Place::EntryClear, &entry.clear);
    }
}

/// The five lists of a route, and how many bytes an item of each has.
pub const ROUTE_LISTS: [(Range<usize>, usize); 5] = [
    (PATH_AT..CLEAR_AT, 1),
    (CLEAR_AT..NORMAL_AT, 1),
    (NORMAL_AT..REVERSE_AT, 1),
    (REVERSE_AT..RELEASES_AT, 1),
    (RELEASES_AT..ROUTE_SIZE, 2),
];

/// The parts of an image that its counts ask for, in the order of the file. A count that is too high
/// asks for no more than there is room.
fn parts(image: &Image) -> Vec<Range<usize>> {
    let mut parts = vec![
        counted(image, TRACKS_AT..SIGNALS_AT, TRACK_SIZE),
        counted(image, SIGNALS_AT..ROUTES_AT, 1),
        ROUTES_AT..ROUTES_AT + 1,
    ];
    for row in rows(image, ROUTES_AT..ENTRIES_AT, ROUTE_SIZE) {
        parts.push(row..row + 1);
        let lists = ROUTE_LISTS.into_iter();
        parts.extend(
            lists.map(|(list, item_size)| {
                counted(image, row + list.start..row + list.end, item_size)
            }),
        );
    }
    parts.push(ENTRIES_AT..ENTRIES_AT + 1);
    for row in rows(image, ENTRIES_AT..IMAGE_SIZE, ENTRY_SIZE) {
        parts.push(row..row + 1);
        parts.push(counted(image, row + ENTRY_CLEAR_AT..row + ENTRY_SIZE, 1));
    }
    parts
}

/// A list as far as its count goes, the count included.
fn counted(image: &Image, list: Range<usize>, item_size: usize) -> Range<usize> {
    let length = 1 + item_size * usize::from(image[list.start]);
    list.start..list.end.min(list.start + length)
}

/// Where the rows of a section begin.
fn rows(image: &Image, section: Range<usize>, size: usize) -> impl Iterator<Item = usize> {
    counted(image, section, size).skip(1).step_by(size)
}

/// Where in an image each byte stands that its counts ask for.
pub fn offsets(image: &Image) -> impl Iterator<Item = usize> {
    parts(image).into_iter().flatten()
}

/// Where the sections end in the file that the counts of an image ask for.
pub fn section_ends(image: &Image) -> [usize; 4] {
    let parts = parts(image);
    [SIGNALS_AT, ROUTES_AT, ENTRIES_AT, IMAGE_SIZE].map(|end| {
        let before = parts.iter().take_while(|part| part.start < end);
        before.map(Range::len).sum()
    })
}

/// The one file that an image can be: what its counts ask for.
pub fn by_counts(image: &Image) -> Vec<u8> {
    let parts = parts(image).into_iter().map(|part| &image[part]);
    parts.collect::<Vec<_>>().concat()
}
