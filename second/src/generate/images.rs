//! Images to be written: a plan's own, with something wrong in it, or with hardly anything or
//! anything at all; and the buffers that are lent for their files.

use super::faults::{self, can_occur, one_byte_changed, with_fault, PLACES};
use crate::model::image::{
    self, Image, ENTRIES_AT, ENTRY_CLEAR_AT, ENTRY_SIZE, IMAGE_SIZE, ROUTES_AT, ROUTE_SIZE,
    SIGNALS_AT, TRACKS_AT, TRACK_SIZE,
};
use crate::model::plan::{Plan, LARGEST_FILE, MOST_TRACKS};
use crate::model::reading::{limits, Place};
use crate::random::Random;
use crate::writing::{offsets, section_ends, ROUTE_LISTS};
use std::ops::Range;

/// One more than a number of 16 bits can be.
pub const LONG: usize = 1 << 16;

/// The length of a very long buffer.
pub const VERY_LONG: usize = 200_000;

/// Plans with no longer files are written into more buffers, and into very long ones.
const SMALL: usize = 60;

/// What an image is before bytes of it are changed.
#[derive(Clone, Copy, Debug, PartialEq, Eq)]
pub enum Base {
    /// That of the plan at hand; nothing but 0 where there is none.
    Plan,
    /// Nothing but 0.
    Empty,
}

/// An offset of an image, and the byte that is put there.
pub type Change = (usize, u8);

/// An image, and the buffers into which it is to be written.
#[derive(Clone, Debug, PartialEq, Eq)]
pub struct Writing {
    pub base: Base,
    pub changes: Vec<Change>,
    /// How long each buffer is.
    pub rooms: Vec<usize>,
    /// For the marks in the buffers.
    pub fill: u8,
}

impl Writing {
    /// Makes an image this one.
    pub fn show(&self, of_plan: &Image, image: &mut Image) {
        match self.base {
            Base::Plan => image.copy_from_slice(of_plan),
            Base::Empty => image.fill(0),
        }
        for &(at, byte) in &self.changes {
            image[at] = byte;
        }
    }

    /// Whether it is looked at from outside too, by loading what might be its file: every other
    /// one. A plan's own image comes from a file that was written again.
    pub fn is_checked(&self) -> bool {
        !self.changes.is_empty() && self.fill % 2 == 0
    }
}

/// What is written in a case with a plan: its own image, and others that are mostly no plan's.
pub fn writings(random: &mut Random, plan: &Plan) -> Vec<Writing> {
    let mut own = [0; IMAGE_SIZE];
    image::show(plan, &mut own);
    let rooms = rooms_of_plan(random, &own);
    let mut writings = vec![writing(random, Base::Plan, vec![], rooms)];
    for _ in 0..3 {
        let changes = faulty(random, plan, &own);
        writings.push(with_rooms(random, Base::Plan, changes, &own));
    }
    if random.chance(10) {
        writings.push(without_plan(random));
    }
    writings
}

/// What is written in a case without a plan: hardly anything, or now and then anything at all.
pub fn without_plan(random: &mut Random) -> Writing {
    let changes = match random.below(20) {
        0 => noise(random),
        _ => sparse(random),
    };
    with_rooms(random, Base::Empty, changes, &[0; IMAGE_SIZE])
}

fn writing(random: &mut Random, base: Base, changes: Vec<Change>, rooms: Vec<usize>) -> Writing {
    Writing {
        base,
        changes,
        rooms,
        fill: random.byte(),
    }
}

/// A buffer that is too short for what the counts ask for, and one that is not.
fn with_rooms(random: &mut Random, base: Base, changes: Vec<Change>, of_plan: &Image) -> Writing {
    let mut writing = writing(random, base, changes, vec![]);
    let mut image = [0; IMAGE_SIZE];
    writing.show(of_plan, &mut image);
    let [.., length] = section_ends(&image);
    let short = [0, random.below(8), random.below(length), length - 1];
    let enough = match random.below(1000) {
        0 => VERY_LONG + random.below(length),
        1..=99 => LARGEST_FILE,
        100..=499 => length + random.between(1, 3),
        _ => length,
    };
    writing.rooms = vec![short[random.below(4)], enough];
    random.shuffle(&mut writing.rooms);
    writing
}

/// For a small plan now and then every length up to two bytes more than the file has, for a large
/// one all that are near the end of a section. Otherwise the length of the file and some others.
fn rooms_of_plan(random: &mut Random, own: &Image) -> Vec<usize> {
    let ends = section_ends(own);
    let length = ends[3];
    let is_small = length <= SMALL;
    if random.chance(10) && is_small {
        return (0..=length + 2).collect();
    }
    let mut near: Vec<usize> = ends.iter().flat_map(|&end| end - 1..=end + 1).collect();
    near.extend([length - 2, length + 2]);
    if random.chance(5) {
        return near;
    }
    let more = length + random.below(1000);
    let much = match random.below(40) {
        0 => LONG + random.below(length),
        1..=15 if is_small => VERY_LONG + random.below(length),
        _ => LARGEST_FILE,
    };
    let others = [0, length - 1, random.below(length), much, more];
    vec![
        length,
        near[random.below(near.len())],
        others[random.below(others.len())],
    ]
}

/// One thing wrong, mostly; all kinds of it about equally often.
fn faulty(random: &mut Random, plan: &Plan, own: &Image) -> Vec<Change> {
    loop {
        let change = match random.below(100) {
            0..=24 => bad_count(random, plan).map(|change| vec![change]),
            25..=54 => bad_number(random, plan, own),
            55..=86 => past_a_count(random, plan, own).map(|change| vec![change]),
            87..=89 => Some(vec![(IMAGE_SIZE - 1, random.train())]),
            90..=94 => Some(differences(own, &one_byte_changed(random, plan))),
            95..=97 => Some(vec![(random.below(IMAGE_SIZE), random.byte())]),
            _ => {
                let mut changes = faulty(random, plan, own);
                changes.extend(faulty(random, plan, own));
                Some(changes)
            }
        };
        if let Some(changes) = change {
            return changes;
        }
    }
}

/// The bytes of an image that a file changes which has as many bytes as the image's own.
fn differences(own: &Image, file: &[u8]) -> Vec<Change> {
    let changes = offsets(own).zip(file.iter().copied());
    changes.filter(|&(at, byte)| own[at] != byte).collect()
}

/// A number or an order for which a file is refused.
fn bad_number(random: &mut Random, plan: &Plan, own: &Image) -> Option<Vec<Change>> {
    let kinds = [3, 4]
        .into_iter()
        .flat_map(|form| PLACES.map(|place| (form, place)));
    let kinds: Vec<(u8, Place)> = kinds
        .filter(|&(form, place)| can_occur(form, place))
        .collect();
    let (form, place) = kinds[random.below(kinds.len())];
    let file = with_fault(random, plan, form, place)?;
    Some(differences(own, &file))
}

/// The places of all counts.
fn counts() -> Vec<Place> {
    let counts = PLACES.into_iter();
    counts.filter(|&place| faults::is_count(place)).collect()
}

fn bad_count(random: &mut Random, plan: &Plan) -> Option<Change> {
    let place = counts()[random.below(10)];
    let (list, _) = list(random, plan, place)?;
    let (lowest, highest) = limits(place).into_inner();
    let count = match random.below(4) {
        0 if lowest == 1 => 0,
        0..=1 => highest + 1,
        2 => 255,
        _ => random.between(highest + 1, 255),
    };
    Some((list.start, count as u8))
}

/// A byte past a list's count or a section's: just past it, at the last place, or in between. Its
/// value might stand there, or not.
fn past_a_count(random: &mut Random, plan: &Plan, own: &Image) -> Option<Change> {
    let place = counts()[random.below(10)];
    let (list, item_size) = list(random, plan, place)?;
    let first = list.start + 1 + item_size * usize::from(own[list.start]);
    if first == list.end {
        return None;
    }
    let at = match random.below(4) {
        0 => first,
        1 => list.end - 1,
        _ => random.between(first, list.end - 1),
    };
    let byte = match random.below(3) {
        0 => 1,
        1 => random.between(1, plan.tracks.len()) as u8,
        _ => random.train(),
    };
    Some((at, byte))
}

/// The list or the section whose count is of this place, in any row, and how many bytes an item of
/// it has. Nothing if the plan has no such row.
fn list(random: &mut Random, plan: &Plan, count_place: Place) -> Option<(Range<usize>, usize)> {
    let of_route = match count_place {
        Place::TrackCount => return Some((TRACKS_AT..SIGNALS_AT, TRACK_SIZE)),
        Place::SignalCount => return Some((SIGNALS_AT..ROUTES_AT, 1)),
        Place::RouteCount => return Some((ROUTES_AT..ENTRIES_AT, ROUTE_SIZE)),
        Place::EntryCount => return Some((ENTRIES_AT..IMAGE_SIZE, ENTRY_SIZE)),
        Place::PathCount => Some(0),
        Place::ClearCount => Some(1),
        Place::NormalCount => Some(2),
        Place::ReverseCount => Some(3),
        Place::ReleaseCount => Some(4),
        _ => None,
    };
    let row = |first: usize, size: usize, number: usize| first + 1 + size * number;
    match of_route {
        Some(number) => {
            let route = random.below(plan.routes.len());
            plan.routes.get(route)?;
            let row = row(ROUTES_AT, ROUTE_SIZE, route);
            let (list, item_size) = ROUTE_LISTS[number].clone();
            Some((row + list.start..row + list.end, item_size))
        }
        None => {
            let entry = random.below(plan.entries.len());
            plan.entries.get(entry)?;
            let row = row(ENTRIES_AT, ENTRY_SIZE, entry);
            Some((row + ENTRY_CLEAR_AT..row + ENTRY_SIZE, 1))
        }
    }
}

/// The least plan, or some plain tracks, or nothing, and a few bytes more.
fn sparse(random: &mut Random) -> Vec<Change> {
    let mut changes = match random.below(4) {
        0..=1 => vec![(0, 1), (1, 3)],
        2 => vec![(0, random.between(1, MOST_TRACKS) as u8)],
        _ => vec![],
    };
    let counts = [TRACKS_AT, SIGNALS_AT, ROUTES_AT, ENTRIES_AT];
    for _ in 0..random.below(4) {
        let at = match random.below(3) {
            0 => counts[random.below(4)],
            1 => random.below(ROUTES_AT + ROUTE_SIZE),
            _ => random.below(IMAGE_SIZE),
        };
        let limit = [2, 4, 65, 256][random.below(4)];
        changes.push((at, random.below(limit) as u8));
    }
    changes
}

/// Anything everywhere, in bytes that may be small.
fn noise(random: &mut Random) -> Vec<Change> {
    let limit = [2, 3, 10, 64, 256][random.below(5)];
    let byte = |at| (at, random.below(limit) as u8);
    (0..IMAGE_SIZE).map(byte).collect()
}
