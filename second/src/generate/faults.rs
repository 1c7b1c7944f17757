//! Files that cannot be read: each form number at each part of the file where it can occur.

use crate::model::plan::Plan;
use crate::model::reading::{limits, Place};
use crate::random::Random;
use crate::writing::{write_with_places, File};

/// All places, in file order.
pub const PLACES: [Place; 24] = [
    Place::TrackCount,
    Place::TrackKind,
    Place::TrackNumber,
    Place::UnusedByte,
    Place::SignalCount,
    Place::Home,
    Place::RouteCount,
    Place::Start,
    Place::PathCount,
    Place::Path,
    Place::ClearCount,
    Place::Clear,
    Place::NormalCount,
    Place::Normal,
    Place::ReverseCount,
    Place::Reverse,
    Place::ReleaseCount,
    Place::ReleaseTrack,
    Place::ReleasePoint,
    Place::EntryCount,
    Place::EntryTrack,
    Place::EntryClearCount,
    Place::EntryClear,
    Place::End,
];

pub fn is_count(place: Place) -> bool {
    matches!(
        place,
        Place::TrackCount
            | Place::SignalCount
            | Place::RouteCount
            | Place::PathCount
            | Place::ClearCount
            | Place::NormalCount
            | Place::ReverseCount
            | Place::ReleaseCount
            | Place::EntryCount
            | Place::EntryClearCount
    )
}

fn must_rise(place: Place) -> bool {
    matches!(
        place,
        Place::Home
            | Place::Clear
            | Place::Normal
            | Place::Reverse
            | Place::ReleasePoint
            | Place::EntryTrack
            | Place::EntryClear
    )
}

/// True if the form number can stand at a byte of this place.
pub fn can_occur(form: u8, place: Place) -> bool {
    match form {
        1 => place != Place::End,
        2 => is_count(place),
        3 => !is_count(place) && place != Place::End,
        4 => must_rise(place),
        5 => place == Place::End,
        _ => false,
    }
}

/// A file with each form number at each place equally often.
pub fn faulty(random: &mut Random) -> Vec<u8> {
    let pairs = (1..=5).flat_map(|form| PLACES.map(|place| (form, place)));
    let pairs: Vec<(u8, Place)> = pairs
        .filter(|&(form, place)| can_occur(form, place))
        .collect();
    let (form, place) = pairs[random.below(pairs.len())];
    loop {
        let plan = super::accepted(random);
        if let Some(file) = with_fault(random, &plan, form, place) {
            return file;
        }
    }
}

/// A file made from this plan that is wrong there; nothing if the plan lacks that place.
pub fn with_fault(random: &mut Random, plan: &Plan, form: u8, place: Place) -> Option<Vec<u8>> {
    let mut file = write_with_places(plan);
    if place == Place::End {
        // Also far more than the largest plan has.
        let more = random.pick(&[1, 2, 3, 300, 12_000]).unwrap_or(1);
        file.bytes.extend((0..more).map(|_| random.byte()));
        return Some(file.bytes);
    }
    let offsets = 0..file.bytes.len();
    let offsets: Vec<usize> = offsets
        .filter(|&offset| file.places[offset] == place)
        .collect();
    let offset = random.pick(&offsets)?;
    match form {
        1 => file.bytes.truncate(offset),
        2 => file.bytes[offset] = bad_count(random, place),
        3 => file.bytes[offset] = bad_number(random, plan, place)?,
        _ => spoil_order(random, &mut file, offset)?,
    }
    Some(file.bytes)
}

fn bad_count(random: &mut Random, place: Place) -> u8 {
    let (lowest, highest) = limits(place).into_inner();
    let count = match random.below(3) {
        0 if lowest == 1 => 0,
        0 | 1 => highest + 1,
        _ => random.between(highest + 1, 255),
    };
    count as u8
}

/// Form 3: a number that names nothing, an unused byte that is used, a point that is none.
fn bad_number(random: &mut Random, plan: &Plan, place: Place) -> Option<u8> {
    let first_bad = match place {
        Place::TrackKind => 4,
        Place::UnusedByte => 1,
        Place::Start => plan.homes.len(),
        _ => plan.tracks.len(),
    };
    let names_point = matches!(place, Place::Normal | Place::Reverse | Place::ReleasePoint);
    let number = if names_point && random.chance(60) {
        let tracks = 0..plan.tracks.len();
        let others: Vec<usize> = tracks.filter(|&track| !plan.is_point(track)).collect();
        random.pick(&others)?
    } else if random.chance(50) {
        first_bad
    } else {
        random.between(first_bad, 255)
    };
    Some(number as u8)
}

/// Form 4: an item that is equal to its forerunner, or the two exchanged.
fn spoil_order(random: &mut Random, file: &mut File, offset: usize) -> Option<()> {
    let place = file.places[offset];
    // The forerunner is the nearest byte of the same place, if no count of its list lies between.
    let is_break = |&before: &usize| match place {
        Place::EntryTrack => file.places[before] == Place::EntryCount,
        _ => is_count(file.places[before]),
    };
    let list_start = (0..offset).rev().find(is_break)?;
    let earlier = (list_start..offset)
        .rev()
        .find(|&before| file.places[before] == place)?;
    if random.chance(50) {
        file.bytes[offset] = file.bytes[earlier];
    } else {
        file.bytes.swap(offset, earlier);
    }
    Some(())
}

/// An accepted plan's file with one byte changed; often still readable.
pub fn one_byte_changed(random: &mut Random, plan: &Plan) -> Vec<u8> {
    let mut bytes = write_with_places(plan).bytes;
    let offset = random.below(bytes.len());
    bytes[offset] = match random.below(4) {
        0 => bytes[offset].wrapping_add(1),
        1 => bytes[offset].wrapping_sub(1),
        2 => random.below(plan.tracks.len() + 2) as u8,
        _ => random.byte(),
    };
    bytes
}

/// Bytes without any plan behind them.
pub fn noise(random: &mut Random) -> Vec<u8> {
    let length = [0, 1, 5, 60, 400][random.below(5)];
    let length = random.between(0, length);
    let limit = [2, 4, 10, 70, 256][random.below(5)];
    (0..length).map(|_| random.below(limit) as u8).collect()
}
