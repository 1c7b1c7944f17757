//! Small cuts in a file that cannot be read: whole items with their counts put right.

use crate::model::reading::{read, Place};

/// The places of the bytes before and at the bad one. A part of the file ends early at the place of
/// the first byte that it lacks, which tells the place of that byte.
fn places(file: &[u8]) -> Vec<Place> {
    let Err(fault) = read(file) else {
        return Vec::new();
    };
    let last = fault.form.offset.min(file.len().saturating_sub(1));
    let place = |length: usize| read(&file[..length]).err().map(|fault| fault.place);
    (0..=last).map_while(place).collect()
}

/// The count that says how many items of this place there are, if an item begins there.
fn count_of(place: Place) -> Option<Place> {
    match place {
        Place::TrackKind => Some(Place::TrackCount),
        Place::Home => Some(Place::SignalCount),
        Place::Start => Some(Place::RouteCount),
        Place::Path => Some(Place::PathCount),
        Place::Clear => Some(Place::ClearCount),
        Place::Normal => Some(Place::NormalCount),
        Place::Reverse => Some(Place::ReverseCount),
        Place::ReleaseTrack => Some(Place::ReleaseCount),
        Place::EntryTrack => Some(Place::EntryCount),
        Place::EntryClear => Some(Place::EntryClearCount),
        _ => None,
    }
}

/// Where the item that begins at this offset ends.
fn end_of(places: &[Place], offset: usize) -> usize {
    let ends = |place: &Place| match places[offset] {
        Place::Start => matches!(place, Place::Start | Place::EntryCount),
        Place::EntryTrack => *place == Place::EntryTrack,
        _ => true,
    };
    let length = match places[offset] {
        Place::TrackKind => 4,
        Place::ReleaseTrack => 2,
        _ => 1,
    };
    let rest = places.get(offset + length..).unwrap_or(&[]);
    offset + length + rest.iter().position(ends).unwrap_or(rest.len())
}

/// The file without the item that begins at this offset, its count put right.
pub fn without_item(file: &[u8], offset: usize) -> Option<Vec<u8>> {
    without(file, &places(file), offset)
}

fn without(file: &[u8], places: &[Place], offset: usize) -> Option<Vec<u8>> {
    let count = count_of(*places.get(offset)?)?;
    let count = (0..offset).rev().find(|&before| places[before] == count)?;
    let end = end_of(places, offset).min(file.len());
    let mut fewer = file.to_vec();
    fewer[count] = fewer[count].wrapping_sub(1);
    fewer.drain(offset..end);
    Some(fewer)
}

/// The files with one item less, those that have lost most first.
pub fn with_one_item_less(file: &[u8]) -> Vec<Vec<u8>> {
    let places = places(file);
    let items = 0..places.len();
    let mut files: Vec<Vec<u8>> = items
        .filter_map(|item| without(file, &places, item))
        .collect();
    files.sort_by_key(Vec::len);
    files
}
