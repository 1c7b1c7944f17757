//! Wrong readers.

use super::{Slip, Wrong};
use crate::compare::counts::is_three_before_four;
use crate::compare::shrink_file::without_item;
use crate::model::plan::Plan;
use crate::model::reading::{limits, read, read_within, Fault, Form, Place};
use std::ops::RangeInclusive;

type Reading = Result<Plan, Fault>;

pub const ALL: &[Slip] = &[
    (
        "form 1 one byte early",
        Wrong::Read(|file| shifted(file, 1, -1)),
    ),
    (
        "form 2 at the byte after the count",
        Wrong::Read(|file| shifted(file, 2, 1)),
    ),
    (
        "form 3 one byte late",
        Wrong::Read(|file| shifted(file, 3, 1)),
    ),
    (
        "form 4 at the forerunner",
        Wrong::Read(|file| shifted(file, 4, -1)),
    ),
    (
        "form 5 one byte late",
        Wrong::Read(|file| shifted(file, 5, 1)),
    ),
    ("4 before 3 at one byte", Wrong::Read(four_before_three)),
    (
        "a release pair's 4 at its track byte",
        Wrong::Read(four_at_track),
    ),
    ("a list may hold a track twice", Wrong::Read(twice_passes)),
    ("bytes left over pass", Wrong::Read(left_over_passes)),
    ("unused bytes are not looked at", Wrong::Read(unused_passes)),
    ("an empty file is form 2", Wrong::Read(empty_is_two)),
    (
        "a path of no tracks passes",
        Wrong::Read(|file| read_within(file, with_empty_path)),
    ),
    (
        "every limit is one too high",
        Wrong::Read(|file| read_within(file, one_too_high)),
    ),
    (
        "the most tracks are too many",
        Wrong::Read(|file| read_within(file, |place| one_short(place, Place::TrackCount))),
    ),
    (
        "the most signals are too many",
        Wrong::Read(|file| read_within(file, |place| one_short(place, Place::SignalCount))),
    ),
    (
        "the most routes are too many",
        Wrong::Read(|file| read_within(file, |place| one_short(place, Place::RouteCount))),
    ),
    (
        "the most path tracks are too many",
        Wrong::Read(|file| read_within(file, |place| one_short(place, Place::PathCount))),
    ),
    (
        "the most clear tracks are too many",
        Wrong::Read(|file| read_within(file, |place| one_short(place, Place::ClearCount))),
    ),
    (
        "the most reverse points are too many",
        Wrong::Read(|file| read_within(file, |place| one_short(place, Place::ReverseCount))),
    ),
    (
        "the most releases are too many",
        Wrong::Read(|file| read_within(file, |place| one_short(place, Place::ReleaseCount))),
    ),
    (
        "the most entries are too many",
        Wrong::Read(|file| read_within(file, |place| one_short(place, Place::EntryCount))),
    ),
];

fn shifted(file: &[u8], number: u8, by: isize) -> Reading {
    read(file).map_err(|mut fault| {
        if fault.form.number == number {
            fault.form.offset = fault.form.offset.saturating_add_signed(by);
        }
        fault
    })
}

fn four_before_three(file: &[u8]) -> Reading {
    read(file).map_err(|mut fault| {
        if is_three_before_four(file, fault) {
            fault.form.number = 4;
        }
        fault
    })
}

fn four_at_track(file: &[u8]) -> Reading {
    read(file).map_err(|mut fault| {
        if fault.form.number == 4 && fault.place == Place::ReleasePoint {
            fault.form.offset -= 1;
        }
        fault
    })
}

/// Reads on with the second of two equal neighbours left out of its list.
fn twice_passes(file: &[u8]) -> Reading {
    let fault = match read(file) {
        Err(fault) if fault.form.number == 4 && fault.place != Place::EntryTrack => fault,
        other => return other,
    };
    let offset = fault.form.offset;
    let without = without_item(file, offset);
    match without.filter(|_| file[offset - 1] == file[offset]) {
        None => Err(fault),
        Some(fewer) => twice_passes(&fewer).map_err(|mut fault| {
            fault.form.offset += 1;
            fault
        }),
    }
}

fn left_over_passes(file: &[u8]) -> Reading {
    match read(file) {
        Err(fault) if fault.form.number == 5 => read(&file[..fault.form.offset]),
        other => other,
    }
}

fn unused_passes(file: &[u8]) -> Reading {
    match read(file) {
        Err(fault) if fault.form.number == 3 && fault.place == Place::UnusedByte => {
            let mut mended = file.to_vec();
            mended[fault.form.offset] = 0;
            unused_passes(&mended)
        }
        other => other,
    }
}

fn empty_is_two(file: &[u8]) -> Reading {
    if file.is_empty() {
        let form = Form {
            number: 2,
            offset: 0,
        };
        let place = Place::TrackCount;
        return Err(Fault { form, place });
    }
    read(file)
}

fn with_empty_path(place: Place) -> RangeInclusive<usize> {
    match place {
        Place::PathCount => 0..=*limits(place).end(),
        _ => limits(place),
    }
}

fn one_too_high(place: Place) -> RangeInclusive<usize> {
    let (lowest, highest) = limits(place).into_inner();
    lowest..=highest + 1
}

fn one_short(place: Place, short: Place) -> RangeInclusive<usize> {
    let (lowest, highest) = limits(place).into_inner();
    lowest..=highest - usize::from(place == short)
}
