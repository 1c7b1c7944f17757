//! Writers that do not ask for something: an image with nothing else wrong is written, or refused for
//! lack of room, as its counts have it.

use super::writers::by_counts_alone;
use super::{Slip, Wrong};
use crate::book::Book;
use crate::compare::causes::{
    self, Cause, ABOVE, AT_LAST, BELOW, CLEAR, ENTRIES, ENTRY_CLEAR, ENTRY_TRACK, EXIT, FACING,
    FALLS, FURTHER, JUST_PAST, KIND, NORMAL, NOTHING, NO_POINT, PATH, PLAIN, RELEASES,
    RELEASE_TRACK, REVERSE, ROUTES, SIGNALS, START, TRACKS, TRACK_NUMBER, UNUSED,
};
use crate::model::image::{self, Image, IMAGE_SIZE};
use crate::subject::{Memory, Reason};

/// Each with the causes that are passed over.
macro_rules! unasked {
    ($($name:literal: $cause:pat,)*) => {
        &[$((
            concat!("write takes ", $name),
            Wrong::Write(|image, memory| {
                passing(image, memory, |cause| matches!(*cause, $cause))
            }),
        ),)*]
    };
}

pub const COUNTS: &[Slip] = unasked! {
    "any count": [ABOVE | BELOW, _],
    "too many tracks": [ABOVE, TRACKS],
    "too many signals": [ABOVE, SIGNALS],
    "too many routes": [ABOVE, ROUTES],
    "too many entries": [ABOVE, ENTRIES],
    "too long a path": [ABOVE, PATH],
    "too long a clear list": [ABOVE, CLEAR],
    "too many normal points": [ABOVE, NORMAL],
    "too many reverse points": [ABOVE, REVERSE],
    "too many releases": [ABOVE, RELEASES],
    "too long a clear list of an entry": [ABOVE, ENTRY_CLEAR],
    "no tracks": [BELOW, TRACKS],
    "an empty path": [BELOW, PATH],
};

pub const NUMBERS: &[Slip] = unasked! {
    "a kind above 3": [NOTHING, KIND],
    "a track that leads to none there is": [NOTHING, TRACK_NUMBER],
    "a home that is no track": [NOTHING, SIGNALS],
    "a start that is no signal": [NOTHING, START],
    "a path over no track": [NOTHING, PATH],
    "a clear list with no track": [NOTHING, CLEAR],
    "a normal point that is no track": [NOTHING, NORMAL],
    "a reverse point that is no track": [NOTHING, REVERSE],
    "a release on no track": [NOTHING, RELEASE_TRACK],
    "a released point that is no track": [NOTHING, RELEASES],
    "an entry on no track": [NOTHING, ENTRY_TRACK],
    "an entry's clear list with no track": [NOTHING, ENTRY_CLEAR],
    "a normal point that is none": [NO_POINT, NORMAL],
    "a reverse point that is none": [NO_POINT, REVERSE],
    "a released point that is none": [NO_POINT, RELEASES],
    "a plain track's unused bytes": [UNUSED, PLAIN],
    "a facing point's unused byte": [UNUSED, FACING],
    "an exit's unused bytes": [UNUSED, EXIT],
};

pub const ORDERS: &[Slip] = unasked! {
    "homes that do not rise": [FALLS, SIGNALS],
    "a clear list that does not rise": [FALLS, CLEAR],
    "normal points that do not rise": [FALLS, NORMAL],
    "reverse points that do not rise": [FALLS, REVERSE],
    "released points that do not rise": [FALLS, RELEASES],
    "entries that do not rise": [FALLS, ENTRY_TRACK],
    "an entry's clear list that does not rise": [FALLS, ENTRY_CLEAR],
};

pub const PAST: &[Slip] = unasked! {
    "any byte past a count": [JUST_PAST | FURTHER | AT_LAST, _],
    "any byte in the first place past a count": [JUST_PAST, _],
    "any byte from the second place past a count on": [FURTHER | AT_LAST, _],
    "any byte in the last place past a count": [AT_LAST, _],
    "any byte past the tracks": [JUST_PAST | FURTHER | AT_LAST, TRACKS],
    "any byte past the signals": [JUST_PAST | FURTHER | AT_LAST, SIGNALS],
    "any byte past the routes": [JUST_PAST | FURTHER | AT_LAST, ROUTES],
    "any byte past the entries": [JUST_PAST | FURTHER | AT_LAST, ENTRIES],
    "any byte past a path": [JUST_PAST | FURTHER | AT_LAST, PATH],
    "any byte past a clear list": [JUST_PAST | FURTHER | AT_LAST, CLEAR],
    "any byte past normal points": [JUST_PAST | FURTHER | AT_LAST, NORMAL],
    "any byte past reverse points": [JUST_PAST | FURTHER | AT_LAST, REVERSE],
    "any byte past releases": [JUST_PAST | FURTHER | AT_LAST, RELEASES],
    "any byte past an entry's clear list": [JUST_PAST | FURTHER | AT_LAST, ENTRY_CLEAR],
};

pub const LAST_BYTE: &[Slip] = &[(
    "write does not look at the last byte of the image",
    Wrong::Write(|image, memory| {
        let mut without = *image;
        without[IMAGE_SIZE - 1] = 0;
        match image::plan(&without) {
            Some(_) => Book::any_write(&without, memory),
            None => Book::any_write(image, memory),
        }
    }),
)];

/// The right writer, but for an image that has none but these causes.
fn passing(
    image: &Image,
    memory: &mut Memory,
    is_passed: fn(&Cause) -> bool,
) -> Result<usize, Reason> {
    let causes = causes::all(image);
    match !causes.is_empty() && causes.iter().all(is_passed) {
        true => by_counts_alone(image, memory),
        false => Book::any_write(image, memory),
    }
}
