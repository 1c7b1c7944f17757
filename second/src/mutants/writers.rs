//! Wrong writers: answers in the wrong order or for the wrong reason, bytes in the wrong place, and
//! plans that are refused although a file reads as them.

use super::{Slip, Wrong};
use crate::book::Book;
use crate::generate::images::LONG;
use crate::model::image::{
    self, Image, ENTRIES_AT, NORMAL_AT, RELEASES_AT, REVERSE_AT, ROUTES_AT, ROUTE_SIZE,
};
use crate::model::plan::{self, Plan, Release, Route, LARGEST_FILE};
use crate::model::rules;
use crate::subject::{Memory, Reason};
use crate::writing::{by_counts, section_ends};

type Said = Result<usize, Reason>;

/// What a buffer's length is not meant to be above, for some.
const TOO_LONG: usize = 100_000;

/// The top bit of a byte.
const TOP_BIT: u8 = 128;

pub const ANSWERS: &[Slip] = &[
    (
        "write says 6 before 7",
        Wrong::Write(
            |image, memory| match memory.room() < by_counts(image).len() {
                true => Err(Reason::NoRoom),
                false => Book::any_write(image, memory),
            },
        ),
    ),
    (
        "write says 6 for an empty buffer before 7",
        Wrong::Write(|image, memory| match memory.room() {
            0 => Err(Reason::NoRoom),
            _ => Book::any_write(image, memory),
        }),
    ),
    (
        "write says 6 for a buffer as long as the file",
        Wrong::Write(|image, memory| match length(image) {
            Some(length) if length == memory.room() => Err(Reason::NoRoom),
            _ => Book::any_write(image, memory),
        }),
    ),
    (
        "write says 6 for a buffer shorter than the largest file",
        Wrong::Write(|image, memory| match length(image) {
            Some(_) if memory.room() < LARGEST_FILE => Err(Reason::NoRoom),
            _ => Book::any_write(image, memory),
        }),
    ),
    (
        "write takes the length of a buffer for 16 bits",
        Wrong::Write(|image, memory| match length(image) {
            Some(length) if memory.room() % LONG < length => Err(Reason::NoRoom),
            _ => Book::any_write(image, memory),
        }),
    ),
    (
        "write says 6 for a buffer above 100,000 bytes",
        Wrong::Write(|image, memory| match length(image) {
            Some(_) if memory.room() > TOO_LONG => Err(Reason::NoRoom),
            _ => Book::any_write(image, memory),
        }),
    ),
    (
        "write says 6 for a buffer above 100,000 bytes in place of 7",
        Wrong::Write(|image, memory| match length(image) {
            None if memory.room() > TOO_LONG => Err(Reason::NoRoom),
            _ => Book::any_write(image, memory),
        }),
    ),
    (
        "write makes do with a buffer one byte short",
        Wrong::Write(|image, memory| {
            one_short(image, memory, |file, memory| {
                memory.put(0, &file[..file.len() - 1]);
            })
        }),
    ),
    (
        "write goes past a buffer one byte short",
        Wrong::Write(|image, memory| one_short(image, memory, |file, memory| memory.put(0, file))),
    ),
    (
        "write does nothing for a buffer one byte short and says that it is done",
        Wrong::Write(|image, memory| one_short(image, memory, |_, _| ())),
    ),
    (
        "write does nothing and says that it is done",
        Wrong::Write(|image, memory| Book::any_write(image, &mut memory.clone())),
    ),
    (
        "write says 7 for everything",
        Wrong::Write(|_, _| Err(Reason::NoPlan)),
    ),
    (
        "write says 6 for everything",
        Wrong::Write(|_, _| Err(Reason::NoRoom)),
    ),
    ("write never says 7", Wrong::Write(by_counts_alone)),
    (
        "write says 6 in place of 7",
        Wrong::Write(|image, memory| Book::any_write(image, memory).map_err(|_| Reason::NoRoom)),
    ),
    (
        "write says 7 in place of 6",
        Wrong::Write(|image, memory| Book::any_write(image, memory).map_err(|_| Reason::NoPlan)),
    ),
    (
        "write says one byte too many",
        Wrong::Write(|image, memory| Ok(Book::any_write(image, memory)? + 1)),
    ),
    (
        "write says one byte too few",
        Wrong::Write(|image, memory| Ok(Book::any_write(image, memory)? - 1)),
    ),
    (
        "write says the length of the buffer",
        Wrong::Write(|image, memory| Book::any_write(image, memory).map(|_| memory.room())),
    ),
    (
        "write says the length of the largest file",
        Wrong::Write(|image, memory| Book::any_write(image, memory).map(|_| LARGEST_FILE)),
    ),
];

pub const BYTES: &[Slip] = &[
    (
        "write says 6 and has written what there was room for",
        Wrong::Write(|image, memory| {
            where_said(Reason::NoRoom, image, memory, |file, memory| {
                memory.put(0, &file[..memory.room()]);
            })
        }),
    ),
    (
        "write says 6 and has written half of the file",
        Wrong::Write(|image, memory| {
            where_said(Reason::NoRoom, image, memory, |file, memory| {
                memory.put(0, &file[..memory.room().min(file.len() / 2)]);
            })
        }),
    ),
    (
        "write says 6 and has written the tracks",
        Wrong::Write(|image, memory| {
            let [tracks, ..] = section_ends(image);
            where_said(Reason::NoRoom, image, memory, |file, memory| {
                memory.put(0, &file[..memory.room().min(tracks)]);
            })
        }),
    ),
    (
        "write says 6 and empties the buffer",
        Wrong::Write(|image, memory| {
            where_said(Reason::NoRoom, image, memory, |_, memory| {
                memory.lent().fill(0)
            })
        }),
    ),
    (
        "write says 6 and sets the top bit of every byte",
        Wrong::Write(|image, memory| {
            where_said(Reason::NoRoom, image, memory, |_, memory| {
                each(memory.lent(), |byte| byte | TOP_BIT)
            })
        }),
    ),
    (
        "write says 7 and has written what the counts ask for",
        Wrong::Write(|image, memory| {
            where_said(Reason::NoPlan, image, memory, |file, memory| {
                memory.put(0, &file[..memory.room().min(file.len())]);
            })
        }),
    ),
    (
        "write says 7 and has written the first count",
        Wrong::Write(|image, memory| {
            where_said(Reason::NoPlan, image, memory, |file, memory| {
                memory.put(0, &file[..memory.room().min(1)]);
            })
        }),
    ),
    (
        "write says 7 and empties the buffer",
        Wrong::Write(|image, memory| {
            where_said(Reason::NoPlan, image, memory, |_, memory| {
                memory.lent().fill(0)
            })
        }),
    ),
    (
        "write says 7 and sets the top bit of every byte",
        Wrong::Write(|image, memory| {
            where_said(Reason::NoPlan, image, memory, |_, memory| {
                each(memory.lent(), |byte| byte | TOP_BIT)
            })
        }),
    ),
    (
        "write ends the file with a 0",
        Wrong::Write(|image, memory| {
            let length = Book::any_write(image, memory)?;
            memory.put(length, &[0]);
            Ok(length)
        }),
    ),
    (
        "write empties what is left of the buffer",
        Wrong::Write(|image, memory| {
            let length = Book::any_write(image, memory)?;
            memory.lent()[length..].fill(0);
            Ok(length)
        }),
    ),
    (
        "write sets the top bit of every byte past the file",
        Wrong::Write(|image, memory| past_the_file(image, memory, |byte| byte | TOP_BIT)),
    ),
    (
        "write clears the top bit of every byte past the file",
        Wrong::Write(|image, memory| past_the_file(image, memory, |byte| byte & !TOP_BIT)),
    ),
    (
        "write makes every 0 past the file a 1",
        Wrong::Write(|image, memory| past_the_file(image, memory, |byte| byte.max(1))),
    ),
    (
        "write leaves out the last byte",
        Wrong::Write(|image, memory| {
            let length = Book::any_write(image, &mut memory.clone())?;
            memory.put(0, &by_counts(image)[..length - 1]);
            Ok(length)
        }),
    ),
    (
        "write begins the signals one byte early",
        Wrong::Write(|image, memory| section_at(image, memory, 1, |ends| ends[0] - 1)),
    ),
    (
        "write begins the routes where the signals begin",
        Wrong::Write(|image, memory| section_at(image, memory, 2, |ends| ends[0])),
    ),
    (
        "write begins the entries one byte late",
        Wrong::Write(|image, memory| section_at(image, memory, 3, |ends| ends[2] + 1)),
    ),
    (
        "write begins the entries where the buffer begins",
        Wrong::Write(|image, memory| section_at(image, memory, 3, |_| 0)),
    ),
    (
        "write copies the image as it stands",
        Wrong::Write(|image, memory| {
            let length = Book::any_write(image, memory)?;
            memory.put(0, &image[..length]);
            Ok(length)
        }),
    ),
    (
        "write exchanges normal and reverse points",
        Wrong::Write(|image, memory| {
            with_routes(image, memory, |row| {
                let lists = &mut row[NORMAL_AT..RELEASES_AT];
                let (normal, reverse) = lists.split_at_mut(REVERSE_AT - NORMAL_AT);
                normal.swap_with_slice(reverse);
            })
        }),
    ),
    (
        "write puts the point of a release before its track",
        Wrong::Write(|image, memory| {
            with_routes(image, memory, |row| {
                let pairs = row[RELEASES_AT + 1..].chunks_exact_mut(2);
                pairs.for_each(|pair| pair.reverse());
            })
        }),
    ),
];

/// Plans that a file reads as, and 7 all the same.
macro_rules! too_strict {
    ($($name:literal: $is_refused:expr,)*) => {
        &[$((
            $name,
            Wrong::Write(|image, memory| refusing(image, memory, $is_refused)),
        ),)*]
    };
}

pub const STRICT: &[Slip] = too_strict! {
    "write says 7 for a plan that breaks a rule": |plan| rules::check(plan).is_some(),
    "write says 7 for a plan without signals": |plan| plan.homes.is_empty(),
    "write says 7 for a plan without routes": |plan| plan.routes.is_empty(),
    "write says 7 for a plan without entries": |plan| plan.entries.is_empty(),
    "write says 7 for a path that comes to a track twice": |plan| any(plan, |route| {
        let places = route.path.iter().enumerate();
        places.into_iter().any(|(at, track)| route.path[..at].contains(track))
    }),
    "write says 7 for a path that does not rise": |plan| any(plan, |route| {
        !route.path.is_sorted()
    }),
    "write says 7 for release tracks that do not rise": |plan| any(plan, |route| {
        !route.releases.is_sorted_by_key(|release: &Release| release.track)
    }),
    "write says 7 for an empty clear list": |plan| any(plan, |route| route.clear.is_empty()),
    "write says 7 for a point in both lists": |plan| any(plan, |route| {
        route.normal.iter().any(|point| route.reverse.contains(point))
    }),
    "write says 7 for the most tracks": |plan| is_most(plan.tracks.len(), plan::TRACKS),
    "write says 7 for the most signals": |plan| is_most(plan.homes.len(), plan::SIGNALS),
    "write says 7 for the most routes": |plan| is_most(plan.routes.len(), plan::ROUTES),
    "write says 7 for the most entries": |plan| is_most(plan.entries.len(), plan::ENTRIES),
    "write says 7 for the most tracks of a path": |plan| any(plan, |route| {
        is_most(route.path.len(), plan::PATH)
    }),
    "write says 7 for the most tracks of a clear list": |plan| any(plan, |route| {
        is_most(route.clear.len(), plan::CLEAR)
    }),
    "write says 7 for the most normal points": |plan| any(plan, |route| {
        is_most(route.normal.len(), plan::POINTS)
    }),
    "write says 7 for the most reverse points": |plan| any(plan, |route| {
        is_most(route.reverse.len(), plan::POINTS)
    }),
    "write says 7 for the most releases": |plan| any(plan, |route| {
        is_most(route.releases.len(), plan::RELEASES)
    }),
};

fn is_most(count: usize, limits: std::ops::RangeInclusive<usize>) -> bool {
    count == *limits.end()
}

fn any(plan: &Plan, is_such: impl Fn(&Route) -> bool) -> bool {
    plan.routes.iter().any(is_such)
}

fn refusing(image: &Image, memory: &mut Memory, is_refused: fn(&Plan) -> bool) -> Said {
    match image::plan(image) {
        Some(plan) if is_refused(&plan) => Err(Reason::NoPlan),
        _ => Book::any_write(image, memory),
    }
}

/// The length of an image's file, if it is a plan's.
fn length(image: &Image) -> Option<usize> {
    Book::any_write(image, &mut Memory::marked(LARGEST_FILE, 0)).ok()
}

/// Writes what the counts ask for, whatever it is.
pub fn by_counts_alone(image: &Image, memory: &mut Memory) -> Said {
    let file = by_counts(image);
    if memory.room() < file.len() {
        return Err(Reason::NoRoom);
    }
    memory.put(0, &file);
    Ok(file.len())
}

/// The right writer, but for a buffer one byte short something else is done, and called done.
fn one_short(image: &Image, memory: &mut Memory, instead: fn(&[u8], &mut Memory)) -> Said {
    match length(image) {
        Some(length) if length == memory.room() + 1 => {
            instead(&by_counts(image), memory);
            Ok(length)
        }
        _ => Book::any_write(image, memory),
    }
}

/// The right writer, but where it says this the buffer does not stay.
fn where_said(
    reason: Reason,
    image: &Image,
    memory: &mut Memory,
    spoil: impl Fn(&[u8], &mut Memory),
) -> Said {
    let said = Book::any_write(image, memory);
    if said == Err(reason) {
        spoil(&by_counts(image), memory);
    }
    said
}

fn each(bytes: &mut [u8], change: fn(u8) -> u8) {
    bytes.iter_mut().for_each(|byte| *byte = change(*byte));
}

/// The right writer, and then each byte of the buffer is changed that must stay.
fn past_the_file(image: &Image, memory: &mut Memory, change: fn(u8) -> u8) -> Said {
    let length = Book::any_write(image, memory)?;
    each(&mut memory.lent()[length..], change);
    Ok(length)
}

/// The right writer, but a section begins elsewhere.
fn section_at(
    image: &Image,
    memory: &mut Memory,
    section: usize,
    begins: fn([usize; 4]) -> usize,
) -> Said {
    let length = Book::any_write(image, memory)?;
    let ends = section_ends(image);
    let bytes = &by_counts(image)[ends[section - 1]..ends[section]];
    memory.put(begins(ends), bytes);
    Ok(length)
}

/// The right writer, but for the rows of routes, which are changed before.
fn with_routes(image: &Image, memory: &mut Memory, change: fn(&mut [u8])) -> Said {
    let length = Book::any_write(image, memory)?;
    let mut changed = *image;
    let rows = changed[ROUTES_AT + 1..ENTRIES_AT].chunks_exact_mut(ROUTE_SIZE);
    rows.for_each(change);
    memory.put(0, &by_counts(&changed));
    Ok(length)
}
