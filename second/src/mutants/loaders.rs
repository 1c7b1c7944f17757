//! Wrong loaders: files that are no plans leave traces, or plans are not all of what is loaded.

use super::{Slip, Wrong};
use crate::book::Book;
use crate::model::image::{
    Image, ENTRIES_AT, ENTRY_CLEAR_AT, ENTRY_SIZE, IMAGE_SIZE, NORMAL_AT, RELEASES_AT, REVERSE_AT,
    ROUTES_AT, ROUTE_SIZE, SIGNALS_AT,
};
use crate::model::reading::Form;
use crate::model::rules;
use crate::subject::Reason;
use crate::writing::{offsets, ROUTE_LISTS};
use std::ops::Range;

pub const ALL: &[Slip] = &[
    (
        "load empties the image where there is no plan",
        Wrong::LoadImage(|book, file, image| or_spoilt(book, file, image, |image| image.fill(0))),
    ),
    (
        "load copies the file where it is no plan",
        Wrong::LoadImage(|book, file, image| {
            or_spoilt(book, file, image, |image| copy_bytes(file, image))
        }),
    ),
    (
        "load sets the first count before it reads on",
        Wrong::LoadImage(|book, file, image| {
            or_spoilt(book, file, image, |image| {
                image[0] = file.first().copied().unwrap_or(image[0]);
            })
        }),
    ),
    (
        "load sets the last byte to 0 where there is no plan",
        Wrong::LoadImage(|book, file, image| {
            or_spoilt(book, file, image, |image| image[IMAGE_SIZE - 1] = 0)
        }),
    ),
    (
        "load sets the top bit of every byte where there is no plan",
        Wrong::LoadImage(|book, file, image| {
            or_spoilt(book, file, image, |image| {
                image.iter_mut().for_each(|byte| *byte |= 128);
            })
        }),
    ),
    (
        "load clears the top bit of every byte where there is no plan",
        Wrong::LoadImage(|book, file, image| {
            or_spoilt(book, file, image, |image| {
                image.iter_mut().for_each(|byte| *byte &= 127);
            })
        }),
    ),
    (
        "load says 0 for no plan",
        Wrong::LoadImage(|book, file, image| book.any_load(file, image).or(Ok(()))),
    ),
    (
        "load says a form one byte late",
        Wrong::LoadImage(|book, file, image| {
            book.any_load(file, image).map_err(|reason| match reason {
                Reason::Unreadable(form) => unreadable(form.number, form.offset + 1),
                other => other,
            })
        }),
    ),
    (
        "load takes a file with bytes left over",
        Wrong::LoadImage(|book, file, image| match book.any_load(file, image) {
            Err(Reason::Unreadable(form)) if form.number == 5 => {
                book.any_load(&file[..form.offset], image)
            }
            said => said,
        }),
    ),
    (
        "load refuses a plan that breaks a rule",
        Wrong::LoadImage(|book, file, image| match (book.read)(file) {
            Ok(plan) if rules::check(&plan).is_some() => Err(unreadable(3, 0)),
            _ => book.any_load(file, image),
        }),
    ),
    (
        "load does nothing and says that it is done",
        Wrong::LoadImage(|book, file, image| book.any_load(file, &mut image.clone())),
    ),
    (
        "load leaves what stood past the counts",
        Wrong::LoadImage(|book, file, image| leaving(book, file, image, 0..IMAGE_SIZE)),
    ),
    (
        "load leaves what stood past the tracks",
        Wrong::LoadImage(|book, file, image| leaving(book, file, image, 0..SIGNALS_AT)),
    ),
    (
        "load leaves what stood past the signals",
        Wrong::LoadImage(|book, file, image| leaving(book, file, image, SIGNALS_AT..ROUTES_AT)),
    ),
    (
        "load leaves what stood past the lists of the first route",
        Wrong::LoadImage(|book, file, image| {
            let row = ROUTES_AT + 1..ROUTES_AT + 1 + ROUTE_SIZE;
            match file_has_routes(book, file) {
                true => leaving(book, file, image, row),
                false => book.any_load(file, image),
            }
        }),
    ),
    (
        "load leaves what stood past the entries",
        Wrong::LoadImage(|book, file, image| leaving(book, file, image, ENTRIES_AT..IMAGE_SIZE)),
    ),
    (
        "load leaves the last byte of the image",
        Wrong::LoadImage(|book, file, image| {
            leaving(book, file, image, IMAGE_SIZE - 1..IMAGE_SIZE)
        }),
    ),
    (
        "load exchanges normal and reverse points",
        Wrong::LoadImage(|book, file, image| {
            in_routes(book, file, image, |row| {
                let (normal, reverse) =
                    row[NORMAL_AT..RELEASES_AT].split_at_mut(REVERSE_AT - NORMAL_AT);
                normal.swap_with_slice(reverse);
            })
        }),
    ),
    (
        "load exchanges the track and the point of a release",
        Wrong::LoadImage(|book, file, image| {
            in_routes(book, file, image, |row| {
                let pairs = row[RELEASES_AT + 1..].chunks_exact_mut(2);
                pairs.for_each(|pair| pair.reverse());
            })
        }),
    ),
    (
        "load counts one too few in the last list of a route",
        Wrong::LoadImage(|book, file, image| {
            in_routes(book, file, image, |row| {
                let [.., (releases, _)] = ROUTE_LISTS;
                row[releases.start] = row[releases.start].saturating_sub(1);
            })
        }),
    ),
    (
        "load leaves out the clear lists of entries",
        Wrong::LoadImage(|book, file, image| {
            book.any_load(file, image)?;
            let rows = image[ENTRIES_AT + 1..].chunks_exact_mut(ENTRY_SIZE);
            rows.for_each(|row| row[ENTRY_CLEAR_AT..].fill(0));
            Ok(())
        }),
    ),
];

fn unreadable(number: u8, offset: usize) -> Reason {
    Reason::Unreadable(Form { number, offset })
}

/// The right loader, but an image that must stay does not.
fn or_spoilt(
    book: &Book,
    file: &[u8],
    image: &mut Image,
    spoil: impl Fn(&mut Image),
) -> Result<(), Reason> {
    let said = book.any_load(file, image);
    if said.is_err() {
        spoil(image);
    }
    said
}

fn copy_bytes(file: &[u8], image: &mut Image) {
    for (byte, &from) in image.iter_mut().zip(file) {
        *byte = from;
    }
}

fn file_has_routes(book: &Book, file: &[u8]) -> bool {
    (book.read)(file).is_ok_and(|plan| !plan.routes.is_empty())
}

/// The right loader, but no byte of this part is touched that the file does not have.
fn leaving(book: &Book, file: &[u8], image: &mut Image, part: Range<usize>) -> Result<(), Reason> {
    let before = *image;
    book.any_load(file, image)?;
    let mut loaded = before;
    for at in offsets(image) {
        loaded[at] = image[at];
    }
    image[part.clone()].copy_from_slice(&loaded[part]);
    Ok(())
}

/// The right loader, and then something is done to each row of a route.
fn in_routes(
    book: &Book,
    file: &[u8],
    image: &mut Image,
    change: impl Fn(&mut [u8]),
) -> Result<(), Reason> {
    book.any_load(file, image)?;
    let rows = image[ROUTES_AT + 1..ENTRIES_AT].chunks_exact_mut(ROUTE_SIZE);
    rows.for_each(change);
    Ok(())
}
