//! A plan from its file into an image, and an image as its file: do the model and a subject agree?

use super::trouble::Trouble;
use crate::book::MODEL;
use crate::generate::images::Writing;
use crate::model::image::Image;
use crate::subject::{Fenced, Memory, Reason, Subject};
use crate::writing::by_counts;

type Finding = Result<(), Trouble>;

/// Both load a plan into memory that held marks.
pub fn load(subject: &dyn Subject, file: &[u8], fill: u8) -> Finding {
    let mut expected = Fenced::marked(fill);
    let mut found = expected.clone();
    let due = MODEL.load(file, &mut expected);
    let said = subject.load(file, &mut found);
    same_outcome(due.map(|()| None), said.map(|()| None))?;
    same_image(&expected, &found)?;
    outside_load(subject, file, fill)
}

/// Both write an image into each of the buffers.
pub fn write(subject: &dyn Subject, image: &Image, writing: &Writing) -> Finding {
    let before = Fenced::of(image);
    let mut lent = before.clone();
    for (number, &room) in writing.rooms.iter().enumerate() {
        let fill = writing.fill.wrapping_add((37 * number) as u8);
        let mut expected = Memory::marked(room, fill);
        let mut found = expected.clone();
        let due = (MODEL.write)(image, &mut expected);
        let said = subject.write(&mut lent, &mut found);
        let is_same = same_outcome(due.map(Some), said.map(Some));
        is_same
            .and_then(|()| same_memory(&expected, &found))
            .map_err(|trouble| trouble.when(format!("in a buffer of {room} bytes")))?;
        same_image(&before, &lent)?;
    }
    if writing.is_checked() {
        outside_write(subject, image, writing.fill)?;
    }
    Ok(())
}

/// From outside, without a look at the model: what was loaded must be written as the same bytes, and
/// where nothing was, the image must have stayed.
pub fn outside_load(subject: &dyn Subject, file: &[u8], fill: u8) -> Finding {
    let before = Fenced::marked(fill);
    let mut lent = before.clone();
    if subject.load(file, &mut lent).is_err() {
        return same_image(&before, &lent);
    }
    let is_written = must_write(subject, &mut lent, file, fill);
    is_written.map_err(|trouble| trouble.when("from what was loaded"))
}

/// From outside, without a look at the model: 7 is said exactly where no file reads as the image, and
/// what reads as it is written. The only file that could is what the counts ask for.
pub fn outside_write(subject: &dyn Subject, image: &Image, fill: u8) -> Finding {
    let file = by_counts(image);
    let mut lent = Fenced::of(image);
    let mut loaded = Fenced::marked(fill);
    let is_plan = subject.load(&file, &mut loaded).is_ok() && loaded == lent;
    if is_plan {
        let is_written = must_write(subject, &mut lent, &file, fill);
        return is_written.map_err(|trouble| trouble.when("since a file reads as the image"));
    }
    let is_refused = must_refuse(subject, &mut lent, file.len(), fill);
    is_refused.map_err(|trouble| trouble.when("since no file reads as the image"))
}

/// An image must be written as this file, into a buffer of its length.
fn must_write(subject: &dyn Subject, lent: &mut Fenced, file: &[u8], fill: u8) -> Finding {
    let mut found = Memory::marked(file.len(), fill);
    let mut expected = found.clone();
    expected.put(0, file);
    let said = subject.write(lent, &mut found);
    same_outcome(Ok(Some(file.len())), said.map(Some))?;
    same_memory(&expected, &found)
}

/// An image must be refused with 7, whether or not there is room for what its counts ask for, and the
/// buffer must stay.
fn must_refuse(subject: &dyn Subject, lent: &mut Fenced, length: usize, fill: u8) -> Finding {
    for room in [length - 1, length] {
        let before = Memory::marked(room, fill);
        let mut found = before.clone();
        let said = subject.write(lent, &mut found);
        same_outcome(Err(Reason::NoPlan), said.map(Some))?;
        same_memory(&before, &found)?;
    }
    Ok(())
}

/// What a call says; a length where a file was written.
type Said = Result<Option<usize>, Reason>;

fn words(said: Said) -> String {
    match said {
        Ok(Some(length)) => format!("a file of {length} bytes written"),
        Ok(None) => "loaded".to_string(),
        Err(reason) => reason.to_string(),
    }
}

fn same_outcome(due: Said, said: Said) -> Finding {
    match due == said {
        true => Ok(()),
        false => Err(Trouble::new(words(due), words(said))),
    }
}

fn same_image(expected: &Fenced, found: &Fenced) -> Finding {
    if expected == found {
        return Ok(());
    }
    let mut pairs = expected.image.iter().zip(&found.image).enumerate();
    Err(match pairs.find(|(_, (one, other))| one != other) {
        Some((at, (one, other))) => Trouble::new(
            format!("byte {at} of the image is {one}"),
            format!("byte {at} of the image is {other}"),
        ),
        None => Trouble::new("the image alone", "a write beside the image"),
    })
}

fn same_memory(expected: &Memory, found: &Memory) -> Finding {
    if expected == found {
        return Ok(());
    }
    match expected.first_difference(found) {
        None => Ok(()),
        Some((at, one, other)) => Err(Trouble::new(
            format!("byte {at} of the buffer is {one}"),
            format!("byte {at} of the buffer is {other}"),
        )),
    }
}
