//! The kinds of loads and writes, each of which the cases must reach: what comes of them, why, and
//! how long the buffer is.

use super::calls::Kind;
use super::causes::{self, Cause};
use crate::generate::case::Case;
use crate::generate::images::{Base, Writing, LONG, VERY_LONG};
use crate::model::answer::Verdict;
use crate::model::image::{self, Image, IMAGE_SIZE};
use crate::model::plan::{Plan, LARGEST_FILE};
use crate::model::reading::Form;
use crate::writing::section_ends;
use std::cmp::Ordering;
use std::collections::BTreeSet;

const FORMS: [&str; 5] = ["form 1", "form 2", "form 3", "form 4", "form 5"];

const VERDICTS: [&str; 13] = [
    "no rule", "rule 1", "rule 2", "rule 3", "rule 4", "rule 5", "rule 6", "rule 7", "rule 8",
    "rule 9", "rule 10", "rule 11", "rule 12",
];

const FILE: &str = "of a file";
const LOADED: &str = "of a plan that breaks";
const NOT_LOADED: &str = "of no plan, into an image that stays";
const WRITTEN: &str = "120 of a plan that breaks";
const BUFFER: &str = "120 into a buffer";
const WRITTEN_FILE: &str = "120 of a file";
const IMAGE: &str = "120 of an image";
const NO_ROOM: &str = "6 into a buffer that ends";
const NO_PLAN: &str = "7 into a buffer";
const OTHERS: &str = "7 for";

const SWEEP: &str = "of a plan into buffers of all lengths";
const EVERY_LENGTH: &str = "up to two bytes more than the file";
const EVERY_END: &str = "near the end of a section";

const LONG_ENOUGH: [&str; 6] = [
    "as long as the file",
    "one byte longer",
    "two bytes longer",
    "more bytes longer",
    "of 65,536 bytes or more",
    "of 200,000 bytes or more",
];

const LEAST: &str = "that has 8 bytes";
const LARGEST: &str = "that has 10,852 bytes";
const CHANGED: &str = "of a plan, with bytes changed";
const HARDLY: &str = "with hardly a byte";

const AT_START: &str = "where it begins";
const ONE_SHORT: &str = "one byte short of the file";
const WITHIN: [&str; 4] = [
    "within the tracks",
    "within the signals",
    "within the routes",
    "within the entries",
];
const AT_END: [&str; 3] = [
    "where the tracks end",
    "where the signals end",
    "where the routes end",
];

const FOR_COUNTS: [&str; 6] = [
    "that is empty",
    "shorter than the counts ask for",
    "one byte short of what they ask for",
    "as long as they ask for",
    "longer than they ask for",
    "of 200,000 bytes or more",
];

const LAST_BYTE: &str = "the last byte of the image alone";
const SEVERAL: &str = "more than one cause";
const EVERY_BYTE: &str = "noise in every byte";
const FEW_BYTES: &str = "noise in a few bytes";
const HIGHEST: &str = "a count of 255 alone";
const ONE_ABOVE: &str = "a count one above its most alone";

/// Every kind that there must be.
pub fn names() -> Vec<Kind> {
    let mut names = Vec::new();
    names.extend(VERDICTS.map(|broken| ["load", LOADED, broken]));
    names.extend(FORMS.map(|form| ["load", NOT_LOADED, form]));
    names.extend([LEAST, LARGEST].map(|of| ["load", FILE, of]));
    names.extend(VERDICTS.map(|broken| ["write", WRITTEN, broken]));
    names.extend([LEAST, LARGEST].map(|of| ["write", WRITTEN_FILE, of]));
    names.extend([CHANGED, HARDLY].map(|of| ["write", IMAGE, of]));
    names.extend(LONG_ENOUGH.map(|length| ["write", BUFFER, length]));
    names.extend([EVERY_LENGTH, EVERY_END].map(|lengths| ["write", SWEEP, lengths]));
    let ends = WITHIN.into_iter().chain(AT_END);
    let ends = ends.chain([AT_START, ONE_SHORT]);
    names.extend(ends.map(|end| ["write", NO_ROOM, end]));
    names.extend(FOR_COUNTS.map(|length| ["write", NO_PLAN, length]));
    names.extend(causes::names().into_iter().map(of_cause));
    let others = [
        LAST_BYTE, HIGHEST, ONE_ABOVE, SEVERAL, EVERY_BYTE, FEW_BYTES,
    ];
    names.extend(others.map(|cause| ["write", OTHERS, cause]));
    names
}

fn of_cause([what, of]: Cause) -> Kind {
    ["write 7:", what, of]
}

/// Calls `note` for each kind of load and write in a case with a plan.
pub fn of_plan(case: &Case, plan: &Plan, verdict: Verdict, note: &mut impl FnMut(Kind)) {
    let broken = match verdict {
        Verdict::Broken(broken) => VERDICTS[broken.rule],
        _ => VERDICTS[0],
    };
    note(["load", LOADED, broken]);
    note_length("load", FILE, case.plan.len(), note);
    let mut own = [0; IMAGE_SIZE];
    image::show(plan, &mut own);
    let ends = section_ends(&own);
    for writing in &case.writings {
        of_writing(writing, &own, note);
        if writing.base == Base::Plan && writing.changes.is_empty() {
            note(["write", WRITTEN, broken]);
            of_rooms(&writing.rooms, &ends, note);
        }
    }
}

/// The same for a case with a file that is no plan.
pub fn of_no_plan(case: &Case, form: Form, note: &mut impl FnMut(Kind)) {
    note(["load", NOT_LOADED, FORMS[usize::from(form.number) - 1]]);
    for writing in &case.writings {
        of_writing(writing, &[0; IMAGE_SIZE], note);
    }
}

/// For the buffers into which a plan's own image is written.
fn of_rooms(rooms: &[usize], ends: &[usize; 4], note: &mut impl FnMut(Kind)) {
    let length = ends[3];
    for &room in rooms.iter().filter(|&&room| room < length) {
        note(["write", NO_ROOM, end_of(room, ends)]);
    }
    let is_there = |room: usize| rooms.contains(&room);
    if rooms.len() > length && (0..=length + 2).all(is_there) {
        note(["write", SWEEP, EVERY_LENGTH]);
    }
    let mut near = ends.iter().flat_map(|&end| end - 1..=end + 1);
    if is_there(length - 2) && is_there(length + 2) && near.all(is_there) {
        note(["write", SWEEP, EVERY_END]);
    }
}

fn note_length(call: &'static str, of: &'static str, length: usize, note: &mut impl FnMut(Kind)) {
    match length {
        8 => note([call, of, LEAST]),
        LARGEST_FILE => note([call, of, LARGEST]),
        _ => {}
    }
}

/// Where a buffer ends that is too short for a plan's file.
fn end_of(room: usize, ends: &[usize; 4]) -> &'static str {
    if room == 0 {
        return AT_START;
    }
    if room + 1 == ends[3] {
        return ONE_SHORT;
    }
    match ends.binary_search(&room) {
        Ok(section) => AT_END[section],
        Err(section) => WITHIN[section],
    }
}

fn of_writing(writing: &Writing, of_plan: &Image, note: &mut impl FnMut(Kind)) {
    let mut image = [0; IMAGE_SIZE];
    writing.show(of_plan, &mut image);
    let [.., length] = section_ends(&image);
    let causes = causes::all(&image);
    if !causes.is_empty() {
        for &room in &writing.rooms {
            note(["write", NO_PLAN, for_counts(room, length)]);
        }
        of_no_plans_image(writing, &causes, note);
        return;
    }
    note_length("write", WRITTEN_FILE, length, note);
    match writing.base {
        Base::Plan if writing.changes.is_empty() => {}
        Base::Plan => note(["write", IMAGE, CHANGED]),
        Base::Empty => note(["write", IMAGE, HARDLY]),
    }
    for &room in writing.rooms.iter().filter(|&&room| room >= length) {
        let longer = match room {
            VERY_LONG.. => 5,
            LONG.. => 4,
            _ => (room - length).min(3),
        };
        note(["write", BUFFER, LONG_ENOUGH[longer]]);
    }
}

/// How long a buffer is for an image that no file reads as.
fn for_counts(room: usize, length: usize) -> &'static str {
    FOR_COUNTS[match room.cmp(&length) {
        _ if room == 0 => 0,
        _ if room >= VERY_LONG => 5,
        Ordering::Less if room + 1 < length => 1,
        Ordering::Less => 2,
        Ordering::Equal => 3,
        Ordering::Greater => 4,
    }]
}

fn of_no_plans_image(writing: &Writing, causes: &BTreeSet<Cause>, note: &mut impl FnMut(Kind)) {
    let cause = causes::only(causes);
    note(cause.map_or(["write", OTHERS, SEVERAL], of_cause));
    if writing.base == Base::Empty {
        let noise = match writing.changes.len() {
            IMAGE_SIZE => EVERY_BYTE,
            _ => FEW_BYTES,
        };
        note(["write", OTHERS, noise]);
    }
    let ([(at, byte)], Some([what, of])) = (writing.changes.as_slice(), cause) else {
        return;
    };
    if *at == IMAGE_SIZE - 1 {
        note(["write", OTHERS, LAST_BYTE]);
    }
    if what == causes::ABOVE && *byte == u8::MAX {
        note(["write", OTHERS, HIGHEST]);
    }
    if what == causes::ABOVE && usize::from(*byte) == causes::most(of) + 1 {
        note(["write", OTHERS, ONE_ABOVE]);
    }
}
