//! The bytes of a plan, each with what it says, up to the first bad one and why it is bad.

use super::{bytes_in_words, counted, is_told_in_full, listed, runs, wrapped};
use crate::model::plan::{Plan, Route, Track};
use crate::model::reading::{limits, read, Fault, Place};
use crate::model::rules::{check, Broken};
use std::fmt::Write;

/// More bytes of a row than this are not all written out; the words beside them say what they are.
const MOST_IN_ROW: usize = 10;

/// So many equal rows are told once.
const ALIKE: usize = 3;

/// Bytes with what they say.
struct Row<'a> {
    from: usize,
    bytes: &'a [u8],
    words: String,
}

/// Goes through a file; whoever takes the first bad byte goes no further.
struct Walk<'a> {
    file: &'a [u8],
    at: usize,
    /// The first bad byte, or the end.
    bad: usize,
    rows: Vec<Row<'a>>,
}

/// The plan, and the line that is printed about it.
pub fn told(plan: Option<&[u8]>, line: &str) -> String {
    let Some(file) = plan else {
        let words = "There is no file plan.bin. A file that can't be opened counts as empty.";
        return format!("\n{words}\n{}", end(&[], line));
    };
    let length = counted(file.len(), "byte", "bytes");
    let told = match file {
        [] => "\nThe plan (plan.bin) is an empty file.\n".to_string(),
        _ if is_told_in_full(file, &[]) => {
            let rows = rows(file);
            format!("\nThe plan (plan.bin, {length}), with the offset of each row:\n\n{rows}")
        }
        _ => format!(
            "\nThe plan (plan.bin, {length}), in short:\n\n{}",
            summary(file)
        ),
    };
    told + &end(file, line)
}

/// The line about the plan, and why it is so.
fn end(file: &[u8], line: &str) -> String {
    let why = match read(file) {
        Err(fault) => why(file, fault),
        Ok(plan) => match check(&plan) {
            None => "None of the twelve rules is broken.".to_string(),
            Some(Broken { rule, row }) => {
                let (rows, sentence) = RULES[rule - 1];
                format!(
                    "Rule {rule}: {sentence} The lowest row that breaks it ({rows}) is {row}; the events run \
                     all the same."
                )
            }
        },
    };
    format!("\n{}\n", wrapped(&format!("Printed: {line}. {why}")))
}

fn rows(file: &[u8]) -> String {
    let fault = read(file).err();
    let mut walk = Walk {
        file,
        at: 0,
        bad: fault.map_or(file.len(), |fault| fault.form.offset),
        rows: Vec::new(),
    };
    walk.plan();
    let mut text = String::new();
    for row in &walk.rows {
        let bytes = shortened(row.bytes);
        let mark = match walk.bad.checked_sub(row.from) {
            Some(place) if place < row.bytes.len() => format!("  <- byte {}", walk.bad),
            _ => String::new(),
        };
        let _ = writeln!(text, "  {:>4}  {bytes:<18}  {}{mark}", row.from, row.words);
    }
    let is_cut = walk.rows.iter().any(|row| row.bytes.len() > MOST_IN_ROW);
    let rest = &file[walk.at.min(file.len())..];
    if walk.bad < walk.at && !rest.is_empty() {
        let bytes = counted(rest.len(), "more byte", "more bytes");
        let _ = writeln!(text, "        {bytes}, not looked at");
    } else if !rest.is_empty() {
        let bytes = shortened(rest);
        let from = walk.at;
        let _ = writeln!(text, "  {from:>4}  {bytes:<18}  <- left over");
    }
    if is_cut {
        let words = format!(
            "Of a row of more than {MOST_IN_ROW} bytes the first five and the last alone are written \
             out, with `..` for those between; the words beside them say what all of them are."
        );
        let _ = write!(text, "\n{}\n", wrapped(&words));
    }
    text
}

/// The first bytes and the last.
fn shortened(bytes: &[u8]) -> String {
    if bytes.len() <= MOST_IN_ROW {
        return bytes_in_words(bytes);
    }
    let (first, last) = (&bytes[..5], &bytes[bytes.len() - 1..]);
    format!("{} .. {}", bytes_in_words(first), bytes_in_words(last))
}

impl<'a> Walk<'a> {
    /// The next bytes, as a row. Nothing if the first bad byte is among them or the file ends.
    fn take(&mut self, length: usize, words: impl FnOnce(&[u8]) -> String) -> Option<&'a [u8]> {
        let from = self.at;
        let end = (from + length).min(self.file.len());
        let bytes = &self.file[from..end];
        if bytes.is_empty() {
            return None;
        }
        let words = match bytes.len() == length {
            true => words(bytes),
            false => "(the file ends within these)".to_string(),
        };
        self.rows.push(Row { from, bytes, words });
        self.at = end;
        (end == from + length && self.bad >= end).then_some(bytes)
    }

    fn count(&mut self, one: &str, more: &str) -> Option<usize> {
        let row = self.take(1, |bytes| counted(usize::from(bytes[0]), one, more))?;
        Some(usize::from(row[0]))
    }

    /// A list after its count: of each item so many bytes.
    fn list(
        &mut self,
        name: &str,
        width: usize,
        words: impl FnOnce(&[u8]) -> String,
    ) -> Option<()> {
        let count = usize::from(*self.file.get(self.at)?);
        if self.bad == self.at {
            self.take(1, |_| format!("  {name}: a count of {count}"))?;
        }
        self.take(1 + count * width, |bytes| {
            format!("  {name}: {}", words(&bytes[1..]))
        })?;
        Some(())
    }

    /// How many of the next things, so many at most, have the same bytes as the last one.
    fn alike(&self, from: usize, most: usize) -> usize {
        let length = self.at - from;
        let thing = &self.file[from..self.at];
        let next = self.file[self.at..self.bad.max(self.at)].chunks_exact(length);
        next.take(most).take_while(|next| *next == thing).count()
    }

    /// Rows for so many things; where several in a row are alike, the first alone is told.
    fn things(
        &mut self,
        (one, more): (&str, &str),
        count: usize,
        mut thing: impl FnMut(&mut Self, usize) -> Option<()>,
    ) -> Option<()> {
        let mut number = 0;
        while number < count {
            let from = self.at;
            thing(self, number)?;
            let alike = self.alike(from, count - number - 1);
            if alike >= ALIKE {
                let (first, last) = (number + 1, number + alike);
                let words = format!("{more} {first} to {last}: each like {one} {number}");
                self.take(alike * (self.at - from), |_| words)?;
                number += alike;
            }
            number += 1;
        }
        Some(())
    }

    fn plan(&mut self) -> Option<()> {
        let tracks = self.count("track", "tracks")?;
        self.things(("track", "tracks"), tracks, |walk, number| {
            walk.take(4, |row| format!("track {number}: {}", track_row(row)))?;
            Some(())
        })?;
        let signals = self.count("signal", "signals")?;
        self.homes(signals)?;
        let routes = self.count("route", "routes")?;
        self.things(("route", "routes"), routes, Self::route)?;
        let entries = self.count("entry", "entries")?;
        self.things(("entry", "entries"), entries, Self::entry)
    }

    /// Homes that rise by one are told in one row.
    fn homes(&mut self, count: usize) -> Option<()> {
        let mut number = 0;
        while number < count {
            let rest = &self.file[self.at..self.bad.max(self.at)];
            let rises =
                |&(place, home): &(usize, &u8)| usize::from(*home) == usize::from(rest[0]) + place;
            let run = rest.iter().enumerate().take(count - number);
            let length = run.take_while(rises).count();
            let length = if length < ALIKE { 1 } else { length };
            self.take(length, |homes| match homes {
                [home] => format!("signal {number}: its home is track {home}"),
                _ => format!(
                    "signals {number} to {}: their homes are tracks {}",
                    number + length - 1,
                    runs(homes)
                ),
            })?;
            number += length;
        }
        Some(())
    }

    fn route(&mut self, number: usize) -> Option<()> {
        self.take(1, |start| {
            format!("route {number}: starts at signal {}", start[0])
        })?;
        self.list("path", 1, |path| listed("track", path))?;
        self.list("clear", 1, |clear| listed("track", clear))?;
        self.list("normal", 1, |normal| listed("point", normal))?;
        self.list("reverse", 1, |reverse| listed("point", reverse))?;
        self.list("releases", 2, released)
    }

    fn entry(&mut self, number: usize) -> Option<()> {
        self.take(1, |track| format!("entry {number}: at track {}", track[0]))?;
        self.list("clear", 1, |clear| listed("track", clear))
    }
}

/// A track's four bytes.
fn track_row(row: &[u8]) -> String {
    match *row {
        [0, next, ..] => format!("plain, leads to track {next}"),
        [1, normal, reverse, ..] => {
            format!("facing point, normal way out to track {normal}, reverse way out to track {reverse}")
        }
        [2, next, normal_leg, reverse_leg] => format!(
            "trailing point, normal leg track {normal_leg}, reverse leg track {reverse_leg}, \
             leads to track {next}"
        ),
        [3, ..] => "exit".to_string(),
        [kind, ..] => format!("of kind {kind}"),
        [] => String::new(),
    }
}

/// Pairs of track and point; points that rise by one at the same track are told together.
fn released(pairs: &[u8]) -> String {
    let mut words = Vec::new();
    let pairs: Vec<&[u8]> = pairs.chunks(2).collect();
    for same in pairs.chunk_by(|one, next| one[0] == next[0]) {
        let points: Vec<u8> = same
            .iter()
            .filter_map(|pair| pair.get(1).copied())
            .collect();
        words.push(format!(
            "{} on arrival at track {}",
            listed("point", &points),
            same[0][0]
        ));
    }
    match words.is_empty() {
        true => "none".to_string(),
        false => words.join("; "),
    }
}

/// What a count counts, in one word or two.
fn things_at(count_place: Place) -> &'static str {
    match count_place {
        Place::TrackCount => "tracks",
        Place::SignalCount => "signals",
        Place::RouteCount => "routes",
        Place::PathCount => "tracks in a path",
        Place::ClearCount | Place::EntryClearCount => "tracks in a clear list",
        Place::NormalCount => "normal points",
        Place::ReverseCount => "reverse points",
        Place::ReleaseCount => "releases",
        _ => "entries",
    }
}

/// Why a file can't be read.
fn why(file: &[u8], fault: Fault) -> String {
    let offset = fault.form.offset;
    let byte = file.get(offset).copied().unwrap_or(0);
    let tracks = usize::from(file.first().copied().unwrap_or(0));
    match (fault.form.number, fault.place) {
        (1, _) => format!(
            "The file ends early, after {}.",
            counted(file.len(), "byte", "bytes")
        ),
        (2, place) => {
            let (least, most) = limits(place).into_inner();
            let things = things_at(place);
            format!(
                "Byte {offset} is a count beyond its limits: {byte} {things}, and there may be \
                     {least} to {most}."
            )
        }
        (3, Place::TrackKind) => {
            format!("Byte {offset} is kind {byte}, and there are only 0 to 3.")
        }
        (3, Place::UnusedByte) => format!("Byte {offset} is unused and must be 0; it is {byte}."),
        (3, Place::Start) => format!("Byte {offset} names signal {byte}, which doesn't exist."),
        (3, _) if usize::from(byte) >= tracks => {
            format!("Byte {offset} names track {byte}, which doesn't exist.")
        }
        (3, _) => format!("Byte {offset} names track {byte} as a point, and it is none."),
        (4, place) => {
            let forerunner = match place {
                Place::ReleasePoint => file[offset - 2],
                Place::EntryTrack => last_entry(file, offset),
                _ => file[offset - 1],
            };
            format!(
                "Byte {offset}, {byte}, is not above its forerunner, {forerunner}: the list \
                     doesn't rise strictly."
            )
        }
        _ => {
            let left = counted(file.len() - offset, "byte is", "bytes are");
            format!("The plan ends before byte {offset}, and {left} left over.")
        }
    }
}

/// The track of the entry before the one whose track stands at this offset: with a higher number
/// there the file would be read on, so the entry before begins where its list says.
fn last_entry(file: &[u8], offset: usize) -> u8 {
    let begins = |start: &usize| {
        let fault = read(&file[..*start]).err();
        fault.is_some_and(|fault| fault.place == Place::EntryTrack)
    };
    let before = (0..offset).rev().find(begins);
    before.map_or(0, |start| file[start])
}

/// A plan too long to be told row by row.
fn summary(file: &[u8]) -> String {
    let fault = read(file).err();
    let whole = fault.map_or(file, |fault| &file[..fault.form.offset.min(file.len())]);
    let Ok(plan) = read(whole) else {
        return "  (its rows are left out here; they are in plan.bin)\n".to_string();
    };
    let mut text = String::new();
    let mut say = |words: String| {
        let _ = writeln!(text, "  {words}");
    };
    let kinds = |is: fn(&Track) -> bool| plan.tracks.iter().filter(|track| is(track)).count();
    say(format!(
        "{} tracks: {} plain, {} facing points, {} trailing points, {}",
        plan.tracks.len(),
        kinds(Track::is_plain),
        kinds(|track| matches!(track, Track::Facing { .. })),
        kinds(|track| matches!(track, Track::Trailing { .. })),
        counted(kinds(|track| *track == Track::Exit), "exit", "exits"),
    ));
    say(format!("{} signals", plan.homes.len()));
    say(format!("{} routes, each with", plan.routes.len()));
    for (name, length) in LISTS {
        say(format!("  {name} of {}", extent(&plan, *length)));
    }
    let clear = plan.entries.iter().map(|entry| entry.clear.len());
    let entries = plan.entries.len();
    say(format!(
        "{entries} entries, each with a clear list of {}",
        between(clear)
    ));
    say("Left out here: what each row says. It is in plan.bin.".to_string());
    text
}

type Length = fn(&Route) -> usize;

const LISTS: &[(&str, Length)] = &[
    ("a path", |route| route.path.len()),
    ("a clear list", |route| route.clear.len()),
    ("a normal list", |route| route.normal.len()),
    ("a reverse list", |route| route.reverse.len()),
    ("a release list", |route| route.releases.len()),
];

fn extent(plan: &Plan, length: Length) -> String {
    between(plan.routes.iter().map(length))
}

fn between(lengths: impl Iterator<Item = usize> + Clone) -> String {
    match (lengths.clone().min(), lengths.max()) {
        (Some(least), Some(most)) if least < most => format!("{least} to {most}"),
        (Some(least), _) => least.to_string(),
        _ => "0".to_string(),
    }
}

/// The twelve rules with what their rows are.
const RULES: [(&str, &str); 12] = [
    (
        "track",
        "The two ways out of a facing point differ; so do the two legs of a trailing point.",
    ),
    ("track", "Each leg of a trailing point leads to it."),
    (
        "track led to",
        "No two tracks lead to the same track, except the two legs of a trailing point; nothing \
         but its legs leads to a trailing point.",
    ),
    ("signal", "A home track is plain."),
    (
        "entry",
        "An entry track is plain, is some signal's home, and nothing leads to it.",
    ),
    (
        "route",
        "The home leads to the first path track, each path track to the following one; home and \
         path tracks are all different.",
    ),
    (
        "route",
        "No path track but the last is a home; the last is a home or an exit.",
    ),
    ("route", "The clear list holds the whole path."),
    (
        "route",
        "Each facing point on the path is listed normal or reverse by the way out taken, each \
         trailing point by the leg it is entered from; no point is in both lists.",
    ),
    ("route", "Every listed point is in the clear list."),
    (
        "route",
        "The release list's points are exactly the listed points; each release track is on the \
         path, and later than its point where the point is on the path.",
    ),
    ("entry", "The clear list holds the entry track."),
];
