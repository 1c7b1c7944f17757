//! Boxes whose 13 names the wrong train, for requests or for entries: that of another track, another
//! number, or what is no train at all. Most are wrong as seldom as can be: where the other track has no
//! train, they name the right one.

use super::{Slip, Wrong};
use crate::book::{put_line, Book};
use crate::model::answer::{Answer, Refusal};
use crate::model::plan::{self, Plan};
use crate::model::reading::Form;
use crate::model::rules;
use crate::model::state::State;
use crate::model::step::{lowest_held_otherwise, step};
use crate::subject::Lent;

/// What a box has before it when it says 13.
struct Way<'a> {
    plan: &'a Plan,
    state: &'a State,
    event: &'a [u8],
    /// The list that was walked, and the place in it where a train was found.
    clear: &'a [usize],
    place: usize,
    /// What is to be named.
    track: usize,
    train: u8,
}

/// The train that is named.
type Name = fn(&Way) -> u8;

/// The track and the train that are named.
type Names = fn(&Way) -> (usize, u8);

/// A box whose 13 for such events, 1 a request and 3 an entry, names this train.
macro_rules! names {
    ($kind:literal, $name:expr) => {
        Wrong::Step(|plan, state, event| {
            let name: Name = $name;
            named($kind, plan, state, event, &|way| (way.track, name(way)))
        })
    };
}

/// The same for the track and the train.
macro_rules! names_both {
    ($kind:literal, $names:expr) => {
        Wrong::Step(|plan, state, event| {
            let names: Names = $names;
            named($kind, plan, state, event, &names)
        })
    };
}

/// All the ways in which the train can be wrong, whoever asks.
macro_rules! wrong_trains {
    ($group:ident, $kind:literal, $test:literal) => {
        const $group: &[Slip] = &[
            (
                concat!($test, " names the train of the list's next busy track"),
                names!($kind, |way| way.listed().nth(1).unwrap_or(way.train)),
            ),
            (
                concat!($test, " names the train of the list's highest busy track"),
                names!($kind, |way| way.listed().last().unwrap_or(0)),
            ),
            (
                concat!($test, " names the train of the list's last track"),
                names!($kind, |way| way.on(way.clear[way.clear.len() - 1])),
            ),
            (
                concat!($test, " names the train of the list's first track, or none"),
                names!($kind, |way| way.state.trains[way.clear[0]].unwrap_or(0)),
            ),
            (
                concat!($test, " names the train of the list's next track"),
                names!($kind, |way| way.on_listed(way.place + 1)),
            ),
            (
                concat!(
                    $test,
                    " names the train of the junction's lowest busy track"
                ),
                names!($kind, |way| way.all().next().unwrap_or(0)),
            ),
            (
                concat!(
                    $test,
                    " names the train of the junction's highest busy track"
                ),
                names!($kind, |way| way.all().last().unwrap_or(0)),
            ),
            (
                concat!($test, " names the train of track 0"),
                names!($kind, |way| way.on(0)),
            ),
            (
                concat!($test, " names the train of the track before"),
                names!($kind, |way| way.on(way.track.saturating_sub(1))),
            ),
            (
                concat!($test, " names the train of the track behind"),
                names!($kind, |way| way.on(way.track + 1)),
            ),
            (
                concat!(
                    $test,
                    " names the train of the track with the place's number"
                ),
                names!($kind, |way| way.on(way.place)),
            ),
            (
                concat!(
                    $test,
                    " names the train of the track with the train's number"
                ),
                names!($kind, |way| way.on(way.train.into())),
            ),
            (
                concat!($test, " names the list's lowest train"),
                names!($kind, |way| way.listed().min().unwrap_or(0)),
            ),
            (
                concat!($test, " names the list's highest train"),
                names!($kind, |way| way.listed().max().unwrap_or(0)),
            ),
            (
                concat!($test, " names the junction's lowest train"),
                names!($kind, |way| way.all().min().unwrap_or(0)),
            ),
            (
                concat!($test, " names the junction's highest train"),
                names!($kind, |way| way.all().max().unwrap_or(0)),
            ),
            (
                concat!($test, " names all trains of the list in one number"),
                names!($kind, |way| way.listed().fold(0, |all, train| all | train)),
            ),
            (
                concat!($test, " names the list's lowest train and its track"),
                names_both!($kind, |way| way
                    .hits()
                    .min_by_key(|hit| hit.1)
                    .unwrap_or((0, 0))),
            ),
            (
                concat!($test, " names the list's highest train and its track"),
                names_both!($kind, |way| way
                    .hits()
                    .max_by_key(|hit| hit.1)
                    .unwrap_or((0, 0))),
            ),
            (
                concat!($test, " names the train first and then the track"),
                names_both!($kind, |way| (way.train.into(), way.track as u8)),
            ),
            (
                concat!($test, " names the train twice"),
                names_both!($kind, |way| (way.train.into(), way.train)),
            ),
            (
                concat!($test, " names the track twice"),
                names!($kind, |way| way.track as u8),
            ),
            (
                concat!($test, " names the track's number and one more as the train"),
                names!($kind, |way| way.track as u8 + 1),
            ),
            (
                concat!($test, " names the place as the train"),
                names!($kind, |way| way.place as u8),
            ),
            (
                concat!($test, " names the place, from 1, as the train"),
                names!($kind, |way| way.place as u8 + 1),
            ),
            (
                concat!($test, " names its own number as the train"),
                names!($kind, |way| way.event[1]),
            ),
            (
                concat!($test, " names how many trains are in the way"),
                names!($kind, |way| way.listed().count() as u8),
            ),
            (concat!($test, " names train 0"), names!($kind, |_| 0)),
            (concat!($test, " names train 1"), names!($kind, |_| 1)),
            (
                concat!($test, " names the train after"),
                names!($kind, |way| way.train.wrapping_add(1)),
            ),
            (
                concat!($test, " names no train above 127"),
                names!($kind, |way| way.train & 127),
            ),
            (
                concat!($test, " names trains above 127 as if they had a sign"),
                names!($kind, |way| (way.train as i8).unsigned_abs()),
            ),
            (
                concat!($test, " names the last two digits of the train"),
                names!($kind, |way| way.train % 100),
            ),
            (
                concat!($test, " names no train above 99"),
                names!($kind, |way| way.train.min(99)),
            ),
            (
                concat!($test, " names the last digit of the train"),
                names!($kind, |way| way.train % 10),
            ),
            (
                concat!($test, " names the last six bits of the train"),
                names!($kind, |way| way.train & 63),
            ),
            (
                concat!($test, " names train 255 as 0"),
                names!($kind, |way| way.unless(way.train == 255)),
            ),
            (
                concat!($test, " names no train where several are in the way"),
                names!($kind, |way| way.unless(way.listed().nth(1).is_some())),
            ),
            (
                concat!($test, " names no train where one alone is in the way"),
                names!($kind, |way| way.unless(way.listed().nth(1).is_none())),
            ),
            (
                concat!($test, " names no train where three or more are in the way"),
                names!($kind, |way| way.unless(way.listed().nth(2).is_some())),
            ),
            (
                concat!($test, " names no train on a point"),
                names!($kind, |way| way.unless(way.plan.is_point(way.track))),
            ),
            (
                concat!($test, " names no train on a home"),
                names!($kind, |way| way.unless(way.plan.is_home(way.track))),
            ),
            (
                concat!($test, " names no train on track 0"),
                names!($kind, |way| way.unless(way.track == 0)),
            ),
            (
                concat!($test, " names no train on track 63"),
                names!($kind, |way| way.unless(way.track == plan::MOST_TRACKS - 1)),
            ),
            (
                concat!($test, " names no train at the last place of its list"),
                names!($kind, |way| way.unless(way.place == way.clear.len() - 1)),
            ),
            (
                concat!($test, " names no train where its list has one track"),
                names!($kind, |way| way.unless(way.clear.len() == 1)),
            ),
            (
                concat!($test, " names no train for the last of its kind"),
                names!($kind, |way| way.unless(way.is_last())),
            ),
            (
                concat!(
                    $test,
                    " names no train for the last of its kind that can be"
                ),
                names!($kind, |way| way.unless(way.is_very_last())),
            ),
            (
                concat!($test, " names no train on an accepted plan"),
                names!($kind, |way| way.unless(rules::check(way.plan).is_none())),
            ),
            (
                concat!($test, " names no train on a bad plan"),
                names!($kind, |way| way.unless(rules::check(way.plan).is_some())),
            ),
        ];
    };
}

wrong_trains! { REQUEST, 1, "13 for a request" }
wrong_trains! { ENTRY, 3, "13 for an entry" }

/// What a request or an entry alone can take for the train.
const OWN: &[Slip] = &[
    (
        "13 for a request names the train on its home",
        names!(1, |way| way.on(way.plan.home_of(way.route()))),
    ),
    (
        "13 for a request names the train on the first track of its path",
        names!(1, |way| way.on(way.route().path[0])),
    ),
    (
        "13 for a request names the train on the last track of its path",
        names!(1, |way| way
            .on(way.route().path[way.route().path.len() - 1])),
    ),
    (
        "13 for a request names no train where 14 applies too",
        names!(1, |way| {
            let is_held = lowest_held_otherwise(way.state, way.route()).is_some();
            way.unless(is_held)
        }),
    ),
    (
        "13 for a request names the train in the way of route 0",
        names!(1, |way| {
            let found = way.state.first_train_on(&way.plan.routes[0].clear);
            found.map_or(way.train, |(_, train)| train)
        }),
    ),
    (
        "13 for an entry names the train in the way of entry 0",
        names!(3, |way| {
            let found = way.state.first_train_on(&way.plan.entries[0].clear);
            found.map_or(way.train, |(_, train)| train)
        }),
    ),
    (
        "13 for an entry names the train that enters",
        names!(3, |way| way.event[2]),
    ),
    (
        "13 for an entry names the lower of the train and the one that enters",
        names!(3, |way| way.train.min(way.event[2])),
    ),
    (
        "13 for an entry names the higher of the train and the one that enters",
        names!(3, |way| way.train.max(way.event[2])),
    ),
    (
        "13 for an entry names the train on its own track",
        names!(3, |way| way.on(way.entry_track())),
    ),
    (
        "13 for an entry names no train where its own track has none",
        names!(3, |way| {
            way.unless(way.state.trains[way.entry_track()].is_none())
        }),
    ),
];

/// What is done to each printed line. It may remember something from one to the next.
type Change = fn(&str, &mut String) -> String;

/// A change of every line, in whole runs and in what is fed.
macro_rules! in_lines {
    ($($slip:literal: $change:expr,)*) => {
        &[$(
            (
                concat!("a run prints ", $slip),
                Wrong::Whole(|book, file, events| {
                    let lines = book.whole_run(file, events);
                    changed(&lines, $change).into_bytes()
                }),
            ),
            (
                concat!("feed prints ", $slip),
                Wrong::Feed(|book, asked, kept| fed(book.any_feed(asked, kept), $change)),
            ),
        )*]
    };
}

/// Lines in which the train stands where it should not, or not where it should, or in which a word of
/// another line is another: with the train dropped from 13, all must be document 01's.
const LINES: &[Slip] = in_lines! {
    "no train in 13": |line, _| match line.split_once(" train ") {
        Some((before, _)) => before.to_string(),
        None => line.to_string(),
    },
    "the train of 13 before the track": |line, _| {
        let words: Vec<&str> = line.split(' ').collect();
        match words[..] {
            [first, "13", _, track, _, train] => {
                format!("{first} 13 train {train} track {track}")
            }
            _ => line.to_string(),
        }
    },
    "the train of 13 with three digits": |line, _| match line.split_once(" train ") {
        Some((before, train)) => format!("{before} train {train:0>3}"),
        None => line.to_string(),
    },
    "the train of 13 without the word": |line, _| line.replace(" train ", " "),
    "the track of 13 as a point": |line, _| line.replace("refused 13 track", "refused 13 point"),
    "the train that it named before in 13": |line, before| match line.split_once(" train ") {
        Some((track, train)) => {
            let named = std::mem::replace(before, train.to_string());
            let named = if named.is_empty() { train } else { &named };
            format!("{track} train {named}")
        }
        None => line.to_string(),
    },
    "a train in 12": |line, _| behind(line, "refused 12", " train 1"),
    "a train in 14": |line, _| behind(line, "refused 14", " train 1"),
    "a train in 16": |line, _| behind(line, "refused 16", " train 1"),
    "a train in 17": |line, _| behind(line, "refused 17", " train 1"),
    "a train in 40": |line, _| behind(line, "accident 40", " train 1"),
    "a train in 42": |line, _| behind(line, "accident 42", " train 1"),
    "the train of an entry once more": |line, _| behind(line, "entered", " train 1"),
    "a track in 14": |line, _| line.replace("refused 14 point", "refused 14 track"),
    "another word in a move": |line, _| line.replace(" to ", " onto "),
    "another word where a route is cancelled": |line, _| line.replace("cancelled", "canceled"),
};

/// Lines for the plan, and the codes of many events.
const OTHERS: &[Slip] = &[
    (
        "open prints a train where a rule is broken",
        Wrong::Open(|verdict, room| {
            let line = Book::opening(verdict, room);
            fed(line, |line, _| behind(line, "rule", " train 1"))
        }),
    ),
    (
        "a run prints a train where a rule is broken",
        Wrong::Whole(|book, file, events| {
            let lines = book.whole_run(file, events);
            changed(&lines, |line, _| behind(line, "rule", " train 1")).into_bytes()
        }),
    ),
    (
        "run drops the train of 13",
        Wrong::Run(|book, asked, kept| {
            answered(book.any_run(asked, kept), |refusal, _| match refusal {
                Refusal::TrainInTheWay { track, .. } => Answer::in_the_way((track, 0)),
                _ => Answer::Refused(refusal),
            })
        }),
    ),
    (
        "run names the train that it named before in 13",
        Wrong::Run(|book, asked, kept| {
            answered(book.any_run(asked, kept), |refusal, before| match refusal {
                Refusal::TrainInTheWay { track, train } => {
                    let named = std::mem::replace(before, train);
                    let named = if named == 0 { train } else { named };
                    Answer::in_the_way((track, named))
                }
                _ => Answer::Refused(refusal),
            })
        }),
    ),
    (
        "run puts a train into the code of 16",
        Wrong::Run(|book, asked, kept| {
            answered(book.any_run(asked, kept), |refusal, _| match refusal {
                // A code of 16 with a value more is no answer's.
                Refusal::TrainAtHome { track } => Answer::Unreadable(Form {
                    number: 16,
                    offset: track | 1 << 8,
                }),
                _ => Answer::Refused(refusal),
            })
        }),
    ),
    (
        "run says 16 for 13",
        Wrong::Run(|book, asked, kept| {
            answered(book.any_run(asked, kept), |refusal, _| match refusal {
                Refusal::TrainInTheWay { track, .. } => {
                    Answer::Refused(Refusal::TrainAtHome { track })
                }
                _ => Answer::Refused(refusal),
            })
        }),
    ),
];

/// Every wrong train in a step.
pub const STEPS: [&[Slip]; 3] = [REQUEST, ENTRY, OWN];

/// Every wrong train in lines, and in the codes of many events.
pub const PRINTED: [&[Slip]; 2] = [LINES, OTHERS];

impl Way<'_> {
    /// The train on a track, the right one where there is none.
    fn on(&self, track: usize) -> u8 {
        let train = self.state.trains.get(track).copied().flatten();
        train.unwrap_or(self.train)
    }

    /// The same by a place in the list.
    fn on_listed(&self, place: usize) -> u8 {
        let track = self.clear.get(place);
        track.map_or(self.train, |&track| self.on(track))
    }

    /// No train where this holds.
    fn unless(&self, is_wrong: bool) -> u8 {
        match is_wrong {
            true => 0,
            false => self.train,
        }
    }

    /// The tracks of the list that have a train, with their trains.
    fn hits(&self) -> impl Iterator<Item = (usize, u8)> + '_ {
        let tracks = self.clear.iter();
        tracks.filter_map(|&track| Some((track, self.state.trains[track]?)))
    }

    fn listed(&self) -> impl Iterator<Item = u8> + '_ {
        self.hits().map(|(_, train)| train)
    }

    /// The trains of the junction, by their tracks.
    fn all(&self) -> impl Iterator<Item = u8> + '_ {
        self.state.trains.iter().copied().flatten()
    }

    /// The number of the route or the entry.
    fn number(&self) -> usize {
        usize::from(self.event[1])
    }

    fn route(&self) -> &plan::Route {
        &self.plan.routes[self.number()]
    }

    fn entry_track(&self) -> usize {
        self.plan.entries[self.number()].track
    }

    fn is_last(&self) -> bool {
        let count = match self.event[0] {
            1 => self.plan.routes.len(),
            _ => self.plan.entries.len(),
        };
        self.number() + 1 == count
    }

    fn is_very_last(&self) -> bool {
        let most = match self.event[0] {
            1 => *plan::ROUTES.end(),
            _ => *plan::ENTRIES.end(),
        };
        self.number() + 1 == most
    }
}

/// The step, in which 13 for such events names something else.
fn named(
    kind: u8,
    plan: &Plan,
    state: &mut State,
    event: &[u8],
    names: &dyn Fn(&Way) -> (usize, u8),
) -> Answer {
    let answer = step(plan, state, event);
    let Answer::Refused(Refusal::TrainInTheWay { track, train }) = answer else {
        return answer;
    };
    if event[0] != kind {
        return answer;
    }
    let number = usize::from(event[1]);
    let clear = match kind {
        1 => &plan.routes[number].clear,
        _ => &plan.entries[number].clear,
    };
    let place = clear.iter().position(|&listed| listed == track);
    Answer::in_the_way(names(&Way {
        plan,
        state,
        event,
        clear,
        place: place.unwrap_or(0),
        track,
        train,
    }))
}

/// A line that begins so, with this behind it.
fn behind(line: &str, beginning: &str, more: &str) -> String {
    match line.starts_with(beginning) {
        true => format!("{line}{more}"),
        false => line.to_string(),
    }
}

/// Lines, each of them changed.
fn changed(lines: &[u8], change: Change) -> String {
    let mut before = String::new();
    let lines = String::from_utf8_lossy(lines);
    let changed = lines.lines().map(|line| change(line, &mut before) + "\n");
    changed.collect()
}

/// The same of what was written into lent memory.
fn fed(lines: Lent<u8>, change: Change) -> Lent<u8> {
    let written: Vec<u8> = lines.written().collect();
    let mut fed = Lent {
        count: 0,
        cells: vec![None; lines.cells.len()],
        ..lines
    };
    for line in changed(&written, change).lines() {
        put_line(&mut fed, line);
    }
    fed
}

/// Answers of many events, with each refusal changed. It may remember a train.
fn answered(mut answers: Lent<Answer>, change: fn(Refusal, &mut u8) -> Answer) -> Lent<Answer> {
    let mut before = 0;
    for cell in &mut answers.cells {
        if let Some(Answer::Refused(refusal)) = *cell {
            *cell = Some(change(refusal, &mut before));
        }
    }
    answers
}
