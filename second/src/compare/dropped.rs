//! With the train dropped from 13, every line and every code is that of document 01, which names no
//! train there. Its words stand here once more, apart from those that the model prints, and its test
//! for 13 too, which looks at every track: neither knows of a train to be named.

use super::history::Told;
use super::special::kinds_in_words;
use super::trouble::Trouble;
use crate::model::answer::{Accident, Answer, Refusal, Verdict};
use crate::model::plan::Plan;
use crate::model::reading::{self, Form};
use crate::model::state::{Arrays, State};
use crate::model::step::step;
use crate::subject::EVENT;

type Finding = Result<(), Trouble>;

// What was held against document 01.
kinds_in_words! { Held, HELD:
    LineOfRequest "the train dropped: a line of 13 for a request",
    LineOfEntry "the train dropped: a line of 13 for an entry",
    OtherLine "the train dropped: another line for an event",
    LineOfPlan "the train dropped: a line for the plan",
    CodeOfRequest "the train dropped: a code of 13 for a request",
    CodeOfEntry "the train dropped: a code of 13 for an entry",
    OtherCode "the train dropped: another code",
}

/// How often each was.
pub type Tried = [u64; HELD.len()];

pub const NONE: Tried = [0; HELD.len()];

/// 13 alone, as no box may say it.
const NO_TRACK: u64 = 13;

/// Events with what document 01 says of them.
#[derive(Clone, Copy, Default)]
pub struct Due<'a> {
    pub events: &'a [u8],
    pub codes: &'a [u64],
}

impl<'a> Due<'a> {
    /// So many events, and the rest, which may have none.
    pub fn split_at(self, count: usize) -> (Self, Self) {
        let (codes, later_codes) = self.codes.split_at(count.min(self.codes.len()));
        let (events, later) = self.events.split_at((EVENT * count).min(self.events.len()));
        let first = Due { events, codes };
        let rest = Due {
            events: later,
            codes: later_codes,
        };
        (first, rest)
    }

    fn each(self) -> impl Iterator<Item = (u64, &'a [u8])> {
        self.codes.iter().copied().zip(self.events.chunks(EVENT))
    }
}

/// A plan by document 01.
pub struct Dropped {
    plan: Result<Plan, Form>,
    /// A place to play in.
    state: State,
    /// The events of a whole run and their codes: it mostly comes again in pieces.
    whole: (Vec<u8>, Vec<u64>),
    pub tried: Tried,
}

impl Dropped {
    pub fn new(file: &[u8]) -> Self {
        let plan = reading::read(file).map_err(|fault| fault.form);
        let none = State {
            trains: vec![],
            lies: vec![],
            holds: vec![],
            signals: vec![],
        };
        Dropped {
            state: plan.as_ref().map_or(none, State::fresh),
            whole: (vec![], vec![]),
            plan,
            tried: NONE,
        }
    }

    pub fn plan(&self) -> Option<&Plan> {
        self.plan.as_ref().ok()
    }

    /// The code of an event in this state, to which the model answers so.
    fn code(&self, before: &Arrays, event: &[u8], answer: &Answer) -> u64 {
        let answer = code(answer);
        match &self.plan {
            Err(form) => of_form(*form),
            // No other test is asked.
            Ok(_) if answer == 10 => answer,
            Ok(plan) => {
                let is_red = |signal: usize| before.signals[signal] == 0;
                said(in_the_way(plan, event, &before.trains, 0, is_red), answer)
            }
        }
    }

    /// The codes of events from the fresh state on, of which the model tells this story. It does not
    /// tell of an incomplete one.
    pub fn codes_of(&mut self, events: &[u8], story: &[Told]) -> Vec<u64> {
        let mut before = &Arrays::fresh();
        let mut codes = Vec::with_capacity(story.len() + 1);
        for (told, event) in story.iter().zip(events.chunks_exact(EVENT)) {
            codes.push(self.code(before, event, &told.answer));
            before = &told.after;
        }
        let left_over = events.chunks_exact(EVENT).remainder();
        if !left_over.is_empty() {
            codes.push(self.code(before, left_over, &Answer::Refused(Refusal::BadEvent)));
        }
        self.whole = (events.to_vec(), codes.clone());
        codes
    }

    /// The codes of events from any state on, which are played for this.
    pub fn codes(&mut self, from: &Arrays, events: &[u8]) -> Vec<u64> {
        if self.whole.0 == events && *from == Arrays::fresh() {
            return self.whole.1.clone();
        }
        let events = events.chunks(EVENT);
        match &self.plan {
            Err(form) => vec![of_form(*form); events.len()],
            Ok(plan) if !self.state.load(plan, from) => vec![10; events.len()],
            Ok(plan) => {
                let state = &mut self.state;
                let play = |event: &[u8]| {
                    let is_red = |signal: usize| state.signals[signal].is_none();
                    let track = in_the_way(plan, event, &state.trains, None, is_red);
                    said(track, code(&step(plan, state, event)))
                };
                events.map(play).collect()
            }
        }
    }

    /// Holds answers against the codes of their events.
    pub fn answers<'a>(&mut self, due: Due, answers: impl Iterator<Item = &'a Answer>) -> Finding {
        for (answer, (due, event)) in answers.zip(due.each()) {
            let found = code(answer);
            if found != due {
                let words = format!("{answer}, the train dropped code {found}");
                return Err(Trouble::new(format!("document 01's code {due}"), words));
            }
            let kinds = [Held::CodeOfRequest, Held::CodeOfEntry, Held::OtherCode];
            self.note(due, event, kinds);
        }
        Ok(())
    }

    /// Holds an answer against what the model answers to the event, of which the first three bytes count.
    pub fn answer(
        &mut self,
        before: &Arrays,
        event: &[u8],
        model: &Answer,
        found: &Answer,
    ) -> Finding {
        // One without any bytes is an event too.
        let event = match event {
            [] => &[0][..],
            _ => &event[..event.len().min(EVENT)],
        };
        let codes = &[self.code(before, event, model)];
        self.answers(
            Due {
                events: event,
                codes,
            },
            std::iter::once(found),
        )
    }

    /// Holds the printed lines of events against their codes.
    pub fn lines(&mut self, due: Due, printed: &[u8]) -> Finding {
        let mut lines = printed.split_inclusive(|&byte| byte == b'\n');
        let mut first = Vec::new();
        for (code, event) in due.each() {
            first.clear();
            print(code, &mut first);
            let line = lines.next().unwrap_or_default();
            let ended = line.strip_suffix(b"\n");
            if ended.and_then(without_train) != Some(&first) {
                return Err(other_line(&first, line));
            }
            let kinds = [Held::LineOfRequest, Held::LineOfEntry, Held::OtherLine];
            self.note(code, event, kinds);
        }
        match lines.next() {
            Some(line) => Err(other_line(b"no more lines", line)),
            None => Ok(()),
        }
    }

    /// Holds the printed line for the plan against the verdict, and hands back what follows it.
    pub fn opening<'a>(
        &mut self,
        verdict: Verdict,
        printed: &'a [u8],
    ) -> Result<&'a [u8], Trouble> {
        let due = match verdict {
            Verdict::Accepted => "accepted\n".to_string(),
            Verdict::Broken(broken) => format!("rule {} row {}\n", broken.rule, broken.row),
            Verdict::Unreadable(form) => format!("form {} at {}\n", form.number, form.offset),
        };
        self.tried[Held::LineOfPlan as usize] += 1;
        let rest = printed.strip_prefix(due.as_bytes());
        rest.ok_or_else(|| {
            let mut lines = printed.split_inclusive(|&byte| byte == b'\n');
            other_line(due.as_bytes(), lines.next().unwrap_or_default())
        })
    }

    fn note(&mut self, code: u64, event: &[u8], [request, entry, other]: [Held; 3]) {
        let kind = match (code as u8, event[0]) {
            (13, 1) => request,
            (13, 3) => entry,
            _ => other,
        };
        self.tried[kind as usize] += 1;
    }
}

fn other_line(due: &[u8], found: &[u8]) -> Trouble {
    let words = |line: &[u8]| String::from_utf8_lossy(line).trim_end().to_string();
    Trouble::new(format!("document 01's {}", words(due)), words(found))
}

/// What document 01 says of an event: 13 by the track that was found here, and all else as the model.
fn said(track: Option<usize>, model: u64) -> u64 {
    match track {
        Some(track) => of(13, [track, 0, 0]),
        None if model as u8 == 13 => NO_TRACK,
        None => model,
    }
}

/// The lowest of all tracks that is to be clear and has a train, if no test before 13 answers. The
/// state is given by its trains, by what is there where there is none, and by its red signals.
fn in_the_way<T: PartialEq + From<u8>>(
    plan: &Plan,
    event: &[u8],
    trains: &[T],
    none: T,
    is_red: impl Fn(usize) -> bool,
) -> Option<usize> {
    let (clear, is_asked) = match *event {
        [1, route, 0] => {
            let route = plan.routes.get(usize::from(route))?;
            (&route.clear, is_red(route.start))
        }
        [3, entry, train] => {
            let is_new = train != 0 && !trains.contains(&train.into());
            (&plan.entries.get(usize::from(entry))?.clear, is_new)
        }
        _ => return None,
    };
    let mut tracks = 0..plan.tracks.len();
    tracks.find(|track| is_asked && trains[*track] != none && clear.contains(track))
}

/// The code of an answer, without the train of 13: the number, and above it the values.
pub fn code(answer: &Answer) -> u64 {
    match *answer {
        Answer::Unreadable(form) => of_form(form),
        Answer::Refused(Refusal::NotWellFormed) => 10,
        Answer::Refused(Refusal::BadEvent) => 11,
        Answer::Refused(Refusal::SignalNotRed) => 12,
        Answer::Refused(Refusal::TrainInTheWay { track, train: _ }) => of(13, [track, 0, 0]),
        Answer::Refused(Refusal::PointHeld { point }) => of(14, [point, 0, 0]),
        Answer::Refused(Refusal::SignalNotGreen) => 15,
        Answer::Refused(Refusal::TrainAtHome { track }) => of(16, [track, 0, 0]),
        Answer::Refused(Refusal::AlreadyInPlan) => 17,
        Answer::Refused(Refusal::NotInPlan) => 18,
        Answer::Refused(Refusal::SignalRed { signal }) => of(19, [signal, 0, 0]),
        Answer::Accident(Accident::Collision { track }) => of(40, [track, 0, 0]),
        Answer::Accident(Accident::RunThrough { track }) => of(41, [track, 0, 0]),
        Answer::Accident(Accident::Derailment { point }) => of(42, [point, 0, 0]),
        Answer::Granted { route } => of(100, [route, 0, 0]),
        Answer::Cancelled { route } => of(101, [route, 0, 0]),
        Answer::Entered { train, track } => of(102, [train.into(), track, 0]),
        Answer::Moved { train, from, to } => of(103, [train.into(), from, to]),
        Answer::Left { train, from } => of(104, [train.into(), from, 0]),
    }
}

fn of(number: u64, [first, second, third]: [usize; 3]) -> u64 {
    number | (first as u64) << 8 | (second as u64) << 16 | (third as u64) << 24
}

fn of_form(form: Form) -> u64 {
    u64::from(form.number) | (form.offset as u64) << 8
}

/// Document 01's line of a code.
fn print(code: u64, out: &mut Vec<u8>) {
    let [number, first, second, third, ..] = code.to_le_bytes();
    let words: &[(&str, u8)] = match number {
        13 | 16 => &[("refused ", number), (" track ", first)],
        14 => &[("refused ", number), (" point ", first)],
        19 => &[("refused ", number), (" signal ", first)],
        10..=18 => &[("refused ", number)],
        40 | 41 => &[("accident ", number), (" track ", first)],
        42 => &[("accident ", number), (" point ", first)],
        100 => &[("granted ", first)],
        101 => &[("cancelled ", first)],
        102 => &[("entered ", first), (" track ", second)],
        103 => &[("moved ", first), (" from ", second), (" to ", third)],
        104 => &[("left ", first), (" from ", second)],
        _ => &[("what document 01 has not: ", number)],
    };
    for (word, number) in words {
        out.extend(word.bytes());
        print_number(*number, out);
    }
}

/// In decimal without leading zeros.
fn print_number(number: u8, out: &mut Vec<u8>) {
    if number >= 10 {
        print_number(number / 10, out);
    }
    out.push(b'0' + number % 10);
}

/// A line without its train, if it is one of 13, which must have one, from 1 to 255. Any other stays
/// as it is.
pub fn without_train(line: &[u8]) -> Option<&[u8]> {
    const TRAIN: &[u8] = b" train ";
    if !line.starts_with(b"refused 13 ") {
        return Some(line);
    }
    let mut places = line.windows(TRAIN.len());
    let at = places.rposition(|words| words == TRAIN)?;
    let (line, train) = (&line[..at], &line[at + TRAIN.len()..]);
    let train = std::str::from_utf8(train).ok()?;
    let is_train = train.parse::<u8>().is_ok() && train.starts_with(|digit| digit > '0');
    is_train.then_some(line)
}

/// Printed lines, each without its train.
pub fn without_trains(printed: &[u8]) -> Vec<u8> {
    let lines = printed.split(|&byte| byte == b'\n');
    let lines: Vec<&[u8]> = lines
        .map(|line| without_train(line).unwrap_or(line))
        .collect();
    lines.join(&b'\n')
}
