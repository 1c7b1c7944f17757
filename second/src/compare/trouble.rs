//! One piece of work given to the model and to a subject: do they agree?

use super::describe::{self, state};
use super::dropped::{Dropped, Due};
use super::files;
use super::history::{self, Told};
use crate::book::MODEL;
use crate::generate::case::{Case, Pair};
use crate::generate::events::Event;
use crate::generate::images::Writing;
use crate::generate::lists::List;
use crate::generate::pieces::Pieces;
use crate::model::answer::Verdict;
use crate::model::image::IMAGE_SIZE;
use crate::model::reading::Form;
use crate::model::state::Arrays;
use crate::subject::{Fenced, Kept, Lent, Prepared, Reason, Subject, EVENT, LINE};
use std::fmt::Display;

/// Something to be done with a plan.
#[derive(Clone, Debug)]
pub enum Work {
    Read,
    Check,
    /// A whole run, and the same events one by one and at once from the fresh state.
    Run(Vec<u8>),
    Step(Box<Arrays>, Event),
    Agreement(Box<Pair>),
    /// A list of events at once; all its bytes, and those left over, as a single event.
    List(Box<List>),
    /// An input in pieces and its end.
    Pieces(Box<Pieces>),
    /// What every session starts with, in memory that held this.
    Fresh(Box<Kept>),
    /// The line for the plan, with room for so many bytes.
    Open(usize),
    /// The plan loaded into an image with the marks of this fill, and written again.
    Load(u8),
    /// An image written into buffers.
    Write(Box<Writing>),
}

/// What the model says and what the subject says instead.
#[derive(Clone, Debug)]
pub struct Trouble {
    pub expected: String,
    pub found: String,
}

impl Trouble {
    pub fn new(expected: impl Display, found: impl Display) -> Self {
        Trouble {
            expected: expected.to_string(),
            found: found.to_string(),
        }
    }

    /// The same, with more words about what is expected.
    pub fn when(self, words: impl Display) -> Self {
        let expected = format!("{}, {words}", self.expected);
        Trouble { expected, ..self }
    }
}

/// All the work of a case, the simplest first.
pub fn works(case: &Case) -> Vec<Work> {
    let mut works = vec![Work::Read, Work::Check];
    let step = |(arrays, event): &(Arrays, Event)| Work::Step(Box::new(arrays.clone()), *event);
    works.extend(case.steps.iter().map(step));
    works.push(Work::Run(case.events.clone()));
    let pairs = case.pairs.iter().cloned();
    works.extend(pairs.map(|pair| Work::Agreement(Box::new(pair))));
    works.extend(case.opening.map(Work::Open));
    works.push(Work::Fresh(Box::new(case.memory.clone())));
    works.push(Work::Load(case.fill));
    let writings = case.writings.iter().cloned();
    works.extend(writings.map(|writing| Work::Write(Box::new(writing))));
    works.push(Work::List(Box::new(case.list.clone())));
    let pieces = case.pieces.iter().cloned();
    works.extend(pieces.map(|pieces| Work::Pieces(Box::new(pieces))));
    works
}

/// The model and a subject, each with the plan made ready.
pub struct Sides<'a> {
    plan: &'a [u8],
    subject: &'a dyn Subject,
    ready_model: Box<dyn Prepared + 'a>,
    ready_subject: Box<dyn Prepared + 'a>,
    /// The plan's image, once it has been asked for; nothing but 0 if there is no plan.
    image: Option<Box<Fenced>>,
    /// What document 01 says, to which no train is known in 13.
    pub dropped: Dropped,
}

impl<'a> Sides<'a> {
    pub fn new(subject: &'a dyn Subject, plan: &'a [u8]) -> Self {
        Sides {
            plan,
            subject,
            ready_model: MODEL.prepare(plan),
            ready_subject: subject.prepare(plan),
            image: None,
            dropped: Dropped::new(plan),
        }
    }

    /// Has both sides do the work.
    pub fn trouble(&mut self, work: &Work) -> Option<Trouble> {
        match work {
            Work::Read => self.read(),
            Work::Check => {
                let (expected, found) = (self.ready_model.check(), self.ready_subject.check());
                (expected != found).then(|| Trouble::new(expected, found))
            }
            Work::Run(events) => self.run(events),
            Work::Step(arrays, event) => self.step(arrays, event),
            Work::Agreement(pair) => self.agreement(pair),
            Work::List(list) => self.list(list),
            Work::Pieces(session) => self.pieces(session),
            Work::Fresh(memory) => self.fresh(memory),
            Work::Open(room) => self.open(*room).err(),
            Work::Load(fill) => files::load(self.subject, self.plan, *fill).err(),
            Work::Write(writing) => self.write(writing),
        }
    }

    fn write(&mut self, writing: &Writing) -> Option<Trouble> {
        let plan = self.plan;
        let of_plan = self.image.get_or_insert_with(|| {
            let mut lent = Box::new(Fenced::of(&[0; IMAGE_SIZE]));
            // Without a plan it stays empty.
            let _ = MODEL.load(plan, &mut lent);
            lent
        });
        let mut image = [0; IMAGE_SIZE];
        writing.show(&of_plan.image, &mut image);
        files::write(self.subject, &image, writing).err()
    }

    fn read(&self) -> Option<Trouble> {
        let (expected, found) = (MODEL.read(self.plan), self.subject.read(self.plan));
        let words = |form: Option<Form>| match form {
            Some(form) => form.to_string(),
            None => "readable".to_string(),
        };
        (expected != found).then(|| Trouble::new(words(expected), words(found)))
    }

    /// From outside first, since that asks the subject alone.
    fn run(&mut self, events: &[u8]) -> Option<Trouble> {
        let lines = self.subject.run(self.plan, events);
        let verdict = self.ready_subject.check();
        let story = history::play(self.ready_subject.as_mut(), events);
        let plan = self.dropped.plan();
        let finding = history::check(plan, events, verdict, &lines, &story);
        outside(finding).or_else(|| {
            let expected_story = history::play(self.ready_model.as_mut(), events);
            let codes = &self.dropped.codes_of(events, &expected_story);
            let due = Due { events, codes };
            if let Err(trouble) = self.without_trains(due, verdict, &lines, &story) {
                return Some(trouble);
            }
            let expected = MODEL.run(self.plan, events);
            if expected != lines {
                return Some(first_difference(&expected, &lines));
            }
            let mut pairs = expected_story.iter().zip(&story);
            let single = pairs.find_map(|(expected, told)| difference(expected, told));
            let room = events.len().div_ceil(EVENT);
            single.or_else(|| self.at_once(&Arrays::fresh(), due, room))
        })
    }

    /// With the train of 13 dropped, the lines of a whole run and its answers are document 01's.
    fn without_trains(
        &mut self,
        due: Due,
        verdict: Verdict,
        lines: &[u8],
        story: &[Told],
    ) -> Result<(), Trouble> {
        let lines = self.dropped.opening(verdict, lines)?;
        if self.dropped.plan().is_some() {
            self.dropped.lines(due, lines)?;
        }
        let answers = story.iter().map(|told| &told.answer);
        self.dropped.answers(due, answers)
    }

    fn open(&mut self, room: usize) -> Result<(), Trouble> {
        let verdict = self.ready_model.check();
        let call = |ready: &mut dyn Prepared, _: &mut Kept| ready.open(room);
        self.lent(&mut Kept::fresh(), call, |dropped, line| {
            dropped.opening(verdict, &line.bytes()).map(|_| ())
        })?;
        Ok(())
    }

    fn list(&mut self, list: &List) -> Option<Trouble> {
        let (from, events) = (&list.from, &list.events);
        let left_over = events.chunks_exact(EVENT).remainder();
        let codes = &self.dropped.codes(from, events);
        self.at_once(from, Due { events, codes }, list.room)
            .or_else(|| self.step(from, events))
            .or_else(|| self.step(from, left_over))
    }

    /// Events at once: their answers and the state after the last.
    fn at_once(&mut self, from: &Arrays, due: Due, room: usize) -> Option<Trouble> {
        let events = due.events;
        let mut kept = Kept::of(from.clone());
        let call = |ready: &mut dyn Prepared, kept: &mut Kept| ready.run(kept, events, room);
        let is_done = self.lent(&mut kept, call, |dropped, answers| {
            dropped.answers(due, answers.cells.iter().flatten())
        });
        is_done.err()
    }

    fn fresh(&self, memory: &Kept) -> Option<Trouble> {
        let (mut expected, mut found) = (memory.clone(), memory.clone());
        MODEL.fresh(&mut expected);
        self.subject.fresh(&mut found);
        different(&expected, &found).err()
    }

    fn pieces(&mut self, session: &Pieces) -> Option<Trouble> {
        self.session(session).err()
    }

    /// What is refused for lack of room is asked for again with the room that it needs. After the
    /// end nothing is unfinished, so that another end needs no room at all.
    fn session(&mut self, session: &Pieces) -> Result<(), Trouble> {
        let mut kept = session.from.clone();
        let mut events = kept.begun().unwrap_or_default().to_vec();
        events.extend(session.pieces.iter().flat_map(|piece| &piece.bytes));
        let codes = self.dropped.codes(&kept.state, &events);
        let mut due = Due {
            events: &events,
            codes: &codes,
        };
        for piece in &session.pieces {
            let begun = kept.begun().map_or(0, <[u8]>::len);
            let whole = (begun + piece.bytes.len()) / EVENT;
            let rooms = [piece.room, whole * LINE];
            let (first, rest) = due.split_at(whole);
            let is_done = self.until_done(&mut kept, rooms, first, |ready, kept, room| {
                ready.feed(kept, &piece.bytes, room)
            })?;
            if is_done {
                due = rest;
            }
        }
        for (rooms, due) in [([session.ending, LINE], due), ([0, 0], Due::default())] {
            self.until_done(&mut kept, rooms, due, |ready, kept, room| {
                ready.finish(kept, room)
            })?;
        }
        Ok(())
    }

    /// A call with one room and, if that was too little, with the other. True if it was done then; these
    /// are the events that have a line in it.
    fn until_done(
        &mut self,
        kept: &mut Kept,
        rooms: [usize; 2],
        due: Due,
        call: impl Fn(&mut dyn Prepared, &mut Kept, usize) -> Lent<u8>,
    ) -> Result<bool, Trouble> {
        let mut reason = None;
        for room in rooms {
            let call = |ready: &mut dyn Prepared, kept: &mut Kept| call(ready, kept, room);
            reason = self.lent(kept, call, |dropped, lines| {
                dropped.lines(due, &lines.bytes())
            })?;
            if reason != Some(Reason::NoRoom) {
                break;
            }
        }
        Ok(reason.is_none())
    }

    /// A call that writes into lent memory: what it says, what it writes and what it leaves alone,
    /// how much it says it wrote, and what is kept after it. Where it is done, what the subject wrote is
    /// held against document 01 first. Hands back why it did nothing, if so.
    fn lent<T: PartialEq + Display>(
        &mut self,
        kept: &mut Kept,
        call: impl Fn(&mut dyn Prepared, &mut Kept) -> Lent<T>,
        without_trains: impl FnOnce(&mut Dropped, &Lent<T>) -> Result<(), Trouble>,
    ) -> Result<Option<Reason>, Trouble> {
        let mut after = kept.clone();
        let expected = call(self.ready_model.as_mut(), kept);
        let found = call(self.ready_subject.as_mut(), &mut after);
        if expected.reason != found.reason {
            let words = |reason: Option<Reason>| match reason {
                Some(reason) => reason.to_string(),
                None => "all of it done".to_string(),
            };
            return Err(Trouble::new(words(expected.reason), words(found.reason)));
        }
        if expected.reason.is_none() {
            without_trains(&mut self.dropped, &found)?;
        }
        let mut cells = expected.cells.iter().zip(&found.cells).enumerate();
        if let Some((at, (one, other))) = cells.find(|(_, (one, other))| one != other) {
            let words = |cell: &Option<T>| match cell {
                Some(item) => format!("cell {at}: {item}"),
                None => format!("cell {at} left alone"),
            };
            return Err(Trouble::new(words(one), words(other)));
        }
        if expected.count != found.count {
            return Err(Trouble::new(expected.count, found.count));
        }
        different(kept, &after)?;
        Ok(expected.reason)
    }

    /// From outside first; then each of the two steps by itself.
    fn agreement(&mut self, pair: &Pair) -> Option<Trouble> {
        let event = &[1, pair.route, 0];
        let finding = history::check_agreement(self.ready_subject.as_mut(), pair);
        outside(finding)
            .or_else(|| self.step(&pair.one, event))
            .or_else(|| self.step(&pair.other, event))
    }

    fn step(&mut self, arrays: &Arrays, event: &[u8]) -> Option<Trouble> {
        let told = |ready: &mut dyn Prepared| {
            let mut after = arrays.clone();
            let answer = ready.step(&mut after, event);
            Told { answer, after }
        };
        let expected = told(self.ready_model.as_mut());
        let found = told(self.ready_subject.as_mut());
        let without_train = self
            .dropped
            .answer(arrays, event, &expected.answer, &found.answer);
        let without_train = without_train.err();
        without_train.or_else(|| difference(&expected, &found))
    }
}

fn difference(expected: &Told, found: &Told) -> Option<Trouble> {
    if expected.answer != found.answer {
        return Some(Trouble::new(expected.answer, found.answer));
    }
    let words = |told: &Told| format!("{} and then {}", told.answer, state(&told.after));
    (expected.after != found.after).then(|| Trouble::new(words(expected), words(found)))
}

fn different(expected: &Kept, found: &Kept) -> Result<(), Trouble> {
    if expected == found {
        return Ok(());
    }
    Err(Trouble::new(
        describe::kept(expected),
        describe::kept(found),
    ))
}

/// Like [`Sides::trouble`], for a plan that is looked at once.
pub fn trouble(subject: &dyn Subject, plan: &[u8], work: &Work) -> Option<Trouble> {
    Sides::new(subject, plan).trouble(work)
}

fn outside(finding: Result<(), String>) -> Option<Trouble> {
    finding
        .err()
        .map(|found| Trouble::new("what is true of every box", found))
}

/// The first line that is not the same.
pub fn first_difference(expected: &[u8], found: &[u8]) -> Trouble {
    let (expected, found) = (
        String::from_utf8_lossy(expected),
        String::from_utf8_lossy(found),
    );
    let same = expected
        .lines()
        .zip(found.lines())
        .take_while(|(one, other)| one == other)
        .count();
    let line = |text: &str| match text.lines().nth(same) {
        Some(line) => format!("line {same}: {line}"),
        None => format!("{same} lines and no more, {} bytes", text.len()),
    };
    Trouble::new(line(&expected), line(&found))
}
