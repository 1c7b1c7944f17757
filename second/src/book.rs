//! The model as a subject. It is a book of functions, so that a wrong box can be made by
//! exchanging one of them while the right functions stay free of switches.

use crate::model::answer::{Answer, Refusal, Verdict};
use crate::model::image::{self, Image, Unwritten};
use crate::model::plan::Plan;
use crate::model::reading::{self, Fault, Form};
use crate::model::rules::{self, Broken};
use crate::model::state::{Arrays, State};
use crate::model::step;
use crate::subject::{
    unfinished, Fenced, Kept, Lent, Memory, Prepared, Reason, Subject, EVENT, LINE,
};
use std::fmt::Display;
use std::io::Write;

/// A plan as the calls for many events are given it: the form of one that cannot be read.
pub type Readable<'a> = Result<&'a Plan, Form>;

/// What a call for many events is given besides what is kept.
#[derive(Clone, Copy)]
pub struct Asked<'a> {
    pub plan: Readable<'a>,
    pub bytes: &'a [u8],
    pub room: usize,
}

/// A call for many events: it writes answers, or bytes of their lines.
pub type Call<T> = fn(&Book, &Asked, &mut Kept) -> Lent<T>;

/// Loads the plan of a file into an image.
pub type Loader = fn(&Book, &[u8], &mut Image) -> Result<(), Reason>;

/// Writes an image as its file.
pub type Writer = fn(&Image, &mut Memory) -> Result<usize, Reason>;

#[derive(Clone, Copy)]
pub struct Book {
    pub read: fn(&[u8]) -> Result<Plan, Fault>,
    pub check: fn(&Plan) -> Option<Broken>,
    /// Fills a state from arrays; false if they are not well formed.
    pub load: fn(&mut State, &Plan, &Arrays) -> bool,
    pub step: fn(&Plan, &mut State, &[u8]) -> Answer,
    pub step_arrays: fn(&Book, &Plan, &mut Arrays, &[u8], &mut State) -> Answer,
    pub whole: fn(&Book, &[u8], &[u8]) -> Vec<u8>,
    pub fresh: fn(&mut Kept),
    pub run: Call<Answer>,
    pub feed: Call<u8>,
    pub finish: Call<u8>,
    /// The line for the plan.
    pub open: fn(Verdict, usize) -> Lent<u8>,
    pub load_image: Loader,
    pub write: Writer,
}

/// The document, and the face of the box.
pub const MODEL: Book = Book {
    read: reading::read,
    check: rules::check,
    load: State::load,
    step: step::step,
    step_arrays: Book::any_step,
    whole: Book::whole_run,
    fresh: |memory| *memory = Kept::fresh(),
    run: Book::any_run,
    feed: Book::any_feed,
    finish: Book::any_finish,
    open: Book::opening,
    load_image: Book::any_load,
    write: Book::any_write,
};

impl Book {
    pub fn verdict(&self, plan: &Plan) -> Verdict {
        match (self.check)(plan) {
            Some(broken) => Verdict::Broken(broken),
            None => Verdict::Accepted,
        }
    }

    /// An event on arrays, of which the first three bytes count: 10 comes before everything else
    /// that can be said of it. The spare state is a place to work in, so that no call has to make
    /// one.
    pub fn any_step(
        &self,
        plan: &Plan,
        arrays: &mut Arrays,
        event: &[u8],
        spare: &mut State,
    ) -> Answer {
        if !(self.load)(spare, plan, arrays) {
            return Answer::Refused(Refusal::NotWellFormed);
        }
        let answer = (self.step)(plan, spare, &event[..event.len().min(EVENT)]);
        spare.store(arrays);
        answer
    }

    /// What the program prints.
    pub fn whole_run(&self, plan: &[u8], events: &[u8]) -> Vec<u8> {
        let mut lines = Vec::new();
        let plan = match (self.read)(plan) {
            Ok(plan) => plan,
            Err(fault) => {
                print_line(&mut lines, fault.form);
                return lines;
            }
        };
        print_line(&mut lines, self.verdict(&plan));
        let mut state = State::fresh(&plan);
        // The last chunk may be shorter than three bytes: an incomplete event.
        for event in events.chunks(EVENT) {
            print_line(&mut lines, (self.step)(&plan, &mut state, event));
        }
        lines
    }

    /// The state to play in, or why nothing can be played: the first two reasons in their order.
    pub fn admitted<'a>(
        &self,
        plan: Readable<'a>,
        arrays: &Arrays,
    ) -> Result<(&'a Plan, State), Reason> {
        let plan = plan.map_err(Reason::Unreadable)?;
        let mut state = State::fresh(plan);
        match (self.load)(&mut state, plan, arrays) {
            true => Ok((plan, state)),
            false => Err(Reason::NotWellFormed),
        }
    }

    /// Plays events one by one. Whoever comes this far plays them all.
    pub fn play<'e, T: Copy>(
        &self,
        (plan, mut state): (&Plan, State),
        events: impl Iterator<Item = &'e [u8]>,
        kept: &mut Kept,
        lent: &mut Lent<T>,
        write: fn(&mut Lent<T>, Answer),
    ) {
        for event in events {
            write(lent, (self.step)(plan, &mut state, event));
        }
        state.store(&mut kept.state);
    }

    /// Every event takes one answer, an incomplete last one too.
    fn try_run(&self, asked: &Asked, kept: &mut Kept) -> Result<Lent<Answer>, Reason> {
        let stage = self.admitted(asked.plan, &kept.state)?;
        let events = asked.bytes.chunks(EVENT);
        enough(asked.room, events.len())?;
        let mut answers = Lent::untouched(asked.room);
        self.play(stage, events, kept, &mut answers, Lent::write);
        Ok(answers)
    }

    /// What was begun and these bytes, as far as they are whole events, and to their end where the
    /// input has ended. Every event is counted one line.
    fn try_lines(
        &self,
        asked: &Asked,
        kept: &mut Kept,
        has_ended: bool,
    ) -> Result<Lent<u8>, Reason> {
        let stage = self.admitted(asked.plan, &kept.state)?;
        let begun = kept.begun().ok_or(Reason::NotWellFormed)?;
        let bytes = [begun, asked.bytes].concat();
        let left_over = if has_ended { 0 } else { bytes.len() % EVENT };
        let (played, left_over) = bytes.split_at(bytes.len() - left_over);
        let events = played.chunks(EVENT);
        enough(asked.room / LINE, events.len())?;
        let mut lines = Lent::untouched(asked.room);
        self.play(stage, events, kept, &mut lines, put_line);
        kept.unfinished = unfinished(left_over);
        Ok(lines)
    }

    pub fn any_run(&self, asked: &Asked, kept: &mut Kept) -> Lent<Answer> {
        or_refused(asked, self.try_run(asked, kept))
    }

    pub fn any_feed(&self, asked: &Asked, kept: &mut Kept) -> Lent<u8> {
        or_refused(asked, self.try_lines(asked, kept, false))
    }

    pub fn any_finish(&self, asked: &Asked, kept: &mut Kept) -> Lent<u8> {
        or_refused(asked, self.try_lines(asked, kept, true))
    }

    pub fn opening(verdict: Verdict, room: usize) -> Lent<u8> {
        if room < LINE {
            return Lent::refused(room, Reason::NoRoom);
        }
        let mut line = Lent::untouched(room);
        put_line(&mut line, verdict);
        line
    }

    /// An image of what reading leaves of a file.
    pub fn any_load(&self, file: &[u8], image: &mut Image) -> Result<(), Reason> {
        let plan = (self.read)(file).map_err(|fault| Reason::Unreadable(fault.form))?;
        image::show(&plan, image);
        Ok(())
    }

    pub fn any_write(image: &Image, memory: &mut Memory) -> Result<usize, Reason> {
        image::write(image, memory.lent()).map_err(|unwritten| match unwritten {
            Unwritten::NoPlan => Reason::NoPlan,
            Unwritten::NoRoom => Reason::NoRoom,
        })
    }
}

/// The last reason.
fn enough(room: usize, needed: usize) -> Result<(), Reason> {
    if room < needed {
        Err(Reason::NoRoom)
    } else {
        Ok(())
    }
}

fn or_refused<T: Copy>(asked: &Asked, outcome: Result<Lent<T>, Reason>) -> Lent<T> {
    outcome.unwrap_or_else(|reason| Lent::refused(asked.room, reason))
}

/// A line into lent memory.
pub fn put_line(lines: &mut Lent<u8>, said: impl Display) {
    for byte in format!("{said}\n").bytes() {
        lines.write(byte);
    }
}

pub fn print_line(lines: &mut Vec<u8>, said: impl Display) {
    writeln!(lines, "{said}").expect("memory can be written to");
}

impl Subject for Book {
    fn read(&self, plan: &[u8]) -> Option<Form> {
        (self.read)(plan).err().map(|fault| fault.form)
    }

    fn prepare<'a>(&'a self, plan: &'a [u8]) -> Box<dyn Prepared + 'a> {
        let plan = (self.read)(plan).map_err(|fault| fault.form);
        let with_spare = |plan| (State::fresh(&plan), plan);
        Box::new(OpenBook {
            book: self,
            plan: plan.map(with_spare),
        })
    }

    fn fresh(&self, memory: &mut Kept) {
        (self.fresh)(memory)
    }

    fn run(&self, plan: &[u8], events: &[u8]) -> Vec<u8> {
        (self.whole)(self, plan, events)
    }

    fn load(&self, plan: &[u8], lent: &mut Fenced) -> Result<(), Reason> {
        (self.load_image)(self, plan, &mut lent.image)
    }

    fn write(&self, lent: &mut Fenced, memory: &mut Memory) -> Result<usize, Reason> {
        (self.write)(&lent.image, memory)
    }
}

struct OpenBook<'a> {
    book: &'a Book,
    plan: Result<(State, Plan), Form>,
}

impl OpenBook<'_> {
    fn asked<'a>(&'a self, bytes: &'a [u8], room: usize) -> Asked<'a> {
        let plan = self.plan.as_ref();
        Asked {
            plan: plan.map(|(_, plan)| plan).map_err(|form| *form),
            bytes,
            room,
        }
    }
}

impl Prepared for OpenBook<'_> {
    fn check(&mut self) -> Verdict {
        match &self.plan {
            Ok((_, plan)) => self.book.verdict(plan),
            Err(form) => Verdict::Unreadable(*form),
        }
    }

    fn step(&mut self, state: &mut Arrays, event: &[u8]) -> Answer {
        match &mut self.plan {
            Ok((spare, plan)) => (self.book.step_arrays)(self.book, plan, state, event, spare),
            Err(form) => Answer::Unreadable(*form),
        }
    }

    fn run(&mut self, kept: &mut Kept, events: &[u8], room: usize) -> Lent<Answer> {
        (self.book.run)(self.book, &self.asked(events, room), kept)
    }

    fn feed(&mut self, kept: &mut Kept, bytes: &[u8], room: usize) -> Lent<u8> {
        (self.book.feed)(self.book, &self.asked(bytes, room), kept)
    }

    fn finish(&mut self, kept: &mut Kept, room: usize) -> Lent<u8> {
        (self.book.finish)(self.book, &self.asked(&[], room), kept)
    }

    fn open(&mut self, room: usize) -> Lent<u8> {
        (self.book.open)(self.check(), room)
    }
}
