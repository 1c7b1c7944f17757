//! Makes a mismatch small enough for a person to read.

use super::shrink_file::with_one_item_less;
use super::shrink_plan::{apply, cuts};
use super::trouble::{trouble, Work};
use crate::generate::images::Base;
use crate::generate::pieces::Piece;
use crate::model::plan::{MOST_SIGNALS, MOST_TRACKS};
use crate::model::reading::read;
use crate::model::state::Arrays;
use crate::subject::{Subject, EVENT, LINE};
use crate::writing::write;

/// Enough for the largest plan and its events; a bound all the same, since a subject may be slow.
const TRIES: usize = 20_000;

struct Shrinker<'a> {
    subject: &'a dyn Subject,
    plan: Vec<u8>,
    work: Work,
    tries: usize,
}

/// A smaller plan and less work on which the subject still disagrees with the model.
pub fn shrink(subject: &dyn Subject, plan: &[u8], work: &Work) -> (Vec<u8>, Work) {
    let mut shrinker = Shrinker {
        subject,
        plan: plan.to_vec(),
        work: work.clone(),
        tries: 0,
    };
    loop {
        let mut smaller = shrinker.shrink_events();
        smaller |= shrinker.shrink_states();
        smaller |= shrinker.shrink_calls();
        smaller |= shrinker.shrink_readable();
        smaller |= shrinker.shrink_items();
        smaller |= shrinker.shrink_bytes();
        if !smaller || shrinker.tries > TRIES {
            return (shrinker.plan, shrinker.work);
        }
    }
}

impl Shrinker<'_> {
    /// Keeps the change if the trouble is still there.
    fn try_out(&mut self, plan: Vec<u8>, work: Work) -> bool {
        self.tries += 1;
        let kept = self.tries <= TRIES && trouble(self.subject, &plan, &work).is_some();
        if kept {
            self.plan = plan;
            self.work = work;
        }
        kept
    }

    /// Leaves out events, pieces or changed bytes, many at a time at first.
    fn shrink_events(&mut self) -> bool {
        let mut smaller = false;
        let mut count = units(&self.work).div_ceil(2);
        while count > 0 {
            let mut at = 0;
            while at < units(&self.work) {
                let fewer = without(&self.work, at, count);
                if self.try_out(self.plan.clone(), fewer) {
                    smaller = true;
                } else {
                    at += count;
                }
            }
            count /= 2;
        }
        smaller
    }

    /// Lends less room, and feeds fewer bytes at a time.
    fn shrink_calls(&mut self) -> bool {
        let mut smaller = false;
        let mut number = 0;
        while let Some(&fewer) = all_fewer(&self.work).get(number) {
            let made =
                less(&self.work, fewer).is_some_and(|work| self.try_out(self.plan.clone(), work));
            smaller |= made;
            number += usize::from(!made);
        }
        smaller
    }

    /// Empties cells of the states, in both states of a pair at once.
    fn shrink_states(&mut self) -> bool {
        const CELLS: usize = MOST_TRACKS * 3 + MOST_SIGNALS;
        let mut smaller = false;
        for cell in 0..CELLS {
            let mut work = self.work.clone();
            let changed = match &mut work {
                Work::Step(arrays, _) => empty(arrays, cell),
                Work::List(list) => empty(&mut list.from, cell),
                Work::Pieces(session) => empty(&mut session.from.state, cell),
                Work::Fresh(memory) => empty(&mut memory.state, cell),
                Work::Agreement(pair) => empty(&mut pair.one, cell) | empty(&mut pair.other, cell),
                _ => false,
            };
            smaller |= changed && self.try_out(self.plan.clone(), work);
        }
        smaller
    }

    /// Goes through all cuts of a readable plan. After a cut the next one has taken its number.
    fn shrink_readable(&mut self) -> bool {
        let mut smaller = false;
        let mut number = 0;
        while let Ok(plan) = read(&self.plan) {
            let Some(&cut) = cuts(&plan).get(number) else {
                break;
            };
            let made = apply(cut, &plan, &self.work).is_some_and(|(plan, work)| {
                let file = write(&plan);
                // An unreadable file is no smaller plan: it would hide what is wrong.
                read(&file).is_ok() && self.try_out(file, work)
            });
            smaller |= made;
            number += usize::from(!made);
        }
        smaller
    }

    /// For files that cannot be read: items are taken out of the part before the bad byte.
    fn shrink_items(&mut self) -> bool {
        if read(&self.plan).is_ok() {
            return false;
        }
        let mut smaller = false;
        let mut number = 0;
        while let Some(fewer) = with_one_item_less(&self.plan).into_iter().nth(number) {
            let made = read(&fewer).is_err() && self.try_out(fewer, self.work.clone());
            smaller |= made;
            number += usize::from(!made);
        }
        smaller
    }

    /// For files that cannot be read: bytes are left out.
    fn shrink_bytes(&mut self) -> bool {
        if read(&self.plan).is_ok() {
            return false;
        }
        let mut smaller = false;
        let mut piece = self.plan.len() / 2;
        while piece > 0 {
            let mut at = 0;
            while at < self.plan.len() {
                let mut fewer = self.plan.clone();
                fewer.drain(at..(at + piece).min(self.plan.len()));
                if self.try_out(fewer, self.work.clone()) {
                    smaller = true;
                } else {
                    at += piece;
                }
            }
            piece /= 2;
        }
        smaller
    }
}

/// How many events, pieces or changed bytes there are.
fn units(work: &Work) -> usize {
    match work {
        Work::Run(events) => events.len().div_ceil(EVENT),
        Work::List(list) => list.events.len().div_ceil(EVENT),
        Work::Pieces(session) => session.pieces.len(),
        Work::Write(writing) => writing.changes.len(),
        _ => 0,
    }
}

/// The work without so many events, pieces or changed bytes.
fn without(work: &Work, at: usize, count: usize) -> Work {
    fn drain<T>(items: &mut Vec<T>, at: usize, count: usize) {
        items.drain(at..(at + count).min(items.len()));
    }
    let mut work = work.clone();
    match &mut work {
        Work::Run(events) => drain(events, EVENT * at, EVENT * count),
        Work::List(list) => drain(&mut list.events, EVENT * at, EVENT * count),
        Work::Pieces(session) => drain(&mut session.pieces, at, count),
        Work::Write(writing) => drain(&mut writing.changes, at, count),
        _ => {}
    }
    work
}

/// What can be less in a call.
#[derive(Clone, Copy)]
enum Fewer {
    /// Room for answers, for lines of a piece, for the line at the end.
    Answers,
    Lines(usize),
    Ending,
    /// The first event with its answer.
    AnsweredEvent,
    /// The last event of a piece, alone or with its line.
    Event(usize),
    EventWithLine(usize),
    /// Of the unfinished event.
    Unfinished,
    /// A buffer, such a part of one (half of it for 2), or its last byte.
    Buffer(usize),
    Part(usize, usize),
    Byte(usize),
    /// The plan under the changed bytes of an image.
    Base,
}

fn all_fewer(work: &Work) -> Vec<Fewer> {
    match work {
        Work::List(_) => vec![Fewer::Answers, Fewer::AnsweredEvent],
        Work::Pieces(session) => {
            let pieces = 0..session.pieces.len();
            let events = pieces
                .clone()
                .flat_map(|at| [Fewer::Event(at), Fewer::EventWithLine(at)]);
            let rooms = pieces.map(Fewer::Lines);
            let others = [Fewer::Unfinished, Fewer::Ending];
            events.chain(rooms).chain(others).collect()
        }
        Work::Write(writing) => {
            let buffers = 0..writing.rooms.len();
            let fewer = buffers.flat_map(|at| {
                let parts = [2, 16, 256, 4096].map(|part| Fewer::Part(at, part));
                [Fewer::Buffer(at)]
                    .into_iter()
                    .chain(parts)
                    .chain([Fewer::Byte(at)])
            });
            fewer.chain([Fewer::Base]).collect()
        }
        _ => Vec::new(),
    }
}

fn drop_event(piece: &mut Piece) -> Option<()> {
    piece.bytes.truncate(piece.bytes.len().checked_sub(EVENT)?);
    Some(())
}

/// The work with less of this, if there is any.
fn less(work: &Work, fewer: Fewer) -> Option<Work> {
    let mut work = work.clone();
    let one_less = |room: &mut usize| room.checked_sub(1).map(|less| *room = less);
    match (&mut work, fewer) {
        (Work::List(list), Fewer::Answers) => one_less(&mut list.room)?,
        (Work::Pieces(session), Fewer::Lines(at)) => one_less(&mut session.pieces[at].room)?,
        (Work::Pieces(session), Fewer::Ending) => one_less(&mut session.ending)?,
        (Work::List(list), Fewer::AnsweredEvent) => {
            one_less(&mut list.room)?;
            list.events = list.events.get(EVENT..)?.to_vec();
        }
        (Work::Pieces(session), Fewer::Event(at)) => drop_event(&mut session.pieces[at])?,
        (Work::Pieces(session), Fewer::EventWithLine(at)) => {
            let piece = &mut session.pieces[at];
            drop_event(piece)?;
            piece.room = piece.room.checked_sub(LINE)?;
        }
        (Work::Pieces(session), Fewer::Unfinished) => {
            let old = std::mem::take(&mut session.from.unfinished);
            (old != session.from.unfinished).then_some(())?;
        }
        (Work::Write(writing), Fewer::Buffer(at)) => {
            (writing.rooms.len() > 1).then(|| writing.rooms.remove(at))?;
        }
        (Work::Write(writing), Fewer::Part(at, part)) => {
            let cut = writing.rooms[at] / part;
            (cut > 0).then(|| writing.rooms[at] -= cut)?;
        }
        (Work::Write(writing), Fewer::Byte(at)) => one_less(&mut writing.rooms[at])?,
        (Work::Write(writing), Fewer::Base) => {
            let old = std::mem::replace(&mut writing.base, Base::Empty);
            (old != Base::Empty).then_some(())?;
        }
        _ => return None,
    }
    Some(work)
}

/// Empties one cell; false if it was empty.
fn empty(arrays: &mut Arrays, cell: usize) -> bool {
    fn clear<T: Default + PartialEq>(cell: &mut T) -> bool {
        std::mem::take(cell) != T::default()
    }
    let (array, cell) = (cell / MOST_TRACKS, cell % MOST_TRACKS);
    match array {
        0 => clear(&mut arrays.trains[cell]),
        1 => clear(&mut arrays.lies[cell]),
        2 => clear(&mut arrays.holds[cell]),
        _ => clear(&mut arrays.signals[cell]),
    }
}
