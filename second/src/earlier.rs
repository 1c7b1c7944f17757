//! A box beside an earlier one, whose 14 is for every listed point that is held. From one and the same
//! state every answer, every line and every state must be the earlier box's, except where that says 14:
//! there this box may go on to a higher point, to 42 or to a grant, as the earlier one does without the
//! holds that it passes over; and 14 it must say of the lowest held point that the earlier box would turn
//! if there were no holds, or not at all. Both start from this box's state at each event of a run, since their runs
//! part at the first such grant.

use crate::book::{Book, MODEL};
use crate::compare::driver::Search;
use crate::compare::trouble::Trouble;
use crate::generate::case::{case, Case};
use crate::generate::pieces::Pieces;
use crate::model::answer::{Accident, Answer, Refusal};
use crate::model::image::IMAGE_SIZE;
use crate::model::plan::Plan;
use crate::model::state::State;
use crate::model::step::{is_held, step};
use crate::random::Random;
use crate::subject::{Fenced, Kept, Lent, Memory, Prepared, Subject, EVENT, LINE};
use std::fmt::Debug;

type Finding = Result<(), Trouble>;

/// What became of the earlier box's 14.
#[derive(Clone, Copy, Debug, PartialEq, Eq)]
enum Fate {
    Granted,
    Derailed,
    Higher,
    Stayed,
}

const FATES: [&str; 4] = [
    "14 before, granted now",
    "14 before, 42 now",
    "14 before, 14 of a higher point now",
    "14 before, 14 of the same point now",
];

/// Fewer of any of these say nothing.
const LEAST: u64 = 100;

/// The model as it was before No. 4.
pub const BEFORE: Book = Book {
    step: step_before,
    ..MODEL
};

/// 14 for every listed point that is held; all else is the same.
fn step_before(plan: &Plan, state: &mut State, event: &[u8]) -> Answer {
    let after_14 = |answer: &Answer| {
        matches!(
            answer,
            Answer::Granted { .. }
                | Answer::Refused(Refusal::PointHeld { .. })
                | Answer::Accident(Accident::Derailment { .. })
        )
    };
    if let [1, number, 0] = *event {
        if after_14(&step(plan, &mut state.clone(), event)) {
            let listed = plan.routes[usize::from(number)].listed();
            let held = listed.filter(|&point| is_held(state, point));
            if let Some(point) = held.min() {
                return Answer::Refused(Refusal::PointHeld { point });
            }
        }
    }
    step(plan, state, event)
}

/// How much was compared.
#[derive(Clone, Copy, Debug, Default)]
pub struct Seen {
    pub plans: u64,
    pub events: u64,
    /// What became of 14, in the order of the fates.
    pub fates: [u64; FATES.len()],
}

/// Compares and prints. True if nothing is another that must not be, and all that may be another was seen
/// often enough.
pub fn compare(now: &dyn Subject, earlier: &dyn Subject, search: &Search) -> bool {
    let mut seeds = Random::new(search.seed);
    let mut seen = Seen::default();
    while seen.plans < search.extent.plans || seen.events < search.extent.events {
        let seed = seeds.word();
        if let Err(trouble) = compare_case(now, earlier, &case(seed), &mut seen) {
            println!("mismatch in case {seed}");
            println!("earlier: {}", trouble.expected);
            println!("now:     {}", trouble.found);
            return false;
        }
    }
    println!("{:>10} plans\n{:>10} events", seen.plans, seen.events);
    for (fate, count) in FATES.iter().zip(seen.fates) {
        println!("{count:>10} times {fate}");
    }
    let too_few = FATES.iter().zip(seen.fates);
    let too_few: Vec<_> = too_few.filter(|(_, count)| *count < LEAST).collect();
    for (fate, count) in &too_few {
        println!("too few: {fate}: {count} of {LEAST}");
    }
    too_few.is_empty()
}

/// All that is tried on the plan of one case.
pub fn compare_case(
    now: &dyn Subject,
    earlier: &dyn Subject,
    case: &Case,
    seen: &mut Seen,
) -> Finding {
    let plan = &case.plan;
    seen.plans += 1;
    same("reading", earlier.read(plan), now.read(plan))?;
    let lines = |subject: &dyn Subject| subject.run(plan, &case.events);
    same_lines(&lines(earlier), &lines(now))?;
    let [mut memory, mut other] = [case.memory.clone(), case.memory.clone()];
    earlier.fresh(&mut memory);
    now.fresh(&mut other);
    same("the fresh state", memory, other)?;
    files(now, earlier, case)?;
    let mut sides = Sides {
        earlier: earlier.prepare(plan),
        now: now.prepare(plan),
        seen,
    };
    let verdict = sides.earlier.check();
    same("checking", verdict, sides.now.check())?;
    same_text(&sides.earlier.open(LINE), &sides.now.open(LINE))?;
    sides.story(&case.events)?;
    for (state, event) in &case.steps {
        sides.step(&Kept::of(state.clone()), event)?;
    }
    sides.at_once(&Kept::of(case.list.from.clone()), &case.list.events)?;
    let mut sessions = case.pieces.iter();
    sessions.try_for_each(|session| sides.session(session))
}

/// Both boxes with a plan made ready.
struct Sides<'a> {
    earlier: Box<dyn Prepared + 'a>,
    now: Box<dyn Prepared + 'a>,
    seen: &'a mut Seen,
}

/// What both have done from the same, and what each keeps then.
struct Both<T> {
    earlier: T,
    now: T,
    kept_before: Kept,
    kept: Kept,
}

impl<T> Both<T> {
    /// The same must be kept, unless the answers have parted.
    fn end(self, has_parted: bool) -> Result<Kept, Trouble> {
        if !has_parted {
            same("what is kept", &self.kept_before, &self.kept)?;
        }
        Ok(self.kept)
    }
}

impl Sides<'_> {
    /// A call of both from the same.
    fn both<T>(
        &mut self,
        from: &Kept,
        call: impl Fn(&mut dyn Prepared, &mut Kept) -> T,
    ) -> Both<T> {
        let [mut kept_before, mut kept] = [from.clone(), from.clone()];
        let earlier = call(self.earlier.as_mut(), &mut kept_before);
        let now = call(self.now.as_mut(), &mut kept);
        Both {
            earlier,
            now,
            kept_before,
            kept,
        }
    }

    /// Whole events from the fresh state, each from the state that this box has come to: by a single
    /// step, and with its line.
    fn story(&mut self, events: &[u8]) -> Finding {
        let mut kept = Kept::fresh();
        for event in events.chunks_exact(EVENT) {
            let fed = self.both(&kept, |ready, kept| ready.feed(kept, event, LINE));
            let has_parted = same_text(&fed.earlier, &fed.now)?;
            fed.end(has_parted)?;
            kept = self.step(&kept, event)?;
        }
        Ok(())
    }

    /// Hands back what this box keeps after the event.
    fn step(&mut self, from: &Kept, event: &[u8]) -> Result<Kept, Trouble> {
        let both = self.both(from, |ready, kept| ready.step(&mut kept.state, event));
        let has_parted = self.answers(&both.earlier, &both.now)?;
        if let Answer::Refused(Refusal::PointHeld { .. }) = both.earlier {
            self.by_what_turns(from, event, &both.now)?;
        }
        if has_parted {
            self.without_holds(from, event, &both)?;
            return Ok(both.kept);
        }
        both.end(false)
    }

    /// Where the earlier box says 14, it shows what a grant turns if there are no holds and no trains. Of
    /// the points that are held this box's 14 is for the lowest of these, and is not said if there is none.
    fn by_what_turns(&mut self, from: &Kept, event: &[u8], now: &Answer) -> Finding {
        let mut free = from.state.clone();
        free.holds.fill(0);
        free.trains.fill(0);
        if let Answer::Granted { .. } = self.earlier.step(&mut free, event) {
            let held = (0..free.lies.len()).filter(|&point| from.state.holds[point] != 0);
            let turned = held
                .filter(|&point| free.lies[point] != from.state.lies[point])
                .min();
            let named = match *now {
                Answer::Refused(Refusal::PointHeld { point }) => Some(point),
                _ => None,
            };
            same("the lowest held point that a grant turns", turned, named)?;
        }
        Ok(())
    }

    /// Where this box goes on, the earlier one does the same if there are no holds lower than what this
    /// one names, or none at all where it names none. With them put back the states are the same.
    fn without_holds(&mut self, from: &Kept, event: &[u8], both: &Both<Answer>) -> Finding {
        let below = match both.now {
            Answer::Refused(Refusal::PointHeld { point }) => point,
            _ => from.state.holds.len(),
        };
        let mut state = from.state.clone();
        state.holds[..below].fill(0);
        let answer = self.earlier.step(&mut state, event);
        for (holders, taken) in state.holds.iter_mut().zip(&from.state.holds[..below]) {
            *holders |= taken;
        }
        same("the answer without holds", answer, both.now)?;
        same("the state with them", &state, &both.kept.state)
    }

    /// Many events, with as much room as they need, as far as the boxes go together.
    fn at_once(&mut self, from: &Kept, events: &[u8]) -> Finding {
        let room = events.len().div_ceil(EVENT);
        let both = self.both(from, |ready, kept| ready.run(kept, events, room));
        let outcome = |lent: &Lent<Answer>| (lent.reason, lent.count, lent.cells.len());
        same("a run", outcome(&both.earlier), outcome(&both.now))?;
        let mut has_parted = false;
        let cells = both.earlier.cells.iter().zip(&both.now.cells);
        for (earlier, now) in cells {
            match (earlier, now) {
                _ if has_parted => same("a cell of a run", earlier.is_some(), now.is_some())?,
                (Some(earlier), Some(now)) => has_parted = self.answers(earlier, now)?,
                _ => same("a cell of a run", earlier, now)?,
            }
        }
        both.end(has_parted).map(|_| ())
    }

    /// Piece by piece, each from what this box has kept.
    fn session(&mut self, session: &Pieces) -> Finding {
        let mut kept = session.from.clone();
        for piece in &session.pieces {
            let begun = kept.begun().map_or(0, <[u8]>::len);
            let room = (begun + piece.bytes.len()) / EVENT * LINE;
            let both = self.both(&kept, |ready, kept| ready.feed(kept, &piece.bytes, room));
            let has_parted = same_text(&both.earlier, &both.now)?;
            kept = both.end(has_parted)?;
        }
        let both = self.both(&kept, |ready, kept| ready.finish(kept, LINE));
        let has_parted = same_text(&both.earlier, &both.now)?;
        both.end(has_parted).map(|_| ())
    }

    /// The answers to an event. True if they are two, which only the earlier box's 14 allows.
    fn answers(&mut self, earlier: &Answer, now: &Answer) -> Result<bool, Trouble> {
        self.seen.events += 1;
        let Answer::Refused(Refusal::PointHeld { point }) = *earlier else {
            return match earlier == now {
                true => Ok(false),
                false => Err(Trouble::new(earlier, now)),
            };
        };
        let fate = match *now {
            Answer::Granted { .. } => Fate::Granted,
            Answer::Accident(Accident::Derailment { .. }) => Fate::Derailed,
            Answer::Refused(Refusal::PointHeld { point: other }) if other > point => Fate::Higher,
            Answer::Refused(Refusal::PointHeld { point: other }) if other == point => Fate::Stayed,
            _ => return Err(Trouble::new(earlier, now)),
        };
        self.seen.fates[fate as usize] += 1;
        Ok(fate != Fate::Stayed)
    }
}

/// Loading the plan and writing images.
fn files(now: &dyn Subject, earlier: &dyn Subject, case: &Case) -> Finding {
    let [mut lent, mut other] = [Fenced::marked(case.fill), Fenced::marked(case.fill)];
    let is_loaded = earlier.load(&case.plan, &mut lent);
    same("loading", is_loaded, now.load(&case.plan, &mut other))?;
    must(lent == other, "the image is another")?;
    let of_plan = match is_loaded {
        Ok(()) => lent.image,
        Err(_) => [0; IMAGE_SIZE],
    };
    for writing in &case.writings {
        let mut image = [0; IMAGE_SIZE];
        writing.show(&of_plan, &mut image);
        for &room in &writing.rooms {
            let [mut lent, mut other] = [Fenced::of(&image), Fenced::of(&image)];
            let mut memory = Memory::marked(room, writing.fill);
            let mut found = memory.clone();
            let written = earlier.write(&mut lent, &mut memory);
            same("writing", written, now.write(&mut other, &mut found))?;
            must(
                lent == other && memory == found,
                "what was written is another",
            )?;
        }
    }
    Ok(())
}

/// Printed lines up to the first at which the boxes part, and whether they do.
fn same_lines(earlier: &[u8], now: &[u8]) -> Result<bool, Trouble> {
    let lines = |printed: &[u8]| -> Vec<String> {
        let lines = printed.split(|&byte| byte == b'\n');
        lines
            .map(|line| String::from_utf8_lossy(line).into_owned())
            .collect()
    };
    let (earlier, now) = (lines(earlier), lines(now));
    same("lines", earlier.len(), now.len())?;
    let mut pairs = earlier.iter().zip(&now);
    match pairs.find(|(earlier, now)| earlier != now) {
        None => Ok(false),
        Some((earlier, now)) if may_part(earlier, now) => Ok(true),
        Some((earlier, now)) => Err(Trouble::new(earlier, now)),
    }
}

/// Whether this line may stand where the earlier box has that one.
pub fn may_part(earlier: &str, now: &str) -> bool {
    let point_of = |line: &str| line.strip_prefix("refused 14 point ")?.parse::<u8>().ok();
    let Some(point) = point_of(earlier) else {
        return false;
    };
    let goes_on = now.starts_with("granted ") || now.starts_with("accident 42 point ");
    goes_on || point_of(now).is_some_and(|higher| higher > point)
}

/// The same in lent memory, of which nothing else may have been written.
fn same_text(earlier: &Lent<u8>, now: &Lent<u8>) -> Result<bool, Trouble> {
    same("a call for lines", earlier.reason, now.reason)?;
    for lent in [earlier, now] {
        let is_written = |(at, cell): (usize, &Option<u8>)| cell.is_some() == (at < lent.count);
        let is_all = lent.cells.iter().enumerate().all(is_written);
        must(is_all, "other cells are written than are told")?;
    }
    same_lines(&earlier.bytes(), &now.bytes())
}

fn same<T: PartialEq + Debug>(what: &str, earlier: T, now: T) -> Finding {
    match earlier == now {
        true => Ok(()),
        false => Err(Trouble::new(
            format!("{what}: {earlier:?}"),
            format!("{what}: {now:?}"),
        )),
    }
}

fn must(is_so: bool, otherwise: &str) -> Finding {
    match is_so {
        true => Ok(()),
        false => Err(Trouble::new("the same", otherwise)),
    }
}
