//! What must be true of any box, seen from outside on its answers alone: it answers every event,
//! trains come and go one at a time, holds are what history says, all holders of a point list it in the
//! lie it has, and a refusal changes nothing.

use crate::generate::case::Pair;
use crate::model::answer::{Answer, Verdict};
use crate::model::plan::{Plan, Route, MOST_TRACKS};
use crate::model::state::{Arrays, RouteSet};
use crate::subject::Prepared;
use std::fmt::Write;

type Finding = Result<(), String>;

/// An answer of a box and the state it left.
pub struct Told {
    pub answer: Answer,
    pub after: Arrays,
}

/// Plays the whole events of a list from the fresh state, one by one.
pub fn play(ready: &mut dyn Prepared, events: &[u8]) -> Vec<Told> {
    let mut state = Arrays::fresh();
    let tell = |event: &[u8]| {
        let answer = ready.step(&mut state, event);
        let after = state.clone();
        Told { answer, after }
    };
    events.chunks_exact(3).map(tell).collect()
}

/// Checks what a box says of a list of events on a plan, if it can be read: the verdict, the printed
/// lines of the whole run and the story of the single steps.
pub fn check(
    plan: Option<&Plan>,
    events: &[u8],
    verdict: Verdict,
    lines: &[u8],
    story: &[Told],
) -> Finding {
    let printed = String::from_utf8_lossy(lines);
    let mut lines = printed.lines();
    let first = lines.next() == Some(&verdict.to_string());
    demand(first, "the first line is not the verdict")?;
    let Some(plan) = plan else {
        return demand(
            lines.next().is_none(),
            "an unreadable plan is followed by more lines",
        );
    };
    let answered = lines.clone().count() == events.chunks(3).count();
    demand(answered, "there is not one line for each event")?;
    let mut history = History::new(plan, verdict == Verdict::Accepted);
    let mut before = &Arrays::fresh();
    let mut said = String::new();
    for (number, (told, line)) in story.iter().zip(lines).enumerate() {
        said.clear();
        let _ = write!(said, "{}", told.answer);
        let outcome = demand(said == line, "the step's answer is not the run's line")
            .and_then(|()| history.add(&told.answer, before, &told.after));
        outcome.map_err(|what| format!("event {number}, {said}: {what}"))?;
        before = &told.after;
    }
    Ok(())
}

/// A request cannot tell two states apart that agree on all it looks at.
pub fn check_agreement(ready: &mut dyn Prepared, pair: &Pair) -> Finding {
    let event = [1, pair.route, 0];
    let one = ready.step(&mut pair.one.clone(), &event);
    let other = ready.step(&mut pair.other.clone(), &event);
    if one == other {
        Ok(())
    } else {
        Err(format!(
            "two agreeing states are answered {one} and {other}"
        ))
    }
}

fn demand(holds: bool, otherwise: &str) -> Finding {
    if holds {
        Ok(())
    } else {
        Err(otherwise.to_string())
    }
}

/// The story so far. Time is counted in answers; 0 is before the first of them.
struct History<'a> {
    plan: &'a Plan,
    accepted: bool,
    now: usize,
    /// Comings less goings of each track.
    standing: Vec<i32>,
    last_comer: Vec<u8>,
    /// When a train last moved onto each track.
    moved_onto: Vec<usize>,
    /// When each route was last granted, and last cancelled.
    granted: Vec<usize>,
    cancelled: Vec<usize>,
}

impl<'a> History<'a> {
    fn new(plan: &'a Plan, accepted: bool) -> Self {
        History {
            plan,
            accepted,
            now: 0,
            standing: vec![0; plan.tracks.len()],
            last_comer: vec![0; plan.tracks.len()],
            moved_onto: vec![0; plan.tracks.len()],
            granted: vec![0; plan.routes.len()],
            cancelled: vec![0; plan.routes.len()],
        }
    }

    fn add(&mut self, answer: &Answer, before: &Arrays, after: &Arrays) -> Finding {
        if !answer.is_carried_out() {
            let safe = !self.accepted || !matches!(answer, Answer::Accident(_));
            demand(safe, "an accident on an accepted plan")?;
            return demand(
                before == after,
                "the state is changed although nothing was done",
            );
        }
        let known = self.note(answer).is_some();
        demand(known, "the answer names what the plan does not have")?;
        self.compare_trains(after)?;
        if self.accepted {
            self.compare_holds(after)?;
        }
        self.compare_lies(after)
    }

    /// Writes the answer down; nothing if it names a route or track that does not exist.
    fn note(&mut self, answer: &Answer) -> Option<()> {
        self.now += 1;
        match *answer {
            Answer::Granted { route } => *self.granted.get_mut(route)? = self.now,
            Answer::Cancelled { route } => *self.cancelled.get_mut(route)? = self.now,
            Answer::Entered { train, track } => self.come(train, track)?,
            Answer::Moved { train, from, to } => {
                *self.standing.get_mut(from)? -= 1;
                self.come(train, to)?;
                *self.moved_onto.get_mut(to)? = self.now;
            }
            Answer::Left { from, .. } => *self.standing.get_mut(from)? -= 1,
            Answer::Unreadable(_) | Answer::Refused(_) | Answer::Accident(_) => {}
        }
        Some(())
    }

    fn come(&mut self, train: u8, track: usize) -> Option<()> {
        *self.standing.get_mut(track)? += 1;
        *self.last_comer.get_mut(track)? = train;
        Some(())
    }

    fn compare_trains(&self, after: &Arrays) -> Finding {
        for (track, &standing) in self.standing.iter().enumerate() {
            let expected = match standing {
                0 => 0,
                1 => self.last_comer[track],
                _ => return Err(format!("{standing} trains stand on track {track}")),
            };
            let agrees = after.trains[track] == expected;
            demand(
                agrees,
                "trains that came and went are not those of the state",
            )?;
        }
        Ok(())
    }

    /// A route holds a listed point exactly if it has been granted and, since its latest grant,
    /// no train has moved onto the point's release track and the route was not cancelled.
    fn compare_holds(&self, after: &Arrays) -> Finding {
        let mut expected = [0u64; MOST_TRACKS];
        for (number, route) in self.plan.routes.iter().enumerate() {
            let granted = self.granted[number];
            if granted <= self.cancelled[number] {
                continue;
            }
            for release in &route.releases {
                if self.moved_onto[release.track] < granted {
                    expected[release.point] |= 1 << number;
                }
            }
        }
        demand(
            after.holds == expected,
            "the holds are not those of history",
        )
    }

    /// All holders of a point list it in the lie it has. A point can't turn while it is held, so that
    /// this is true of every readable plan; on an accepted one the holders are those of history.
    fn compare_lies(&self, after: &Arrays) -> Finding {
        let held = (0..self.plan.tracks.len()).filter(|&point| after.holds[point] != 0);
        for point in held {
            let is_listed = |route: &Route| match after.lies[point] {
                0 => route.normal.contains(&point),
                _ => route.reverse.contains(&point),
            };
            for route in RouteSet::of_bits(after.holds[point]).routes() {
                let is_so = self.plan.routes.get(route).is_some_and(is_listed);
                demand(is_so, "a holder of a point does not list it in its lie")?;
            }
        }
        Ok(())
    }
}
