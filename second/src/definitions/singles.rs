//! Wrong definitions that show in single steps alone.

use super::{held, Held};
use crate::book::{Book, MODEL};
use crate::model::answer::{Answer, Refusal};
use crate::model::plan::Plan;
use crate::model::state::{Arrays, State};
use crate::mutants;
use crate::singles::{due, outcome, Single};
use crate::subject::Subject;

/// A wrong definition of a single step.
pub struct OfSteps {
    pub name: String,
    pub comes_of: Box<dyn Fn(&Single) -> String>,
}

impl OfSteps {
    fn book(name: impl Into<String>, book: Book) -> Self {
        OfSteps {
            name: name.into(),
            comes_of: Box::new(move |single| outcome(&book, single)),
        }
    }
}

/// Mutants that single steps alone show, and a few more.
pub fn all() -> Vec<OfSteps> {
    let mutants = mutants::all();
    let of_steps = mutants
        .iter()
        .filter(|mutant| held(mutant) == Held::ByCases);
    let mut all: Vec<OfSteps> = of_steps
        .map(|mutant| OfSteps::book(mutant.name, mutant.book))
        .collect();
    all.extend(other_numbers());
    all.extend(other_loads());
    all.push(OfSteps {
        name: "10 before the form of an unreadable plan".to_string(),
        comes_of: Box::new(|single| {
            // No state in which a train appears twice is well formed, whatever the plan is.
            let mut readable = Single {
                about: single.about,
                plan: crate::document::BENCH_PLAN.to_vec(),
                state: single.state.clone(),
                event: single.event,
                line: single.line,
                after: single.after.clone(),
            };
            let on_bench = outcome(&MODEL, &readable);
            readable.plan.clone_from(&single.plan);
            match MODEL.read(&single.plan) {
                Some(_) if on_bench.starts_with("`refused 10`") => on_bench,
                _ => outcome(&MODEL, &readable),
            }
        }),
    });
    all
}

/// Another number of the table in place of 10.
fn other_numbers() -> impl Iterator<Item = OfSteps> {
    let others = (11..=19).chain(40..=42);
    others.map(|other| OfSteps {
        name: format!("{other}, not 10, for \"state not well formed\""),
        comes_of: Box::new(move |single| {
            outcome(&MODEL, single).replace("`refused 10`", &format!("`refused {other}`"))
        }),
    })
}

fn other_loads() -> Vec<OfSteps> {
    let loads = |name, load| OfSteps::book(name, Book { load, ..MODEL });
    let steps = |name, step_arrays| {
        OfSteps::book(
            name,
            Book {
                step_arrays,
                ..MODEL
            },
        )
    };
    vec![
        loads("holds beyond the tracks pass", |state, plan, arrays| {
            mended(state, plan, arrays, |plan, arrays| {
                arrays.holds[plan.tracks.len()..].fill(0)
            })
        }),
        loads(
            "a green may name a route that there is not",
            |state, plan, arrays| {
                mended(state, plan, arrays, |plan, arrays| {
                    let routes = plan.routes.len();
                    let strange = arrays.signals.iter_mut();
                    strange
                        .filter(|green| usize::from(**green) > routes)
                        .for_each(|green| *green = 0);
                })
            },
        ),
        loads("exits may be reverse", |state, plan, arrays| {
            mended(state, plan, arrays, |_, arrays| arrays.lies[3] = 0)
        }),
        loads("exits may be held", |state, plan, arrays| {
            mended(state, plan, arrays, |_, arrays| arrays.holds[3] = 0)
        }),
        steps("12 before 10", |book, plan, arrays, event, spare| {
            let answer = book.any_step(plan, arrays, event, spare);
            let is_ten = answer == Answer::Refused(Refusal::NotWellFormed);
            match *event {
                [1, 0, 0] if is_ten && arrays.signals[plan.routes[0].start] == 1 => {
                    Answer::Refused(Refusal::SignalNotRed)
                }
                _ => answer,
            }
        }),
    ]
}

/// Loads the arrays with what is wrong in them put right.
fn mended(state: &mut State, plan: &Plan, arrays: &Arrays, mend: fn(&Plan, &mut Arrays)) -> bool {
    let mut mended = arrays.clone();
    mend(plan, &mut mended);
    state.load(plan, &mended)
}

/// Where a definition shows: the number of the first step, counted from 1, what must come of it,
/// and what does.
pub fn shown(definition: &OfSteps, singles: &[Single]) -> Option<(usize, String, String)> {
    singles.iter().zip(1..).find_map(|(single, number)| {
        let (due, got) = (due(single), (definition.comes_of)(single));
        (due != got).then_some((number, due, got))
    })
}
