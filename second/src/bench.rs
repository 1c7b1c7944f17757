//! Times of the model and, beside it, of the box and of another one: the same work in turns, so that
//! whatever slows one of them down slows all.

use crate::book::MODEL;
use crate::compare::counts::{code, GRANTED, LEFT, MOVED};
use crate::compare::dropped::without_trains;
use crate::earlier::BEFORE;
use crate::generate::largest::{busy, largest};
use crate::generate::{accepted, events};
use crate::model::answer::Answer;
use crate::model::plan::{self, Entry, Plan, Release, Route, Track, LARGEST_FILE};
use crate::model::state::{Arrays, State};
use crate::model::step::step;
use crate::random::Random;
use crate::subject::{Fenced, Memory, Subject};
use crate::writing::write;
use std::hint::black_box;
use std::time::Instant;

const RUN_EVENTS: usize = 1_000_000;
/// Odd, so that there is a middle one.
const ROUNDS: usize = 7;

/// A plan with a million events on it.
struct Load {
    name: &'static str,
    file: Vec<u8>,
    events: Vec<u8>,
    /// What is timed on it.
    works: &'static [(&'static str, Work)],
    /// What the events are, in words.
    mixture: fn(&Load) -> String,
}

/// Some work, in nanoseconds for each of its units.
type Work = fn(&dyn Subject, &Load) -> f64;

const WORKS: &[(&str, Work)] = &[
    ("reading, per plan", time_reading),
    ("checking, per plan", time_checking),
    ("loading, per plan", time_loading),
    ("writing, per plan", time_writing),
    ("step, per event", time_steps),
    WHOLE_RUN,
];

const WHOLE_RUN: (&str, Work) = ("whole run, per event", time_run);

/// What is timed beside the model.
#[derive(Clone, Copy, Default)]
pub struct Boxes<'a> {
    /// The box that is linked.
    pub linked: Option<&'a dyn Subject>,
    /// The box of a library, such as an earlier one.
    pub other: Option<&'a dyn Subject>,
}

/// Prints the figures; those of the boxes too as far as there are any besides the model.
pub fn bench(boxes: Boxes) {
    let loads: [fn() -> Load; 7] = [
        largest_load,
        busy_load,
        lively_load,
        largest_asked,
        busy_asked,
        lively_asked,
        short_asked,
    ];
    for load in loads {
        let load = load();
        let (length, mixture) = (load.file.len(), (load.mixture)(&load));
        println!("{}: {length} bytes, {mixture}", load.name);
        let boxes_by_name = [
            ("box", boxes.linked, false),
            ("other box", boxes.other, true),
        ];
        for (name, subject, may_be_earlier) in boxes_by_name {
            if subject.is_some_and(|subject| !does_the_same(subject, &load, may_be_earlier)) {
                println!("  the {name} does not do what the model does: its times say little");
            }
        }
        for (name, work) in load.works {
            println!("  {name:<22} {}", times_in_words(*work, boxes, &load));
        }
    }
}

/// Whether it loads, writes and plays: a box that does nothing is fast. The 14 of an earlier one is for
/// every held point, and its 13 may have no train.
fn does_the_same(subject: &dyn Subject, load: &Load, may_be_earlier: bool) -> bool {
    let mut lent = Fenced::marked(0);
    let mut memory = Memory::marked(LARGEST_FILE, 0);
    let is_loaded = subject.load(&load.file, &mut lent) == Ok(());
    let written = subject.write(&mut lent, &mut memory);
    let lines = subject.run(&load.file, &load.events);
    let due = MODEL.run(&load.file, &load.events);
    let is_earlier = || {
        let due = BEFORE.run(&load.file, &load.events);
        lines == due || lines == without_trains(&due)
    };
    let is_played = lines == due || may_be_earlier && is_earlier();
    is_loaded && written == Ok(load.file.len()) && is_played
}

/// A line of times: those of the box and of the other one each with its ratio to the model, and then
/// that of the two boxes.
fn times_in_words(work: Work, boxes: Boxes, load: &Load) -> String {
    let [model, linked, other] = in_turns(work, [Some(&MODEL), boxes.linked, boxes.other], load);
    let model = model.unwrap_or(f64::NAN);
    let mut words = format!("model {model:>9.1} ns");
    for (name, time) in [("box", linked), ("other box", other)] {
        if let Some(time) = time {
            let ratio = time / model;
            words.push_str(&format!("  {name} {time:>9.1} ns  ratio {ratio:.2}"));
        }
    }
    if let (Some(linked), Some(other)) = (linked, other) {
        let ratio = linked / other;
        words.push_str(&format!("  box to other box {ratio:.2}"));
    }
    words
}

/// The middle of several rounds, by turns.
fn in_turns(work: Work, subjects: [Option<&dyn Subject>; 3], load: &Load) -> [Option<f64>; 3] {
    let mut times = [const { Vec::new() }; 3];
    for _ in 0..ROUNDS {
        for (times, subject) in times.iter_mut().zip(subjects) {
            times.extend(subject.map(|subject| work(subject, load)));
        }
    }
    times.map(|mut times| middle(&mut times))
}

fn middle(times: &mut [f64]) -> Option<f64> {
    times.sort_by(f64::total_cmp);
    times.get(times.len() / 2).copied()
}

fn per_unit(units: usize, work: impl FnOnce()) -> f64 {
    let start = Instant::now();
    work();
    start.elapsed().as_nanos() as f64 / units as f64
}

/// How often a plan is taken, so that each takes about as long.
fn times(load: &Load) -> usize {
    10_000_000 / (load.file.len() + 100)
}

fn time_reading(subject: &dyn Subject, load: &Load) -> f64 {
    let times = times(load);
    per_unit(times, || {
        for _ in 0..times {
            black_box(subject.read(black_box(&load.file)));
        }
    })
}

fn time_checking(subject: &dyn Subject, load: &Load) -> f64 {
    let times = times(load);
    let mut ready = subject.prepare(&load.file);
    per_unit(times, || {
        for _ in 0..times {
            black_box(ready.check());
        }
    })
}

/// From the file into an image.
fn time_loading(subject: &dyn Subject, load: &Load) -> f64 {
    let times = times(load);
    let mut lent = Fenced::marked(0);
    per_unit(times, || {
        for _ in 0..times {
            let _ = black_box(subject.load(black_box(&load.file), black_box(&mut lent)));
        }
    })
}

/// From an image that was loaded, into a buffer that is long enough for any.
fn time_writing(subject: &dyn Subject, load: &Load) -> f64 {
    let times = times(load);
    let mut lent = Fenced::marked(0);
    let mut memory = Memory::marked(LARGEST_FILE, 0);
    let _ = subject.load(&load.file, &mut lent);
    per_unit(times, || {
        for _ in 0..times {
            let _ = black_box(subject.write(black_box(&mut lent), black_box(&mut memory)));
        }
    })
}

fn time_steps(subject: &dyn Subject, load: &Load) -> f64 {
    let events = &load.events[..RUN_EVENTS / 10 * 3];
    let mut ready = subject.prepare(&load.file);
    let mut state = Arrays::fresh();
    per_unit(RUN_EVENTS / 10, || {
        for event in events.chunks_exact(3) {
            black_box(ready.step(&mut state, event));
        }
    })
}

fn time_run(subject: &dyn Subject, load: &Load) -> f64 {
    per_unit(RUN_EVENTS, || {
        black_box(subject.run(&load.file, &load.events));
    })
}

/// A load of all works.
fn load(name: &'static str, plan: &Plan, events: Vec<u8>) -> Load {
    Load {
        name,
        file: write(plan),
        events,
        works: WORKS,
        mixture: done_and_moves,
    }
}

/// A load of requests, of which the whole run is timed.
fn asked(name: &'static str, plan: &Plan, events: Vec<u8>) -> Load {
    Load {
        works: &[WHOLE_RUN],
        mixture: requests_and_answers,
        ..load(name, plan, events)
    }
}

/// Grants and cancels: no train can do much there.
fn largest_load() -> Load {
    let mut random = Random::new(1);
    let plan = largest(&mut random);
    let events = events::granting(&mut random, &plan, RUN_EVENTS);
    load("largest plan", &plan, events)
}

/// A train that goes round and round.
fn busy_load() -> Load {
    let mut random = Random::new(1);
    let plan = busy(&mut random);
    let events = events::touring(&mut random, &plan, RUN_EVENTS);
    load("busy plan", &plan, events)
}

fn lively_load() -> Load {
    let (plan, mut random) = lively();
    let events = events::smooth(&mut random, &plan, RUN_EVENTS);
    load("lively plan", &plan, events)
}

/// The plan with the most moves among some hundred, so that little of the time goes into
/// refusals.
fn lively() -> (Plan, Random) {
    let moves = |seed: &u64| {
        let mut random = Random::new(*seed);
        let plan = accepted(&mut random);
        let events = events::smooth(&mut random, &plan, 2000);
        count_moves(&plan, &events)
    };
    let seed = (0..300).max_by_key(moves).unwrap_or(0);
    let mut random = Random::new(seed);
    (accepted(&mut random), random)
}

/// Every clear list has all tracks, so that a train in the plan is in the way of every route, in the
/// end of its own too, and stays: it comes in the last quarter.
fn largest_asked() -> Load {
    let mut random = Random::new(1);
    let plan = largest(&mut random);
    let is_late = |event: usize| event >= RUN_EVENTS / 4 * 3;
    let most_trains = |event: usize| usize::from(is_late(event));
    let events = events::asking(&mut random, &plan, RUN_EVENTS, most_trains);
    asked("largest plan, requests", &plan, events)
}

/// Two trains would wait for each other there.
fn busy_asked() -> Load {
    let mut random = Random::new(1);
    let plan = busy(&mut random);
    let events = events::asking(&mut random, &plan, RUN_EVENTS, |_| 1);
    asked("busy plan, requests", &plan, events)
}

fn lively_asked() -> Load {
    let (plan, mut random) = lively();
    let events = events::asking(&mut random, &plan, RUN_EVENTS, |_| 2);
    asked("lively plan, requests", &plan, events)
}

/// Three trains stand on plain tracks, in the way of a route each. Every other route is granted and
/// cancelled, so that none is refused by 12 and each request walks its list.
fn short_asked() -> Load {
    let plan = short_lists();
    let mut random = Random::new(1);
    let mut state = State::fresh(&plan);
    let mut events = vec![];
    let mut play = |event: [u8; 3]| {
        events.extend(event);
        step(&plan, &mut state, &event)
    };
    for line in 0..3 {
        let train = line + 1;
        for event in [
            [3, line, train],
            [1, 2 * line, 0],
            [4, train, 0],
            [4, train, 0],
        ] {
            play(event);
        }
    }
    for _ in 0..RUN_EVENTS {
        let route = random.below(plan.routes.len()) as u8;
        if play([1, route, 0]).is_carried_out() {
            play([2, route, 0]);
        }
    }
    events.truncate(3 * RUN_EVENTS);
    asked("clear lists of three, requests", &plan, events)
}

/// As many tracks as there can be, and clear lists of three: ten times a home, a facing point behind
/// it, and two ways from there of a plain track and an exit.
fn short_lists() -> Plan {
    let mut plan = Plan {
        tracks: vec![],
        homes: (0..60).step_by(6).collect(),
        routes: vec![],
        entries: vec![],
    };
    for home in (0..60).step_by(6) {
        let [point, exit] = [home + 1, home + 4];
        plan.tracks.extend([
            Track::Plain { next: point },
            Track::Facing {
                normal: home + 2,
                reverse: home + 3,
            },
            Track::Plain { next: exit },
            Track::Plain { next: exit + 1 },
            Track::Exit,
            Track::Exit,
        ]);
        let way = |is_reverse: usize| {
            let path = vec![point, home + 2 + is_reverse, exit + is_reverse];
            Route {
                start: home / 6,
                clear: path.clone(),
                normal: vec![point; 1 - is_reverse],
                reverse: vec![point; is_reverse],
                releases: vec![Release {
                    track: path[1],
                    point,
                }],
                path,
            }
        };
        plan.routes.extend([0, 1].map(way));
        plan.entries.push(Entry {
            track: home,
            clear: vec![home],
        });
    }
    plan.tracks.resize(*plan::TRACKS.end(), Track::Exit);
    plan
}

fn count_moves(plan: &Plan, events: &[u8]) -> usize {
    count(plan, events, |_, answer| is_move(answer))
}

fn is_move(answer: &Answer) -> bool {
    matches!(code(answer), MOVED | LEFT)
}

/// How many events, with what is answered to each, are of a kind.
fn count(plan: &Plan, events: &[u8], is_of: impl Fn(&[u8], &Answer) -> bool) -> usize {
    let mut state = State::fresh(plan);
    let is_counted = |event: &&[u8]| is_of(event, &step(plan, &mut state, event));
    events.chunks_exact(3).filter(is_counted).count()
}

/// The same of a hundred.
fn share(load: &Load, is_of: impl Fn(&[u8], &Answer) -> bool) -> usize {
    let plan = (MODEL.read)(&load.file).expect("bench plans can be read");
    100 * count(&plan, &load.events, is_of) / RUN_EVENTS
}

fn done_and_moves(load: &Load) -> String {
    let moves = share(load, |_, answer| is_move(answer));
    let done = share(load, |_, answer| answer.is_carried_out());
    format!("{RUN_EVENTS} events, of a hundred {done} are carried out and {moves} are moves")
}

fn requests_and_answers(load: &Load) -> String {
    let is_request = |event: &[u8]| event[0] == 1;
    let requests = share(load, |event, _| is_request(event));
    let of = |number: usize| {
        share(load, |event, answer| {
            is_request(event) && code(answer) == number
        })
    };
    let [granted, not_red, train, held] = [GRANTED, 12, 13, 14].map(of);
    let moves = share(load, |_, answer| is_move(answer));
    format!(
        "{RUN_EVENTS} events, of a hundred {requests} are requests ({granted} granted, {not_red} \
         refused by 12, {train} by 13, {held} by 14) and {moves} are moves"
    )
}
