//! The printed counts, and what there must be of each.

use super::before;
use super::calls;
use super::counts::{Counts, CANCELLED, ENTERED, EVENT_KINDS, GRANTED, LEFT, MOVED};
use super::dropped::HELD;
use super::flaws::FLAWS;
use super::images;
use super::rarest;
use super::shared;
use super::special::SPECIALS;
use super::walks;
use crate::generate::faults::{can_occur, PLACES};

/// Fewer than this of anything that can occur is a failure.
pub const LEAST: u64 = 100;

/// One line of the report; `least` is 0 where nothing is demanded.
struct Line {
    name: String,
    count: u64,
    least: u64,
}

impl Line {
    fn needed(name: String, count: u64) -> Self {
        Line {
            name,
            count,
            least: LEAST,
        }
    }
}

/// Prints all counts; the names of those that are too small come back.
pub fn report(counts: &Counts) -> Vec<String> {
    let mut lines = vec![
        Line {
            name: "plans accepted".to_string(),
            count: counts.accepted,
            least: counts.plans.div_ceil(5),
        },
        Line {
            name: "events that are granted moves".to_string(),
            count: counts.granted_moves(),
            least: counts.events.div_ceil(5),
        },
    ];
    lines.extend(form_lines(counts));
    lines.extend(rule_lines(counts));
    lines.extend(answer_lines(counts));
    lines.extend(named_lines(SPECIALS, &counts.specials));
    lines.extend(walk_lines(counts));
    lines.extend(named_lines(FLAWS, &counts.flaws));
    lines.extend(pair_lines(counts));
    lines.extend(call_lines(counts));
    lines.extend(named_lines(HELD, &counts.tried));
    println!("{:>10} plans", counts.plans);
    println!("{:>10} events", counts.events);
    for line in &lines {
        println!("{:>10} {}", line.count, line.name);
    }
    for form in 1..=5 {
        let offsets = &counts.offsets[form];
        let last = offsets.last().unwrap_or(&0);
        println!("{:>10} offsets of form {form}, up to {last}", offsets.len());
    }
    let too_few = lines.iter().filter(|line| line.count < line.least);
    too_few
        .map(|line| format!("{}: {} of {}", line.name, line.count, line.least))
        .collect()
}

fn form_lines(counts: &Counts) -> Vec<Line> {
    let mut lines = Vec::new();
    for form in 1..=5u8 {
        for (number, &place) in PLACES.iter().enumerate() {
            if can_occur(form, place) {
                let count = counts.forms[usize::from(form)][number];
                lines.push(Line::needed(format!("form {form} at {place:?}"), count));
            }
        }
    }
    let both = "form 3 where 4 applies too".to_string();
    lines.push(Line::needed(both, counts.three_before_four));
    lines
}

fn rule_lines(counts: &Counts) -> Vec<Line> {
    let rows = |rule: usize| {
        let [first, higher] = counts.rules[rule];
        [
            Line::needed(format!("rule {rule} row 0"), first),
            Line::needed(format!("rule {rule} at a higher row"), higher),
        ]
    };
    (1..=12).flat_map(rows).collect()
}

/// The answers that each kind of event can have on a readable plan, besides 10 and 11.
const POSSIBLE: [&[usize]; 6] = [
    &[12, 13, 14, 42, GRANTED],
    &[15, 16, CANCELLED],
    &[17, 13, 40, ENTERED],
    &[18, 19, 40, 41, MOVED, LEFT],
    &[],
    &[],
];

fn answer_lines(counts: &Counts) -> Vec<Line> {
    let mut lines = Vec::new();
    for (kind, name) in EVENT_KINDS.iter().enumerate() {
        // An incomplete event exists in whole runs alone, where the plan can be read and the
        // state is well formed.
        let common: &[usize] = match *name {
            "incomplete" => &[11],
            _ => &[1, 2, 3, 4, 5, 10, 11],
        };
        for &code in common.iter().chain(POSSIBLE[kind]) {
            let count = counts.answers[kind][code];
            lines.push(Line::needed(format!("{name}: {}", code_words(code)), count));
        }
    }
    lines
}

fn code_words(code: usize) -> String {
    match code {
        GRANTED => "granted".to_string(),
        CANCELLED => "cancelled".to_string(),
        ENTERED => "entered".to_string(),
        MOVED => "moved".to_string(),
        LEFT => "left".to_string(),
        _ => code.to_string(),
    }
}

fn named_lines<'a>(names: &'a [&str], counts: &'a [u64]) -> impl Iterator<Item = Line> + 'a {
    let pairs = names.iter().zip(counts);
    pairs.map(|(name, &count)| Line::needed(name.to_string(), count))
}

fn walk_lines(counts: &Counts) -> impl Iterator<Item = Line> + '_ {
    let pairs = walks::names().into_iter().zip(counts.walks);
    let pairs = pairs.chain(before::names().into_iter().zip(counts.before));
    let pairs = pairs.chain(shared::names().into_iter().zip(counts.shared));
    let lines = pairs.map(|(name, count)| Line::needed(name, count));
    let rarest = rarest::of_each(&counts.spread);
    lines.chain(rarest.map(|(name, count, least)| Line { name, count, least }))
}

fn pair_lines(counts: &Counts) -> Vec<Line> {
    let line = |&code: &usize| {
        let name = format!("agreeing states: {}", code_words(code));
        Line::needed(name, counts.pairs[code])
    };
    [12, 13, 14, 42, GRANTED].iter().map(line).collect()
}

fn call_lines(counts: &Counts) -> impl Iterator<Item = Line> + '_ {
    let kinds = calls::names().into_iter().chain(images::names());
    kinds.map(|kind| {
        let [call, from, what] = kind;
        let count = counts.calls.get(&kind).copied().unwrap_or(0);
        Line::needed(format!("{call} {from}: {what}"), count)
    })
}
