//! Accepted plans with one rule broken on purpose, at the first row or at a higher one.

use super::{accepted, broken_routes, broken_tracks, renumber};
use crate::model::plan::Plan;
use crate::random::Random;

/// The row that was broken: a route, or the track of a track, signal or entry row.
#[derive(Clone, Copy, Debug)]
pub enum Culprit {
    Track(usize),
    Route(usize),
}

/// Changes a plan so that a rule is broken, if the plan has what it takes.
type Breaker = fn(&mut Random, &mut Plan) -> Option<Culprit>;

const BREAKERS: [Breaker; 12] = [
    broken_tracks::break_1,
    broken_tracks::break_2,
    broken_tracks::break_3,
    broken_tracks::break_4,
    broken_tracks::break_5,
    broken_routes::break_6,
    broken_routes::break_7,
    broken_routes::break_8,
    broken_routes::break_9,
    broken_routes::break_10,
    broken_routes::break_11,
    broken_tracks::break_12,
];

/// A readable plan that breaks a rule, and now and then another one as well.
pub fn broken(random: &mut Random) -> Plan {
    let plan = with_broken(random);
    let mut twice_broken = plan.clone();
    let breaker = BREAKERS[random.below(12)];
    if random.chance(15) && breaker(random, &mut twice_broken).is_some() {
        return twice_broken;
    }
    plan
}

fn with_broken(random: &mut Random) -> Plan {
    let breaker = BREAKERS[random.below(12)];
    loop {
        let mut plan = accepted(random);
        if let Some(culprit) = breaker(random, &mut plan) {
            let at_first_row = random.chance(40);
            return settle(random, plan, culprit, at_first_row);
        }
    }
}

/// Moves the culprit to the first row, or away from it if there are others.
fn settle(random: &mut Random, mut plan: Plan, culprit: Culprit, at_first_row: bool) -> Plan {
    match culprit {
        Culprit::Track(track) if at_first_row => renumber::with_first(&plan, track),
        Culprit::Track(_) => {
            let other = random.below(plan.tracks.len());
            renumber::with_first(&plan, other)
        }
        Culprit::Route(route) => {
            let row = if at_first_row {
                0
            } else {
                random.below(plan.routes.len())
            };
            plan.routes.swap(route, row);
            plan
        }
    }
}
