//! Breaking rules 1 to 5 and 12: tracks, signals and entries.

use super::broken::Culprit;
use crate::model::plan::{self, Entry, Plan, Track};
use crate::model::rules::leaders;
use crate::random::Random;

fn tracks_where(plan: &Plan, wanted: impl Fn(usize) -> bool) -> Vec<usize> {
    (0..plan.tracks.len())
        .filter(|&track| wanted(track))
        .collect()
}

/// Both ways out, or both legs, are one.
pub fn break_1(random: &mut Random, plan: &mut Plan) -> Option<Culprit> {
    let point = random.pick(&tracks_where(plan, |track| plan.is_point(track)))?;
    match &mut plan.tracks[point] {
        Track::Facing { normal, reverse } => *reverse = *normal,
        Track::Trailing {
            normal_leg,
            reverse_leg,
            ..
        } => *normal_leg = *reverse_leg,
        Track::Plain { .. } | Track::Exit => return None,
    }
    Some(Culprit::Track(point))
}

/// A leg that leads elsewhere.
pub fn break_2(random: &mut Random, plan: &mut Plan) -> Option<Culprit> {
    let is_trailing = |track: usize| matches!(plan.tracks[track], Track::Trailing { .. });
    let point = random.pick(&tracks_where(plan, is_trailing))?;
    let strangers = tracks_where(plan, |track| !plan.tracks[track].leads_to(point));
    let stranger = random.pick(&strangers)?;
    if let Track::Trailing {
        normal_leg,
        reverse_leg,
        ..
    } = &mut plan.tracks[point]
    {
        let leg = if random.chance(50) {
            normal_leg
        } else {
            reverse_leg
        };
        *leg = stranger;
    }
    Some(Culprit::Track(point))
}

/// Turns a way out to a track that another one leads to already. The way must not end at a
/// trailing point, or that point would lose its leg and break rule 2 instead.
pub fn break_3(random: &mut Random, plan: &mut Plan) -> Option<Culprit> {
    let free = |&way: &usize| !matches!(plan.tracks[way], Track::Trailing { .. });
    let movable = tracks_where(plan, |track| {
        plan.tracks[track].leads().any(|way| free(&way))
    });
    let from = random.pick(&movable)?;
    let old = plan.tracks[from].leads().find(free)?;
    let led_from = leaders(plan);
    let led_to = tracks_where(plan, |track| {
        !led_from[track].is_empty() && !led_from[track].contains(&from)
    });
    let new = random.pick(&led_to)?;
    match &mut plan.tracks[from] {
        Track::Plain { next } | Track::Trailing { next, .. } => *next = new,
        Track::Facing { normal, .. } if *normal == old => *normal = new,
        Track::Facing { reverse, .. } => *reverse = new,
        Track::Exit => return None,
    }
    Some(Culprit::Track(new))
}

/// One more signal, with its home on a point or an exit.
pub fn break_4(random: &mut Random, plan: &mut Plan) -> Option<Culprit> {
    let home = random.pick(&tracks_where(plan, |track| !plan.tracks[track].is_plain()))?;
    add_signal(plan, home)?;
    Some(Culprit::Track(home))
}

/// The signals behind the new one move up by one number.
pub fn add_signal(plan: &mut Plan, home: usize) -> Option<usize> {
    if plan.homes.len() == *plan::SIGNALS.end() {
        return None;
    }
    let signal = plan.homes.binary_search(&home).err()?;
    plan.homes.insert(signal, home);
    for route in &mut plan.routes {
        route.start += usize::from(route.start >= signal);
    }
    Some(signal)
}

/// The routes that start at the signal go with it.
pub fn remove_signal(plan: &mut Plan, signal: usize) {
    plan.homes.remove(signal);
    plan.routes.retain(|route| route.start != signal);
    for route in &mut plan.routes {
        route.start -= usize::from(route.start > signal);
    }
}

pub fn break_5(random: &mut Random, plan: &mut Plan) -> Option<Culprit> {
    if random.chance(30) {
        // An entry whose track is plain and led to by nothing, but no longer a home.
        let entry = random.below(plan.entries.len());
        let track = plan.entries.get(entry)?.track;
        remove_signal(plan, plan.signal_at(track)?);
        return Some(Culprit::Track(track));
    }
    let led_from = leaders(plan);
    let track = if random.chance(50) {
        random.pick(&tracks_where(plan, |track| {
            plan.is_home(track) && !led_from[track].is_empty()
        }))?
    } else {
        random.pick(&tracks_where(plan, |track| !plan.is_home(track)))?
    };
    add_entry(random, plan, track)?;
    Some(Culprit::Track(track))
}

fn add_entry(random: &mut Random, plan: &mut Plan, track: usize) -> Option<()> {
    if plan.entries.len() == *plan::ENTRIES.end() {
        plan.entries.remove(random.below(plan.entries.len()));
    }
    let place = plan
        .entries
        .binary_search_by_key(&track, |entry| entry.track);
    let clear = if random.chance(70) {
        vec![track]
    } else {
        vec![]
    };
    plan.entries.insert(place.err()?, Entry { track, clear });
    Some(())
}

/// The entry track is missing in its clear list.
pub fn break_12(random: &mut Random, plan: &mut Plan) -> Option<Culprit> {
    let number = random.below(plan.entries.len());
    let entry = plan.entries.get_mut(number)?;
    let track = entry.track;
    if random.chance(50) {
        entry.clear.clear();
    } else {
        entry.clear.retain(|&other| other != track);
        // Something else in the list, so that it is not taken for an empty one.
        if let Err(place) = entry.clear.binary_search(&(track + 1)) {
            if track + 1 < plan.tracks.len() {
                entry.clear.insert(place, track + 1);
            }
        }
    }
    Some(Culprit::Track(track))
}
