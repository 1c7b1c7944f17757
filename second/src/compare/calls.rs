//! The kinds of calls that do all or nothing, each of which the cases must reach.

use crate::book::{Book, MODEL};
use crate::generate::case::Case;
use crate::generate::lists::List;
use crate::generate::pieces::{Piece, Pieces};
use crate::model::plan::Plan;
use crate::model::state::{Arrays, State};
use crate::model::step::step;
use crate::subject::{unfinished, Kept, EVENT, LINE};
use std::cmp::Ordering;
use std::collections::BTreeMap;

/// Which call, from what, and what there is to be said of it.
pub type Kind = [&'static str; 3];

pub type Kinds = BTreeMap<Kind, u64>;

const FRESH: &str = "from the fresh state";
const ANOTHER: &str = "from another state";
const NOT_WELL_FORMED: &str = "from a state that is not well formed";
const COUNT_ABOVE_TWO: &str = "from a count of bytes above 2";
const NO_PLAN: &str = "on no plan";
const FROM: [&str; 5] = [FRESH, ANOTHER, NOT_WELL_FORMED, NO_PLAN, COUNT_ABOVE_TWO];

const ROOM: [&str; 4] = [
    "much too little room",
    "one place too few",
    "just enough room",
    "more room than needed",
];

const LEFT_OVER: [&str; 3] = ["no byte left over", "one byte left over", "two left over"];

const SINGLE: [&str; 5] = [
    "no byte",
    "one byte",
    "two bytes",
    "three bytes",
    "more than three bytes",
];

const BEGUN: [&str; 3] = [
    "with nothing begun",
    "with one byte begun",
    "with two begun",
];

const LENGTH: [&str; 5] = [
    "and none come",
    "and one comes",
    "and two come",
    "and three come",
    "and more come",
];

const ENDING: [&str; 2] = ["and less room than a line's", "and a line's room or more"];

const READABLE: [&str; 2] = ["a plan", "no plan"];

// Those that stand by themselves.
const RUN_WOULD_CHANGE: Kind = [
    "run",
    "refused for room",
    "its events would change the state",
];
const FEED_WOULD_CHANGE: Kind = [
    "feed",
    "refused for room",
    "its events would change the state",
];
const RUN_INCOMPLETE: Kind = [
    "run",
    "an incomplete event",
    "whole, it would change the state",
];
const FINISH_INCOMPLETE: Kind = [
    "finish",
    "an incomplete event",
    "whole, it would change the state",
];
const IN_TWO: Kind = ["feed", "an event in two pieces", "it changes the state"];
const IN_THREE: Kind = [
    "feed",
    "an event in three pieces or more",
    "it changes the state",
];
const RUBBISH: Kind = [
    "feed",
    "rubbish past the bytes that count",
    "and it is done",
];
const NO_SUCH_STATE: Kind = ["feed", NO_PLAN, "and a state that no plan has"];
const NO_SUCH_COUNT: Kind = ["feed", NO_PLAN, "and a count of bytes above 2"];
const TEN_PIECES: Kind = ["feed", FRESH, "more than 10 pieces"];
const HUNDRED_PIECES: Kind = ["feed", FRESH, "more than 100 pieces"];
const NO_ZERO: Kind = ["fresh", "in memory of which no cell", "is 0"];
const OTHERS: [Kind; 12] = [
    RUN_WOULD_CHANGE,
    FEED_WOULD_CHANGE,
    RUN_INCOMPLETE,
    FINISH_INCOMPLETE,
    IN_TWO,
    IN_THREE,
    RUBBISH,
    NO_SUCH_STATE,
    NO_SUCH_COUNT,
    TEN_PIECES,
    HUNDRED_PIECES,
    NO_ZERO,
];

/// Every kind that there must be.
pub fn names() -> Vec<Kind> {
    let mut names = Vec::new();
    for from in FROM {
        for room in ROOM {
            let calls = ["run", "feed", "finish"].into_iter();
            // A run knows of no unfinished event.
            let calls = calls.skip(usize::from(from == COUNT_ABOVE_TWO));
            names.extend(calls.map(|call| [call, from, room]));
        }
    }
    for from in &FROM[..4] {
        names.extend(LEFT_OVER.map(|left_over| ["run", from, left_over]));
        names.extend(SINGLE.map(|bytes| ["step", from, bytes]));
    }
    for begun in BEGUN {
        names.extend(LENGTH.map(|length| ["feed", begun, length]));
        names.extend(ENDING.map(|ending| ["finish", begun, ending]));
    }
    for readable in READABLE {
        names.extend(ROOM.map(|room| ["open", readable, room]));
    }
    names.extend(OTHERS);
    names
}

/// Calls `note` for each kind of call in this case.
pub fn of_case(plan: Option<&Plan>, case: &Case, note: &mut impl FnMut(Kind)) {
    of_list(plan, &case.list, note);
    for pieces in &case.pieces {
        of_pieces(plan, pieces, note);
    }
    if let Some(room) = case.opening {
        let readable = READABLE[usize::from(plan.is_none())];
        note(["open", readable, room_kind(room, LINE)]);
    }
    if is_without_zero(&case.memory) {
        note(NO_ZERO);
    }
}

fn of_list(plan: Option<&Plan>, list: &List, note: &mut impl FnMut(Kind)) {
    let kept = Kept::of(list.from.clone());
    let from = from(plan, &kept);
    let needed = list.events.len().div_ceil(EVENT);
    note(["run", from, room_kind(list.room, needed)]);
    note(["run", from, LEFT_OVER[list.events.len() % EVENT]]);
    note(["step", from, SINGLE[list.events.len().min(4)]]);
    let Some((plan, state)) = stage(plan, &kept) else {
        return;
    };
    if list.room < needed && changes(plan, state.clone(), &list.events) {
        note(RUN_WOULD_CHANGE);
    }
    let (whole, left_over) = list.events.split_at(list.events.len() / EVENT * EVENT);
    if would_change(plan, after(plan, state, whole), left_over) {
        note(RUN_INCOMPLETE);
    }
}

fn of_pieces(plan: Option<&Plan>, session: &Pieces, note: &mut impl FnMut(Kind)) {
    let mut kept = session.from.clone();
    let from = from(plan, &kept);
    if from == FRESH {
        let count = session.pieces.len();
        for (least, kind) in [(10, TEN_PIECES), (100, HUNDRED_PIECES)] {
            if count > least {
                note(kind);
            }
        }
    }
    if from == NO_PLAN {
        note_nonsense(&kept, note);
    }
    let mut split = Split::default();
    for piece in &session.pieces {
        let begun = kept.begun().map_or(0, <[u8]>::len);
        let needed = (begun + piece.bytes.len()) / EVENT * LINE;
        note(["feed", from, room_kind(piece.room, needed)]);
        let Some((plan, state)) = stage(plan, &kept) else {
            continue;
        };
        note(["feed", BEGUN[begun], LENGTH[piece.bytes.len().min(4)]]);
        of_fed(plan, state, &mut kept, piece, &mut split, note);
    }
    of_finish(plan, from, &kept, session.ending, note);
}

/// In how many pieces the event under way has come so far.
#[derive(Default)]
struct Split {
    pieces: usize,
}

/// A piece that is fed, at the second attempt at the latest.
fn of_fed(
    plan: &Plan,
    state: State,
    kept: &mut Kept,
    piece: &Piece,
    split: &mut Split,
    note: &mut impl FnMut(Kind),
) {
    let begun = kept.begun().unwrap_or_default().to_vec();
    if kept.unfinished != unfinished(&begun) {
        note(RUBBISH);
    }
    let bytes = [&begun[..], &piece.bytes].concat();
    let (whole, left_over) = bytes.split_at(bytes.len() / EVENT * EVENT);
    if piece.room / LINE < whole.len() / EVENT && changes(plan, state.clone(), whole) {
        note(FEED_WOULD_CHANGE);
    }
    if begun.is_empty() {
        split.pieces = 0;
    }
    split.pieces += usize::from(!piece.bytes.is_empty());
    if !begun.is_empty() && !whole.is_empty() {
        if would_change(plan, state.clone(), &whole[..EVENT]) {
            note(if split.pieces > 2 { IN_THREE } else { IN_TWO });
        }
        // What is left over came with this piece alone.
        split.pieces = 1;
    }
    after(plan, state, whole).store(&mut kept.state);
    kept.unfinished = unfinished(left_over);
}

fn of_finish(
    plan: Option<&Plan>,
    from: &'static str,
    kept: &Kept,
    room: usize,
    note: &mut impl FnMut(Kind),
) {
    note(["finish", from, room_kind(room, LINE)]);
    let (Some((plan, state)), Some(begun)) = (stage(plan, kept), kept.begun()) else {
        return;
    };
    let ending = ENDING[usize::from(room >= LINE)];
    note(["finish", BEGUN[begun.len()], ending]);
    if would_change(plan, state, begun) {
        note(FINISH_INCOMPLETE);
    }
}

/// Reasons that come behind the form.
fn note_nonsense(kept: &Kept, note: &mut impl FnMut(Kind)) {
    if kept.state.lies.iter().any(|&lie| lie > 1) {
        note(NO_SUCH_STATE);
    }
    if kept.begun().is_none() {
        note(NO_SUCH_COUNT);
    }
}

fn from(plan: Option<&Plan>, kept: &Kept) -> &'static str {
    let Some(plan) = plan else { return NO_PLAN };
    if State::from_arrays(plan, &kept.state).is_none() {
        NOT_WELL_FORMED
    } else if kept.begun().is_none() {
        COUNT_ABOVE_TWO
    } else if kept.state != Arrays::fresh() {
        ANOTHER
    } else {
        FRESH
    }
}

/// Where events can be played at all.
fn stage<'a>(plan: Option<&'a Plan>, kept: &Kept) -> Option<(&'a Plan, State)> {
    kept.begun()?;
    Book::admitted(&MODEL, Ok(plan?), &kept.state).ok()
}

fn room_kind(room: usize, needed: usize) -> &'static str {
    ROOM[match room.cmp(&needed) {
        Ordering::Less if room + 1 < needed => 0,
        Ordering::Less => 1,
        Ordering::Equal => 2,
        Ordering::Greater => 3,
    }]
}

fn after(plan: &Plan, mut state: State, events: &[u8]) -> State {
    for event in events.chunks_exact(EVENT) {
        step(plan, &mut state, event);
    }
    state
}

fn changes(plan: &Plan, state: State, events: &[u8]) -> bool {
    after(plan, state.clone(), events) != state
}

/// True if an event of at least one byte, filled up with 0, would change the state.
fn would_change(plan: &Plan, mut state: State, event: &[u8]) -> bool {
    let mut whole = [0; EVENT];
    whole[..event.len()].copy_from_slice(event);
    !event.is_empty() && step(plan, &mut state, &whole).is_carried_out()
}

fn is_without_zero(memory: &Kept) -> bool {
    let Arrays {
        trains,
        lies,
        holds,
        signals,
    } = &memory.state;
    let bytes = trains.iter().chain(lies).chain(signals);
    let mut bytes = bytes.chain(&memory.unfinished);
    bytes.all(|&byte| byte != 0) && holds.iter().all(|&routes| routes != 0)
}
