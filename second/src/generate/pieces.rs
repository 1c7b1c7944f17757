//! An input that comes in pieces, cut anywhere, with the room that is lent for the lines of each.

use super::{lists, states};
use crate::model::plan::Plan;
use crate::random::Random;
use crate::subject::{unfinished, Kept, EVENT, LINE};

#[derive(Clone, Debug, PartialEq, Eq)]
pub struct Piece {
    pub bytes: Vec<u8>,
    /// For its lines, in bytes.
    pub room: usize,
}

#[derive(Clone, Debug, PartialEq, Eq)]
pub struct Pieces {
    pub from: Kept,
    pub pieces: Vec<Piece>,
    /// Room for the line of an event that is unfinished when the input ends.
    pub ending: usize,
}

/// A few pieces from anywhere, an event being unfinished from the start or not.
pub fn pieces(random: &mut Random, plan: &Plan, run: &[u8]) -> Pieces {
    let (state, bytes) = lists::going_on(random, plan, run);
    anywhere(random, Kept::of(state), &bytes)
}

/// Pieces for a plan that cannot be read.
pub fn for_no_plan(random: &mut Random) -> Pieces {
    let (state, bytes) = lists::going_nowhere(random);
    anywhere(random, Kept::of(state), &bytes)
}

/// A whole run in pieces, in every other case. Long runs, which are rare, are there for long pieces
/// too.
pub fn session(random: &mut Random, events: &[u8]) -> Option<Pieces> {
    let is_long = events.len() >= 5000;
    if !is_long && random.chance(50) {
        return None;
    }
    let lengths = match is_long && random.chance(60) {
        true => [1, 12_000],
        false => lengths(random),
    };
    Some(with_room(random, Kept::fresh(), events, lengths))
}

/// Memory that holds anything at all.
pub fn memory(random: &mut Random) -> Kept {
    let mut memory = Kept::of(states::noise(random));
    memory.unfinished.fill_with(|| random.byte());
    memory
}

/// The first bytes are the unfinished event. What stands past them may be rubbish, and their number
/// may be more than there can be.
fn anywhere(random: &mut Random, mut from: Kept, bytes: &[u8]) -> Pieces {
    let (begun, rest) = bytes.split_at(random.below(EVENT).min(bytes.len()));
    from.unfinished = unfinished(begun);
    if random.chance(50) {
        from.unfinished[1 + begun.len()..].fill_with(|| random.byte());
    }
    if random.chance(20) {
        from.unfinished[0] = [3, 4, 128, 255, random.between(3, 255)][random.below(5)] as u8;
    }
    let longest = [1, 2, 4, 12][random.below(4)];
    with_room(random, from, rest, [0, longest])
}

/// The shortest and the longest piece: mostly some events at a time, sometimes byte by byte.
fn lengths(random: &mut Random) -> [usize; 2] {
    match random.below(60) {
        0 => [1, 1],
        1 => [0, 2],
        2 => [3, 3],
        3..=4 => [2, 4],
        5..=8 => [0, 7],
        9..=25 => [5, 40],
        26..=50 => [0, 100],
        _ => [1, 1000],
    }
}

/// Cuts bytes into pieces of these lengths; there may be empty ones, but not without end.
pub fn cut(random: &mut Random, bytes: &[u8], [shortest, longest]: [usize; 2]) -> Vec<Vec<u8>> {
    let mut pieces = Vec::new();
    let mut rest = bytes;
    while !rest.is_empty() {
        let length = random.between(shortest, longest).min(rest.len());
        let (piece, others) = rest.split_at(length);
        pieces.push(piece.to_vec());
        rest = others;
    }
    if shortest == 0 && random.chance(50) {
        pieces.push(Vec::new());
    }
    pieces
}

fn with_room(random: &mut Random, from: Kept, bytes: &[u8], lengths: [usize; 2]) -> Pieces {
    let mut begun = from.begun().map_or(0, <[u8]>::len);
    let mut pieces = Vec::new();
    for bytes in cut(random, bytes, lengths) {
        let events = (begun + bytes.len()) / EVENT;
        begun = (begun + bytes.len()) % EVENT;
        let room = room_for(random, events);
        pieces.push(Piece { bytes, room });
    }
    let ending = lists::room(random, LINE);
    Pieces {
        from,
        pieces,
        ending,
    }
}

/// Enough in one case out of two: what was refused is fed again.
fn room_for(random: &mut Random, events: usize) -> usize {
    match random.below(10) {
        0..=4 => events * LINE,
        5 => events * LINE + random.below(LINE),
        _ => lists::room(random, events * LINE),
    }
}
