//! Sessions for programs that go wrong at one read alone, or at a plan that comes in pieces.

use super::sessions::{Manner, Session};
use super::stories::{self, Story};
use crate::random::Random;
use crate::subject::EVENT;

/// How many there are of these.
pub const COUNT: usize = 5;

/// So many events have more than 65,536 bytes.
const MANY: usize = 24_000;

/// Every length of a piece from one byte to this many has its turn.
pub const LONGEST: usize = 3_100;

pub fn special(random: &mut Random, number: usize) -> Session {
    match number {
        0 => byte_by_byte(random),
        1 => every_length(random, &[]),
        // With one byte before them every piece begins and ends within an event.
        2 => every_length(random, &[1]),
        // The bench plan and one of the most bytes.
        3 => through_a_pipe(stories::long(random, 10, 3000)),
        _ => through_a_pipe(stories::largest(random, 3000)),
    }
}

/// Each byte is read by itself, and there are more than 65,536 of them.
fn byte_by_byte(random: &mut Random) -> Session {
    let story = stories::long(random, 0, MANY);
    Session {
        lengths: vec![1; story.input.len()],
        story,
        manner: Manner::LockStep,
        range: [1, 1],
        is_plan_piped: false,
    }
}

/// These pieces, then one of each length, then the rest.
fn every_length(random: &mut Random, first: &[usize]) -> Session {
    let mut lengths = first.to_vec();
    lengths.extend(1..=LONGEST);
    let sum: usize = lengths.iter().sum();
    let story = stories::long(random, 2 * first.len(), sum / EVENT);
    lengths.push(story.input.len() - sum);
    Session {
        story,
        manner: Manner::LockStep,
        range: [1, LONGEST],
        lengths,
        is_plan_piped: false,
    }
}

/// The plan comes in pieces; the events come all at once.
fn through_a_pipe(story: Story) -> Session {
    let length = story.input.len();
    Session {
        story,
        manner: Manner::Freely,
        range: [length, length],
        lengths: vec![length],
        is_plan_piped: true,
    }
}
