//! How the input of a long story is cut, and how the pieces are given to the program.

use super::special;
use super::stories::{self, Story};
use crate::random::Random;
use crate::subject::EVENT;

/// How the pieces follow each other.
#[derive(Clone, Copy, Debug, PartialEq, Eq)]
pub enum Manner {
    /// One after the other.
    Freely,
    /// Each when the one before has been read, so that it is read by itself.
    LockStep,
    /// Each when all that is whole before it has been answered, the plan first.
    Answered,
}

pub const MANNERS: [(Manner, &str); 3] = [
    (Manner::Freely, "one piece after the other"),
    (
        Manner::LockStep,
        "each piece when the one before has been read",
    ),
    (
        Manner::Answered,
        "each piece when all before it has been answered",
    ),
];

impl Manner {
    pub fn words(self) -> &'static str {
        MANNERS[self as usize].1
    }
}

#[derive(Clone, Debug)]
pub struct Session {
    pub story: Story,
    pub manner: Manner,
    /// The lengths that its pieces may have.
    pub range: Range,
    /// Those that they have.
    pub lengths: Vec<usize>,
    /// The plan comes through a named pipe, piece by piece; otherwise it stands in a file.
    pub is_plan_piped: bool,
}

/// The shortest and the longest piece.
pub type Range = [usize; 2];

/// Short ones, ones about the sizes that a buffer may have, and any.
pub const RANGES: [Range; 18] = [
    [1, 1],
    [2, 2],
    [3, 3],
    [5, 5],
    [1, 7],
    [100, 300],
    [1022, 1025],
    [1023, 1023],
    [1, 5000],
    [3071, 3071],
    [3072, 3072],
    [3073, 3073],
    [4095, 4095],
    [4096, 4096],
    [4097, 4097],
    [65_535, 65_535],
    [65_536, 65_537],
    [1, 70_000],
];

/// Event by event, or each in pieces, or many at a time.
const ANSWERED: [Range; 4] = [[EVENT, EVENT], [1, 2], [100, 300], [3071, 3073]];

/// How many of the ranges are for short pieces, which take long to be read one by one.
const SHORT: usize = 5;

pub fn range_words([shortest, longest]: Range) -> String {
    if shortest == longest {
        format!("pieces of {shortest} bytes")
    } else {
        format!("pieces of {shortest} to {longest} bytes")
    }
}

/// How many long sessions there are; the odd ones come after them, and then the special ones.
pub const LONG: usize = 216;

/// How many there are before the special ones.
pub const USUAL: usize = LONG + stories::ODD;

/// All sessions of this seed.
pub fn all(seed: u64) -> impl Iterator<Item = Session> {
    let mut random = Random::new(seed);
    (0..USUAL + special::COUNT).map(move |number| match number {
        0..LONG => {
            let count = event_count(&mut random, number);
            let story = stories::long(&mut random, number, count);
            cut(&mut random, story, number)
        }
        LONG..USUAL => {
            let story = stories::odd(&mut random, number - LONG);
            cut(&mut random, story, number)
        }
        _ => special::special(&mut random, number - USUAL),
    })
}

/// Mostly some thousand, so that every session is longer than several buffers of a program.
fn event_count(random: &mut Random, number: usize) -> usize {
    match number {
        20 | 60 | 100 | 140 => 100_000,
        _ if is_shorter(number) => random.between(3000, 4000),
        _ => random.between(3000, 12_000),
    }
}

/// Those that are answered event by event or read byte by byte.
fn is_shorter(number: usize) -> bool {
    number % 9 < 2
}

fn cut(random: &mut Random, story: Story, number: usize) -> Session {
    let manner = match number % 9 {
        0 if number % 2 == 0 => Manner::Answered,
        1..=4 => Manner::LockStep,
        _ => Manner::Freely,
    };
    let range = match manner {
        Manner::Answered => ANSWERED[number / 18 % ANSWERED.len()],
        Manner::LockStep if is_shorter(number) => RANGES[number / 9 % RANGES.len()],
        Manner::LockStep => RANGES[SHORT + number % (RANGES.len() - SHORT)],
        Manner::Freely => RANGES[random.below(RANGES.len())],
    };
    let mut lengths = Vec::new();
    let mut rest = story.input.len();
    while rest > 0 {
        let length = random.between(range[0], range[1]).min(rest);
        lengths.push(length);
        rest -= length;
    }
    Session {
        story,
        manner,
        range,
        lengths,
        is_plan_piped: false,
    }
}

impl Session {
    /// The input as it is cut.
    pub fn pieces(&self) -> Vec<&[u8]> {
        let mut rest = &self.story.input[..];
        let mut pieces = Vec::with_capacity(self.lengths.len());
        for &length in &self.lengths {
            let (piece, others) = rest.split_at(length);
            pieces.push(piece);
            rest = others;
        }
        pieces
    }

    pub fn words(&self) -> String {
        let Story { what, input, .. } = &self.story;
        let plan = if self.is_plan_piped {
            " through a pipe"
        } else {
            ""
        };
        let cut = range_words(self.range);
        let manner = self.manner.words();
        format!("{what}{plan}, {} bytes in {cut}, {manner}", input.len())
    }
}
