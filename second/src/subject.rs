//! What can be held against the model: anything that reads, checks, steps and runs, and that loads
//! plans into images and writes them.

use crate::model::answer::{Answer, Verdict};
use crate::model::image::{Image, IMAGE_SIZE};
use crate::model::reading::Form;
use crate::model::state::Arrays;
use std::fmt;

/// The room that is counted for a line, however short it is. The longest by its words, with numbers of
/// up to 20 digits, is that of 13: `refused `, ` track ` and ` train `, a number after each, and its end.
pub const LINE: usize = 83;

/// Cells past the lent ones that are looked at too.
pub const PAST: usize = 3;

/// How many bytes an event has, and so how many are kept of one that has not come whole: their
/// number and up to two of them.
pub const EVENT: usize = 3;

/// What a host keeps from one call to the next: nothing keeps it from being nonsense.
#[derive(Clone, Debug, PartialEq, Eq)]
pub struct Kept {
    pub state: Arrays,
    /// How many bytes of an unfinished event are there, then these bytes.
    pub unfinished: [u8; EVENT],
}

impl Kept {
    /// A state with nothing unfinished.
    pub fn of(state: Arrays) -> Self {
        Kept {
            state,
            unfinished: unfinished(&[]),
        }
    }

    /// What every session starts with.
    pub fn fresh() -> Self {
        Kept::of(Arrays::fresh())
    }

    /// The bytes of the unfinished event, or nothing if there cannot be so many.
    pub fn begun(&self) -> Option<&[u8]> {
        self.unfinished[1..].get(..usize::from(self.unfinished[0]))
    }
}

/// One or two bytes left over, or none, as they are kept.
pub fn unfinished(left_over: &[u8]) -> [u8; EVENT] {
    let mut kept = [left_over.len() as u8, 0, 0];
    kept[1..][..left_over.len()].copy_from_slice(left_over);
    kept
}

/// Why a call that does all or nothing did nothing.
#[derive(Clone, Copy, Debug, PartialEq, Eq)]
pub enum Reason {
    Unreadable(Form),
    NotWellFormed,
    NoRoom,
    /// An image that no file reads as.
    NoPlan,
    /// A code that is no reason.
    Strange(u64),
}

impl fmt::Display for Reason {
    fn fmt(&self, out: &mut fmt::Formatter) -> fmt::Result {
        match self {
            Reason::Unreadable(form) => form.fmt(out),
            Reason::NotWellFormed => out.write_str("reason 10"),
            Reason::NoRoom => out.write_str("reason 6"),
            Reason::NoPlan => out.write_str("reason 7"),
            Reason::Strange(code) => write!(out, "code {code}, which is no reason"),
        }
    }
}

/// What a call leaves that writes into memory lent to it.
#[derive(Clone, Debug, PartialEq, Eq)]
pub struct Lent<T> {
    /// Why nothing was done, if nothing was.
    pub reason: Option<Reason>,
    /// How many cells it says it has written.
    pub count: usize,
    /// The lent cells and [`PAST`] more; nothing where a cell stayed as it was.
    pub cells: Vec<Option<T>>,
}

impl<T: Copy> Lent<T> {
    /// Memory with this room, before anything is written.
    pub fn untouched(room: usize) -> Self {
        Lent {
            reason: None,
            count: 0,
            cells: vec![None; room + PAST],
        }
    }

    /// Memory with this room in which nothing was written, for this reason.
    pub fn refused(room: usize, reason: Reason) -> Self {
        Lent {
            reason: Some(reason),
            ..Lent::untouched(room)
        }
    }

    /// Writes behind what was written before.
    pub fn write(&mut self, item: T) {
        self.cells[self.count] = Some(item);
        self.count += 1;
    }

    /// What was written, as far as it was.
    pub fn written(&self) -> impl Iterator<Item = T> + '_ {
        self.cells.iter().take(self.count).copied().flatten()
    }
}

impl Lent<u8> {
    /// All that it says was written, with a mark where nothing was that no line has.
    pub fn bytes(&self) -> Vec<u8> {
        let cells = &self.cells[..self.count.min(self.cells.len())];
        cells.iter().map(|cell| cell.unwrap_or(b'?')).collect()
    }
}

/// The highest byte that the file or the image of a plan can have.
pub const HIGHEST: u8 = 64;

/// What stands in memory that is lent for a plan, before the call. From one place to the next the top
/// bit is another, and every bit is set in some marks and not in others, so that none can be set or
/// cleared unseen. Another `fill` gives other marks. No byte of a plan is among them; but of every
/// fourth fill they are all the numbers that a byte can be, 0 too.
pub fn mark(fill: u8, at: usize) -> u8 {
    let mark = fill.wrapping_add(at as u8).rotate_right(1);
    match mark {
        0..=127 if !is_any(fill) => HIGHEST + 1 + mark % (127 - HIGHEST),
        _ => mark,
    }
}

/// Whether the marks of this fill may be bytes of a plan.
pub fn is_any(fill: u8) -> bool {
    fill % 4 == 3
}

/// An image that is lent, with a fence on either side of it, so that a write beside it is noticed.
#[derive(Clone, Debug, PartialEq, Eq)]
#[repr(C)]
pub struct Fenced {
    fence_before: [u8; 8],
    pub image: Image,
    fence_behind: [u8; 8],
}

impl Fenced {
    const BEFORE: [u8; 8] = [0xA5, 0x5A, 0xC3, 0x3C, 0x99, 0x66, 0xF0, 0x0F];
    const BEHIND: [u8; 8] = [0x3C, 0xC3, 0x5A, 0xA5, 0x0F, 0xF0, 0x66, 0x99];

    pub fn of(image: &Image) -> Self {
        Fenced {
            fence_before: Self::BEFORE,
            image: *image,
            fence_behind: Self::BEHIND,
        }
    }

    /// Memory for an image that holds nothing but marks.
    pub fn marked(fill: u8) -> Self {
        let mut lent = Fenced::of(&[0; IMAGE_SIZE]);
        for (at, byte) in lent.image.iter_mut().enumerate() {
            *byte = mark(fill, at);
        }
        lent
    }

    pub fn is_whole(&self) -> bool {
        self.fence_before == Self::BEFORE && self.fence_behind == Self::BEHIND
    }
}

/// Memory that is lent for a file, full of marks, with [`PAST`] cells more on either side of it.
#[derive(Clone, Debug, PartialEq, Eq)]
pub struct Memory {
    cells: Vec<u8>,
}

impl Memory {
    pub fn marked(room: usize, fill: u8) -> Self {
        let cells = 0..PAST + room + PAST;
        Memory {
            cells: cells.map(|at| mark(fill, at)).collect(),
        }
    }

    pub fn room(&self) -> usize {
        self.cells.len() - 2 * PAST
    }

    /// All that a writer may touch.
    pub fn lent(&mut self) -> &mut [u8] {
        let end = PAST + self.room();
        &mut self.cells[PAST..end]
    }

    /// Writes bytes from this one on, past the lent ones too as far as there are cells.
    pub fn put(&mut self, at: usize, bytes: &[u8]) {
        for (cell, &byte) in self.cells[PAST..].iter_mut().skip(at).zip(bytes) {
            *cell = byte;
        }
    }

    /// The first byte that is another here and there, counted from the first lent one.
    pub fn first_difference(&self, other: &Memory) -> Option<(isize, u8, u8)> {
        let mut pairs = self.cells.iter().zip(&other.cells).zip(-(PAST as isize)..);
        let found = pairs.find(|((one, other), _)| one != other);
        found.map(|((&one, &other), at)| (at, one, other))
    }
}

/// A box, whatever it is made of. All that is known of it goes through these calls.
pub trait Subject {
    /// Reading alone: the form of an unreadable plan.
    fn read(&self, plan: &[u8]) -> Option<Form>;

    /// The plan made ready for many calls, readable or not.
    fn prepare<'a>(&'a self, plan: &'a [u8]) -> Box<dyn Prepared + 'a>;

    /// Makes what every session starts with, whatever the memory held.
    fn fresh(&self, memory: &mut Kept);

    /// A whole run, from the bytes of `plan.bin` and of standard input to the printed lines.
    fn run(&self, plan: &[u8], events: &[u8]) -> Vec<u8>;

    /// Loads a plan from its file into an image, which stays as it was if the file is no plan.
    fn load(&self, plan: &[u8], lent: &mut Fenced) -> Result<(), Reason>;

    /// Writes an image as its file and hands back how long that is. The image stays as it is, and
    /// the memory too where nothing is written.
    fn write(&self, lent: &mut Fenced, memory: &mut Memory) -> Result<usize, Reason>;
}

/// A plan in the shape in which a subject keeps it between calls. Where a call plays events, the
/// state after them is kept. Those that lend memory do all of it or nothing.
pub trait Prepared {
    /// Checking alone.
    fn check(&mut self) -> Verdict;

    /// One event from any state: the first three bytes, or fewer if there are no more.
    fn step(&mut self, state: &mut Arrays, event: &[u8]) -> Answer;

    /// All events of a list, with room for so many answers. Bytes left over are an incomplete
    /// event; an unfinished event is no matter of this call.
    fn run(&mut self, kept: &mut Kept, events: &[u8], room: usize) -> Lent<Answer>;

    /// The next bytes of the input, with room for so many bytes of lines, [`LINE`] for each: all
    /// events that are whole by now. Bytes left over are unfinished from then on.
    fn feed(&mut self, kept: &mut Kept, bytes: &[u8], room: usize) -> Lent<u8>;

    /// The end of the input: the line of an unfinished event, if there is one.
    fn finish(&mut self, kept: &mut Kept, room: usize) -> Lent<u8>;

    /// The line for the plan.
    fn open(&mut self, room: usize) -> Lent<u8>;
}
