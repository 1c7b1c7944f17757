//! The box itself as a subject, through the C interface of `libsignalbox.a`. Everything that concerns that interface
//! stands in this file and nowhere else.
//!
//! A box is a table of its functions: that of the library which is linked into this program, where it is, and that of a
//! shared library which is opened when it is asked for, such as one made from the archive of an earlier box. One code
//! serves both.
//!
//! A code is a number of 64 bits: its lowest byte is the document's number (1 to 5 a form, 6 too little room, 7 an image
//! that is no plan's, 10 to 19 a refusal, 40 to 42 an accident, 100 to 104 what changes the state, 120 a file written, 200
//! and above a verdict), and the bytes above it are the values.

use crate::model::answer::{Accident, Answer, Refusal, Verdict};
use crate::model::image::Image;
use crate::model::plan::{MOST_SIGNALS, MOST_TRACKS};
use crate::model::reading::Form;
use crate::model::rules::Broken;
use crate::model::state::Arrays;
use crate::subject::{Fenced, Kept, Lent, Memory, Prepared, Reason, Subject, EVENT, LINE, PAST};
use std::ffi::{c_char, c_int, c_void, CStr, CString};
use std::fs::File;
use std::io::Read;
use std::os::unix::ffi::OsStrExt;
use std::path::Path;

/// Where the lies and the signals start among the cells, and how many cells there are; trains start at 0.
pub const LIES: usize = MOST_TRACKS;
pub const SIGNALS: usize = LIES + MOST_TRACKS;
pub const CELLS: usize = SIGNALS + MOST_SIGNALS;
pub const HOLDS: usize = MOST_TRACKS;
pub const UNFINISHED: usize = EVENT;

/// What the box is lent of what a host keeps: trains, lies and signals one after the other, the holds, and the
/// unfinished event. A fence stands around each, so that a write beside it is noticed.
#[repr(C)]
struct State {
    fence: u64,
    cells: [u8; CELLS],
    fence_of_cells: u64,
    holds: [u64; HOLDS],
    fence_of_holds: u64,
    unfinished: [u8; UNFINISHED],
    fence_of_unfinished: [u8; 5],
}

const FENCE: u64 = 0xA5A5_5A5A_C3C3_3C3C;
const LAST_FENCE: [u8; 5] = [0xA5, 0x5A, 0xC3, 0x3C, 0x99];

/// What a call says that does all or nothing.
#[repr(C)]
struct Outcome {
    code: u64,
    written: usize,
}

impl Outcome {
    /// What was written, as far as it can have been.
    fn of<'a>(&self, out: &'a [u8]) -> &'a [u8] {
        &out[..self.written.min(out.len())]
    }
}

/// Declares the functions of a box: the table of them, those that are linked, and how a table is filled from a library.
macro_rules! interface {
    ($($name:ident $symbol:ident($($argument:ident: $kind:ty),*) $(-> $result:ty)?;)+) => {
        struct Interface {
            $($name: unsafe extern "C" fn($($argument: $kind),*) $(-> $result)?,)+
        }

        #[cfg(feature = "boxed")]
        #[link(name = "signalbox", kind = "static")]
        extern "C" {
            $(fn $symbol($($argument: $kind),*) $(-> $result)?;)+
        }

        /// The box that is linked into this program.
        #[cfg(feature = "boxed")]
        pub static LINKED: Boxed = Boxed {
            interface: Interface { $($name: $symbol,)+ },
        };

        impl Interface {
            fn of(library: &Library) -> Result<Self, String> {
                Ok(Interface {
                    // Safety: a library that has the names of a box's functions is taken at its word that they are
                    // these, as the linker takes the other one.
                    $($name: unsafe {
                        let address = library.address(stringify!($symbol))?;
                        std::mem::transmute::<
                            *mut c_void,
                            unsafe extern "C" fn($($argument: $kind),*) $(-> $result)?,
                        >(address)
                    },)+
                })
            }
        }
    };
}

// A slice passes as a pointer and a length, an array as a pointer.
interface! {
    fresh signalbox_fresh(
        cells: &mut [u8; CELLS],
        holds: &mut [u64; HOLDS],
        unfinished: &mut [u8; UNFINISHED]
    );
    read signalbox_read(file: *const u8, length: usize) -> u64;
    check signalbox_check(file: *const u8, length: usize) -> u64;
    step signalbox_step(
        file: *const u8,
        length: usize,
        cells: &mut [u8; CELLS],
        holds: &mut [u64; HOLDS],
        event: *const u8,
        event_length: usize
    ) -> u64;
    run signalbox_run(
        file: *const u8,
        length: usize,
        cells: &mut [u8; CELLS],
        holds: &mut [u64; HOLDS],
        events: *const u8,
        events_length: usize,
        answers: *mut u64,
        room: usize
    ) -> Outcome;
    open signalbox_open(file: *const u8, length: usize, out: *mut u8, room: usize) -> Outcome;
    feed signalbox_feed(
        file: *const u8,
        length: usize,
        cells: &mut [u8; CELLS],
        holds: &mut [u64; HOLDS],
        unfinished: &mut [u8; UNFINISHED],
        bytes: *const u8,
        bytes_length: usize,
        out: *mut u8,
        room: usize
    ) -> Outcome;
    finish signalbox_finish(
        file: *const u8,
        length: usize,
        cells: &mut [u8; CELLS],
        holds: &mut [u64; HOLDS],
        unfinished: &mut [u8; UNFINISHED],
        out: *mut u8,
        room: usize
    ) -> Outcome;
    load signalbox_load(file: *const u8, length: usize, image: &mut Image) -> u64;
    write signalbox_write(image: *const Image, out: *mut u8, room: usize) -> u64;
}

extern "C" {
    fn dlopen(path: *const c_char, how: c_int) -> *mut c_void;
    fn dlsym(library: *mut c_void, name: *const c_char) -> *mut c_void;
    fn dlerror() -> *const c_char;
}

/// `RTLD_NOW`: whatever the library lacks is found missing at once.
const NOW: c_int = 2;

/// A shared library. It stays open as long as the program runs.
struct Library<'a> {
    path: &'a Path,
    handle: *mut c_void,
}

impl<'a> Library<'a> {
    fn open(path: &'a Path) -> Result<Self, String> {
        let unopened =
            |why: String| format!("the library '{}' can't be opened: {why}", path.display());
        // A bare name would be looked for elsewhere than here.
        let whole = path
            .canonicalize()
            .map_err(|error| unopened(error.to_string()))?;
        if !whole.is_file() {
            return Err(unopened("it is no file".to_string()));
        }
        let whole = CString::new(whole.as_os_str().as_bytes());
        let whole = whole.map_err(|error| unopened(error.to_string()))?;
        // Safety: the path ends in a 0. What the library does when it is opened is its own matter.
        let handle = unsafe { dlopen(whole.as_ptr(), NOW) };
        match handle.is_null() {
            // The loader says of such a library that it is not there.
            true if is_for_another_processor(path) => Err(unopened(
                "it is for another processor than this program".to_string(),
            )),
            true => Err(unopened(last_error())),
            false => Ok(Library { path, handle }),
        }
    }

    /// Where a function stands.
    fn address(&self, name: &str) -> Result<*mut c_void, String> {
        let path = self.path.display();
        let missing = || format!("the library '{path}' has no function {name}, which this box has");
        let name = CString::new(name).expect("a name has no 0 in it");
        // Safety: the library is open, and the name ends in a 0.
        let address = unsafe { dlsym(self.handle, name.as_ptr()) };
        match address.is_null() {
            true => Err(missing()),
            false => Ok(address),
        }
    }
}

/// Whether a library is compiled for another processor than this program: the files of both say for
/// which they are.
fn is_for_another_processor(library: &Path) -> bool {
    let this = std::env::current_exe().ok();
    let this = this.and_then(|program| processor(&program));
    let its = processor(library);
    its.is_some() && this.is_some() && its != this
}

/// The processor that a compiled file is for, by its number there.
fn processor(file: &Path) -> Option<[u8; 2]> {
    let mut head = [0; 20];
    File::open(file).ok()?.read_exact(&mut head).ok()?;
    match head {
        [0x7f, b'E', b'L', b'F', .., low, high] => Some([low, high]),
        _ => None,
    }
}

/// What went wrong with a library, in one line.
fn last_error() -> String {
    // Safety: it is nothing, or words that end in a 0 and stay until the next call about a library.
    let words = unsafe {
        let words = dlerror();
        (!words.is_null()).then(|| CStr::from_ptr(words).to_string_lossy().into_owned())
    };
    words.unwrap_or_default().replace('\n', " ")
}

/// Calls a function of the box with a plan and, where it takes them, with the named arrays of a state or an image, with
/// bytes and with memory to be written.
macro_rules! call {
    (
        $interface:expr, $function:ident, $plan:expr
        $(, $state:ident: $($array:ident)+)? $(; $($bytes:ident)+)? $(=> $out:ident)?
    ) => {
        // Safety: all that is lent is lent for the call alone, slices with their lengths, and overlaps nothing.
        unsafe {
            ($interface.$function)(
                $plan.as_ptr(),
                $plan.len(),
                $($(&mut $state.$array,)+)?
                $($($bytes.as_ptr(), $bytes.len(),)+)?
                $($out.as_mut_ptr(), $out.len(),)?
            )
        }
    };
}

impl State {
    fn of(arrays: &Arrays, unfinished: [u8; UNFINISHED]) -> Self {
        let mut cells = [0; CELLS];
        cells[..LIES].copy_from_slice(&arrays.trains);
        cells[LIES..SIGNALS].copy_from_slice(&arrays.lies);
        cells[SIGNALS..].copy_from_slice(&arrays.signals);
        State {
            fence: FENCE,
            cells,
            fence_of_cells: FENCE,
            holds: arrays.holds,
            fence_of_holds: FENCE,
            unfinished,
            fence_of_unfinished: LAST_FENCE,
        }
    }

    fn give_back(&self, arrays: &mut Arrays) {
        let fences = [self.fence, self.fence_of_cells, self.fence_of_holds];
        let is_whole = fences == [FENCE; 3] && self.fence_of_unfinished == LAST_FENCE;
        assert!(is_whole, "the box wrote beside the state that it was lent");
        arrays.trains.copy_from_slice(&self.cells[..LIES]);
        arrays.lies.copy_from_slice(&self.cells[LIES..SIGNALS]);
        arrays.signals.copy_from_slice(&self.cells[SIGNALS..]);
        arrays.holds = self.holds;
    }
}

/// A call that is lent a state; the arrays then hold the state after it.
fn played<R>(arrays: &mut Arrays, call: impl FnOnce(&mut State) -> R) -> R {
    let mut state = State::of(arrays, [0; UNFINISHED]);
    let result = call(&mut state);
    state.give_back(arrays);
    result
}

/// A call that is lent all that a host keeps.
fn lending<R>(kept: &mut Kept, call: impl FnOnce(&mut State) -> R) -> R {
    let mut state = State::of(&kept.state, kept.unfinished);
    let result = call(&mut state);
    state.give_back(&mut kept.state);
    kept.unfinished = state.unfinished;
    result
}

/// Lends memory of which every cell has a mark that no call has a reason to write.
fn lend<T: Copy + PartialEq, U>(
    room: usize,
    mark: fn(usize) -> T,
    meaning: fn(T) -> U,
    call: impl FnOnce(&mut [T]) -> Outcome,
) -> Lent<U> {
    let mut cells: Vec<T> = (0..room + PAST).map(mark).collect();
    let outcome = call(&mut cells[..room]);
    let touched = |(at, &cell): (usize, &T)| (cell != mark(at)).then(|| meaning(cell));
    Lent {
        reason: reason(outcome.code),
        count: outcome.written,
        cells: cells.iter().enumerate().map(touched).collect(),
    }
}

/// Lends memory for lines.
fn lend_bytes(room: usize, call: impl FnOnce(&mut [u8]) -> Outcome) -> Lent<u8> {
    lend(room, byte_mark, |byte| byte, call)
}

/// No byte of a line is above 127, and none from 11 to 31. Marks are of both kinds, so that no bit can be set unseen.
fn byte_mark(at: usize) -> u8 {
    match at % 2 {
        0 => at as u8 | 128,
        _ => 11 + (at % 21) as u8,
    }
}

/// No code has its highest byte.
fn code_mark(at: usize) -> u64 {
    !(at as u64)
}

/// A box by its functions.
pub struct Boxed {
    interface: Interface,
}

impl Boxed {
    /// The box of a shared library, or a sentence about why there is none.
    pub fn open(path: &Path) -> Result<Self, String> {
        let library = Library::open(path)?;
        let interface = Interface::of(&library)?;
        Ok(Boxed { interface })
    }
}

/// How much of the input a whole run feeds at a time: no whole number of events.
const PIECE: usize = 4096;

impl Subject for Boxed {
    fn read(&self, plan: &[u8]) -> Option<Form> {
        let code = call!(self.interface, read, plan);
        let form = form(code);
        assert!(form.is_some() || code == 0, "the box read with code {code}");
        form
    }

    fn prepare<'a>(&'a self, plan: &'a [u8]) -> Box<dyn Prepared + 'a> {
        let interface = &self.interface;
        Box::new(Open { interface, plan })
    }

    fn fresh(&self, memory: &mut Kept) {
        lending(memory, |state| {
            // Safety: the arrays are lent for the call alone and overlap nothing.
            unsafe {
                (self.interface.fresh)(&mut state.cells, &mut state.holds, &mut state.unfinished);
            }
        });
    }

    /// As a host would do it, with one buffer for all lines.
    fn run(&self, plan: &[u8], events: &[u8]) -> Vec<u8> {
        let interface = &self.interface;
        let mut kept = Kept::fresh();
        self.fresh(&mut kept);
        let mut out = vec![0; (PIECE / EVENT + 1) * LINE];
        let said = call!(interface, open, plan => out);
        let mut lines = said.of(&out).to_vec();
        lending(&mut kept, |state| {
            for bytes in events.chunks(PIECE) {
                let said =
                    call!(interface, feed, plan, state: cells holds unfinished; bytes => out);
                lines.extend(said.of(&out));
            }
            let said = call!(interface, finish, plan, state: cells holds unfinished => out);
            lines.extend(said.of(&out));
        });
        lines
    }

    fn load(&self, plan: &[u8], lent: &mut Fenced) -> Result<(), Reason> {
        let code = call!(self.interface, load, plan, lent: image);
        must_be_whole(lent);
        reason(code).map_or(Ok(()), Err)
    }

    fn write(&self, lent: &mut Fenced, memory: &mut Memory) -> Result<usize, Reason> {
        let out = memory.lent();
        let write = self.interface.write;
        // Safety: the image and the memory are lent for the call alone, the memory with its length, and don't overlap.
        let code = unsafe { write(&raw mut lent.image, out.as_mut_ptr(), out.len()) };
        must_be_whole(lent);
        written(code)
    }
}

fn must_be_whole(lent: &Fenced) {
    let is_whole = lent.is_whole();
    assert!(is_whole, "the box wrote beside the image that it was lent");
}

/// A plan as its bytes: the box reads it at each call.
struct Open<'a> {
    interface: &'a Interface,
    plan: &'a [u8],
}

impl Prepared for Open<'_> {
    fn check(&mut self) -> Verdict {
        let code = call!(self.interface, check, self.plan);
        match form(code) {
            Some(form) => Verdict::Unreadable(form),
            None if code == 200 => Verdict::Accepted,
            None => Verdict::Broken(Broken {
                rule: (byte(code, 0) as usize).wrapping_sub(200),
                row: (code >> 8) as usize,
            }),
        }
    }

    fn step(&mut self, arrays: &mut Arrays, event: &[u8]) -> Answer {
        answer(played(
            arrays,
            |state| call!(self.interface, step, self.plan, state: cells holds; event),
        ))
    }

    fn run(&mut self, kept: &mut Kept, events: &[u8], room: usize) -> Lent<Answer> {
        lend(room, code_mark, answer, |answers| {
            played(
                &mut kept.state,
                |state| call!(self.interface, run, self.plan, state: cells holds; events => answers),
            )
        })
    }

    fn feed(&mut self, kept: &mut Kept, bytes: &[u8], room: usize) -> Lent<u8> {
        lend_bytes(room, |out| {
            lending(
                kept,
                |state| call!(self.interface, feed, self.plan, state: cells holds unfinished; bytes => out),
            )
        })
    }

    fn finish(&mut self, kept: &mut Kept, room: usize) -> Lent<u8> {
        lend_bytes(room, |out| {
            lending(
                kept,
                |state| call!(self.interface, finish, self.plan, state: cells holds unfinished => out),
            )
        })
    }

    fn open(&mut self, room: usize) -> Lent<u8> {
        lend_bytes(room, |out| call!(self.interface, open, self.plan => out))
    }
}

/// Why nothing was done; nothing where all was.
fn reason(code: u64) -> Option<Reason> {
    match code {
        0 => None,
        6 => Some(Reason::NoRoom),
        10 => Some(Reason::NotWellFormed),
        _ => Some(form(code).map_or(Reason::Strange(code), Reason::Unreadable)),
    }
}

/// How long the file is that was written, or why none was. The length has 16 bits, and nothing stands above it.
fn written(code: u64) -> Result<usize, Reason> {
    match (byte(code, 0), code >> 8) {
        (120, length @ 0..=0xFFFF) => Ok(length as usize),
        (7, 0) => Err(Reason::NoPlan),
        (6, 0) => Err(Reason::NoRoom),
        _ => Err(Reason::Strange(code)),
    }
}

fn byte(code: u64, at: u32) -> u8 {
    (code >> (8 * at)) as u8
}

fn form(code: u64) -> Option<Form> {
    let number = byte(code, 0);
    (1..=5).contains(&number).then_some(Form {
        number,
        offset: (code >> 8) as usize,
    })
}

/// A code that is no answer's becomes a form of its number, which no plan has: a mismatch, not a panic.
pub fn answer(code: u64) -> Answer {
    let (train, first) = (byte(code, 1), byte(code, 1) as usize);
    let in_the_way = (first, byte(code, 2));
    let (second, third) = (byte(code, 2) as usize, byte(code, 3) as usize);
    let (values, answer) = match byte(code, 0) {
        10 => (0, Answer::Refused(Refusal::NotWellFormed)),
        11 => (0, Answer::Refused(Refusal::BadEvent)),
        12 => (0, Answer::Refused(Refusal::SignalNotRed)),
        13 => (2, Answer::in_the_way(in_the_way)),
        14 => (1, Answer::Refused(Refusal::PointHeld { point: first })),
        15 => (0, Answer::Refused(Refusal::SignalNotGreen)),
        16 => (1, Answer::Refused(Refusal::TrainAtHome { track: first })),
        17 => (0, Answer::Refused(Refusal::AlreadyInPlan)),
        18 => (0, Answer::Refused(Refusal::NotInPlan)),
        19 => (1, Answer::Refused(Refusal::SignalRed { signal: first })),
        40 => (1, Answer::Accident(Accident::Collision { track: first })),
        41 => (1, Answer::Accident(Accident::RunThrough { track: first })),
        42 => (1, Answer::Accident(Accident::Derailment { point: first })),
        100 => (1, Answer::Granted { route: first }),
        101 => (1, Answer::Cancelled { route: first }),
        102 => {
            let track = second;
            (2, Answer::Entered { train, track })
        }
        103 => {
            let (from, to) = (second, third);
            (3, Answer::Moved { train, from, to })
        }
        104 => {
            let from = second;
            (2, Answer::Left { train, from })
        }
        _ => return strange(code),
    };
    // Nothing stands above the values.
    match code >> (8 + 8 * values) {
        0 => answer,
        _ => strange(code),
    }
}

fn strange(code: u64) -> Answer {
    Answer::Unreadable(Form {
        number: byte(code, 0),
        offset: (code >> 8) as usize,
    })
}
