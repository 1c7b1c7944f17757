//! Calls that should do all or nothing and do something else. What can be wrong with every one of
//! them is said once, of any call; what is left is about runs of many events and about the line for
//! the plan.

use super::{Slip, Wrong};
use crate::book::{Asked, Book, Call};
use crate::model::answer::{Answer, Refusal, Verdict};
use crate::model::plan::{Plan, Track};
use crate::model::state::Arrays;
use crate::subject::{Kept, Lent, Reason, EVENT, LINE, PAST};

/// The slips that any call can have: each takes the right call and makes it wrong.
macro_rules! any_call {
    ($call:literal, $wrong:ident, $right:path, $($slip:literal: $change:ident,)*) => {
        &[$((
            concat!($call, " ", $slip),
            Wrong::$wrong(|book, asked, kept| $change($right, book, asked, kept)),
        ),)*]
    };
}

macro_rules! common_slips {
    ($call:literal, $wrong:ident, $right:path) => {
        any_call! { $call, $wrong, $right,
            "plays its events and then says 6": plays_then_refuses,
            "says 6 and has written": refuses_and_writes,
            "does nothing for lack of room and says that it is done": silent_refusal,
            "needs one place more": one_place_more,
            "makes do with one place less": one_place_less,
            "says 6 before 10": room_before_state,
            "says 6 before the form": room_before_form,
            "says 10 before the form": state_before_form,
            "says 10 for a plan that cannot be read": form_is_ten,
            "goes on in a state that is not well formed": careless,
            "empties a state that is not well formed": ten_empties,
            "begins in the fresh state": begins_fresh,
            "writes past what it hands back": writes_past,
            "hands back one too many": one_too_many,
            "hands back a number although it did nothing": refusal_counts,
        }
    };
}

pub const ANY_RUN: &[Slip] = common_slips!("run", Run, Book::any_run);
pub const ANY_FEED: &[Slip] = common_slips!("feed", Feed, Book::any_feed);
pub const ANY_FINISH: &[Slip] = common_slips!("finish", Finish, Book::any_finish);

/// As much room as any of the calls can need.
fn with_plenty<'a>(asked: &Asked<'a>) -> Asked<'a> {
    let room = (asked.bytes.len() + EVENT) * LINE;
    Asked { room, ..*asked }
}

/// What was written into other room, as if it had been written into this one.
pub fn resized<T: Copy>(room: usize, mut lent: Lent<T>) -> Lent<T> {
    lent.cells.resize(room + PAST, None);
    lent
}

/// The outcome of the right call, and what the wrong one makes of it if it is for this reason.
fn where_refused<T: Copy>(
    refused: Reason,
    (right, book, asked): (Call<T>, &Book, &Asked),
    kept: &mut Kept,
    instead: impl FnOnce(&mut Kept) -> Lent<T>,
) -> Lent<T> {
    let outcome = right(book, asked, kept);
    if outcome.reason == Some(refused) {
        instead(kept)
    } else {
        outcome
    }
}

fn plays_then_refuses<T: Copy>(
    right: Call<T>,
    book: &Book,
    asked: &Asked,
    kept: &mut Kept,
) -> Lent<T> {
    where_refused(Reason::NoRoom, (right, book, asked), kept, |kept| {
        right(book, &with_plenty(asked), kept);
        Lent::refused(asked.room, Reason::NoRoom)
    })
}

/// The state stays, but the lent memory holds as much as it can.
fn refuses_and_writes<T: Copy>(
    right: Call<T>,
    book: &Book,
    asked: &Asked,
    kept: &mut Kept,
) -> Lent<T> {
    where_refused(Reason::NoRoom, (right, book, asked), kept, |kept| {
        let all = right(book, &with_plenty(asked), &mut kept.clone());
        let mut outcome = Lent::refused(asked.room, Reason::NoRoom);
        outcome.cells[..asked.room].copy_from_slice(&all.cells[..asked.room]);
        outcome
    })
}

fn silent_refusal<T: Copy>(right: Call<T>, book: &Book, asked: &Asked, kept: &mut Kept) -> Lent<T> {
    where_refused(Reason::NoRoom, (right, book, asked), kept, |_| {
        Lent::untouched(asked.room)
    })
}

fn one_place_more<T: Copy>(right: Call<T>, book: &Book, asked: &Asked, kept: &mut Kept) -> Lent<T> {
    let Some(room) = asked.room.checked_sub(1) else {
        return right(book, asked, kept);
    };
    resized(asked.room, right(book, &Asked { room, ..*asked }, kept))
}

fn one_place_less<T: Copy>(right: Call<T>, book: &Book, asked: &Asked, kept: &mut Kept) -> Lent<T> {
    let room = asked.room + 1;
    resized(asked.room, right(book, &Asked { room, ..*asked }, kept))
}

/// In the fresh state, there would be no other reason than room.
fn room_before_state<T: Copy>(
    right: Call<T>,
    book: &Book,
    asked: &Asked,
    kept: &mut Kept,
) -> Lent<T> {
    where_refused(Reason::NotWellFormed, (right, book, asked), kept, |kept| {
        let mut mended = kept.clone();
        mended.state = Arrays::fresh();
        let otherwise = right(book, asked, &mut mended).reason;
        Lent::refused(asked.room, otherwise.unwrap_or(Reason::NotWellFormed))
    })
}

/// What the call says if the plan is taken for a readable one.
fn on_some_plan<T: Copy>(
    right: Call<T>,
    book: &Book,
    asked: &Asked,
    kept: &mut Kept,
    looked_for: Reason,
) -> Lent<T> {
    let Err(form) = asked.plan else {
        return right(book, asked, kept);
    };
    let plan = Plan {
        tracks: vec![Track::Exit],
        homes: vec![],
        routes: vec![],
        entries: vec![],
    };
    let readable = Asked {
        plan: Ok(&plan),
        ..*asked
    };
    let reason = right(book, &readable, &mut kept.clone()).reason;
    let is_other = reason == Some(looked_for);
    let reason = if is_other {
        looked_for
    } else {
        Reason::Unreadable(form)
    };
    Lent::refused(asked.room, reason)
}

fn room_before_form<T: Copy>(
    right: Call<T>,
    book: &Book,
    asked: &Asked,
    kept: &mut Kept,
) -> Lent<T> {
    on_some_plan(right, book, asked, kept, Reason::NoRoom)
}

fn state_before_form<T: Copy>(
    right: Call<T>,
    book: &Book,
    asked: &Asked,
    kept: &mut Kept,
) -> Lent<T> {
    on_some_plan(right, book, asked, kept, Reason::NotWellFormed)
}

fn form_is_ten<T: Copy>(right: Call<T>, book: &Book, asked: &Asked, kept: &mut Kept) -> Lent<T> {
    let mut outcome = right(book, asked, kept);
    if asked.plan.is_err() {
        outcome.reason = Some(Reason::NotWellFormed);
    }
    outcome
}

/// Takes every state for well formed, as far as it can be shown.
fn careless<T: Copy>(right: Call<T>, book: &Book, asked: &Asked, kept: &mut Kept) -> Lent<T> {
    let mut careless = *book;
    careless.load = |state, plan, arrays| {
        let mut mended = arrays.clone();
        if !state.load(plan, arrays) {
            mended = Arrays::fresh();
            mended.trains[..plan.tracks.len()].copy_from_slice(&arrays.trains[..plan.tracks.len()]);
        }
        state.load(plan, &mended)
    };
    right(&careless, asked, kept)
}

fn ten_empties<T: Copy>(right: Call<T>, book: &Book, asked: &Asked, kept: &mut Kept) -> Lent<T> {
    where_refused(Reason::NotWellFormed, (right, book, asked), kept, |kept| {
        *kept = Kept::fresh();
        Lent::refused(asked.room, Reason::NotWellFormed)
    })
}

fn begins_fresh<T: Copy>(right: Call<T>, book: &Book, asked: &Asked, kept: &mut Kept) -> Lent<T> {
    kept.state = Arrays::fresh();
    right(book, asked, kept)
}

fn writes_past<T: Copy>(right: Call<T>, book: &Book, asked: &Asked, kept: &mut Kept) -> Lent<T> {
    let mut outcome = right(book, asked, kept);
    if outcome.count > 0 {
        outcome.cells[outcome.count] = outcome.cells[0];
    }
    outcome
}

fn one_too_many<T: Copy>(right: Call<T>, book: &Book, asked: &Asked, kept: &mut Kept) -> Lent<T> {
    let mut outcome = right(book, asked, kept);
    outcome.count += usize::from(outcome.count > 0);
    outcome
}

fn refusal_counts<T: Copy>(right: Call<T>, book: &Book, asked: &Asked, kept: &mut Kept) -> Lent<T> {
    let mut outcome = right(book, asked, kept);
    if outcome.reason == Some(Reason::NoRoom) {
        outcome.count = asked.room;
    }
    outcome
}

pub const RUN: &[Slip] = &[
    (
        "run leaves an incomplete event out",
        Wrong::Run(|book, asked, kept| {
            let bytes = whole_events(asked.bytes);
            book.any_run(&Asked { bytes, ..*asked }, kept)
        }),
    ),
    (
        "run fills up an incomplete event",
        Wrong::Run(|book, asked, kept| {
            let mut bytes = asked.bytes.to_vec();
            bytes.resize(bytes.len().next_multiple_of(EVENT), 0);
            let bytes = bytes.as_slice();
            book.any_run(&Asked { bytes, ..*asked }, kept)
        }),
    ),
    (
        "run counts no room for an incomplete event",
        Wrong::Run(|book, asked, kept| {
            let is_last = asked.room == asked.bytes.len() / EVENT;
            let room = asked.room + usize::from(is_last);
            resized(asked.room, book.any_run(&Asked { room, ..*asked }, kept))
        }),
    ),
    (
        "run does as much as there is room for",
        Wrong::Run(|book, asked, kept| {
            let bytes = &asked.bytes[..asked.bytes.len().min(EVENT * asked.room)];
            book.any_run(&Asked { bytes, ..*asked }, kept)
        }),
    ),
    (
        "run does as much as there is room for and says 6",
        Wrong::Run(|book, asked, kept| {
            let bytes = &asked.bytes[..asked.bytes.len().min(EVENT * asked.room)];
            let mut answers = book.any_run(&Asked { bytes, ..*asked }, kept);
            if bytes.len() < asked.bytes.len() {
                answers.reason = answers.reason.or(Some(Reason::NoRoom));
            }
            answers
        }),
    ),
    (
        "run plays the last event not at all",
        Wrong::Run(|book, asked, kept| {
            let bytes = &asked.bytes[..asked.bytes.len().saturating_sub(EVENT)];
            book.any_run(&Asked { bytes, ..*asked }, kept)
        }),
    ),
    (
        "run answers an incomplete event with 10",
        Wrong::Run(|book, asked, kept| {
            let mut answers = book.any_run(asked, kept);
            if let (Some(last), false) =
                (answers.count.checked_sub(1), asked.bytes.len() % EVENT == 0)
            {
                answers.cells[last] = Some(Answer::Refused(Refusal::NotWellFormed));
            }
            answers
        }),
    ),
    (
        "run turns the answers round",
        Wrong::Run(|book, asked, kept| {
            let mut answers = book.any_run(asked, kept);
            answers.cells[..answers.count].reverse();
            answers
        }),
    ),
    (
        "run leaves the state as it was",
        Wrong::Run(|book, asked, kept| book.any_run(asked, &mut kept.clone())),
    ),
];

/// The bytes without those of an incomplete event.
pub fn whole_events(bytes: &[u8]) -> &[u8] {
    &bytes[..bytes.len() / EVENT * EVENT]
}

pub const OPEN: &[Slip] = &[
    (
        "open writes with less room than a line is counted",
        Wrong::Open(|verdict, room| {
            let line = Book::opening(verdict, LINE);
            if room < LINE && line.count <= room {
                resized(room, line)
            } else {
                Book::opening(verdict, room)
            }
        }),
    ),
    (
        "open makes do with one byte less",
        Wrong::Open(|verdict, room| resized(room, Book::opening(verdict, room + 1))),
    ),
    (
        "open needs more room than a line is counted",
        Wrong::Open(|verdict, room| match room {
            LINE => Lent::refused(room, Reason::NoRoom),
            _ => Book::opening(verdict, room),
        }),
    ),
    (
        "open writes as much of its line as there is room for",
        Wrong::Open(|verdict, room| match room {
            0..LINE => {
                let mut line = resized(room, Book::opening(verdict, LINE));
                line.count = line.count.min(room);
                line
            }
            _ => Book::opening(verdict, room),
        }),
    ),
    (
        "open writes and says 6",
        Wrong::Open(|verdict, room| {
            let mut line = Book::opening(verdict, room.max(LINE));
            line.reason = (room < LINE).then_some(Reason::NoRoom);
            resized(room, line)
        }),
    ),
    (
        "open does nothing for lack of room and says that it is done",
        Wrong::Open(|verdict, room| match room {
            0..LINE => Lent::untouched(room),
            _ => Book::opening(verdict, room),
        }),
    ),
    (
        "open ends its line with a 0",
        Wrong::Open(|verdict, room| {
            let mut line = Book::opening(verdict, room);
            if line.count > 0 {
                line.cells[line.count] = Some(0);
            }
            line
        }),
    ),
    (
        "open refuses a plan that cannot be read",
        Wrong::Open(|verdict, room| match verdict {
            Verdict::Unreadable(form) => Lent::refused(room, Reason::Unreadable(form)),
            _ => Book::opening(verdict, room),
        }),
    ),
];
