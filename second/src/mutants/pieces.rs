//! An input in pieces: bytes of an event that are lost, played too early or kept for too long, and
//! sessions that do not go on where they were, end as they should or begin anew.

use super::calls::{resized, whole_events};
use super::{Slip, Wrong};
use crate::book::{put_line, Asked, Book};
use crate::model::answer::{Answer, Refusal};
use crate::model::state::Arrays;
use crate::subject::{unfinished, Kept, Lent, EVENT, LINE};

pub const FEED: &[Slip] = &[
    (
        "feed does as much as there is room for",
        Wrong::Feed(|book, asked, kept| {
            let begun = kept.begun().map_or(0, <[u8]>::len);
            let most = (EVENT * (asked.room / LINE) + 2).saturating_sub(begun);
            let bytes = &asked.bytes[..asked.bytes.len().min(most)];
            book.any_feed(&Asked { bytes, ..*asked }, kept)
        }),
    ),
    (
        "feed counts each line as long as it is",
        Wrong::Feed(|book, asked, kept| {
            let room = LINE * (asked.bytes.len() + EVENT);
            let mut lines = book.any_feed(&Asked { room, ..*asked }, &mut kept.clone());
            if lines.count > asked.room {
                return book.any_feed(asked, kept);
            }
            lines = book.any_feed(&Asked { room, ..*asked }, kept);
            resized(asked.room, lines)
        }),
    ),
    (
        "feed counts room for what it leaves unfinished",
        Wrong::Feed(|book, asked, kept| {
            let begun = kept.begun().map_or(0, <[u8]>::len);
            let needed = (begun + asked.bytes.len()).div_ceil(EVENT);
            let is_short = asked.room / LINE < needed;
            let room = if is_short { 0 } else { asked.room };
            resized(asked.room, book.any_feed(&Asked { room, ..*asked }, kept))
        }),
    ),
    (
        "feed counts no room for an event begun before",
        Wrong::Feed(|book, asked, kept| {
            let needed = asked.bytes.len() / EVENT;
            let is_enough = asked.room / LINE >= needed && asked.room >= LINE;
            let room = asked.room + if is_enough { LINE } else { 0 };
            let mut lines = book.any_feed(&Asked { room, ..*asked }, kept);
            lines.count = lines.count.min(asked.room);
            resized(asked.room, lines)
        }),
    ),
    (
        "feed loses the bytes of an event begun before",
        Wrong::Feed(|book, asked, kept| {
            if kept.begun().is_some() {
                kept.unfinished = unfinished(&[]);
            }
            book.any_feed(asked, kept)
        }),
    ),
    (
        "feed loses the bytes left over",
        Wrong::Feed(|book, asked, kept| {
            let lines = book.any_feed(asked, kept);
            if lines.reason.is_none() {
                kept.unfinished = unfinished(&[]);
            }
            lines
        }),
    ),
    (
        "feed keeps the first byte left over alone",
        Wrong::Feed(|book, asked, kept| {
            let lines = book.any_feed(asked, kept);
            if kept.unfinished[0] == 2 && lines.reason.is_none() {
                kept.unfinished = unfinished(&kept.unfinished[1..2]);
            }
            lines
        }),
    ),
    (
        "feed keeps two bytes left over in the wrong order",
        Wrong::Feed(|book, asked, kept| {
            let lines = book.any_feed(asked, kept);
            if kept.unfinished[0] == 2 && lines.reason.is_none() {
                kept.unfinished[1..].reverse();
            }
            lines
        }),
    ),
    (
        "feed leaves what stood past the bytes that count",
        Wrong::Feed(|book, asked, kept| {
            let before = kept.unfinished;
            let lines = book.any_feed(asked, kept);
            let past = 1 + kept.begun().map_or(2, <[u8]>::len);
            kept.unfinished[past..].copy_from_slice(&before[past..]);
            lines
        }),
    ),
    (
        "feed says 10 for rubbish past the bytes that count",
        Wrong::Feed(|book, asked, kept| {
            let is_rubbish = kept
                .begun()
                .is_some_and(|begun| kept.unfinished != unfinished(begun));
            let count = kept.unfinished[0];
            kept.unfinished[0] = if is_rubbish { 3 } else { count };
            let lines = book.any_feed(asked, kept);
            if lines.reason.is_some() {
                kept.unfinished[0] = count;
            }
            lines
        }),
    ),
    (
        "feed takes a count above 2 for 2",
        Wrong::Feed(|book, asked, kept| with_count(kept, 2, |kept| book.any_feed(asked, kept))),
    ),
    (
        "feed takes a count above 2 for none",
        Wrong::Feed(|book, asked, kept| with_count(kept, 0, |kept| book.any_feed(asked, kept))),
    ),
    (
        "feed looks at no count where no bytes come",
        Wrong::Feed(|book, asked, kept| {
            if asked.bytes.is_empty() && kept.begun().is_none() && asked.plan.is_ok() {
                return Lent::untouched(asked.room);
            }
            book.any_feed(asked, kept)
        }),
    ),
    (
        "feed takes no bytes for the end of the input",
        Wrong::Feed(|book, asked, kept| match asked.bytes {
            [] => book.any_finish(asked, kept),
            _ => book.any_feed(asked, kept),
        }),
    ),
    (
        "feed plays a split event as an incomplete one",
        Wrong::Feed(|book, asked, kept| {
            let lines = book.any_finish(asked, kept);
            let room = asked.room - lines.count;
            if lines.reason.is_some() {
                return lines;
            }
            joined(asked, lines, book.any_feed(&Asked { room, ..*asked }, kept))
        }),
    ),
    (
        "feed answers bytes left over at once",
        Wrong::Feed(|book, asked, kept| {
            let lines = book.any_feed(asked, kept);
            let room = asked.room - lines.count;
            if lines.reason.is_some() || room < LINE {
                return lines;
            }
            joined(
                asked,
                lines,
                book.any_finish(&Asked { room, ..*asked }, kept),
            )
        }),
    ),
    (
        "feed drops bytes that make no whole event",
        Wrong::Feed(|book, asked, kept| {
            let bytes = whole_events(asked.bytes);
            book.any_feed(&Asked { bytes, ..*asked }, kept)
        }),
    ),
    (
        "feed drops 24 of each 1,024 events",
        Wrong::Feed(|book, asked, kept| {
            let played = asked.bytes.chunks(1024 * EVENT);
            let played = played.map(|bytes| &bytes[..bytes.len().min(1000 * EVENT)]);
            let bytes = &played.collect::<Vec<&[u8]>>().concat();
            book.any_feed(&Asked { bytes, ..*asked }, kept)
        }),
    ),
    (
        "feed sets the state anew after 1,024 events",
        Wrong::Feed(|book, asked, kept| {
            if asked.bytes.len() <= 1024 * EVENT {
                return book.any_feed(asked, kept);
            }
            forgetful_feed(book, asked, kept)
        }),
    ),
    (
        "feed sets the state anew after the first of a session",
        Wrong::Feed(|book, asked, kept| {
            let is_first = kept.state == Arrays::fresh();
            let lines = book.any_feed(asked, kept);
            if is_first {
                kept.state = Arrays::fresh();
            }
            lines
        }),
    ),
    (
        "feed sets the state anew where it leaves an event unfinished",
        Wrong::Feed(|book, asked, kept| {
            let lines = book.any_feed(asked, kept);
            if lines.reason.is_none() && kept.unfinished[0] > 0 {
                kept.state = Arrays::fresh();
            }
            lines
        }),
    ),
    (
        "feed leaves the state as it was",
        Wrong::Feed(|book, asked, kept| {
            let before = kept.state.clone();
            let lines = book.any_feed(asked, kept);
            kept.state = before;
            lines
        }),
    ),
    (
        "feed says the form of a plan that cannot be read",
        Wrong::Feed(|book, asked, kept| {
            let mut lines = book.any_feed(asked, kept);
            if let (Err(form), true) = (asked.plan, asked.room >= LINE) {
                put_line(&mut lines, form);
            }
            lines
        }),
    ),
    (
        "feed empties the rest of its last line's room",
        Wrong::Feed(|book, asked, kept| {
            let mut lines = book.any_feed(asked, kept);
            let rest = lines.count..lines.count.div_ceil(LINE) * LINE;
            lines.cells[rest].fill(Some(0));
            lines
        }),
    ),
];

pub const FINISH: &[Slip] = &[
    (
        "finish answers where nothing is unfinished",
        Wrong::Finish(|book, asked, kept| {
            let mut line = book.any_finish(asked, kept);
            if line.reason.is_none() && line.count == 0 && asked.room >= LINE {
                put_line(&mut line, Answer::Refused(Refusal::BadEvent));
            }
            line
        }),
    ),
    (
        "finish says nothing",
        Wrong::Finish(|book, asked, kept| {
            let line = book.any_finish(asked, kept);
            match line.reason {
                Some(_) => line,
                None => Lent::untouched(asked.room),
            }
        }),
    ),
    (
        "finish leaves the unfinished bytes",
        Wrong::Finish(|book, asked, kept| book.any_finish(asked, &mut kept.clone())),
    ),
    (
        "finish clears the count alone",
        Wrong::Finish(|book, asked, kept| {
            let bytes = kept.unfinished;
            let line = book.any_finish(asked, kept);
            kept.unfinished[1..].copy_from_slice(&bytes[1..]);
            line
        }),
    ),
    (
        "finish leaves rubbish where nothing is unfinished",
        Wrong::Finish(|book, asked, kept| {
            let bytes = kept.unfinished;
            let line = book.any_finish(asked, kept);
            if bytes[0] == 0 {
                kept.unfinished = bytes;
            }
            line
        }),
    ),
    (
        "finish takes rubbish for an unfinished event",
        Wrong::Finish(|book, asked, kept| {
            if kept.unfinished[0] == 0 && kept.unfinished != [0; EVENT] {
                kept.unfinished[0] = 1;
            }
            book.any_finish(asked, kept)
        }),
    ),
    (
        "finish fills up the unfinished event",
        Wrong::Finish(|book, asked, kept| match kept.begun() {
            None | Some([]) => book.any_finish(asked, kept),
            Some(begun) => {
                let bytes = &[0; EVENT][begun.len()..];
                book.any_feed(&Asked { bytes, ..*asked }, kept)
            }
        }),
    ),
    (
        "finish needs a line's room where nothing is unfinished",
        Wrong::Finish(|book, asked, kept| {
            if kept.begun() != Some(&[]) {
                return book.any_finish(asked, kept);
            }
            // As if there were something.
            let mut begun = kept.clone();
            begun.unfinished = unfinished(&[0]);
            match book.any_finish(asked, &mut begun) {
                refused if refused.reason.is_some() => refused,
                _ => book.any_finish(asked, kept),
            }
        }),
    ),
    (
        "finish takes a count above 2 for 2",
        Wrong::Finish(|book, asked, kept| with_count(kept, 2, |kept| book.any_finish(asked, kept))),
    ),
    (
        "finish takes a count above 2 for none",
        Wrong::Finish(|book, asked, kept| with_count(kept, 0, |kept| book.any_finish(asked, kept))),
    ),
    (
        "finish says the form of a plan that cannot be read",
        Wrong::Finish(|book, asked, kept| {
            let mut line = book.any_finish(asked, kept);
            if let (Err(form), true) = (asked.plan, asked.room >= LINE) {
                put_line(&mut line, form);
            }
            line
        }),
    ),
];

pub const FRESH: &[Slip] = &[
    (
        "fresh leaves the trains",
        Wrong::Fresh(|memory| {
            let trains = memory.state.trains;
            *memory = Kept::fresh();
            memory.state.trains = trains;
        }),
    ),
    (
        "fresh leaves the lies",
        Wrong::Fresh(|memory| {
            let lies = memory.state.lies;
            *memory = Kept::fresh();
            memory.state.lies = lies;
        }),
    ),
    (
        "fresh leaves the holds",
        Wrong::Fresh(|memory| {
            let holds = memory.state.holds;
            *memory = Kept::fresh();
            memory.state.holds = holds;
        }),
    ),
    (
        "fresh leaves the last signal",
        Wrong::Fresh(|memory| {
            let signals = memory.state.signals;
            *memory = Kept::fresh();
            memory.state.signals[signals.len() - 1] = signals[signals.len() - 1];
        }),
    ),
    (
        "fresh leaves the unfinished event",
        Wrong::Fresh(|memory| {
            memory.state = Arrays::fresh();
        }),
    ),
    (
        "fresh clears the count of unfinished bytes alone",
        Wrong::Fresh(|memory| {
            memory.state = Arrays::fresh();
            memory.unfinished[0] = 0;
        }),
    ),
    ("fresh does nothing", Wrong::Fresh(|_| ())),
];

/// The call with another count than one above 2, which is there again if nothing was done.
fn with_count(kept: &mut Kept, count: u8, call: impl FnOnce(&mut Kept) -> Lent<u8>) -> Lent<u8> {
    let before = kept.unfinished[0];
    if kept.begun().is_none() {
        kept.unfinished[0] = count;
    }
    let lines = call(kept);
    if lines.reason.is_some() {
        kept.unfinished[0] = before;
    }
    lines
}

/// The lines of two calls, one after the other; the second has its say about what was refused.
fn joined(asked: &Asked, first: Lent<u8>, second: Lent<u8>) -> Lent<u8> {
    let mut lines = Lent::untouched(asked.room);
    lines.reason = second.reason;
    for byte in first.written().chain(second.written()) {
        lines.write(byte);
    }
    lines
}

fn forgetful_feed(book: &Book, asked: &Asked, kept: &mut Kept) -> Lent<u8> {
    let (first, rest) = asked.bytes.split_at(1024 * EVENT);
    let before = kept.clone();
    let lines = book.any_feed(
        &Asked {
            bytes: first,
            ..*asked
        },
        kept,
    );
    kept.state = Arrays::fresh();
    let room = asked.room - lines.count;
    let others = book.any_feed(
        &Asked {
            bytes: rest,
            room,
            ..*asked
        },
        kept,
    );
    if others.reason.is_some() {
        *kept = before;
        return Lent {
            reason: others.reason,
            ..Lent::untouched(asked.room)
        };
    }
    joined(asked, lines, others)
}
