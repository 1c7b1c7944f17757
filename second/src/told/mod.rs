//! A session as a text that a person can read without any program: what it shows, what the bytes of
//! the plan say, and each event beside its line.

mod events;
mod file;

use crate::document::Session;

/// Longer plans and event lists are told in part alone.
const MOST_BYTES: usize = 1_200;
const MOST_EVENTS: usize = 200;

/// How many events are told at either end of a list that is told in part.
const ENDS: usize = 20;

/// The width of the text.
const WIDTH: usize = 100;

/// The text of `session.txt`.
pub fn told(session: &Session) -> String {
    let plan = session.plan.as_deref();
    let mut text = format!("{}\n\n{}\n", session.name, wrapped(session.about));
    let line = session.expected.lines().next().unwrap_or_default();
    text.push_str(&file::told(plan, line));
    text.push_str(&events::told(plan.unwrap_or(&[]), session));
    text
}

/// True if the text of such a session leaves nothing out.
pub fn is_told_in_full(plan: &[u8], events: &[u8]) -> bool {
    plan.len() <= MOST_BYTES && events::rows(events).len() <= MOST_EVENTS
}

/// Words in lines of the text's width.
pub fn wrapped(words: &str) -> String {
    let mut lines = String::new();
    let mut length = 0;
    for word in words.split_whitespace() {
        let needed = length + 1 + word.chars().count();
        if length == 0 || needed > WIDTH {
            if length > 0 {
                lines.push('\n');
            }
            length = word.chars().count();
        } else {
            lines.push(' ');
            length = needed;
        }
        lines.push_str(word);
    }
    lines
}

/// The bytes as the document writes them.
fn bytes_in_words(bytes: &[u8]) -> String {
    let words: Vec<String> = bytes.iter().map(u8::to_string).collect();
    words.join(" ")
}

/// One thing or several: `1 track`, `2 tracks`, and `no tracks` for 0.
fn counted(count: usize, one: &str, more: &str) -> String {
    match count {
        0 => format!("no {more}"),
        1 => format!("1 {one}"),
        _ => format!("{count} {more}"),
    }
}

/// Numbers in a row, where three or more that rise by one are `a to b`.
fn runs(numbers: &[u8]) -> String {
    let mut words = Vec::new();
    let mut rest = numbers;
    while let [first, ..] = *rest {
        let mut length = 1;
        while length < rest.len() && usize::from(rest[length]) == usize::from(first) + length {
            length += 1;
        }
        if length < 3 {
            length = 1;
            words.push(first.to_string());
        } else {
            words.push(format!("{first} to {}", rest[length - 1]));
        }
        rest = &rest[length..];
    }
    words.join(", ")
}

/// What a list names: tracks or points by their numbers.
fn listed(one: &str, numbers: &[u8]) -> String {
    match numbers {
        [] => "none".to_string(),
        [number] => format!("{one} {number}"),
        _ => format!("{one}s {}", runs(numbers)),
    }
}
