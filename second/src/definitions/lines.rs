//! Wrong numbers and names in the lines: of answers, rules and forms.

use super::Definition;
use crate::book::MODEL;

/// The document's table of answers.
const ANSWERS: [(u32, &str); 13] = [
    (10, "state not well formed"),
    (
        11,
        "unknown event kind, unused byte not 0, no such route or entry, or train number 0",
    ),
    (12, "request: start signal not red"),
    (
        13,
        "request or entry: a track of its clear list has a train",
    ),
    (
        14,
        "request: a listed point is held by any route and lies otherwise",
    ),
    (15, "cancel: start signal not green for this route"),
    (16, "cancel: home track has a train"),
    (17, "entry: train already in the plan"),
    (18, "move: train not in the plan"),
    (19, "move: its track is a home and the signal is red"),
    (40, "collision: the track to be entered has a train"),
    (
        41,
        "run-through: the track left is not its leg for its present lie",
    ),
    (
        42,
        "derailment: another lie in the end to a point that has a train",
    ),
];

/// The document's table of forms.
const FORMS: [(u32, &str); 5] = [
    (1, "file ends early"),
    (2, "count beyond its limits"),
    (
        3,
        "kind above 3, unused byte not 0, no such track or signal, or no point",
    ),
    (4, "list doesn't rise strictly"),
    (5, "bytes left over"),
];

pub fn all() -> Vec<Definition> {
    let mut all = exchanged_answers();
    all.extend(exchanged_forms());
    all.extend(moved_offsets());
    all.extend(exchanged_rules());
    all.extend(wrong_items());
    all
}

/// The model with each of its lines changed, given in words.
fn each_line(name: String, change: impl Fn(&mut Vec<String>) + 'static) -> Definition {
    Definition::new(name, move |plan, events| {
        let printed = MODEL.whole_run(plan, events);
        let text = String::from_utf8(printed).expect("lines are text");
        let changed = text.lines().map(|line| {
            let mut words: Vec<String> = line.split(' ').map(str::to_string).collect();
            change(&mut words);
            words.join(" ") + "\n"
        });
        changed.collect::<String>().into_bytes()
    })
}

/// Exchanges two numbers where one of them stands in the word at this place.
fn exchange(word: Option<&mut String>, one: u32, other: u32) {
    if let Some(word) = word {
        *word = match word.parse::<u32>() {
            Ok(number) if number == one => other.to_string(),
            Ok(number) if number == other => one.to_string(),
            _ => return,
        }
    }
}

fn is_answer(words: &[String]) -> bool {
    matches!(words[0].as_str(), "refused" | "accident")
}

/// All pairs of the items of a table.
fn pairs<T>(table: &[T]) -> impl Iterator<Item = (&T, &T)> {
    let rest = |place: usize| table[place + 1..].iter();
    let with_rest = move |(place, one)| rest(place).map(move |other| (one, other));
    table.iter().enumerate().flat_map(with_rest)
}

fn exchanged_answers() -> Vec<Definition> {
    let exchanged = pairs(&ANSWERS).map(|(&(one, when), &(other, other_when))| {
        let name = format!("{one} for \"{other_when}\" and {other} for \"{when}\"");
        each_line(name, move |words| {
            if is_answer(words) {
                exchange(words.get_mut(1), one, other);
            }
        })
    });
    exchanged.collect()
}

fn exchanged_forms() -> Vec<Definition> {
    let exchanged = pairs(&FORMS).map(|(&(one, what), &(other, other_what))| {
        let name = format!("form {one} for \"{other_what}\" and {other} for \"{what}\"");
        each_line(name, move |words| {
            if words[0] == "form" {
                exchange(words.get_mut(1), one, other);
            }
        })
    });
    exchanged.collect()
}

fn moved_offsets() -> Vec<Definition> {
    let moved = FORMS.iter().flat_map(|&(form, _)| {
        [(1, "after"), (-1, "before")].map(|(by, side)| {
            let name = format!("form {form} at the byte {side} its own");
            each_line(name, move |words| {
                if words[0] == "form" && words[1] == form.to_string() {
                    let offset: i64 = words[3].parse().expect("an offset is a number");
                    words[3] = (offset + by).to_string();
                }
            })
        })
    });
    moved.collect()
}

fn exchanged_rules() -> Vec<Definition> {
    let rules: Vec<u32> = (1..=12).collect();
    let exchanged = pairs(&rules).map(|(&one, &other)| {
        let name = format!("rule {one} has the number {other}, and rule {other} the number {one}");
        each_line(name, move |words| {
            if words[0] == "rule" {
                exchange(words.get_mut(1), one, other);
            }
        })
    });
    exchanged.collect()
}

/// A line of this answer whose item has another word, or none at all.
fn item_of(answer: &'static str, word: &'static str) -> Definition {
    let name = match word {
        "" => format!("{answer} names nothing"),
        _ => format!("{answer} names its item as a {word}"),
    };
    each_line(name, move |words| {
        if is_answer(words) && words[1] == answer {
            match word {
                "" => words.truncate(2),
                _ => words[2] = word.to_string(),
            }
        }
    })
}

/// Two words of the lines that begin with this one are exchanged.
fn swapped(name: &str, first: &'static str, one: usize, other: usize) -> Definition {
    each_line(name.to_string(), move |words| {
        if words[0] == first {
            words.swap(one, other);
        }
    })
}

/// The words of 13's lines, changed.
fn of_13(name: &str, change: fn(&mut Vec<String>)) -> Definition {
    each_line(name.to_string(), move |words| {
        if is_answer(words) && words[1] == "13" {
            change(words);
        }
    })
}

/// What could be read into `refused 13 track 2 train 1`.
fn wrong_lines_of_13() -> Vec<Definition> {
    vec![
        of_13("13 names no train", |words| words.truncate(4)),
        of_13("13 names no train, but has its word", |words| {
            words.truncate(5)
        }),
        of_13("13 names no track", |words| {
            words.drain(2..4);
        }),
        of_13("13 names its train as a track", |words| {
            words[4] = "track".to_string()
        }),
        of_13("13 names its train without a word", |words| {
            words.remove(4);
        }),
        of_13("13 has its train before its track", |words| {
            words[2..].rotate_left(2)
        }),
        of_13("13 has its two numbers the other way round", |words| {
            words.swap(3, 5)
        }),
        of_13("13 names trains from 0", |words| {
            let train: u32 = words[5].parse().expect("a train is a number");
            words[5] = (train - 1).to_string();
        }),
        each_line("16 names its train too".to_string(), |words| {
            if is_answer(words) && words[1] == "16" {
                words.extend(["train", "1"].map(str::to_string));
            }
        }),
    ]
}

fn wrong_items() -> Vec<Definition> {
    let mut all = Vec::new();
    for (answer, others) in [
        ("13", ["point", "signal", ""]),
        ("14", ["track", "signal", ""]),
        ("16", ["point", "signal", ""]),
        ("19", ["track", "point", ""]),
        ("40", ["point", "signal", ""]),
        ("41", ["point", "signal", ""]),
        ("42", ["track", "signal", ""]),
    ] {
        all.extend(others.map(|word| item_of(answer, word)));
    }
    all.extend(wrong_lines_of_13());
    all.push(swapped(
        "`entered` has its track before its train",
        "entered",
        1,
        3,
    ));
    all.push(swapped(
        "`moved` has the track moved to first",
        "moved",
        3,
        5,
    ));
    all.push(swapped(
        "`moved` has the track left before the train",
        "moved",
        1,
        3,
    ));
    all.push(swapped(
        "`left` has its track before its train",
        "left",
        1,
        3,
    ));
    all.push(swapped(
        "`rule` has its row before its number",
        "rule",
        1,
        3,
    ));
    all.push(swapped(
        "`form` has its offset before its number",
        "form",
        1,
        3,
    ));
    all
}
