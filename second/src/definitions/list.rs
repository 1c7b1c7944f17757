//! The list of all wrong definitions as it stands in the tree: none can be lost, nor be made another
//! that shows elsewhere or otherwise, without a change there.

use super::folders::Folder;
use super::{all, shown, singles};
use crate::singles as steps;
use std::fmt::Write;

/// What stands in the tree.
const LIST: &str = include_str!("../../definitions.txt");
const STEPS: &str = include_str!("../../steps.txt");

/// The text of `definitions.txt`: each with a small session, or the first single step, that shows it,
/// the line that it would give there and the line that is expected.
pub fn list(folders: &[Folder]) -> String {
    let all = all();
    let of_steps = singles::all();
    let mut text = format!(
        "\
Wrong definitions, each with a small session that shows it and the number of the first line that
differs there: the line that it would give, and the one that is expected; and how many sessions show
it. Written by `second --list ../sessions`. {} of them:

",
        all.len()
    );
    for definition in &all {
        let _ = match shown(definition, folders) {
            Some(shown) => writeln!(
                text,
                "{}: {} {}: {}, not {} (shown by {})",
                definition.name,
                shown.folder.name,
                shown.line,
                shown.got,
                shown.expected,
                shown.more + 1
            ),
            None => writeln!(text, "{}: nowhere", definition.name),
        };
    }
    let _ = write!(
        text,
        "\n{} more with the first single step of steps.txt that shows each:\n\n",
        of_steps.len()
    );
    let singles = steps::all();
    for definition in &of_steps {
        let _ = match singles::shown(definition, &singles) {
            Some((step, due, got)) => {
                writeln!(text, "{}: step {step}: {got}, not {due}", definition.name)
            }
            None => writeln!(text, "{}: nowhere", definition.name),
        };
    }
    text
}

/// Whether both texts stand in the tree as they must be; says which does not.
pub fn is_standing(folders: &[Folder]) -> bool {
    let texts = [
        ("definitions.txt", LIST, list(folders)),
        ("steps.txt", STEPS, steps::told()),
    ];
    let others = texts.iter().filter(|(_, standing, due)| standing != due);
    for (name, standing, due) in others.clone() {
        let (standing, due) = (standing.lines(), due.lines());
        let other = standing.zip(due).find(|(standing, due)| standing != due);
        let (standing, due) = other.unwrap_or(("nothing, or more", "an end, or more"));
        println!("{name} is another: it has `{standing}`, and `{due}` is due");
    }
    others.count() == 0
}
