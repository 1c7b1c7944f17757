//! Session folders: what goes into the program and exactly what must come out.

use crate::accepted;
use crate::document::{self, Session, BENCH_PLAN};
use crate::forms;
use crate::generate::largest::largest;
use crate::junctions;
use crate::long;
use crate::model::plan::LARGEST_FILE;
use crate::numbers;
use crate::orders;
use crate::parts;
use crate::random::Random;
use crate::rows;
use crate::shared;
use crate::told::told;
use crate::trains;
use crate::walks;
use crate::writing::write;
use std::fs;
use std::io;
use std::path::Path;

/// Every session: those of the document, the odd ends of files and event lists, the last rows and
/// the parts of the rules, the files with one bad byte, the small junctions, the walks over lists, the
/// trains in the way, the holds that are shared, what is allowed and the long ones.
pub fn all() -> Vec<Session> {
    let mut sessions = document::sessions();
    sessions.extend(odd_plans());
    sessions.extend(odd_endings());
    sessions.extend(rows::sessions());
    sessions.extend(parts::sessions());
    sessions.extend(forms::sessions());
    sessions.extend(numbers::sessions());
    sessions.extend(junctions::sessions());
    sessions.extend(orders::sessions());
    sessions.extend(walks::sessions());
    sessions.extend(trains::sessions());
    sessions.extend(shared::sessions());
    sessions.extend(accepted::sessions());
    sessions.extend(long::sessions());
    sessions
}

/// Plans that are missing or at their largest. The events are an entry with train number 0 and an
/// incomplete one.
fn odd_plan(
    name: &'static str,
    about: &'static str,
    plan: Option<Vec<u8>>,
    expected: &str,
) -> Session {
    Session {
        name,
        about,
        plan,
        events: vec![3, 0, 0, 1],
        expected: expected.to_string(),
    }
}

fn odd_plans() -> Vec<Session> {
    let largest_plan = write(&largest(&mut Random::new(1)));
    let mut one_byte_more = largest_plan.clone();
    one_byte_more.push(0);
    vec![
        odd_plan(
            "no-plan",
            "There is no plan.bin at all. A file that cannot be opened counts as empty, and \
             nothing follows the form line.",
            None,
            "form 1 at 0\n",
        ),
        odd_plan(
            "empty-plan",
            "An empty plan.bin. Nothing follows the form line, not even for events.",
            Some(vec![]),
            "form 1 at 0\n",
        ),
        odd_plan(
            "largest-plan",
            "The largest plan there is, with every count at its limit. It is accepted.",
            Some(largest_plan),
            "accepted\nrefused 11\nrefused 11\n",
        ),
        odd_plan(
            "largest-plan-one-byte-more",
            "The largest plan with one byte after its end.",
            Some(one_byte_more),
            &format!("form 5 at {LARGEST_FILE}\n"),
        ),
    ]
}

fn odd_endings() -> Vec<Session> {
    let session = |name, about, ending: &[u8], expected: &str| Session {
        name,
        about,
        plan: Some(BENCH_PLAN.to_vec()),
        events: [&[3, 0, 1, 1, 0, 0], ending].concat(),
        expected: format!("accepted\nentered 1 track 0\ngranted 0\n{expected}"),
    };
    vec![
        session(
            "ending-of-no-byte",
            "The events end where an event ends.",
            &[],
            "",
        ),
        session(
            "ending-of-one-byte",
            "The last event has one byte: it is an incomplete one, and is 11.",
            &[4],
            "refused 11\n",
        ),
        session(
            "ending-of-two-bytes",
            "The last event lacks only its unused byte; with it the train would have moved.",
            &[4, 1],
            "refused 11\n",
        ),
    ]
}

/// The files of a session's folder. Where there is no plan there is no file of it.
pub fn files(session: &Session) -> Vec<(&'static str, Vec<u8>)> {
    let plan = session.plan.iter().map(|plan| ("plan.bin", plan.clone()));
    let others = [
        ("events.bin", session.events.clone()),
        ("expected.txt", session.expected.clone().into_bytes()),
        ("session.txt", told(session).into_bytes()),
    ];
    plan.chain(others).collect()
}

/// Writes each session into a folder of its name, in which nothing else stays.
pub fn write_all(directory: &Path) -> io::Result<usize> {
    let sessions = all();
    for session in &sessions {
        let folder = directory.join(session.name);
        fs::create_dir_all(&folder)?;
        for left in fs::read_dir(&folder)? {
            fs::remove_file(left?.path())?;
        }
        for (name, bytes) in files(session) {
            fs::write(folder.join(name), bytes)?;
        }
    }
    Ok(sessions.len())
}
