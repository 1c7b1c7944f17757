//! What a comparison says of itself: what it compares, before anything else, and how it went, in its
//! last line. Without the box both say that it was not there, so that nobody takes it for compared.

/// Whether the box is linked into this program.
pub const IS_LINKED: bool = cfg!(feature = "boxed");

const NOT_LINKED: &str =
    "the box is not linked (to link it: `./library` in the top folder, \
     then `cargo build --release --offline --features boxed` in second/, \
     or on Arm what second/README.md has)";

/// What is compared where the box is linked, and where it is not.
pub struct Compared {
    with_box: &'static str,
    alone: &'static str,
}

pub const CASES: Compared = Compared {
    with_box: "compared: the box with the model",
    alone: "compared: the model with itself",
};

pub const EARLIER: Compared = Compared {
    with_box: "compared: the box with an earlier one, whose 14 is for every held point",
    alone: "compared: the model with an earlier box, whose 14 is for every held point",
};

pub const FOLDERS: Compared = Compared {
    with_box: "compared: the model and the box with the session folders",
    alone: "compared: the model alone with the session folders",
};

pub const TIMES: Compared = Compared {
    with_box: "timed: the model and the box",
    alone: "timed: the model alone",
};

impl Compared {
    pub fn first_line(&self, is_linked: bool) -> String {
        match is_linked {
            true => self.with_box.to_string(),
            false => format!("{}; {NOT_LINKED}", self.alone),
        }
    }

    /// With the box the verdict alone, which the gate looks for.
    pub fn last_line(&self, is_linked: bool, verdict: &str) -> String {
        match is_linked {
            true => verdict.to_string(),
            false => format!("{verdict}; {}", self.first_line(false)),
        }
    }

    pub fn begin(&self) {
        println!("{}", self.first_line(IS_LINKED));
    }

    pub fn end(&self, verdict: &str) {
        println!("{}", self.last_line(IS_LINKED, verdict));
    }
}

/// The verdict on a seed.
pub fn of_seed(seed: u64, is_good: bool) -> String {
    let words = if is_good { "good" } else { "NOT good" };
    format!("seed {seed}: {words}")
}
