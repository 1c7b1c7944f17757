//! Everything that can be said about a plan or an event, and the line that says it.

use super::reading::Form;
use super::rules::Broken;
use std::fmt;

/// What is said about a plan as a whole.
#[derive(Clone, Copy, Debug, PartialEq, Eq)]
pub enum Verdict {
    Unreadable(Form),
    Broken(Broken),
    Accepted,
}

impl fmt::Display for Verdict {
    fn fmt(&self, out: &mut fmt::Formatter) -> fmt::Result {
        match self {
            Verdict::Unreadable(form) => form.fmt(out),
            Verdict::Broken(broken) => broken.fmt(out),
            Verdict::Accepted => out.write_str("accepted"),
        }
    }
}

/// What is said about one event.
#[derive(Clone, Copy, Debug, PartialEq, Eq)]
pub enum Answer {
    Unreadable(Form),
    Granted { route: usize },
    Cancelled { route: usize },
    Entered { train: u8, track: usize },
    Moved { train: u8, from: usize, to: usize },
    Left { train: u8, from: usize },
    Refused(Refusal),
    Accident(Accident),
}

/// Answers 10 to 19.
#[derive(Clone, Copy, Debug, PartialEq, Eq)]
pub enum Refusal {
    NotWellFormed,
    BadEvent,
    SignalNotRed,
    TrainInTheWay { track: usize, train: u8 },
    PointHeld { point: usize },
    SignalNotGreen,
    TrainAtHome { track: usize },
    AlreadyInPlan,
    NotInPlan,
    SignalRed { signal: usize },
}

/// Answers 40 to 42.
#[derive(Clone, Copy, Debug, PartialEq, Eq)]
pub enum Accident {
    Collision { track: usize },
    RunThrough { track: usize },
    Derailment { point: usize },
}

impl Refusal {
    pub fn number(&self) -> u8 {
        match self {
            Refusal::NotWellFormed => 10,
            Refusal::BadEvent => 11,
            Refusal::SignalNotRed => 12,
            Refusal::TrainInTheWay { .. } => 13,
            Refusal::PointHeld { .. } => 14,
            Refusal::SignalNotGreen => 15,
            Refusal::TrainAtHome { .. } => 16,
            Refusal::AlreadyInPlan => 17,
            Refusal::NotInPlan => 18,
            Refusal::SignalRed { .. } => 19,
        }
    }
}

impl Accident {
    pub fn number(&self) -> u8 {
        match self {
            Accident::Collision { .. } => 40,
            Accident::RunThrough { .. } => 41,
            Accident::Derailment { .. } => 42,
        }
    }
}

impl Answer {
    /// 13, for a track and the train on it.
    pub fn in_the_way((track, train): (usize, u8)) -> Self {
        Answer::Refused(Refusal::TrainInTheWay { track, train })
    }

    /// True if the event was carried out; every other answer changes nothing at all.
    pub fn is_carried_out(&self) -> bool {
        !matches!(
            self,
            Answer::Unreadable(_) | Answer::Refused(_) | Answer::Accident(_)
        )
    }
}

impl fmt::Display for Answer {
    fn fmt(&self, out: &mut fmt::Formatter) -> fmt::Result {
        match self {
            Answer::Unreadable(form) => form.fmt(out),
            Answer::Granted { route } => write!(out, "granted {route}"),
            Answer::Cancelled { route } => write!(out, "cancelled {route}"),
            Answer::Entered { train, track } => write!(out, "entered {train} track {track}"),
            Answer::Moved { train, from, to } => write!(out, "moved {train} from {from} to {to}"),
            Answer::Left { train, from } => write!(out, "left {train} from {from}"),
            Answer::Refused(refusal) => refusal.fmt(out),
            Answer::Accident(accident) => accident.fmt(out),
        }
    }
}

impl fmt::Display for Refusal {
    fn fmt(&self, out: &mut fmt::Formatter) -> fmt::Result {
        write!(out, "refused {}", self.number())?;
        match self {
            Refusal::TrainInTheWay { track, train } => write!(out, " track {track} train {train}"),
            Refusal::TrainAtHome { track } => write!(out, " track {track}"),
            Refusal::PointHeld { point } => write!(out, " point {point}"),
            Refusal::SignalRed { signal } => write!(out, " signal {signal}"),
            _ => Ok(()),
        }
    }
}

impl fmt::Display for Accident {
    fn fmt(&self, out: &mut fmt::Formatter) -> fmt::Result {
        write!(out, "accident {}", self.number())?;
        match self {
            Accident::Collision { track } | Accident::RunThrough { track } => {
                write!(out, " track {track}")
            }
            Accident::Derailment { point } => write!(out, " point {point}"),
        }
    }
}
