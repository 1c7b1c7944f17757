//! The document, written down once more: reading, rules, state, events, printed lines; and the plan
//! in memory.

pub mod answer;
pub mod image;
pub mod plan;
pub mod reading;
pub mod rules;
pub mod state;
pub mod step;
