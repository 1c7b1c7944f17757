//! Seeded makers of plans, files, images, event lists and states.

pub mod beside;
pub mod broken;
mod broken_routes;
mod broken_tracks;
pub mod case;
mod dress;
pub mod events;
pub mod faults;
pub mod images;
pub mod largest;
pub mod lists;
pub mod pieces;
mod renumber;
mod shapes;
pub mod shared;
mod sketch;
pub mod states;
pub mod walks;
pub mod wild;

use crate::model::plan::Plan;
use crate::random::Random;

/// An accepted plan of some shape.
pub fn accepted(random: &mut Random) -> Plan {
    match random.below(200) {
        0 => largest::largest(random),
        1 => largest::busy(random),
        _ => {
            let layout = shapes::layout(random);
            let plan = dress::dress(random, &layout);
            renumber::shuffled(random, &plan)
        }
    }
}
