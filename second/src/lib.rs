//! An independent second program for the junction box. The model follows document 01 and of document 02
//! No. 1, for the plan in memory, No. 3, for the train that 13 names, and No. 4, for the points that 14 is
//! for and the routes that hold them, alone; its readings of them are listed in `README.md`, shown at the
//! top of `main.rs`.

pub mod accepted;
pub mod bench;
pub mod book;
pub mod boxed;
pub mod compare;
pub mod compared;
pub mod definitions;
pub mod document;
pub mod earlier;
pub mod forms;
pub mod generate;
pub mod junctions;
pub mod limits;
pub mod long;
pub mod model;
pub mod mutants;
pub mod numbers;
pub mod orders;
pub mod parts;
pub mod program;
pub mod random;
pub mod rows;
pub mod sessions;
pub mod shared;
pub mod singles;
pub mod subject;
pub mod told;
pub mod trains;
pub mod walks;
pub mod words;
pub mod writing;
