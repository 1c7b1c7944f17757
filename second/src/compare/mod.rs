//! The comparison of a subject with the model.

mod before;
mod calls;
pub mod causes;
pub mod counts;
pub mod describe;
pub mod driver;
pub mod dropped;
pub mod files;
mod flaws;
pub mod history;
mod images;
pub mod minima;
mod rarest;
mod shared;
pub mod shrink;
pub mod shrink_file;
mod shrink_plan;
mod special;
pub mod trouble;
mod walks;
