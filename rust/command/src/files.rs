//! Where plans come from and where results go, so that nothing is ever lost on the way.

mod attributes;
pub mod descriptors;
pub mod input;
pub mod lock;
pub mod onto_plan;
pub mod output;
mod replace;
pub mod signals;
mod target;
mod temporary;
