//! What is said to people: of refusals, of what was done.

mod digits;
pub mod escape;
pub mod meant;
mod recognise;
pub mod refusal;
pub mod report;
