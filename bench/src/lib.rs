//! What the benchmark times: plans that are hard on a reader and an inserter, a peer in Rust and one in PHP to time
//! the library beside; and how it tells what it measured.

mod collide;
pub mod count;
pub mod goals;
pub mod peer;
pub mod php;
pub mod plans;
pub mod table;
