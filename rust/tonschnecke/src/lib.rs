//! Tonschnecke for Rust: reads a PHP-serialized value (a plan), shows what is in it, writes its
//! canonical text, and inserts a pair into one of its arrays so that every reference still names
//! the value that it named.
//!
//! ```
//! use tonschnecke::{serialized, Kind, Plan};
//!
//! let plan = Plan::read(b"a:4:{i:1;d:9.5;i:2;d:10.25;i:4;d:8.75;i:5;R:4;}")?;
//! let fifth = plan.path("/5")?;
//! assert_eq!(fifth.resolved().kind(), Kind::Float(b"8.75"));
//! assert_eq!(fifth.to_string(), "R to /4, 8.75");
//!
//! let third = plan.root().insert(2, &serialized::integer(3), &serialized::float("9.75"))?;
//! assert_eq!(third.bytes(), b"a:5:{i:1;d:9.5;i:2;d:10.25;i:3;d:9.75;i:4;d:8.75;i:5;R:5;}");
//! assert_eq!(third.path("/5")?.to_string(), "R to /4, 8.75");
//! # Ok::<(), Box<dyn std::error::Error>>(())
//! ```
//!
//! A [`Plan`] has the bytes and the table that reading them left; nobody can bring together a
//! table and the bytes of another plan. An edit leaves its plan as it is and answers a new one.
//!
//! What each service answers, and what it leaves in the memory lent to it, is proved of the
//! library that is linked. This crate turns its numbers into types, looks up keys and shows what
//! the table says; it decides nothing of what a plan means. [`lent`] has the services themselves.

pub mod escape;
mod ffi;
mod key;
pub mod lent;
mod path;
mod plan;
mod refusal;
pub mod serialized;
mod tree;
mod value;

pub use key::Key;
pub use path::{Nowhere, Path, PathError, PathSyntax};
pub use plan::Plan;
pub use refusal::{Reason, Refusal};
pub use tree::Tree;
pub use value::{Children, Kind, ReferenceTag, Value};

/// The bytes of the longest source that is read, and of the longest plan that is written.
pub const SOURCE_LIMIT: usize = 65_536;
