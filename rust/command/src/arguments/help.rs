//! What the command says of itself.

use std::ffi::OsStr;

pub const OVERVIEW: &str = include_str!("help/overview.txt");

/// What there is help on besides.
const TOPICS: [(&str, &str); 5] = [
    ("nodes", include_str!("help/nodes.txt")),
    ("show", include_str!("help/show.txt")),
    ("canonical", include_str!("help/canonical.txt")),
    ("insert", include_str!("help/insert.txt")),
    ("paths", include_str!("help/paths.txt")),
];

/// The text on a subcommand, or on paths.
pub fn on(topic: &OsStr) -> Option<&'static str> {
    let known = TOPICS.into_iter().find(|(name, _)| topic == *name);
    known.map(|(_, text)| text)
}
