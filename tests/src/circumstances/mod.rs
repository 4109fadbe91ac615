//! What insertions were like: the circumstances that a run has to meet, by name.

mod accepted;
mod refused;
mod request;

pub use request::Request;

use crate::call::{Call, Reply};
use crate::model::WORDS;

/// A call of inserting, what was asked for, and the answer that both sides gave.
pub struct Met<'a> {
    pub request: &'a Request<'a>,
    pub call: Call,
    pub reply: Reply,
}

/// A name, and whether a call is of that sort.
type Circumstance = (&'static str, fn(&Met) -> bool);

/// Which of them a call has met, in the order of `names`.
pub fn of<'a>(met: &'a Met<'a>) -> impl Iterator<Item = bool> + 'a {
    let is_accepted = met.reply.code() == 0;
    let of_accepted = all_accepted().map(move |(_, is_met)| is_accepted && is_met(met));
    let of_refused = refused::ALL.iter();
    of_accepted.chain(of_refused.map(move |(_, is_met)| !is_accepted && is_met(met)))
}

pub fn names() -> impl Iterator<Item = &'static str> {
    all_accepted().chain(refused::ALL).map(|(name, _)| *name)
}

fn all_accepted() -> impl Iterator<Item = &'static Circumstance> {
    accepted::PLACES
        .iter()
        .chain(accepted::REFERENCES)
        .chain(accepted::OTHER_PLUSES)
        .chain(accepted::TEXTS)
        .chain(accepted::LENGTHS)
}

impl Met<'_> {
    /// Nodes that the table has room for.
    fn room(&self) -> usize {
        self.call.table_len / WORDS
    }
}
