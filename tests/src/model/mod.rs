//! The independent reader: plan bytes to a tree on the heap; the table, canonical text and the
//! plan with a pair put in from the tree.

mod canonical;
mod float;
mod insert;
mod meaning;
mod numeral;
mod parse;
mod path;
mod refusal;
mod scan;
mod table;
mod value;

pub use meaning::{judge, Strange};
pub use numeral::{Numeral, Role};
pub use path::is_integer;
pub use refusal::{Code, Refusal};
pub use table::{is_of, Row, Table, WORDS};
pub use value::Identity;

use crate::call::{Lent, Place};
use value::Value;

/// Bytes of the longest plan that is read or written.
pub const LONGEST_PLAN: usize = 65_536;
/// Depth of the deepest value.
pub const DEEPEST: usize = 64;

/// What reading gives: the table's nodes, or a refusal.
pub type Answer = Result<Table, Refusal>;

/// What a service that writes a plan gives: the plan, and what the table went through.
pub struct Written {
    /// The table of the plan given.
    pub before: Table,
    pub text: Vec<u8>,
    /// The table of the plan written.
    pub after: Table,
}

/// An answer, with what the choice of lengths and the statistics want to know besides.
pub struct Survey {
    pub answer: Answer,
    /// Nodes that found room before the plan ended or was refused.
    pub nodes_met: usize,
    /// Depth of the deepest value; 0 for a refused plan.
    pub depth: usize,
    /// The integers and numbers met.
    pub numerals: Vec<Numeral>,
    /// Canonical text; empty for a refused plan.
    pub canonical: Vec<u8>,
}

impl Survey {
    /// Whether the plan is accepted and has an array.
    pub fn has_array(&self) -> bool {
        let rows = self.answer.as_ref().map(|table| table.rows.iter());
        rows.is_ok_and(|mut rows| rows.any(|row| is_of(row, b"a")))
    }
}

/// Reads `source` with room for `capacity` nodes.
pub fn read(source: &[u8], capacity: usize) -> Answer {
    let root = parse::parse(source, capacity).outcome?;
    Ok(table::of(&root))
}

/// Reads `source` with room for `capacity` nodes, and tells more about it.
pub fn survey(source: &[u8], capacity: usize) -> Survey {
    let parsed = parse::parse(source, capacity);
    Survey {
        depth: parsed.outcome.as_ref().map_or(0, Value::depth),
        canonical: parsed
            .outcome
            .as_ref()
            .map_or_else(|_| Vec::new(), |root| canonical::text(root, source)),
        answer: parsed.outcome.map(|root| table::of(&root)),
        nodes_met: parsed.nodes_met,
        numerals: parsed.numerals,
    }
}

/// Canonical text of `source`, for an output of `out_len` bytes. "Retyping: reading, then 14."
pub fn canonicalize(source: &[u8], capacity: usize, out_len: usize) -> Result<Written, Refusal> {
    let root = parse::parse(source, capacity).outcome?;
    written(
        table::of(&root),
        canonical::text(&root, source),
        capacity,
        out_len,
    )
}

/// The plan with the pair put in, for an output of `out_len` bytes. "Inserting: reading, 11, 12, 13,
/// 9 (new key present), 8 (array at depth 64), 7 (two more nodes), 14; here 9, 8 and 7 have position
/// 0."
pub fn insert(
    texts: Lent,
    place: Place,
    capacity: usize,
    out_len: usize,
) -> Result<Written, Refusal> {
    let mut root = parse::parse(texts.source, capacity).outcome?;
    let pair = insert::new_pair(&root, texts, place).map_err(|code| code.at(0))?;
    let before = table::of(&root);
    if before.rows.len() + 2 > capacity {
        return Err(Code::NoCapacity.at(0));
    }
    insert::put_in(&mut root, place, pair);
    written(before, insert::text(&root), capacity, out_len)
}

/// How many bytes an insertion writes where neither the table nor the output is wanting, be they
/// too many for a plan.
pub fn bytes_to_write(texts: Lent, place: Place) -> Result<usize, Refusal> {
    let mut root = parse::parse(texts.source, usize::MAX).outcome?;
    let pair = insert::new_pair(&root, texts, place).map_err(|code| code.at(0))?;
    insert::put_in(&mut root, place, pair);
    Ok(insert::text(&root).len())
}

/// Tells where paths lead in a plan; none for a refused one.
pub fn finder(source: &[u8]) -> Option<impl Fn(&[u8]) -> Option<usize> + '_> {
    let root = parse::parse(source, usize::MAX).outcome.ok()?;
    Some(move |path: &[u8]| path::find(&root, source, path))
}

/// What the key of a fit key text is equal to; none for an unfit text.
pub fn key_text(text: &[u8]) -> Option<Identity<'_>> {
    parse::lone_key(text).map(|key| key.identity(text))
}

/// Whether a value text is fit.
pub fn is_value_text(text: &[u8]) -> bool {
    parse::lone_plain_value(text).is_some()
}

/// "bytes to write exceed the output's length or 65,536"
fn written(
    before: Table,
    text: Vec<u8>,
    capacity: usize,
    out_len: usize,
) -> Result<Written, Refusal> {
    if text.len() > out_len || text.len() > LONGEST_PLAN {
        return Err(Code::NoOutput.at(0));
    }
    Ok(Written {
        before,
        after: read(&text, capacity)
            .expect("what is written is a plan that the table has room for"),
        text,
    })
}
