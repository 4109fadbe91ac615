//! The library's services as they are: over memory that the caller lends, each answer a number or
//! a refusal. [`Plan`](crate::Plan) lends for you, and keeps bytes and table together.

use crate::refusal::{Reason, Refusal};
use crate::{ffi, SOURCE_LIMIT};
use std::ffi::CStr;

/// The words of a node: a table of n * `NODE_WORDS` words has room for n nodes.
pub const NODE_WORDS: usize = 6;

/// The six words of a node.
pub type Words = [u64; NODE_WORDS];

/// The words of a table in which no service refuses a source of so many bytes for want of room.
///
/// ```
/// use tonschnecke::lent::{table_words, NODE_WORDS};
/// assert_eq!(table_words(12), 8 * NODE_WORDS);
/// ```
pub const fn table_words(source_len: usize) -> usize {
    let source_len = if source_len < SOURCE_LIMIT {
        source_len
    } else {
        SOURCE_LIMIT
    };
    // A node has two bytes or more, the last may have been cut to one; inserting adds two nodes.
    (source_len / 2 + 2) * NODE_WORDS
}

/// What an accepted reading counted.
#[derive(Clone, Copy, Debug, PartialEq, Eq)]
pub struct Reading {
    /// The nodes written to the table.
    pub nodes: usize,
    /// The ordinals that values took.
    pub ordinals: usize,
}

/// Reads the source into the table.
///
/// # Errors
///
/// Reasons 1 to 10, at a position in the source.
///
/// ```
/// use tonschnecke::lent::{read, table_words, Reading};
/// use tonschnecke::{Reason, Refusal};
/// let mut table = vec![0; table_words(14)];
/// assert_eq!(read(b"a:1:{i:0;R:1;}", &mut table), Ok(Reading { nodes: 3, ordinals: 1 }));
/// let refusal = Refusal { reason: Reason::UnknownOrdinal, at: 9 };
/// assert_eq!(read(b"a:1:{i:0;R:2;}", &mut table), Err(refusal));
/// ```
pub fn read(source: &[u8], table: &mut [u64]) -> Result<Reading, Refusal> {
    match ffi::read(source, table) {
        ffi::Reading {
            code: 0,
            at: 0,
            nodes,
            ordinals,
        } => Ok(Reading {
            nodes: nodes as usize,
            ordinals: ordinals as usize,
        }),
        ffi::Reading {
            code,
            at,
            nodes: 0,
            ordinals: 0,
        } => Err(refusal(code, at)),
        answer => unreachable!("the library promises no such answer: {answer:?}"),
    }
}

/// Writes the canonical text of the source to `out`, and returns its length. The table is left as
/// reading that text leaves it. An `out` as long as the source is always enough.
///
/// # Errors
///
/// As [`read`], or reason 14.
///
/// ```
/// use tonschnecke::lent::{canonicalize, table_words};
/// let source = b"a:01:{i:+0;i:-0;}";
/// let mut table = vec![0; table_words(source.len())];
/// let mut out = vec![0; source.len()];
/// let length = canonicalize(source, &mut table, &mut out).unwrap();
/// assert_eq!(&out[..length], b"a:1:{i:0;i:0;}");
/// ```
pub fn canonicalize(source: &[u8], table: &mut [u64], out: &mut [u8]) -> Result<usize, Refusal> {
    length(ffi::canonicalize(source, table, out))
}

/// A pair, and where it goes.
#[derive(Clone, Copy, Debug, PartialEq, Eq)]
pub struct Insertion<'a> {
    /// Index of the array's node.
    pub array_node: usize,
    /// The place: before the pair that has it, 0 first, or behind the last if it is the count.
    pub pair_index: usize,
    /// The key's text, exactly one i or s, as `i:59;`.
    pub key: &'a [u8],
    /// The value's text, exactly one N, b, i, d or s, as `d:2;`.
    pub value: &'a [u8],
}

/// Writes the source with the pair put in to `out`, and returns the length. The table is left as
/// reading what was written leaves it. An `out` of [`SOURCE_LIMIT`] bytes is always enough.
///
/// # Errors
///
/// As [`read`]; or, at 0, reasons 11, 12, 13, 9, 8, 7 and 14, tried in this order.
///
/// ```
/// use tonschnecke::lent::{insert, table_words, Insertion};
/// let source = b"a:3:{i:0;d:1.5;i:1;d:2.5;i:2;R:3;}";
/// let insertion = Insertion { array_node: 0, pair_index: 1, key: b"i:59;", value: b"d:2;" };
/// let mut table = vec![0; table_words(source.len())];
/// let mut out = [0; 100];
/// let length = insert(source, insertion, &mut table, &mut out).unwrap();
/// assert_eq!(&out[..length], b"a:4:{i:0;d:1.5;i:59;d:2;i:1;d:2.5;i:2;R:4;}");
/// ```
pub fn insert(
    source: &[u8],
    insertion: Insertion<'_>,
    table: &mut [u64],
    out: &mut [u8],
) -> Result<usize, Refusal> {
    length(ffi::insert(source, insertion, table, out))
}

fn length(answer: ffi::Writing) -> Result<usize, Refusal> {
    match answer {
        ffi::Writing {
            code: 0,
            at: 0,
            length,
        } => Ok(length as usize),
        ffi::Writing {
            code,
            at,
            length: 0,
        } => Err(refusal(code, at)),
        answer => unreachable!("the library promises no such answer: {answer:?}"),
    }
}

/// A refusal from its number; the library promises no number that has no reason.
fn refusal(code: u64, at: u64) -> Refusal {
    let reason =
        Reason::from_code(code).expect("the library refuses with a number of `Reason::ALL`");
    Refusal {
        reason,
        at: at as usize,
    }
}

/// The index of the value's node that a path of keys leads to, in the table that a service left
/// for this source; `None` if it leads nowhere or is no path. `docs/GUIDE.md` has the syntax, which
/// is the command's.
///
/// Unlike the services this is not proved: it is C code beside the proved library. For any table
/// it ends, and answers no index that the table has no room for.
///
/// ```
/// use tonschnecke::lent::{find, read, table_words};
/// let plan = br#"a:2:{s:5:"north";N;s:6:"months";a:1:{i:2;d:9.5;}}"#;
/// let mut table = vec![0; table_words(plan.len())];
/// read(plan, &mut table)?;
/// assert_eq!(find(plan, &table, c"/"), Some(0));
/// assert_eq!(find(plan, &table, c"/months/2"), Some(6));
/// assert_eq!(find(plan, &table, c"/months/\"2\""), None);
/// # Ok::<(), tonschnecke::Refusal>(())
/// ```
pub fn find(source: &[u8], table: &[u64], path: &CStr) -> Option<usize> {
    let node = ffi::find(source, table, path);
    (node != ffi::NOWHERE).then_some(node)
}
