//! Retyping: the plan is read, and of its odd numerals is noted what shortest form leaves out. The
//! text is the plan without those bytes, and of the table only offsets change.

use super::reader::Reader;
use super::room::{self, Notes, Room};
use super::splice::{has_text, Splice};
use super::trace::Trace;
use super::{answer, refused, Step, Words};
use std::ops::Range;
use tonschnecke_tests::library::Writing;

/// Bytes to leave out: positions and lengths.
struct Surplus<'a> {
    notes: Notes<'a>,
    bytes: usize,
}

impl Trace for Surplus<'_> {
    fn surplus(&mut self, bytes: Range<usize>) {
        self.notes.push(bytes.start, bytes.len());
        self.bytes += bytes.len();
    }
}

pub fn canonicalize(source: &[u8], table: &mut [u64], out: &mut [u8]) -> Writing {
    let rows = table.as_chunks_mut().0;
    let attempt = room::lend(source.len(), |room| attempt(source, rows, out, room));
    answer(attempt, table)
}

fn attempt(source: &[u8], rows: &mut [Words], out: &mut [u8], room: Room) -> Step<usize> {
    let surplus = Surplus {
        notes: Notes::new(room.notes),
        bytes: 0,
    };
    let mut reader = Reader::new(source, rows, room.carriers, room.slots, surplus);
    let end = reader.plan()?;
    let surplus = reader.trace;
    let length = source.len() - surplus.bytes;
    if length > out.len() {
        return refused(14, 0);
    }
    let mut splice = Splice::new(source, out);
    if surplus.bytes > 0 {
        leave_out(&surplus.notes, &mut rows[..end.nodes], &mut splice);
    }
    splice.copy_rest();
    Ok(length)
}

fn leave_out(notes: &Notes, rows: &mut [Words], splice: &mut Splice) {
    let mut notes = notes.iter().peekable();
    for row in rows.iter_mut().filter(|row| has_text(row)) {
        let text = row[2] as usize;
        while let Some((from, length)) = notes.next_if(|&(from, _)| from < text) {
            splice.skip(from..from + length);
        }
        splice.move_text(row);
    }
    for (from, length) in notes {
        splice.skip(from..from + length);
    }
}
