//! Inserting: the plan is read and the place of the pair found on the way, the text put together
//! from stretches of the source, the table moved apart where the pair goes in.

use super::careful::Scan;
use super::reader::{Cursor, Reader};
use super::room::{self, Notes, Room};
use super::splice::{digits, Splice};
use super::target::Target;
use super::token::Token;
use super::words::run_end;
use super::{answer, refused, Step, Words, DEPTH_LIMIT, SOURCE_LIMIT};
use std::ops::Range;
use tonschnecke_tests::call::{Lent, Place};
use tonschnecke_tests::library::Writing;

pub fn insert(texts: Lent, place: Place, table: &mut [u64], out: &mut [u8]) -> Writing {
    let rows = table.as_chunks_mut().0;
    let attempt = room::lend(texts.source.len(), |room| {
        attempt(texts, place, rows, out, room)
    });
    answer(attempt, table)
}

fn attempt(
    texts: Lent,
    place: Place,
    rows: &mut [Words],
    out: &mut [u8],
    room: Room,
) -> Step<usize> {
    let (key, value) = (alone(texts.key, b"is"), alone(texts.value, b"Nbids"));
    let target = Target::new(texts, place, key, Notes::new(room.notes));
    let mut reader = Reader::new(texts.source, rows, room.carriers, room.slots, target);
    let end = reader.plan()?;
    let target = reader.trace;
    let gap = target.gap(&rows[..end.nodes])?;
    let (Some(key), Some(value)) = (key, value) else {
        return refused(13, 0);
    };
    if target.has_key {
        return refused(9, 0);
    }
    if target.depth == DEPTH_LIMIT {
        return refused(8, 0);
    }
    let nodes = end.nodes + 2;
    if nodes > rows.len() {
        return refused(7, 0);
    }
    let edit = Edit { texts, target, gap };
    let rows = &mut rows[..nodes];
    edit.fits(rows, out.len().min(SOURCE_LIMIT))?;
    Ok(edit.write(rows, key, value, out))
}

/// A text that is one key or plain value of these kinds.
fn alone(text: &[u8], tags: &[u8]) -> Option<Token> {
    let tag = *text.first().filter(|tag| tags.contains(tag))?;
    let token = Scan::new(text, 0, &mut ()).scalar(tag).ok()?;
    (token.end == text.len()).then_some(token)
}

/// An insertion to which only the output may be too small.
struct Edit<'a> {
    texts: Lent<'a>,
    target: Target<'a>,
    gap: Cursor,
}

impl Edit<'_> {
    /// Refuses a text above the limit. Every number has one digit more at most, so most texts need
    /// no measuring.
    fn fits(&self, rows: &[Words], limit: usize) -> Step<()> {
        let Lent { source, key, value } = self.texts;
        let given = source.len() + key.len() + value.len();
        let references = self.target.references.iter();
        if given + 1 + self.target.references.len() <= limit {
            return Ok(());
        }
        let grown =
            |number: u64, old: Range<usize>| digits(number + 1) as isize - old.len() as isize;
        let pairs = rows[self.target.place.array_node][4];
        let raised = references.filter(|&(node, _)| self.is_raised(&rows[node]));
        let raised = raised.map(|(node, start)| grown(rows[node][2], self.named(start)));
        let change = grown(pairs, self.target.count.clone()) + raised.sum::<isize>();
        if given.wrapping_add_signed(change) > limit {
            return refused(14, 0);
        }
        Ok(())
    }

    /// Where the number stands that the reference at a position names.
    fn named(&self, start: usize) -> Range<usize> {
        let from = start + 2;
        let plus = usize::from(self.texts.source[from] == b'+');
        from..run_end(self.texts.source, from + plus)
    }

    /// Of a reference. Those before the gap name what stands before it.
    fn is_raised(&self, row: &Words) -> bool {
        row[2] > self.gap.ordinals as u64
    }

    /// The rows have two more than the plan given.
    fn write(&self, rows: &mut [Words], key: Token, value: Token, out: &mut [u8]) -> usize {
        let (array, gap) = (self.target.place.array_node, self.gap.nodes);
        for &container in self.target.around() {
            rows[usize::from(container)][5] += 2;
        }
        rows[array][4] += 1;
        let mut splice = Splice::new(self.texts.source, out);
        splice.respell(self.target.count.clone(), rows[array][4]);
        splice.move_texts(&mut rows[array + 1..gap]);
        splice.copy(self.gap.at);
        let pair = [
            splice.put_token(self.texts.key, key, 0, gap + 1),
            splice.put_token(self.texts.value, value, self.gap.ordinals + 1, gap + 2),
        ];
        let nodes = rows.len() - 2;
        self.raise(&mut rows[..nodes], &mut splice);
        splice.copy_rest();
        rows.copy_within(gap..nodes, gap + 2);
        rows[gap..gap + 2].copy_from_slice(&pair);
        splice.written()
    }

    /// Changes what stands behind the pair.
    fn raise(&self, rows: &mut [Words], splice: &mut Splice) {
        let references = self.target.references.iter();
        let mut references = references.skip_while(|&(node, _)| node < self.gap.nodes);
        for row in &mut rows[self.gap.nodes..] {
            row[5] += 2;
            row[1] += u64::from(row[1] > 0);
            match row[0] as u8 {
                b'd' | b's' | b'O' => splice.move_text(row),
                b'r' | b'R' => {
                    let start = references.next().map_or(0, |(_, start)| start);
                    if self.is_raised(row) {
                        row[2] += 1;
                        row[4] += 2;
                        splice.respell(self.named(start), row[2]);
                    }
                }
                _ => {}
            }
        }
    }
}
