//! A text put together from stretches of another one and what comes between them.

use super::token::Token;
use super::Words;
use std::ops::Range;

/// The text to be written, as far as it is.
pub struct Splice<'s, 'o> {
    source: &'s [u8],
    read: usize,
    out: &'o mut [u8],
    written: usize,
}

impl<'s, 'o> Splice<'s, 'o> {
    pub fn new(source: &'s [u8], out: &'o mut [u8]) -> Self {
        Splice {
            source,
            read: 0,
            out,
            written: 0,
        }
    }

    fn put(&mut self, text: &[u8]) {
        self.out[self.written..][..text.len()].copy_from_slice(text);
        self.written += text.len();
    }

    /// Copies the source up to a position.
    pub fn copy(&mut self, end: usize) {
        self.put(&self.source[self.read..end]);
        self.read = end;
    }

    pub fn copy_rest(&mut self) {
        self.copy(self.source.len());
    }

    /// Copies up to some bytes and leaves them out.
    pub fn skip(&mut self, bytes: Range<usize>) {
        self.copy(bytes.start);
        self.read = bytes.end;
    }

    /// Copies up to a numeral and has another number in its place.
    pub fn respell(&mut self, numeral: Range<usize>, number: u64) {
        self.skip(numeral);
        let count = digits(number);
        let mut rest = number as u32;
        for place in self.out[self.written..][..count].iter_mut().rev() {
            *place = b'0' + (rest % 10) as u8;
            rest /= 10;
        }
        self.written += count;
    }

    /// A key or value that stands here, as its node.
    pub fn put_token(&mut self, text: &[u8], token: Token, ordinal: usize, end: usize) -> Words {
        let mut row = token.row(ordinal, end);
        if has_text(&row) {
            row[2] += self.written as u64;
        }
        self.put(text);
        row
    }

    /// Changes a node's offset by what was put in and left out before it.
    pub fn move_text(&self, row: &mut Words) {
        row[2] = row[2] + self.written as u64 - self.read as u64;
    }

    /// Changes the offsets of nodes, if there is anything to change.
    pub fn move_texts(&self, rows: &mut [Words]) {
        if self.written != self.read {
            for row in rows.iter_mut().filter(|row| has_text(row)) {
                self.move_text(row);
            }
        }
    }

    /// Bytes of the text so far.
    pub fn written(&self) -> usize {
        self.written
    }
}

/// The count of them in shortest form. Numbers are at most 65,537, and half a word is divided faster.
pub fn digits(number: u64) -> usize {
    let number = number as u32;
    number.checked_ilog10().map_or(1, |log| log as usize + 1)
}

pub fn has_text(row: &Words) -> bool {
    matches!(row[0] as u8, b'd' | b's' | b'O')
}
