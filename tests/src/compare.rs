//! One call: a side's reply and every cell of memory against the model's; what was inserted also
//! against the meaning of the plan given.

use crate::call::{Call, Lent, Place, Reply, Service};
use crate::memory::{Input, Memory, Setting, WrongCell};
use crate::model::{self, Strange, WORDS};
use crate::sides::{self, Side};
use std::ascii;
use std::fmt;

/// How a side's answer differs from the model's.
#[derive(Clone, Debug)]
pub struct Mismatch {
    pub call: Call,
    expected: Reply,
    given: Reply,
    wrong_word: Option<WrongCell>,
    wrong_byte: Option<WrongCell>,
    strange: Option<Strange>,
    texts_unchanged: bool,
}

/// Makes the call on the library and the model, with memory that holds the same. Returns the reply
/// if they agree.
pub fn both(texts: Lent, call: Call, setting: Setting) -> Result<Reply, Box<Mismatch>> {
    with_model(sides::library, texts, call, setting)
}

/// The same with any side in the library's place.
pub fn with_model(
    side: Side,
    texts: Lent,
    call: Call,
    setting: Setting,
) -> Result<Reply, Box<Mismatch>> {
    let mut told = Memory::for_call(call);
    let mut found = told.clone();
    let expected = sides::model(texts, call, &mut told);
    let inputs = texts.map(|text| Input::new(text, setting));
    let given = side(inputs.map(Input::lent), call, &mut found);
    let mismatch = Mismatch {
        call,
        expected,
        given,
        wrong_word: found.table.first_wrong(&told.table),
        wrong_byte: found.output.first_wrong(&told.output),
        strange: strange(texts, call, [expected, given], &mut found),
        texts_unchanged: inputs.unchanged(),
    };
    if mismatch.is_agreement() {
        return Ok(given);
    }
    Err(Box::new(mismatch))
}

/// Holds the bytes written for an insertion that both accept to their meaning.
fn strange(texts: Lent, call: Call, replies: [Reply; 2], found: &mut Memory) -> Option<Strange> {
    if call.service != Service::Insert || replies.iter().any(|reply| reply.code() != 0) {
        return None;
    }
    let [_, given] = replies;
    let written = found.output.lent().get(..given.length() as usize)?;
    model::judge(texts, call.place, written)
}

impl Mismatch {
    fn is_agreement(&self) -> bool {
        self.given == self.expected
            && self.wrong_word.is_none()
            && self.wrong_byte.is_none()
            && self.strange.is_none()
            && self.texts_unchanged
    }
}

impl fmt::Display for Mismatch {
    fn fmt(&self, out: &mut fmt::Formatter<'_>) -> fmt::Result {
        let Call {
            service,
            place,
            table_len,
            out_len,
        } = self.call;
        writeln!(out, "service {service}")?;
        if service == Service::Insert {
            let Place {
                array_node,
                pair_index,
            } = place;
            writeln!(out, "array   node {array_node}, place {pair_index}")?;
        }
        writeln!(out, "table   {table_len} words, output {out_len} bytes")?;
        writeln!(out, "model   {}", self.expected)?;
        writeln!(out, "library {}", self.given)?;
        if let Some(word) = self.wrong_word {
            let node = word.place.div_euclid(WORDS as isize);
            let within = word.place.rem_euclid(WORDS as isize);
            write!(out, "word {} (node {node}, word {within}): ", word.place)?;
            writeln!(out, "expected {}, found {}", word.expected, word.found)?;
        }
        if let Some(byte) = self.wrong_byte {
            let shown = |cell: u64| ascii::escape_default(cell as u8);
            let (expected, found) = (shown(byte.expected), shown(byte.found));
            write!(out, "output byte {}: ", byte.place)?;
            writeln!(out, "expected {expected}, found {found}")?;
        }
        if let Some(strange) = &self.strange {
            writeln!(out, "meaning {strange}")?;
        }
        if !self.texts_unchanged {
            writeln!(out, "a text that is only to be read was written to")?;
        }
        Ok(())
    }
}
