//! Calls with their answers written by hand: what the model itself is held to. Nearly all are the
//! worked calls of `crates/cases`.

mod beyond;
pub mod worked;

use crate::call::{Call, Lent, Place, Reply, Service, Texts};
use crate::library::{Reading, Writing};
use crate::memory::Memory;
use crate::model::Row;
use crate::sides::Side;
use std::fmt;

/// What a call is to answer and to leave, written by hand.
#[derive(Clone, Debug)]
enum Expected {
    Refused {
        code: u64,
        at: u64,
    },
    Read {
        ordinals: u64,
        rows: Vec<Row>,
    },
    /// With no rows, those that reading the text leaves.
    Written {
        text: Vec<u8>,
        rows: Option<Vec<Row>>,
    },
}

/// The texts, a call with them, and what is expected of it.
#[derive(Clone, Debug)]
pub struct Case {
    pub texts: Texts<Vec<u8>>,
    pub call: Call,
    expected: Expected,
}

/// The worked calls and those that no line can hold, each text also with other outputs, and what
/// reading refuses also by the other services.
pub fn all() -> Vec<Case> {
    let told = [worked::cases(), beyond::cases()].concat();
    let outputs = told.iter().flat_map(Case::with_other_outputs).collect();
    let alike = told.iter().flat_map(Case::refused_alike).collect();
    [told, outputs, alike].concat()
}

/// Holds one of the `sides` to every case. Panics at the first that it answers otherwise.
pub fn hold(side: Side) {
    for case in all() {
        if let Err(wrong) = case.check(side) {
            panic!("{case}\n{wrong}");
        }
    }
}

impl Case {
    /// Compares a side's reply, every word and every byte with those expected.
    pub fn check(&self, side: Side) -> Result<(), String> {
        let mut found = Memory::for_call(self.call);
        let mut told = found.clone();
        let reply = side(self.texts.lent(), self.call, &mut found);
        let expected = self.reply();
        if reply != expected {
            return Err(format!("expected {expected}, found {reply}"));
        }
        self.leave(side, &mut told).ok_or("more than is lent")?;
        let word = found.table.first_wrong(&told.table);
        let byte = found.output.first_wrong(&told.output);
        if word.is_some() || byte.is_some() {
            return Err(format!("word {word:?}, byte {byte:?}"));
        }
        Ok(())
    }

    fn reply(&self) -> Reply {
        let (code, at, nodes, ordinals, length) = match &self.expected {
            Expected::Refused { code, at } => (*code, *at, 0, 0, 0),
            Expected::Read { ordinals, rows } => (0, 0, rows.len() as u64, *ordinals, 0),
            Expected::Written { text, .. } => (0, 0, 0, 0, text.len() as u64),
        };
        match self.call.service {
            Service::Read => Reply::Reading(Reading {
                code,
                at,
                nodes,
                ordinals,
            }),
            _ => Reply::Writing(Writing { code, at, length }),
        }
    }

    /// Puts what the call is to leave into memory; none if that has no room for it.
    fn leave(&self, side: Side, memory: &mut Memory) -> Option<()> {
        let rows = match &self.expected {
            Expected::Refused { .. } => {
                memory.table.lent().fill(0);
                return Some(());
            }
            Expected::Read { rows, .. } => Some(rows),
            Expected::Written { text, rows } => {
                let output = memory.output.lent().get_mut(..text.len())?;
                output.copy_from_slice(text);
                // "the table that reading those bytes leaves"
                if rows.is_none() {
                    let read = Call::read(self.call.table_len);
                    side(Lent::plan(text), read, memory);
                }
                rows.as_ref()
            }
        };
        let words = rows.map_or(&[][..], |rows| rows.as_flattened());
        let table = memory.table.lent().get_mut(..words.len())?;
        table.copy_from_slice(words);
        Some(())
    }

    /// A text written to outputs that suffice, and two outputs that are refused: one byte too small,
    /// and empty.
    fn with_other_outputs(&self) -> Vec<Case> {
        let Expected::Written { text, .. } = &self.expected else {
            return Vec::new();
        };
        let length = text.len();
        let into = |out_len: usize| Case {
            call: Call {
                out_len,
                ..self.call
            },
            expected: match out_len < length {
                true => Expected::Refused { code: 14, at: 0 },
                false => self.expected.clone(),
            },
            ..self.clone()
        };
        [length, length + 1, length + 100, length - 1, 0]
            .map(into)
            .into()
    }

    /// "Retyping: reading, then 14"; "Inserting: reading, 11, 12, 13, 9": what reading refuses is
    /// refused alike, whatever the output and whatever is asked for.
    fn refused_alike(&self) -> Vec<Case> {
        let reading = self.call.service == Service::Read;
        if !reading || !matches!(self.expected, Expected::Refused { .. }) {
            return Vec::new();
        }
        let table_len = self.call.table_len;
        let canonicalized = [0, 1, self.texts.source.len()].map(|out_len| Case {
            call: Call::canonicalize(table_len, out_len),
            ..self.clone()
        });
        let asked: [([usize; 2], &str, &str, usize); 3] = [
            ([0, 0], "i:7;", "N;", 70_000),
            ([usize::MAX, usize::MAX], "i:7;", "N;", 0),
            ([0, 1], "", "x", 0),
        ];
        let inserted = asked.map(|(place, key, value, out_len)| Case {
            texts: Texts {
                key: key.into(),
                value: value.into(),
                ..self.texts.clone()
            },
            call: Call::insert(at(place), table_len, out_len),
            ..self.clone()
        });
        [canonicalized, inserted].concat()
    }

    /// Whether an insertion is to be accepted.
    pub fn is_inserted(&self) -> bool {
        let written = matches!(self.expected, Expected::Written { .. });
        written && self.call.service == Service::Insert
    }
}

fn at([array_node, pair_index]: [usize; 2]) -> Place {
    Place {
        array_node,
        pair_index,
    }
}

impl fmt::Display for Case {
    fn fmt(&self, out: &mut fmt::Formatter<'_>) -> fmt::Result {
        let Texts { source, key, value } = self.texts.map(|text| text.escape_ascii());
        write!(out, "{:?} with {source}", self.call)?;
        if self.call.service == Service::Insert {
            write!(out, ", key {key}, value {value}")?;
        }
        Ok(())
    }
}
