//! What the plans of a run were.

use super::tally::Tally;
use super::Line;
use crate::model::{Code, Numeral, Refusal, Survey, Table, LONGEST_PLAN};
use crate::{oddities, signs};

/// The nine kinds by their tags.
const KINDS: &[u8; 9] = b"NbidsaOrR";
/// The kinds that a key can have.
const KEY_KINDS: &[u8; 2] = b"is";
/// Equal keys are counted by the length of their plan: up to each of these.
const LENGTHS: [usize; 3] = [1_000, 10_000, 65_536];

pub struct Plans {
    /// All different.
    pub met: u64,
    /// Those that are refused for equal keys, by `LENGTHS`.
    repeating: [u64; LENGTHS.len()],
    /// Those that are refused where a sign stands.
    signed: Tally,
    /// Accepted when the table suffices; what follows is of these.
    accepted: u64,
    longest: usize,
    deepest: usize,
    /// Those that are not their own canonical text.
    respelled: u64,
    /// Those of the greatest length, a number's `+` in it.
    longest_with_plus: u64,
    /// Those with an odd spelling.
    odd: Tally,
    /// Nodes that are values, by kind.
    values: [u64; KINDS.len()],
    /// Nodes that are keys, by kind.
    keys: [u64; KEY_KINDS.len()],
}

impl Default for Plans {
    fn default() -> Self {
        let signed = signs::names().map(|name| format!("plans refused {name}"));
        let odd = oddities::names().map(|name| format!("plans with {name}"));
        Plans {
            met: 0,
            repeating: Default::default(),
            signed: Tally::new(signed),
            accepted: 0,
            longest: 0,
            deepest: 0,
            respelled: 0,
            longest_with_plus: 0,
            odd: Tally::new(odd),
            values: Default::default(),
            keys: Default::default(),
        }
    }
}

impl Plans {
    pub fn count(&mut self, source: &[u8], survey: &Survey) {
        self.met += 1;
        let table = match &survey.answer {
            Ok(table) => table,
            Err(refusal) => return self.count_refusal(source, survey, *refusal),
        };
        self.accepted += 1;
        self.longest = self.longest.max(source.len());
        self.deepest = self.deepest.max(survey.depth);
        self.respelled += u64::from(survey.canonical != source);
        let has_plus = |it: &Numeral| it.role.is_number() && it.span.of(source).starts_with(b"+");
        let is_longest = source.len() == LONGEST_PLAN;
        self.longest_with_plus += u64::from(is_longest && survey.numerals.iter().any(has_plus));
        self.odd.count(oddities::of(source, &survey.numerals));
        self.count_nodes(table);
    }

    fn count_refusal(&mut self, source: &[u8], survey: &Survey, refusal: Refusal) {
        let class = LENGTHS.iter().position(|&most| source.len() <= most);
        if let Some(class) = class.filter(|_| refusal.code == Code::EqualKey) {
            self.repeating[class] += 1;
        }
        let signed = signs::of(source, refusal, &survey.numerals);
        self.signed.count(signed);
    }

    fn count_nodes(&mut self, table: &Table) {
        for &[tag, ordinal, ..] in &table.rows {
            let among = |kinds: &[u8]| kinds.iter().position(|&kind| u64::from(kind) == tag);
            // Of the kinds that a key can have, only a key takes no ordinal.
            if let Some(kind) = among(KEY_KINDS).filter(|_| ordinal == 0) {
                self.keys[kind] += 1;
            } else if let Some(kind) = among(KINDS) {
                self.values[kind] += 1;
            }
        }
    }

    pub fn lines(&self) -> Vec<Line> {
        let values = KINDS.iter().zip(self.values);
        let keys = KEY_KINDS.iter().zip(self.keys);
        let of_kind = |what: &'static str| {
            move |(kind, count): (&u8, u64)| {
                Line::needed(format!("{what} of kind {}", *kind as char), count)
            }
        };
        let mut lines = vec![
            Line::told("plans, all different", self.met),
            Line::told("accepted if room suffices", self.accepted),
            Line::told("longest accepted, bytes", self.longest as u64),
            Line::told("deepest accepted", self.deepest as u64),
            Line::needed("accepted, not canonical", self.respelled),
            Line::needed("65,536 bytes, + of a number in it", self.longest_with_plus),
        ];
        let repeating = LENGTHS.iter().zip(self.repeating);
        lines.extend(repeating.map(|(length, count)| {
            Line::needed(format!("equal keys in up to {length} bytes"), count)
        }));
        lines.extend(self.signed.lines());
        lines.extend(self.odd.lines());
        lines.extend(values.map(of_kind("values")));
        lines.extend(keys.map(of_kind("keys")));
        lines
    }
}
