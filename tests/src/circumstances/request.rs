//! What is known of an insertion before any call of it: from the tables and the numerals of the
//! texts alone, and not from the tree.

use crate::call::{Lent, Place};
use crate::model::{self, is_of, Identity, Numeral, Refusal, Role, Row, Survey, Table, DEEPEST};

/// An insertion asked for.
pub struct Request<'a> {
    pub texts: Lent<'a>,
    pub place: Place,
    /// The plan's table; none if reading refuses the plan.
    pub table: Option<&'a Table>,
    /// The array asked for, if there is one.
    pub array: Option<Array>,
    /// The plan's references, if there is the array and the place in it.
    pub references: Vec<Reference>,
    /// What numbers with a `+` are for, but those of references and the array's count.
    pub other_pluses: Vec<Role>,
    pub key: Text<'a>,
    pub value: Text<'a>,
    /// What the key is equal to; none for an unfit one.
    pub identity: Option<Identity<'a>>,
    /// The key of the array that it is equal to, if there is one: whether it is spelled alike.
    pub present_alike: Option<bool>,
    /// Whether the array has a key that is equal but for its kind.
    pub has_look_alike: bool,
    /// Bytes to write where no room is wanting.
    pub to_write: Result<usize, Refusal>,
}

/// The array asked for.
pub struct Array {
    pub node: usize,
    pub end: usize,
    pub count: usize,
    pub depth: usize,
    pub is_count_odd: bool,
    pub has_plus: bool,
    pub is_in_array: bool,
    pub is_in_object: bool,
    pub holds_array: bool,
}

/// A reference of the plan.
pub struct Reference {
    pub tag: u8,
    pub named: usize,
    /// The number of the new value.
    pub new: usize,
    pub is_odd: bool,
    pub has_plus: bool,
    pub is_behind: bool,
    /// Whether it stands in the array, and whether what it names does.
    pub is_inside: bool,
    pub names_inside: bool,
    pub names_array: bool,
    pub names_open: bool,
    pub names_r: bool,
}

impl Reference {
    pub fn is_raised(&self) -> bool {
        self.named >= self.new
    }
}

/// A key text or value text.
pub struct Text<'a> {
    pub text: &'a [u8],
    pub is_fit: bool,
    /// By itself, as a plan.
    pub survey: Survey,
}

impl<'a> Request<'a> {
    pub fn new(
        texts: Lent<'a>,
        place: Place,
        survey: &'a Survey,
        to_write: Result<usize, Refusal>,
    ) -> Self {
        let identity = model::key_text(texts.key);
        let mut request = Request {
            texts,
            place,
            table: survey.answer.as_ref().ok(),
            array: None,
            references: Vec::new(),
            other_pluses: Vec::new(),
            key: Text::new(texts.key, identity.is_some()),
            value: Text::new(texts.value, model::is_value_text(texts.value)),
            identity,
            present_alike: None,
            has_look_alike: false,
            to_write,
        };
        if let Some(table) = request.table {
            let numerals = numerals_by_node(table, survey, texts.source);
            request.look_at_array(table, &numerals);
            request.look_at_references(table, &numerals);
            request.look_at_others(table, survey);
        }
        request
    }

    fn look_at_array(&mut self, table: &Table, numerals: &[&[u8]]) {
        let node = self.place.array_node;
        let Some(row) = table.rows.get(node).filter(|row| is_of(row, b"a")) else {
            return;
        };
        let end = row[5] as usize;
        let around = || {
            table.rows[..node]
                .iter()
                .filter(|row| row[5] as usize > node)
        };
        self.array = Some(Array {
            node,
            end,
            count: row[4] as usize,
            depth: table.depth_of(node),
            is_count_odd: is_odd(numerals[node]),
            has_plus: has_plus(numerals[node]),
            is_in_array: around().any(|row| is_of(row, b"a")),
            is_in_object: around().any(|row| is_of(row, b"O")),
            holds_array: table.rows[node + 1..end].iter().any(|row| is_of(row, b"a")),
        });
        let Some(identity) = self.identity else {
            return;
        };
        for key in table.keys_of(node) {
            let other = table.key(key, self.texts.source);
            if other == identity {
                let own = self.key.numeral();
                self.present_alike = Some(own == Some(numerals[key]));
            }
            self.has_look_alike |= are_look_alikes(other, identity);
        }
    }

    fn look_at_references(&mut self, table: &Table, numerals: &[&[u8]]) {
        let Some(array) = &self.array else {
            return;
        };
        if self.place.pair_index > array.count {
            return;
        }
        let gap = table.gap(self.place);
        let new = table.new_ordinal(gap);
        let is_inside = |node: usize| (array.node + 1..array.end).contains(&node);
        for (node, row) in table.rows.iter().enumerate() {
            let [tag, _, named, _, target, _] = *row;
            if is_of(row, b"rR") {
                let target = target as usize;
                self.references.push(Reference {
                    tag: tag as u8,
                    named: named as usize,
                    new,
                    is_odd: is_odd(numerals[node]),
                    has_plus: has_plus(numerals[node]),
                    is_behind: node >= gap,
                    is_inside: is_inside(node),
                    names_inside: is_inside(target),
                    names_array: target == array.node,
                    names_open: table.rows[target][5] as usize > node,
                    names_r: is_of(&table.rows[target], b"r"),
                });
            }
        }
    }

    fn look_at_others(&mut self, table: &Table, survey: &Survey) {
        let Some(array) = &self.array else {
            return;
        };
        let earlier = table.rows[..array.node].iter();
        let arrays_before = earlier.filter(|row| is_of(row, b"a")).count();
        let mut counts = 0..;
        let mut is_other = |numeral: &&Numeral| match numeral.role {
            Role::Copy | Role::Alias => false,
            Role::ArrayCount => counts.next() != Some(arrays_before),
            _ => true,
        };
        for numeral in survey.numerals.iter().filter(|it| is_other(it)) {
            if has_plus(numeral.span.of(self.texts.source)) {
                self.other_pluses.push(numeral.role);
            }
        }
    }

    /// Whether the array is as deep as an array can be.
    pub fn is_deepest(&self) -> bool {
        let depth = self.array.as_ref().map(|array| array.depth);
        depth == Some(DEEPEST)
    }

    /// Nodes of the plan given.
    pub fn nodes(&self) -> usize {
        self.table.map_or(0, |table| table.rows.len())
    }

    pub fn raised(&self) -> impl Iterator<Item = &Reference> {
        self.references.iter().filter(|named| named.is_raised())
    }

    pub fn kept(&self) -> impl Iterator<Item = &Reference> {
        self.references.iter().filter(|named| !named.is_raised())
    }
}

impl<'a> Text<'a> {
    fn new(text: &'a [u8], is_fit: bool) -> Self {
        Text {
            text,
            is_fit,
            survey: model::survey(text, usize::MAX),
        }
    }

    /// Whether it is fit and its first byte one of these.
    pub fn is_fit_of(&self, tags: &[u8]) -> bool {
        let is_of = |tag: &u8| tags.contains(tag);
        self.is_fit && self.text.first().is_some_and(is_of)
    }

    pub fn is_odd(&self) -> bool {
        self.is_fit && self.numeral().is_some_and(is_odd)
    }

    /// Whether it is a string with a `+` before its length, fit or not.
    pub fn is_string_with_plus(&self) -> bool {
        self.text.starts_with(b"s:") && self.numeral().is_some_and(has_plus)
    }

    /// Its integer or number; of one without digits the sign alone.
    pub fn numeral(&self) -> Option<&[u8]> {
        let first = self.survey.numerals.first();
        first.map(|numeral| numeral.span.of(self.text))
    }
}

/// Whether an integer or number is not in shortest form.
fn is_odd(numeral: &[u8]) -> bool {
    match numeral {
        [b'+', ..] | b"-0" => true,
        [b'-', digits @ ..] | digits => digits.len() > 1 && digits[0] == b'0',
    }
}

fn has_plus(numeral: &[u8]) -> bool {
    numeral.starts_with(b"+")
}

/// The numeral of each node, that of an O's count; empty for a node without one.
fn numerals_by_node<'a>(table: &Table, survey: &Survey, source: &'a [u8]) -> Vec<&'a [u8]> {
    let mut numerals = survey
        .numerals
        .iter()
        .map(|numeral| numeral.span.of(source));
    let of_node = |row: &Row| match row[0] as u8 {
        b'N' | b'b' | b'd' => &[],
        b'O' => numerals.nth(1).unwrap_or_default(),
        _ => numerals.next().unwrap_or_default(),
    };
    table.rows.iter().map(of_node).collect()
}

/// Whether one is the text that spells the other.
fn are_look_alikes(one: Identity, other: Identity) -> bool {
    match (one, other) {
        (Identity::Integer(value), Identity::Text(text))
        | (Identity::Text(text), Identity::Integer(value)) => value.to_string().as_bytes() == text,
        _ => false,
    }
}
