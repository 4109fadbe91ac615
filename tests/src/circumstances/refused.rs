//! The circumstances of refused insertions.

use super::request::Text;
use super::{Circumstance, Met};
use crate::model::{is_of, Code, Row, LONGEST_PLAN};

pub const ALL: &[Circumstance] = &[
    // What names no array, and no place.
    ("11 for a key", |met| met.is_11_for(b"is", false)),
    ("11 for a plain value", |met| met.is_11_for(b"Nbids", true)),
    ("11 for an O", |met| met.is_11_for(b"O", true)),
    ("11 for an r or R", |met| {
        met.is_11_for(b"r", true) || met.is_11_for(b"R", false)
    }),
    ("11 for the count of nodes", |met| {
        met.is(11) && met.request.place.array_node == met.request.nodes()
    }),
    ("11 for an index beyond", |met| {
        met.is(11) && met.request.place.array_node > met.request.nodes()
    }),
    ("11 for the greatest index", |met| {
        met.is(11) && met.request.place.array_node == usize::MAX
    }),
    ("12 for the count and one", |met| {
        let array = met.request.array.as_ref();
        met.is(12) && array.is_some_and(|array| met.request.place.pair_index == array.count + 1)
    }),
    ("12 for the greatest place", |met| {
        met.is(12) && met.request.place.pair_index == usize::MAX
    }),
    // Unfit texts.
    ("13 for an empty key", |met| {
        met.is(13) && met.request.texts.key.is_empty()
    }),
    ("13 for bytes behind the key", |met| {
        met.is_13_for_key(|key| key.is_refused(Code::Trailing))
    }),
    ("13 for a key not of its form", |met| {
        met.is_13_for_key(|key| key.is_refused(Code::Malformed))
    }),
    ("13 for a key with another letter", |met| {
        met.is_13_for_key(|key| key.is_refused(Code::UnknownTag))
    }),
    ("13 for a key out of range", |met| {
        met.is_13_for_key(|key| key.is_refused(Code::OutOfRange))
    }),
    ("13 for a key of kind N", |met| {
        met.is_13_for_key(|key| key.is_unfit_of(b"N"))
    }),
    ("13 for a key of kind b", |met| {
        met.is_13_for_key(|key| key.is_unfit_of(b"b"))
    }),
    ("13 for a key of kind d", |met| {
        met.is_13_for_key(|key| key.is_unfit_of(b"d"))
    }),
    ("13 for an a or O as key", |met| {
        met.is_13_for_key(|key| key.is_unfit_of(b"aO"))
    }),
    ("13 for an r or R as key", |met| {
        met.is_13_for_key(|key| key.is_refused(Code::UnknownOrdinal))
    }),
    ("13 for an empty value", |met| {
        met.is(13) && met.request.texts.value.is_empty()
    }),
    ("13 for bytes behind the value", |met| {
        met.is_13_for_value(|value| value.is_refused(Code::Trailing))
    }),
    ("13 for a value not of its form", |met| {
        met.is_13_for_value(|value| value.is_refused(Code::Malformed))
    }),
    ("13 for a value with another letter", |met| {
        met.is_13_for_value(|value| value.is_refused(Code::UnknownTag))
    }),
    ("13 for a value out of range", |met| {
        met.is_13_for_value(|value| value.is_refused(Code::OutOfRange))
    }),
    ("13 for an a or O as value", |met| {
        met.is_13_for_value(|value| value.is_unfit_of(b"aO"))
    }),
    ("13 for an r or R as value", |met| {
        met.is_13_for_value(|value| value.is_refused(Code::UnknownOrdinal))
    }),
    ("13 for a key with + and no digit", |met| {
        met.is_13_for_key(|key| key.is_string_of(b"+"))
    }),
    ("13 for a key with -", |met| {
        met.is_13_for_key(|key| key.text.starts_with(b"s:-"))
    }),
    ("13 for a key out of range behind +", |met| {
        met.is_13_for_key(|key| key.is_refused(Code::OutOfRange) && key.is_string_with_plus())
    }),
    ("13 for a value with + and no digit", |met| {
        met.is_13_for_value(|value| value.is_string_of(b"+"))
    }),
    ("13 for a value with -", |met| {
        met.is_13_for_value(|value| value.text.starts_with(b"s:-"))
    }),
    ("13 for a value out of range behind +", |met| {
        met.is_13_for_value(|value| {
            value.is_refused(Code::OutOfRange) && value.is_string_with_plus()
        })
    }),
    // Keys, depth and room.
    ("9 for a key spelled alike", |met| {
        met.is(9) && met.request.present_alike == Some(true)
    }),
    ("9 for a key spelled otherwise", |met| {
        met.is(9) && met.request.present_alike == Some(false)
    }),
    ("9 for a key s with +", |met| {
        met.is(9) && met.request.key.is_string_with_plus()
    }),
    ("8 for an array at depth 64", |met| {
        met.is(8) && met.request.is_deepest()
    }),
    ("7 with room for one node more", |met| {
        met.is(7) && met.is_room_for(1)
    }),
    ("7 with room for the old plan alone", |met| {
        met.is(7) && met.is_room_for(0)
    }),
    ("14 for one byte", |met| {
        met.is(14) && met.request.to_write == Ok(met.call.out_len + 1)
    }),
    ("14 for an empty output", |met| {
        met.is(14) && met.call.out_len == 0
    }),
    ("14 for 65,537 bytes", |met| {
        let beyond = LONGEST_PLAN + 1;
        met.is(14) && met.request.to_write == Ok(beyond) && met.call.out_len >= beyond
    }),
    ("14 for 65,537 bytes, nearly all of them old", |met| {
        let is_long = met.request.texts.source.len() > LONGEST_PLAN - 100;
        met.is(14) && is_long && met.request.to_write == Ok(LONGEST_PLAN + 1)
    }),
    ("14 for a key text above 65,536 bytes", |met| {
        met.is(14) && met.request.texts.key.len() > LONGEST_PLAN
    }),
    ("14 for a value text above 65,536 bytes", |met| {
        met.is(14) && met.request.texts.value.len() > LONGEST_PLAN
    }),
    // Two rows at once. 9 and 8 never hold both: an array at depth 64 has no keys.
    ("reading's own where 11 holds", |met| {
        met.request.table.is_none() && met.request.place.array_node >= LONGEST_PLAN
    }),
    ("11 where 12 holds", |met| {
        met.is(11) && met.request.place.pair_index > LONGEST_PLAN
    }),
    ("12 where 13 holds", |met| met.is(12) && met.is_text_unfit()),
    ("13 where 9 holds", |met| {
        met.is(13) && met.request.present_alike.is_some()
    }),
    ("13 where 8 holds", |met| {
        met.is(13) && met.request.is_deepest()
    }),
    ("9 where 7 holds", |met| met.is(9) && met.is_room_missing()),
    ("8 where 7 holds", |met| met.is(8) && met.is_room_missing()),
    ("7 where 14 holds", |met| {
        let to_write = &met.request.to_write;
        met.is(7) && met.is_room_missing() && to_write.is_ok_and(|bytes| bytes > met.call.out_len)
    }),
];

impl Met<'_> {
    /// Whether inserting itself refused, with this number: reading accepts the plan.
    fn is(&self, code: u64) -> bool {
        let is_read = self.request.table.is_some() && self.room() >= self.request.nodes();
        is_read && self.reply.code() == code
    }

    /// Whether it is 11 for a node of these kinds that has a number, or for one that has none.
    fn is_11_for(&self, tags: &[u8], is_numbered: bool) -> bool {
        let table = self.request.table;
        let row = table.and_then(|table| table.rows.get(self.request.place.array_node));
        let is_such = |row: &Row| is_of(row, tags) && (row[1] > 0) == is_numbered;
        self.is(11) && row.is_some_and(is_such)
    }

    fn is_13_for_key(&self, holds: impl Fn(&Text) -> bool) -> bool {
        self.is(13) && !self.request.key.is_fit && holds(&self.request.key)
    }

    fn is_13_for_value(&self, holds: impl Fn(&Text) -> bool) -> bool {
        self.is(13) && !self.request.value.is_fit && holds(&self.request.value)
    }

    fn is_text_unfit(&self) -> bool {
        !self.request.key.is_fit || !self.request.value.is_fit
    }

    /// Whether the table has room for the plan and exactly so many nodes more.
    fn is_room_for(&self, more: usize) -> bool {
        self.room() == self.request.nodes() + more
    }

    /// Whether there is room for the plan, but not for two nodes more.
    fn is_room_missing(&self) -> bool {
        self.is_room_for(0) || self.is_room_for(1)
    }
}

impl Text<'_> {
    /// Whether reading refuses it so, were it a plan.
    fn is_refused(&self, code: Code) -> bool {
        let refusal = self.survey.answer.as_ref().err();
        refusal.is_some_and(|refusal| refusal.code == code)
    }

    /// Whether it is a string with this for a length.
    fn is_string_of(&self, length: &[u8]) -> bool {
        self.text.starts_with(b"s:") && self.numeral() == Some(length)
    }

    /// Whether it is a plan of one of these kinds.
    fn is_unfit_of(&self, tags: &[u8]) -> bool {
        let first = self.text.first();
        self.survey.answer.is_ok() && first.is_some_and(|tag| tags.contains(tag))
    }
}
